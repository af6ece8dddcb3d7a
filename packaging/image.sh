#!/usr/bin/env bash
# Makes a container image of the Debian package, as an archive of the Open Container Initiative:
# what packaging/Containerfile says, on a Debian 12 that mmdebstrap puts together. Two calls on one
# package and one base make the same bytes: files are sorted, owned by root and dated as the version
# is in CHANGELOG.md (or as SOURCE_DATE_EPOCH says).
set -euo pipefail
umask 022
export LC_ALL=C TZ=UTC

if [ $# -lt 2 ] || [ $# -gt 3 ]; then
  echo "usage: packaging/image.sh VERSION DIRECTORY [BASE]
Makes tibzharuk-VERSION-oci.tar in DIRECTORY, which must hold tibzharuk_VERSION_amd64.deb already.
BASE is a tar file of a Debian 12 with apt. Without BASE one is made, and left in DIRECTORY as
debian-12.tar. Needs root, the network, and Debian's buildah and mmdebstrap."
  [ "${1-}" = --help ]
  exit
fi

version=$1
folder=$(realpath "$2")
base=${3:-$folder/debian-12.tar}
cd "$(dirname "$0")/.."
archive=$folder/tibzharuk-$version-oci.tar
for command in buildah mmdebstrap; do
  if ! command -v "$command" > /dev/null; then
    echo "image: needs $command (Debian: $command)" >&2
    exit 1
  fi
done
day=$(sed -n "s/^## $version (\([0-9-]*\))\$/\1/p" CHANGELOG.md)
: "${SOURCE_DATE_EPOCH:=$(date -d "$day" +%s)}"
export SOURCE_DATE_EPOCH
work=$(mktemp -d -p "${TMPDIR:-/var/tmp}")
trap 'rm -rf "$work"' EXIT
echo '{"default": [{"type": "insecureAcceptAnything"}]}' > "$work/policy.json"
export BUILDAH_ISOLATION=chroot TMPDIR=$work

# build WORDS..: buildah, with its images below $work
build() {
  local verb=$1
  shift
  buildah --root "$work/images" --runroot "$work/run" --storage-driver vfs "$verb" "$@"
}

if [ ! -e "$base" ]; then
  mmdebstrap --quiet --variant=apt --include=ca-certificates --dpkgopt='path-exclude=/usr/share/doc/*' --dpkgopt='path-include=/usr/share/doc/*/copyright' \
    --dpkgopt='path-exclude=/usr/share/man/*' --dpkgopt='path-exclude=/usr/share/locale/*' --dpkgopt='path-exclude=/usr/share/info/*' \
    bookworm "$work/base.tar" 'deb http://deb.debian.org/debian bookworm main' 'deb http://deb.debian.org/debian bookworm-updates main' \
    'deb http://deb.debian.org/debian-security bookworm-security main'
  mv "$work/base.tar" "$base"
fi
mkdir "$work/base" "$work/package"
cp "$base" "$work/base/base.tar"
cp "$folder/tibzharuk_${version}_amd64.deb" "$work/package"
printf 'FROM scratch\nADD base.tar /\nCMD ["/bin/sh"]\n' > "$work/base/Containerfile"
build bud --quiet --signature-policy "$work/policy.json" --timestamp "$SOURCE_DATE_EPOCH" -t localhost/debian:12 "$work/base" > "$work/log"
rm "$work/base/base.tar"
build bud --quiet --signature-policy "$work/policy.json" --timestamp "$SOURCE_DATE_EPOCH" --build-arg BASE=localhost/debian:12 \
  --squash --build-arg VERSION="$version" -f packaging/Containerfile -t "localhost/tibzharuk:$version" "$work/package" > "$work/log" 2>&1 || {
  cat "$work/log" >&2
  exit 1
}
build push --quiet --signature-policy "$work/policy.json" "localhost/tibzharuk:$version" "oci:$work/oci:tibzharuk:$version"
tar --sort=name --format=ustar --mtime="@$SOURCE_DATE_EPOCH" --owner=0 --group=0 --numeric-owner -C "$work/oci" -cf "$archive" .
(cd "$folder" && sha256sum "${archive##*/}")
