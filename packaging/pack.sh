#!/usr/bin/env bash
# Packs dist/fq_prog (see `make static`) with its documents: a tarball and a Debian package. Two
# calls on one tree make the same bytes: files are sorted, owned by root and dated as the version is
# in CHANGELOG.md (or as SOURCE_DATE_EPOCH says).
set -euo pipefail
umask 022
export LC_ALL=C TZ=UTC

if [ $# -ne 2 ]; then
  echo "usage: packaging/pack.sh VERSION DIRECTORY
Makes tibzharuk-VERSION-linux-x86_64.tar.gz, tibzharuk_VERSION_amd64.deb and SHA256SUMS in
DIRECTORY, which must hold fq_prog and objects/ already."
  [ "${1-}" = --help ]
  exit
fi

version=$1
folder=$(realpath "$2")
cd "$(dirname "$0")/.."
release=tibzharuk-$version-linux-x86_64
package=tibzharuk_${version}_amd64
licences=/usr/share/common-licenses
work=$(mktemp -d)
trap 'rm -rf "$work"' EXIT

day=$(sed -n "s/^## $version (\([0-9-]*\))\$/\1/p" CHANGELOG.md)
if [ -z "$day" ]; then
  echo "pack: CHANGELOG.md has no heading '## $version (YYYY-MM-DD)'" >&2
  exit 1
fi
: "${SOURCE_DATE_EPOCH:=$(date -d "$day" +%s)}"
export SOURCE_DATE_EPOCH

# put MODE FROM TO: copies a file, and makes its directory
put() { install -D -m "$1" "$2" "$3"; }

# The files of the tree below these directories: those that git knows, or all if the tree isn't a
# clone. Then it may still be below a directory that is one.
files_of() {
  if git ls-files --error-unmatch Makefile > /dev/null 2>&1; then
    git ls-files -- "$@"
  else
    find "$@" -type f 2> /dev/null
  fi | sort
}

# put_tree TO DIRECTORIES..: copies what is in these directories of the tree, to the same places
put_tree() {
  local to=$1 file mode
  shift
  while IFS= read -r file; do
    mode=644
    if [ -x "$file" ]; then mode=755; fi
    put "$mode" "$file" "$to/$file"
  done < <(files_of "$@")
}

# The documents, and below licences/ what the C library's licence asks to be passed on.
put_documents() {
  local to=$1 file
  for file in README.md CHANGELOG.md CONTRIBUTING.md SECURITY.md CITATION.cff NOTICES.md LICENSE-MIT LICENSE-APACHE LICENSE-UNICODE; do put 644 "$file" "$to/$file"; done
  put_tree "$to" docs
  # (what the measurements mean, to which README.md leads, without the scripts that measure)
  for file in $(files_of bench | grep '\.md$'); do put 644 "$file" "$to/$file"; done
  put 644 "$licences/LGPL-2.1" "$to/licences/LGPL-2.1"
  put 644 "$licences/GPL-3" "$to/licences/GPL-3"
  put 644 /usr/share/doc/libc6/copyright "$to/licences/libc6"
  put 644 "$(readlink -f /usr/share/doc/libgcc-s1/copyright)" "$to/licences/libgcc"
  libraries > "$to/licences/versions"
}

# The Debian packages whose files were linked into the program.
libraries() {
  # shellcheck disable=SC2016  # the fields are dpkg-query's
  dpkg-query -W -f '${Package} ${Version}, from the source package ${source:Package} ${source:Version}\n' libc6-dev "libgcc-$(cc -dumpversion)-dev"
}

put_objects() {
  local file
  for file in fq_prog.o libos_c.a liblibc_c.a; do put 644 "$folder/objects/$file" "$1/$file"; done
  put 755 packaging/link_static.sh "$1/link_static.sh"
}

pack_tarball() {
  local to=$work/$release
  bash packaging/install.sh "$folder/fq_prog" "$to" python > /dev/null
  put_documents "$to"
  put_objects "$to/relink"
  (cd "$to" && find . -type f -printf '%P\n' | sort | xargs -d '\n' sha256sum) > "$work/sums"
  put 644 "$work/sums" "$to/SHA256SUMS"
  tar --sort=name --format=ustar --mtime="@$SOURCE_DATE_EPOCH" --owner=0 --group=0 --numeric-owner \
    -C "$work" -cf - "$release" | gzip -9n > "$folder/$release.tar.gz"
}

# The maintainer's address is that of DEBFULLNAME and DEBEMAIL, as for Debian's own tools, else that
# of the machine's administrator.
maintainer="${DEBFULLNAME:-Tibzharuk maintainers} <${DEBEMAIL:-root@localhost}>"

# Debian's control file. Built-Using names the sources of what was linked in.
control() {
  # shellcheck disable=SC2016  # the fields are dpkg-query's
  local using
  using=$(dpkg-query -W -f '${source:Package} (= ${source:Version}), ' libc6-dev "libgcc-$(cc -dumpversion)-dev")
  sed -e "s/@VERSION@/$version/" -e "s/@SIZE@/$(du -k -s --apparent-size "$1/usr" | cut -f 1)/" \
    -e "s/@USING@/${using%, }/" -e "s/@MAINTAINER@/$maintainer/" packaging/control.in
}

# Debian's changelog: an entry for each version of CHANGELOG.md, which has the changes.
changelog() {
  local number day
  while read -r number day; do
    printf 'tibzharuk (%s) unstable; urgency=medium\n\n' "$number"
    printf '  * See CHANGELOG.md beside this file.\n\n'
    printf ' -- %s  %s\n\n' "$maintainer" "$(date -R -d "$day")"
  done < <(sed -n 's/^## \([0-9.]*\) (\([0-9-]*\))$/\1 \2/p' CHANGELOG.md)
}

# What lintian says that isn't a fault of the package, with the reason.
overrides() {
  cat packaging/lintian-overrides
  if [ -z "${DEBEMAIL-}" ]; then
    echo '# The project has no public address yet (docs/DECISIONS.md).'
    printf 'tibzharuk binary: %s\n' 'bogus-mail-host Maintainer *' 'root-in-contact Maintainer *' 'bogus-mail-host-in-debian-changelog *'
  fi
}

# compress_pages DIRECTORY: the manual pages there, and the links to them
compress_pages() {
  local page to
  for page in "$1"/*.1; do
    if [ -L "$page" ]; then
      to=$(readlink "$page")
      ln -s "$to.gz" "$page.gz"
      rm "$page"
    fi
  done
  gzip -9n "$1"/*.1
}

pack_package() {
  local root=$work/root documents
  documents=$root/usr/share/doc/tibzharuk
  bash packaging/install.sh "$folder/fq_prog" "$root/usr" > /dev/null
  # Debian's programs run by Debian's Python.
  sed -i '1s|.*|#!/usr/bin/python3 -IS|' "$root/usr/share/tibzharuk/python/tibzharuk/__main__.py"
  # Debian compiles what is installed (postinst.sh).
  find "$root/usr" -name __pycache__ -prune -exec rm -rf {} +
  compress_pages "$root/usr/share/man/man1"
  # zsh looks there for what comes in packages.
  mv "$root/usr/share/zsh/site-functions" "$root/usr/share/zsh/vendor-completions"
  put_documents "$documents"
  put 644 packaging/copyright "$documents/copyright"
  changelog | gzip -9n > "$documents/changelog.gz"
  mkdir -p "$root/usr/share/lintian/overrides"
  overrides > "$root/usr/share/lintian/overrides/tibzharuk"
  # The documents and the workflow lead to each other.
  ln -s ../../tibzharuk/workflow "$documents/workflow"
  ln -s ../doc/tibzharuk/docs "$root/usr/share/tibzharuk/docs"
  put_objects "$root/usr/lib/tibzharuk/relink"
  mkdir "$root/DEBIAN"
  control "$root" > "$root/DEBIAN/control"
  put 755 packaging/postinst.sh "$root/DEBIAN/postinst"
  put 755 packaging/prerm.sh "$root/DEBIAN/prerm"
  (cd "$root" && find usr -type f -printf '%p\n' | sort | xargs -d '\n' md5sum > DEBIAN/md5sums)
  find "$root" -exec touch -h -d "@$SOURCE_DATE_EPOCH" {} +
  dpkg-deb --root-owner-group -Zxz --build "$root" "$folder/$package.deb" > /dev/null
}

pack_tarball
pack_package
(cd "$folder" && sha256sum "$release.tar.gz" "$package.deb" > SHA256SUMS && cat SHA256SUMS)
