#!/usr/bin/env bash
# The container image of packaging/Containerfile, on a Debian 12 made by mmdebstrap. buildah builds
# it twice with the same bytes. tibzharuk trim in the image, run by buildah, and by Charliecloud from
# the unpacked archive, makes of compressed reads what the program here makes of the plain texts.
# Then the package on a fresh Debian 12: its manual pages are found, and bash completes its commands.
# FQ_PROG is the program, crates/fq_prog/out/fq_prog if not set. Status 77, and 'skipped', if a
# package, root or the network is missing.
set -uo pipefail
. "$(dirname "$0")/common.bash"
need buildah mmdebstrap dpkg-deb:dpkg cc:gcc python3
[ "$(id -u)" -eq 0 ] || skip 'needs root'
timeout 30 bash -c ': > /dev/tcp/deb.debian.org/80' 2> /dev/null || skip 'needs the network, to deb.debian.org'
make -s dist > /dev/null || exit 1
find_program
version=$("$program" --version)
version=${version#fq_prog }
work=$(mktemp -d -p /var/tmp tibzharuk.XXXXXX) || exit 1
trap 'rm -rf "$work"' EXIT
steps=(LEADING:3 TRAILING:3 SLIDINGWINDOW:4:15 MINLEN:36)
names=(-1 a_1.fq.gz -1 b_1.fq.gz -2 a_2.fq.gz -2 b_2.fq.gz --paired1 p1.fq.gz --unpaired1 u1.fq.gz --paired2 p2.fq.gz --unpaired2 u2.fq.gz --report r.json --html r.html)

# draw_reads: two lanes of 500 pairs, compressed and plain, and what the program makes of them
draw_reads() {
  mkdir "$work/reads" "$work/direct"
  (
    cd "$work/reads" || exit 1
    draw_lane a 1 500
    draw_lane b 0 500
    cat a_1.fq b_1.fq > "$work/1.fq"
    cat a_2.fq b_2.fq > "$work/2.fq"
    gzip ./*.fq
  )
  (cd "$work/direct" && "$program" PE ../1.fq ../2.fq p1.fq u1.fq p2.fq u2.fq "${steps[@]}" > summary) || fail 'the program'
}

# same_as_direct NAME: the outputs in the directory NAME are those of the direct call
same_as_direct() {
  local part
  for part in p1 u1 p2 u2; do
    gzip -dc "$work/$1/$part.fq.gz" | cmp - "$work/direct/$part.fq" || fail "$1: $part differs"
  done
  cmp "$work/$1/summary" "$work/direct/summary" || fail "$1: the summary differs"
  grep -q '"outcome":"finished"' "$work/$1/r.json" || fail "$1: the report is not that of a whole run"
}

# build_twice: two archives of the package on one base, built separately
build_twice() {
  local each
  for each in first second; do
    mkdir "$work/$each"
    cp "dist/tibzharuk_${version}_amd64.deb" "$work/$each"
  done
  bash packaging/image.sh "$version" "$work/first" > "$work/log" 2>&1 || {
    fail "no image is built: $(tail -n 20 "$work/log")"
    return 1
  }
  bash packaging/image.sh "$version" "$work/second" "$work/first/debian-12.tar" > "$work/log" 2>&1 || fail "no second image is built: $(tail -n 20 "$work/log")"
  archive=$work/first/tibzharuk-$version-oci.tar
  cmp "$archive" "$work/second/${archive##*/}" || fail 'the second image has other bytes'
  rm -rf "$work/second"
}

# in_buildah WORDS..: buildah, with its images below $work
in_buildah() {
  local verb=$1
  shift
  TMPDIR=$work BUILDAH_ISOLATION=chroot buildah --root "$work/images" --runroot "$work/run" --storage-driver vfs "$verb" "$@"
}

run_by_buildah() {
  local container
  echo '{"default": [{"type": "insecureAcceptAnything"}]}' > "$work/policy.json"
  cp -r "$work/reads" "$work/buildah"
  container=$(in_buildah from --quiet --signature-policy "$work/policy.json" "oci-archive:$archive") || {
    fail 'buildah does not take the archive'
    return
  }
  in_buildah run --volume "$work/buildah:/data" "$container" -- tibzharuk trim "${names[@]}" -- "${steps[@]}" > "$work/buildah/summary" || fail 'tibzharuk trim fails in buildah'
  same_as_direct buildah
  # (bgzip's blocks begin with an extra field BC, and no read has 33 bases of this adapter.)
  [ "$(head -c 14 "$work/buildah/p1.fq.gz" | tail -c 2)" = BC ] || fail 'bgzip compresses nothing in the image'
  cp -r "$work/reads" "$work/adapters"
  in_buildah run --volume "$work/adapters:/data" "$container" -- tibzharuk trim "${names[@]}" --adapters AGATCGGAAGAGCACACGTCTGAACTCCAGTCA --cutadapt '-O 33' -- "${steps[@]}" \
    > "$work/adapters/summary" || fail 'tibzharuk trim with adapters fails in buildah'
  same_as_direct adapters
  [ "$(in_buildah run "$container" -- tibzharuk --version | paste -sd ' ')" = "tibzharuk $version fq_prog $version $(rt version)" ] || fail 'the image has another version'
  in_buildah run "$container" -- sh -c 'ps && cd /usr/share/doc/tibzharuk && cat NOTICES.md LICENSE-MIT LICENSE-UNICODE' > "$work/log" 2>&1 || fail 'the image lacks ps or the notices'
  in_buildah rm "$container" > /dev/null
  rm -rf "$work/images" "$work/run"
}

# As a user of Charliecloud unpacks the image: it has one layer, which is the largest file of the
# archive.
run_by_charliecloud() {
  if ! command -v ch-run > /dev/null; then
    echo 'container: ch-run: skipped: needs charliecloud'
    return
  fi
  mkdir "$work/oci" "$work/root"
  tar -C "$work/oci" -xf "$archive"
  [ "$(find "$work/oci/blobs/sha256" -type f | wc -l)" -eq 3 ] || fail 'the image has more than one layer'
  tar -C "$work/root" -xzf "$(find "$work/oci/blobs/sha256" -type f -printf '%s %p\n' | sort -n | tail -n 1 | cut -d ' ' -f 2)" || fail 'the layer is not unpacked'
  cp -r "$work/reads" "$work/charliecloud"
  USER=${USER:-$(id -un)} ch-run --bind "$work/charliecloud:/data" --cd /data "$work/root" -- tibzharuk trim "${names[@]}" -- "${steps[@]}" > "$work/charliecloud/summary" 2> "$work/log" ||
    fail "tibzharuk trim fails in ch-run: $(cat "$work/log")"
  same_as_direct charliecloud
  rm -rf "$work/oci" "$work/root"
}

# The package by itself, with man and bash's own completion, on a Debian 12 that keeps all
# documents.
on_a_fresh_debian() {
  local root=$work/fresh name
  mkdir "$root"
  tar -C "$root" -xf "$work/first/debian-12.tar"
  rm -f "$root/etc/dpkg/dpkg.cfg.d/99mmdebstrap"
  cp "dist/tibzharuk_${version}_amd64.deb" "$root/tmp/"
  cp /etc/resolv.conf "$root/etc/resolv.conf"
  DEBIAN_FRONTEND=noninteractive chroot "$root" bash -c 'apt-get update && apt-get install -y --no-install-recommends man-db bash-completion /tmp/*.deb' > "$work/log" 2>&1 ||
    {
      fail "the package is not installed: $(tail -n 5 "$work/log")"
      return
    }
  for name in fq_prog tibzharuk tibzharuk-{trim,PE,page,sum,samples}; do
    chroot "$root" env MANPAGER=cat MANWIDTH=80 man "$name" 2> /dev/null | grep -q "$name" || fail "man $name shows nothing there"
  done
  chroot "$root" fq_prog EXAMPLE 2> /dev/null | cmp - "$tree/crates/fq_prog/stdout" || fail 'fq_prog prints another example there'
  mkdir "$root/reads"
  touch "$root/reads/one.fq" "$root/reads/two.fq"
  printf '%s\n' ". /usr/share/bash-completion/bash_completion" 'cd /reads' "PS1='> '" > "$root/setup"
  printf 'tibzharuk PE --report x.json \ntibzharuk PE --report x.json f r fp fu rp \ntibzharuk PE --report x.json f r fp fu rp ru L\n' > "$work/lines"
  TYPED_IN=$root python3 tests/completion/typed.py bash /setup < "$work/lines" | cut -f 2 | diff - <(printf 'one.fq two.fq\none.fq two.fq\nLEADING:\n') > "$work/log" ||
    fail "bash offers other words there: $(cat "$work/log")"
}

draw_reads
if build_twice; then
  run_by_buildah
  run_by_charliecloud
  on_a_fresh_debian
fi
finish 'as the program does it'
