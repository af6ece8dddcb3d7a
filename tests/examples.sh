#!/usr/bin/env bash
# The reads in examples/ are those that examples/draw.py makes, and examples/trimmed/ is what the
# slow program of tibzharuk selftest makes of them. `make run` and tibzharuk trim make the same:
# `make run` with the proved program, and in a copy that isn't built by a build without proofs.
# Status 77, and 'skipped', if a package is missing.
set -uo pipefail
. "$(dirname "$0")/common.bash"
need python3
find_program
work=$(mktemp -d)
trap 'rm -rf "$work"' EXIT
steps=(LEADING:3 TRAILING:3 SLIDINGWINDOW:4:15 MINLEN:36)

# same_files DIRECTORY MESSAGE: the directory has the files of examples/trimmed and no others
same_files() {
  diff -rq examples/trimmed "$1" || fail "$2"
}

mkdir "$work/drawn" "$work/slow" "$work/gz"
python3 examples/draw.py "$work/drawn" || fail 'draw.py fails'
for side in 1 2; do
  cmp "$work/drawn/reads_$side.fq" "examples/reads_$side.fq" || fail "reads_$side.fq is not what draw.py makes"
  gzip -dc "examples/reads_$side.fq.gz" | cmp - "examples/reads_$side.fq" || fail "reads_$side.fq.gz holds other reads"
done

python3 python/tibzharuk/selftest/slow.py examples/reads_1.fq examples/reads_2.fq "$work/slow" "${steps[@]}" || fail 'the slow program fails'
same_files "$work/slow" 'examples/trimmed/ is not what the slow program makes'

# trims TREE WORDS: `make run` there says what it must, and says these words about proofs
trims() {
  make -s -C "$1" run > "$work/said" 2>&1 || {
    fail "make run fails in $1: $(cat "$work/said")"
    return
  }
  local side
  for side in 1 2; do
    gzip -dc "$1/examples/out/reads.r$side.paired.fastq.gz" | cmp - "examples/trimmed/p$side.fq" || fail "make run gives other pairs in $1"
    gzip -dc "$1/examples/out/reads.r$side.unpaired.fastq.gz" | cmp - "examples/trimmed/u$side.fq" || fail "make run gives other reads in $1"
  done
  grep -qF -- "$(cat examples/trimmed/summary.txt)" "$work/said" || fail "make run prints another summary in $1"
  grep -q '<title>' "$1/examples/out/reads.html" || fail "make run makes no page in $1"
  grep -qF "$2" "$work/said" || fail "make run doesn't say in $1: $2"
}

trims "$tree" 'with the proved program'
mkdir "$work/not built"
find . '(' -name .git -o -name out -o -name dist ')' -prune -o -type f -print0 | xargs -0 cp --parents -t "$work/not built"
trims "$work/not built" 'NOT PROVED'
grep -q ' file:///.*/not%20built/examples/out/reads\.html$' "$work/said" || fail 'make run names the page by an address that no browser takes'

PATH=$PWD/crates/fq_prog/out:$PATH "$tibzharuk" trim -1 examples/reads_1.fq.gz -2 examples/reads_2.fq.gz \
  --paired1 "$work/gz/p1.fq" --unpaired1 "$work/gz/u1.fq" --paired2 "$work/gz/p2.fq" --unpaired2 "$work/gz/u2.fq" \
  --trimlog "$work/gz/trim.log" --summary "$work/gz/summary.txt" -- "${steps[@]}" > /dev/null || fail 'tibzharuk trim fails'
same_files "$work/gz" 'tibzharuk trim gives other files'

finish 'as another program trims them'
