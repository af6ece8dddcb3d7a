#!/usr/bin/env bash
# Other programs read the outputs in step: seqkit, samtools import and bwa mem find in them the
# reads, the names and the pairs that the summary and the trim log show. The runs are on simulated
# files: wrapped records, CR LF, empty lines, titles in the forms of Casava and of the SRA, names
# with tabs, in three encodings, with and without TOPHRED33, from two files and from an interleaved
# one.
#
# FQ_PROG is the program, crates/fq_prog/out/fq_prog if not set. A reader that is missing is left
# out, and reported. Status 77, and 'skipped', if none of them is installed.
set -uo pipefail
. "$(dirname "$0")/common.bash"
readers=()
missing=()
for reader in seqkit samtools bwa; do
  if command -v "$reader" > /dev/null; then readers+=("$reader"); else missing+=("$reader"); fi
done
if [ "${#readers[@]}" -eq 0 ]; then
  skip 'needs seqkit, samtools or bwa'
fi
need python3
if [ "${#missing[@]}" -gt 0 ]; then
  echo "in_step: without ${missing[*]}"
fi
find_program
work=$(mktemp -d) || exit 1
trap 'rm -rf "$work"' EXIT
cd "$work" || exit 1
runs=0

# run WHAT ENCODING COMMAND INPUT.. -- STEP..: a run, in whose outputs each reader finds what the
# summary and trim.log show
run() {
  local what=$1 encoding=$2 command=$3 inputs=()
  shift 3
  while [ "$1" != -- ]; do
    inputs+=("$1")
    shift
  done
  shift
  what="$what $encoding $command $*"
  runs=$((runs + 1))
  if ! "$program" "$command" --threads 3 --block 7 --encoding "$encoding" --trimlog trim.log "${inputs[@]}" fp.fq fu.fq rp.fq ru.fq "$@" > summary; then
    echo "in_step: $what: failed"
    failed=1
    return
  fi
  python3 "$tree/tests/in_step/check.py" "$what" "${readers[@]}" || failed=1
}

seed=0
for kind in plain bare casava sra tab wrapped crlf empty_lines; do
  for encoding in sanger illumina13 solexa; do
    seed=$((seed + 1))
    python3 "$tree/tests/in_step/draw.py" "$seed" "$kind" "$encoding" 120 || exit 1
    if [ "$seed" -eq 1 ] && command -v bwa > /dev/null; then
      bwa index ref.fa 2> /dev/null || exit 1
    fi
    run "$kind" "$encoding" PE r1.fq r2.fq -- LEADING:12 TRAILING:15 SLIDINGWINDOW:4:18 MINLEN:30
    run "$kind" "$encoding" IL both.fq -- HEADCROP:2 SLIDINGWINDOW:5:22 MINLEN:36 TOPHRED33
  done
done
# No pair survives.
run last solexa PE r1.fq r2.fq -- MINLEN:1000
finish "$runs runs"
