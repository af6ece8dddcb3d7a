#!/usr/bin/env bash
# What a report counts in files is what seqkit counts in them: reads, bases, bases G or C, bases N,
# the shortest and the longest read, the reads of each length, and the percentages of bases with a
# score of at least 20 and of at least 30. These, the reads by mean score and by percentage of G and
# C, the sum of the scores and each list of bases by position are also what tests/count.py counts,
# base by base. If FastQC is installed, the reads by mean score and the mean score at each position
# are also FastQC's. If fastp is installed, the mean score and the share of each letter at each
# position are also fastp's. The reads by bases removed at each end are those of the trim log. It
# checks inputs and outputs of runs on simulated files in each encoding, two files or one
# interleaved.
#
# With REPORT it checks only that report; the names of its files are relative to the directory in
# which this is called:
#   tests/report_counts.sh [REPORT]
# FQ_PROG is the program, crates/fq_prog/out/fq_prog if not set. Status 77, and 'skipped', if a
# package is missing.
set -uo pipefail
start=$PWD
. "$(dirname "$0")/common.bash"
need seqkit python3
work=$(mktemp -d) || exit 1
trap 'rm -rf "$work"' EXIT

check() { python3 "$tree/tests/report_counts/check.py" "$@"; }

if [ $# -gt 0 ]; then
  cd "$start" || exit 1
  check "$1"
  exit
fi
find_program
cd "$work" || exit 1

draw() { python3 "$tree/tests/report_counts/draw.py" "$@"; }

# run [ENCODING] COMMAND INPUT.. -- STEP..: a run with a report, then a check of the report, also by
# the others
others=()
run() {
  local encoding=sanger command inputs=()
  case $1 in sanger | illumina13 | solexa) encoding=$1 && shift ;; esac
  command=$1
  shift
  while [ "$1" != -- ]; do
    inputs+=("$1")
    shift
  done
  shift
  if ! "$program" "$command" --encoding "$encoding" --threads 2 --block 7 --trimlog trim.log --report report.json "${inputs[@]}" fp.fq fu.fq rp.fq ru.fq "$@" > summary; then
    fail "$command $*: failed"
    return
  fi
  check report.json "${others[@]}" || failed=1
}

for other in fastqc fastp; do
  if command -v "$other" > /dev/null; then
    others+=("$other")
  else
    echo "report_counts: what $other counts of the same files: skipped: needs $other"
  fi
done
for seed in 1 2 3; do
  draw "$seed" 60 200
  run PE r1.fq r2.fq -- LEADING:15 TRAILING:15 SLIDINGWINDOW:4:20 MINLEN:20
  others=() # once is enough
  run PE r1.fq r2.fq -- AVGQUAL:25 HEADCROP:3 CROP:50
  run IL both.fq -- SLIDINGWINDOW:5:25 MINLEN:36
  run IL both.fq -- MINLEN:1000
done
for encoding in illumina13 solexa; do
  draw 6 60 200 "$encoding"
  run "$encoding" PE r1.fq r2.fq -- LEADING:15 SLIDINGWINDOW:4:20 MINLEN:20
done
# Reads on both sides of 10,000 bases, and removed bases too.
draw 4 20 30000
run PE r1.fq r2.fq -- LEADING:20 MINLEN:10
run PE r1.fq r2.fq -- HEADCROP:10000
run PE r1.fq r2.fq -- CROP:9999
# One read of 12,000 bases among short ones, in each encoding.
for encoding in sanger illumina13 solexa; do
  draw 7 30 150 "$encoding" 12000
  run "$encoding" PE r1.fq r2.fq -- HEADCROP:5 MINLEN:20
done
draw 5 0 1
run PE r1.fq r2.fq -- MINLEN:1
finish ok
