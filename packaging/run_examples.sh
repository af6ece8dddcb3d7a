#!/usr/bin/env bash
# Trims the reads in examples/ as a laboratory does, from .gz files to .gz files, a report and its
# page for the browser, and shows what comes out: with the proved program if it is built, else with a
# build that isn't proved.
set -uo pipefail
cd "$(dirname "$0")/.." || exit 1
program=crates/fq_prog/out/fq_prog
out=examples/out
arguments=(-1 examples/reads_1.fq.gz -2 examples/reads_2.fq.gz --out "$out/reads"
  LEADING:3 TRAILING:3 SLIDINGWINDOW:4:15 MINLEN:36)
room=$(mktemp -d)
export TMPDIR=$room
trap 'rm -rf "$room"' EXIT
trap 'exit 130' INT
trap 'exit 143' TERM HUP

# The outputs are those that another program made.
compare() {
  local side
  for side in 1 2; do
    cmp "examples/trimmed/p$side.fq" <(gzip -dc "$out/reads.r$side.paired.fastq.gz") &&
      cmp "examples/trimmed/u$side.fq" <(gzip -dc "$out/reads.r$side.unpaired.fastq.gz") || return
  done
  cmp examples/trimmed/summary.txt "$room/summary"
}

if ! command -v python3 > /dev/null; then
  echo 'The command tibzharuk needs Python 3.8 or later (Debian: python3).' >&2
  exit 1
fi
if "${MAKE:-make}" -q "$program" > /dev/null 2>&1; then
  proved=yes
  echo 'Trims the reads in examples/ with the proved program:'
else
  proved=''
  bash packaging/needs.sh 1 || exit
  program=packaging/try_program.sh
  echo 'Compiles the program without proofs, in about a minute, and trims the reads in examples/:'
fi
echo "    tibzharuk trim ${arguments[*]}"
echo

if ! rm -rf "$out" || ! mkdir -p "$out"; then
  echo "The outputs can't be written: $PWD/$out. Clone the repository into a directory of your own." >&2
  exit 1
fi
python/tibzharuk/__main__.py trim --program "$program" "${arguments[@]}" < /dev/null > "$room/summary" 2> "$room/log"
status=$?
if [ "$status" -ne 0 ]; then
  cat "$room/log"
  if [ -e "$room/try.log" ]; then cat "$room/try.log"; fi
  echo "The run failed with status $status. If it wasn't compiled, see whether 'rt version' prints the kit that README.md names." >&2
  exit "$status"
fi
cat "$room/summary"

echo
echo 'The first pair, trimmed:'
for side in 1 2; do gzip -dc "$out/reads.r$side.paired.fastq.gz" 2> /dev/null | head -n 4; done
echo
echo 'All files are in examples/out/: pairs in reads.r1.paired.fastq.gz and reads.r2.paired.fastq.gz,'
echo 'reads that lost their mate in those named unpaired, and the report in reads.json.'
if ! compare; then
  echo "They differ from those in examples/trimmed/, which another program made." >&2
  exit 1
fi
echo 'The reads equal those in examples/trimmed/, which another program made.'
address=$(python3 -c 'import pathlib, sys; print(pathlib.Path(sys.argv[1]).as_uri())' "$PWD/$out/reads.html")
echo "The page of this run, for a browser: $address"
if [ -z "$proved" ]; then
  echo "
This build is NOT PROVED. 'make build' proves the program, in 11 to 37 minutes on four processors.
'make install' installs only a proved program."
fi
