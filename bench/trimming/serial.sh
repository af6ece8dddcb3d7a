#!/usr/bin/env bash
# Builds the run on one thread as a program in a scratch repository over this tree's crates, proofs
# and all, and puts it at the path given.
#
#     bench/trimming/serial.sh PATH
set -euo pipefail
path=$(realpath -m "${1:?a path for the program}")
here=$(cd "$(dirname "$0")" && pwd)
top=$here/../..
scratch=$(mktemp -d)
trap 'rm -rf "$scratch"' EXIT
mkdir -p "$scratch/crates/serial/src"
cp "$top/HANDLES" "$scratch/"
echo 'serial: fq_files fq_run fq_pair fq_trim fq_text anyhow' > "$scratch/crates.txt"
for crate in fq_text fq_test_texts fq_trim fq_report_reads fq_pair fq_report_pairs fq_lane fq_block fq_work fq_run_core fq_run fq_files; do
  grep -E "^${crate}[ :]" "$top/crates.txt" >> "$scratch/crates.txt"
  cp -a "$top/crates/$crate" "$scratch/crates/"
done
cp "$here/serial.rt.in" "$scratch/crates/serial/src/main.rt"
cd "$scratch/crates/serial"
rt run > "$scratch/log" 2>&1 || true
[ -x out/serial ] || {
  cat "$scratch/log"
  exit 1
}
cp out/serial "$path"
