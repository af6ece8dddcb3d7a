#!/usr/bin/env bash
# Builds the benchmark in a scratch repository over this tree's fq_text, and runs it.
set -euo pipefail
top=$(cd "$(dirname "$0")/../.." && pwd)
scratch=$(mktemp -d)
trap 'rm -rf "$scratch"' EXIT
mkdir -p "$scratch/crates/reading/src"
cp "$top/HANDLES" "$scratch/"
cp -r "$top/crates/fq_text" "$scratch/crates/"
printf 'fq_text: memchr thiserror\nreading: fq_text memchr anyhow\n' > "$scratch/crates.txt"
cp "$top/bench/reading/main.rt.in" "$scratch/crates/reading/src/main.rt"
cd "$scratch/crates/reading"
rt run > "$scratch/log" 2>&1 || {
  cat "$scratch/log"
  exit 1
}
./out/reading
