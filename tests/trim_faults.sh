#!/usr/bin/env bash
# 40 runs of tibzharuk trim with random faults (tests/trim_faults.py), different ones each time.
# TRIM_RUNS sets another number, and TRIM_SEED repeats the runs of a seed that was printed.
set -uo pipefail
. "$(dirname "$0")/common.bash"
find_program
missing=
for each in bgzip:tabix pigz:pigz igzip:isal cutadapt:cutadapt; do
  command -v "${each%:*}" > /dev/null || missing+=" ${each#*:}"
done
[ -z "$missing" ] || echo "trim_faults: skipped: what needs$missing"
exec python3 tests/trim_faults.py "${TRIM_RUNS:-40}" ${TRIM_SEED:+--seed "$TRIM_SEED"}
