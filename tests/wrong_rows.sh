#!/usr/bin/env bash
# Gives the program fq_test_rows rows with one mistake each: a wrong answer, an expected part that the
# answer lacks, no expected answer, a key that nothing reads, a number or a text too few, a text
# without a name. Each must fail, with a line that says why.
set -uo pipefail
. "$(dirname "$0")/common.bash"

room=$(mktemp -d)
trap 'rm -rf "$room"' EXIT

need_proved crates/fq_test_rows/out/fq_test_rows
program=$tree/crates/fq_test_rows/out/fq_test_rows

cp tests/wrong_rows/wrong.rows "$room/"
(cd "$room" && "$program" wrong.rows) > "$room/said" 2>&1
status=$?
[ $status -eq 1 ] || fail "status $status"
diff tests/wrong_rows/wanted "$room/said" || fail 'other lines'
finish ok
