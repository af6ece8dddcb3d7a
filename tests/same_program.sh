#!/usr/bin/env bash
# The program doesn't depend on the directory in which it is built, or on the order in which the
# crates are proved: built in another directory, in the order that rt chooses, it has the same bytes.
# Skipped if the libraries were not kept by `make build`, since they would all be proved again.
set -uo pipefail
. "$(dirname "$0")/common.bash"
find_program
for crate in fq_text fq_app; do
  [ -e "crates/$crate/out/rlib/stamp" ] || skip "needs the crates as 'make build' leaves them"
done
room=$(mktemp -d)
trap 'rm -rf "$room"' EXIT
tar -c --exclude=out --exclude=must-fail --exclude=wrong-bodies.edits crates crates.txt HANDLES | tar -x -C "$room"
if ! (cd "$room/crates/fq_prog" && rt run -- EXAMPLE) > "$room/log" 2>&1; then
  tail -n 20 "$room/log"
  fail 'the copy is not built'
fi
cmp "$tree/crates/fq_prog/out/fq_prog" "$room/crates/fq_prog/out/fq_prog" || fail 'the copy is another program'
finish 'the same bytes from another directory'
