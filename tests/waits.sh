#!/usr/bin/env bash
# Where the threads of a run may wait is as the table of docs/ARCHITECTURE.md says, on which the
# model of their progress rests. Two changes that the prover accepts, and that let a run hang, are
# refused: a worker that first waits for texts to come back, and a collector that sleeps until it is
# woken. That threads are joined too early, and that a dealer or a collector waits for what comes
# back, the prover and the types refuse.
# Status 77, and 'skipped', if a package is missing.
set -uo pipefail
. "$(dirname "$0")/common.bash"
need python3
room=$(mktemp -d)
trap 'rm -rf "$room"' EXIT

# refused FUNCTION FILE EDIT: the table is no longer that of the code, at this function alone, after
# sed's EDIT of crates/FILE.
refused() {
  local row=$1
  rm -rf "$room/crates"
  mkdir -p "$room/docs" "$room/crates"
  cp docs/ARCHITECTURE.md "$room/docs/"
  cp -r --parents crates/fq_work/src crates/fq_run/src "$room/"
  sed -i -E "$3" "$room/crates/$2"
  if cmp -s "crates/$2" "$room/crates/$2"; then
    fail "nothing in $2 is left to change"
  elif python3 tests/waits/check.py "$room" > "$room/said"; then
    fail 'a change that lets a run hang is accepted'
  elif [ "$(wc -l < "$room/said")" -ne 1 ] || ! grep -q "^waits: $1 of $2 calls" "$room/said"; then
    cat "$room/said"
    fail "something else than $1 of $2 is refused"
  fi
}

python3 tests/waits/check.py . || fail 'docs/ARCHITECTURE.md has another table'
refused work fq_work/src/worker.rt \
  's/let mut returns = /let mut texts_back = texts_back; let _ = texts_back.take_wait(rt); &/'
refused rest fq_run/src/waiting.rt \
  's/sleeper\.park_timeout\(self\.rt, .*\);/let _ = microseconds; sleeper.park(self.rt);/'
finish ok
