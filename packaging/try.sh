#!/usr/bin/env bash
# Runs the unit tests of one crate or of all without proofs, several crates side by side. Each crate
# has a line, what failed is shown in full, and the last line is 'N passed, M failed'.
set -uo pipefail
cd "$(dirname "$0")/.." || exit 1

if [ "${1-}" = --help ]; then
  echo "usage: packaging/try.sh [CRATE..]
Runs 'rt try --test' in each CRATE (without CRATE: in every crate that has tests), as many at a time
as there are processors, or JOBS at a time if that variable is set."
  exit 0
fi

if [ $# -eq 0 ]; then
  mapfile -t crates < <(sed -n 's/^\([a-z_0-9]*\)[^#]*:.*/\1/p' crates.txt)
  for crate in "${crates[@]}"; do
    if [ -e "crates/$crate/data" ] || grep -rqF '#[test]' "crates/$crate/src"; then
      set -- "$@" "$crate"
    fi
  done
fi

logs=$(mktemp -d)
trap 'rm -rf "$logs"' EXIT
export logs

# Runs the tests of one crate, or the program that answers the rows in its data/, and leaves their
# numbers as 'PASSED FAILED' in a file. On a busy machine a test may take long.
run_crate() {
  local crate=$1 begun=$SECONDS status=0 log=$logs/$1.log passed='' failed='' kind=tests
  if [ -e "crates/$crate/data" ]; then
    kind=rows
    (cd "crates/$crate" && rt try --seconds 600 -- data/*.rows) > "$log" 2>&1 || status=$?
    passed=$(sed -n 's/^\([0-9]*\) rows passed$/\1/p' "$log")
    if [ -n "$passed" ]; then failed=0; fi
  else
    (cd "crates/$crate" && rt try --test --seconds 600) > "$log" 2>&1 || status=$?
    read -r passed failed < <(sed -nE 's/^test result: .* ([0-9]+) passed; ([0-9]+) failed;.*/\1 \2/p' "$log")
  fi
  if [ "$status" -eq 0 ] && [ "${failed:-1}" -eq 0 ]; then
    echo "$crate: $passed $kind passed (nothing proved, $((SECONDS - begun)) s)"
  else
    printf '%s\n%s\n' "$(cat "$log")" "$crate: FAILED, status $status"
    if [ "${failed:-0}" -eq 0 ]; then failed=1; fi
  fi
  echo "${passed:-0} $failed" > "$logs/$crate.result"
}
export -f run_crate

printf '%s\n' "$@" | xargs -P "${JOBS:-$(nproc)}" -I CRATE bash -c 'run_crate CRATE'
cat "$logs"/*.result | awk '{ passed += $1; failed += $2 } END { print passed + 0 " passed, " failed + 0 " failed"; exit failed > 0 }'
