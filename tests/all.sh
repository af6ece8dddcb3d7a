#!/usr/bin/env bash
# All tests but the proofs: the unit tests of every crate, unproved, and each script of this
# directory over the proved program, several side by side. If the program must be built, what needs
# none runs beside the build. A script counts as one test, and its output is printed when it ends.
# One that ends with status 77 was skipped, and says what it lacks.
# With GATE=1 a script that needs the proved test programs of a gate fails without them.
# Scripts and unit tests that failed are shown once more at the end.
# The last line is 'N passed, M failed, K skipped'.
set -uo pipefail
cd "$(dirname "$0")/.." || exit 1
logs=$(mktemp -d)
export logs
clean_up() {
  stop_jobs
  rm -rf "$logs"
}
trap clean_up EXIT
. packaging/jobs.bash

# Scripts that need no program, the longest first.
early=(must_not_compile workflow_page needs builds scripts package pages wrong_bodies rehearsal claims)
# Scripts that take long begin first.
first=(workflow_slurm workflow workflow_installed workflow_lanes)
# Scripts that use the same directories of this tree, so each waits for the one before.
in_turn=(dist container examples cwl)
# Scripts that wait for a thread to sleep or for a disk: without others beside them.
alone=(late_errors lane_processors)
processors=$(nproc)
object=crates/fq_prog/out/fq_prog.o

# run SCRIPT..: runs these scripts of tests/, one after the other
run() {
  local name status begun
  for name; do
    begun=$SECONDS
    bash "tests/$name.sh" > "$logs/$name.said" 2>&1 < /dev/null
    status=$?
    echo "$status" > "$logs/$name.status"
    case $status in
      0 | 77) ;;
      *) echo "tests/$name.sh: FAILED" >> "$logs/$name.said" ;;
    esac
    show "tests/$name.sh ($((SECONDS - begun)) s)" "$logs/$name.said"
  done
}

# show TITLE FILE: prints the file, and nothing else meanwhile
show() {
  {
    flock 9
    echo "== $1"
    awk 1 "$2"
  } 9< "$logs"
}
export -f run show

# beside COMMAND: runs it in the background, in a process group of its own, which ends with this script
beside() {
  set -m
  (
    set +m
    "$@"
  ) < /dev/null &
  set +m
}

# now COMMAND: does the same, and waits for it. This script heeds signals meanwhile.
now() {
  beside "$@"
  wait "$!"
}

# side_by_side NAMES..: runs scripts. Those that one argument names run in turn.
side_by_side() {
  printf '%s\n' "$@" | xargs -d '\n' -P "$processors" -I NAMES bash -c 'run NAMES'
}

unit_tests() {
  JOBS=$(((processors + 1) / 2)) nice bash packaging/try.sh > "$logs/unit_tests" 2>&1
  show 'unit tests' "$logs/unit_tests"
}

early_scripts() {
  printf '%s\n' "${early[@]}" | nice xargs -d '\n' -I NAMES bash -c 'run NAMES'
}

missing=$(bash packaging/missing_packages.sh | paste -sd' ')
if [ -n "$missing" ]; then
  echo "Tests that lack a package are skipped. make setup installs these: $missing"
fi

beside unit_tests
if make -q build > /dev/null 2>&1 && [ -s "$object" ]; then
  first=("${early[0]}" "${first[@]}")
  early=()
else
  beside early_scripts
fi
later=("${first[@]}")
for script in tests/*.sh; do
  name=$(basename "$script" .sh)
  case " all ${early[*]} ${first[*]} ${in_turn[*]} ${alone[*]} " in
    *" $name "*) ;;
    *) later+=("$name") ;;
  esac
done

built=0
now make --no-print-directory build || built=1
# dist.sh links the program's object. A gate may leave none, and then the program is built again: now,
# and not beside scripts that run it.
if [ "$built" -eq 0 ] && [ ! -s "$object" ]; then
  now bash packaging/objects.sh "$logs/objects" || built=1
fi
if [ "$built" -eq 0 ]; then
  now side_by_side "${in_turn[*]}" "${later[@]}"
fi
wait
if [ "$built" -eq 0 ]; then
  now run "${alone[@]}"
fi

read -r passed failed < <(sed -nE '$s/^([0-9]+) passed, ([0-9]+) failed$/\1 \2/p' "$logs/unit_tests")
: "${passed:=0}" "${failed:=1}" # no such line: the unit tests did not run
skipped=0
wrong=()
if [ "$failed" -ne 0 ]; then
  wrong+=('unit tests')
  printf '== unit tests that failed, again\n%s\n' "$(grep -v ' passed (nothing proved, ' "$logs/unit_tests")"
fi
if [ "$built" -ne 0 ]; then
  wrong+=('the program is not built')
  failed=$((failed + 1))
fi
for script in "${early[@]}" "${later[@]}" "${in_turn[@]}" "${alone[@]}"; do
  case $(cat "$logs/$script.status" 2> /dev/null) in
    0) passed=$((passed + 1)) ;;
    77) skipped=$((skipped + 1)) ;;
    *)
      if [ "$built" -eq 0 ] || [ -e "$logs/$script.status" ]; then
        failed=$((failed + 1))
        wrong+=("tests/$script.sh")
        printf '== tests/%s.sh, again\n%s\n' "$script" "$(cat "$logs/$script.said")"
      fi
      ;;
  esac
done
[ "${#wrong[@]}" -eq 0 ] || printf 'FAILED: %s\n' "${wrong[@]}"
echo "$passed passed, $failed failed, $skipped skipped"
[ "$failed" -eq 0 ]
