#!/usr/bin/env bash
# A build that fails says which proof is open, and proves no further crate. `make test` runs the unit
# tests and each script once, from nothing and over a built program. `make build`, `make test` or
# `make run` that is interrupted says nothing more, and leaves nothing that runs on and no temporary
# file. `rt`, `df` and the scripts of tests/ are stand-ins, in a copy of the tree.
set -uo pipefail
. "$(dirname "$0")/common.bash"
room=$(mktemp -d)
trap 'rm -rf "$room"' EXIT
export STAND_INS_BEGUN=$room/begun
unset MAKELEVEL MAKEFLAGS MFLAGS # also if this runs in a `make test`
mkdir "$room/bin" "$room/copy"
tar -c --exclude=.git --exclude=out --exclude=dist . | tar -x -C "$room/copy"

# Doesn't prove the crate REFUSED. With SLOW nothing ends by itself.
cat > "$room/bin/rt" << 'STAND_IN'
#!/usr/bin/env bash
if [ "$1" = version ]; then
  grep -oE -m 1 'rattle-kit-[^ ]+ logic [0-9a-f]+' README.md
  exit
fi
crate=${PWD##*/}
echo "$$ $crate" >> "$STAND_INS_BEGUN"
trap 'exit 130' INT
if [ -n "${SLOW-}" ]; then sleep 300; fi
sleep 0.1
printf 'so far: 1 of 2 functions checked\nfn %s::f: proved, may wait\n' "$crate"
if [ "$crate" = "${REFUSED-}" ]; then
  printf 'fn %s::g: not proved\nlogic=not-proved\n' "$crate"
  exit 1
fi
case $1 in
  run)
    mkdir -p out
    echo "$crate" | tee "out/$crate" > "out/$crate.o"
    ;;
  try) printf '2 rows passed\ntest result: ok. 2 passed; 0 failed;\n' ;;
esac
echo 'logic=proved functions=2 in all'
STAND_IN
cat > "$room/script" << 'STAND_IN'
echo "$$ ${0##*/}" >> "$STAND_INS_BEGUN"
if [ -n "${SLOW-}" ]; then exec sleep 300; fi
STAND_IN
printf '#!/bin/sh\necho 99000M\n' > "$room/bin/df"
chmod +x "$room/bin/rt" "$room/bin/df"
for script in "$room/copy/tests"/*.sh; do
  [ "${script##*/}" = all.sh ] || cp "$room/script" "$script"
done

# have_begun NAME..: these crates and scripts were begun
have_begun() {
  local name
  for name; do grep -qx "[0-9]* $name" "$room/begun" || return; done
}

# made STATUS COMMAND..: runs it in the copy, and keeps what it prints. It begins from nothing unless
# `over_build` is set. If there are names in `interrupted`, nothing ends by itself. Once these have
# begun, all processes get what Ctrl-C sends, or the first one alone the signal `stopped_by`.
interrupted=()
over_build=
stopped_by=
made() {
  local want=$1 group status alive
  shift
  [ -n "$over_build" ] || rm -rf "$room/copy/crates"/*/out
  rm -rf "$room/begun" "$room/temporary"
  mkdir "$room/temporary"
  touch "$room/begun"
  set -m
  PATH=$room/bin:$PATH TMPDIR=$room/temporary SLOW=${interrupted[*]} env --default-signal=INT "$@" > "$room/said" 2>&1 < /dev/null &
  group=$!
  set +m
  if [ "${#interrupted[@]}" -gt 0 ]; then
    for _ in {1..2400}; do
      ! have_begun "${interrupted[@]}" || break
      sleep 0.05
    done
    have_begun "${interrupted[@]}" || fail "these have begun, and no others: $(cat "$room/begun")"
    if [ -n "$stopped_by" ]; then kill -s "$stopped_by" "$group"; else kill -INT -- "-$group"; fi
  fi
  wait "$group"
  status=$?
  # GNU make 4.3 ends so in 2 of 300 interrupted calls of a rule that only sleeps.
  if [ "${#interrupted[@]}" -gt 0 ] && grep -qxF 'make: *** wait: No child processes.  Stop.' "$room/said"; then status=130; fi
  [ "$status" -eq "$want" ] || fail "status $status, not $want: $(cat "$room/said")"
  alive=$(ps -o stat=,args= -p "$(cut -d ' ' -f 1 "$room/begun" | paste -sd,)" | grep -v '^Z')
  [ -z "$alive" ] || fail "runs on: $alive"
  [ -z "$(ls -A "$room/temporary")" ] || fail 'leaves temporary files'
}

# says LINE: it is a whole line of what was printed
says() {
  grep -qxF -- "$1" "$room/said" || fail "doesn't say '$1': $(cat "$room/said")"
}

# silent TEXT..: nothing printed has such a text
silent() {
  local text
  for text; do
    if grep -qF -- "$text" "$room/said"; then fail "says '$text': $(cat "$room/said")"; fi
  done
}

# tests_all: `make test` passes, has begun each script once, and counts these and the unit tests
tests_all() {
  local scripts
  made 0 make -C "$room/copy" test
  scripts=$(cd "$room/copy/tests" && printf '%s\n' *.sh | grep -vx all.sh)
  diff <(echo "$scripts") <(grep -oE '[^ ]+\.sh$' "$room/begun" | sort) || fail 'each script is not begun once'
  says "$(($(wc -l <<< "$scripts") + 2 * $(grep -c ' passed (nothing proved, ' "$room/said"))) passed, 0 failed, 0 skipped"
}

row='every crate is proved'
made 0 make -C "$room/copy" build
grep -qx 'fq_text: 2 functions proved ([0-9]* s)' "$room/said" || fail "no line of fq_text: $(cat "$room/said")"
says "$(cd "$room/copy" && sha256sum crates/fq_prog/out/fq_prog)"
silent 'so far' '::f'

row='a crate that others wait for is refused'
made 2 env REFUSED=fq_trim make -C "$room/copy" build
says 'fq_trim: NOT PROVED'
says 'fn fq_trim::g: not proved'
silent 'so far' '::f' Terminated
if have_begun fq_pair; then fail 'a crate above it was begun'; fi

row='a crate that is proved beside them is refused'
made 2 env REFUSED=fq_lane make -C "$room/copy" build
says 'fn fq_lane::g: not proved'
says 'Not built: fq_lane is NOT PROVED, see above'
silent 'so far' '::f' Terminated
if have_begun fq_run; then fail 'the build went on'; fi

row='make test from nothing'
tests_all
have_begun fq_prog || fail 'nothing is built'

row='make test over a built program'
over_build=yes tests_all
if have_begun fq_prog; then fail 'the program is built again'; fi

row='make build is interrupted'
interrupted=(fq_text fq_lane)
made 130 make -C "$room/copy" build
silent Terminated

row='make test is interrupted'
interrupted=(fq_text fq_lane fq_test_text must_not_compile.sh)
made 130 make -C "$room/copy" test
silent Terminated

row='make test is terminated'
stopped_by=TERM made 143 make -C "$room/copy" test

row='make run is interrupted'
interrupted=(fq_prog)
made 130 make -C "$room/copy" run
silent 'The run failed'

finish 'nothing runs on, and what is open is named'
