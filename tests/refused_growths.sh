#!/usr/bin/env bash
# Refuses each memory growth in turn of a run on one thread, and then of a run with two workers,
# until a run meets no refusal. Then the same with runs over an interleaved text.
# Such a run may end because memory was refused, by a failed write (a growth of an outlet) or by a
# refused thread, but never as if nothing had been refused. Its outputs must be those of the first
# pairs. The program fq_test_rows, called with `judge`, runs and checks that.
#
# Then each thread of the runs with two workers is refused in turn. The run must report that and
# write nothing. Its feeds are lost if the reading thread was refused, and otherwise come back
# unread.
#
# It needs cc, or uses the kit's own compiler. ROUNDS, 3 if not set, is how often each growth is
# refused to the run with two workers, whose growths come in another order each time.
set -uo pipefail
. "$(dirname "$0")/common.bash"

here=$tree/tests/refused_growths
rounds=${ROUNDS:-3}
room=$(mktemp -d)
trap 'rm -rf "$room"' EXIT

need_proved crates/fq_test_rows/out/fq_test_rows
program=$tree/crates/fq_test_rows/out/fq_test_rows

for source in refuse refuse_thread; do
  compile_library "$here/$source.c" "$room/$source.so"
done

# try NUMBER WAY: runs once. Sets said to what the run printed, and refused to whether the run met
# the refusal.
try() {
  local words status
  read -ra words <<< "$2"
  said=$(timeout 60 env REFUSED_GROWTH="$1" LD_PRELOAD="$room/refuse.so" "$program" judge "${words[@]}" 2>&1 9> "$room/refused")
  status=$?
  refused=$(cat "$room/refused")
  if [ $status -ne 0 ] || { [ -n "$refused" ] && [ "$said" = Whole ]; } || { [ -z "$refused" ] && [ "$said" != Whole ]; }; then
    echo "WRONG: growth $1, ${2:-serial}: status $status, '$said', ${refused:-nothing refused}"
    failed=1
  fi
}

# sweep WAY: refuses each growth in turn, and prints how the runs ended.
sweep() {
  local number
  : > "$room/said"
  for number in $(seq 10000); do
    try "$number" "$1"
    if [ $failed -ne 0 ] || [ -z "$refused" ]; then
      break
    fi
    echo "${said%%(*}" >> "$room/said"
  done
  if [ $failed -eq 0 ] && { [ -n "$refused" ] || ! grep -q Memory "$room/said" || ! grep -q Write "$room/said"; }; then
    echo "WRONG: ${1:-serial}: not every growth was refused"
    failed=1
  fi
  echo "${1:-serial}: $(wc -l < "$room/said") growths refused: $(sort "$room/said" | uniq -c | tr -s ' \n' ' ')"
}

# refuse_threads WAY: refuses each of the three threads in turn, and then none.
refuse_threads() {
  local wanted number=1 words
  read -ra words <<< "$1"
  for wanted in 'Spawn(Lost)' 'Spawn(Unread)' 'Spawn(Unread)' Whole; do
    said=$(timeout 60 env REFUSED_THREAD="$number" LD_PRELOAD="$room/refuse_thread.so" "$program" judge "${words[@]}" 2>&1)
    if [ "$said" != "$wanted" ]; then
      echo "WRONG: thread $number, $1: '$said' and not '$wanted'"
      failed=1
    fi
    number=$((number + 1))
  done
  echo "$1: each thread refused"
}

sweep ''
sweep interleaved
for _ in $(seq "$rounds"); do
  sweep threads
  sweep 'threads interleaved'
done
refuse_threads threads
refuse_threads 'threads interleaved'
finish ok
