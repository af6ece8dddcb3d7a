#!/usr/bin/env bash
# Runs the tests of a lane between two threads, pinned to 1, 2 and 4 processors, as far as the
# machine has them. A lost wake-up shows as a test that does not end.
#
# ROUNDS, 5 if not set, is how often each test runs. SECONDS_EACH, 60 if not set, is the time limit
# of each run.
set -uo pipefail
. "$(dirname "$0")/common.bash"

rounds=${ROUNDS:-5}
seconds=${SECONDS_EACH:-60}
room=$(mktemp -d)
trap 'rm -rf "$room"' EXIT
programs=(crates/fq_lane/out/fq_lane_tests crates/fq_test_lane/out/fq_test_lane_tests)
need_proved "${programs[@]}"
cp "${programs[@]}" "$room/"

# The processors that this shell may run on, one number on each line.
allowed=$(taskset -cp $$ | sed 's/.*: //' | tr ',' '\n' | while IFS=- read -r from to; do seq "$from" "${to:-$from}"; done)
count=$(echo "$allowed" | wc -l)
# A line for each test: its program and its name.
tests=
for program in "${programs[@]##*/}"; do
  found=$("$room/$program" --list | sed -n 's/: test$//p' | grep -E 'waking::|threads|wakes' | sed "s/^/$program /")
  if [ -z "$found" ]; then
    echo "lane_processors: FAILED: no test was found in $program"
    exit 1
  fi
  tests+=$found$'\n'
done

ran=0
for pinned in 1 2 4; do
  if [ "$pinned" -gt "$count" ]; then
    echo "$pinned processors: passed over, there are $count"
    continue
  fi
  set=$(echo "$allowed" | head -n "$pinned" | paste -sd,)
  while read -r program name; do
    for round in $(seq "$rounds"); do
      if ! timeout "$seconds" taskset -c "$set" "$room/$program" "$name" < /dev/null > "$room/log" 2>&1; then
        echo "FAILED on processors $set, round $round: $name"
        tail -n 5 "$room/log"
        failed=1
        break
      fi
      ran=$((ran + 1))
    done
  done <<< "${tests%$'\n'}"
  echo "$pinned processors ($set): done"
done

finish "ok, $ran runs"
