#!/usr/bin/env bash
# Fails the wait for the disk of each output in turn, and of a report, as a network file system may
# do at the end of a run although it accepted all writes. The program must name that output and
# print no summary. It waits once for each output, in order, and for the report last, if the device
# of the files is not a block device, and everywhere with --sync. On a disk without --sync it does
# not wait. A kind of directory that the machine lacks is skipped.
# tibzharuk trim waits for each of its outputs, too, before any of them gets its name.
set -uo pipefail
. "$(dirname "$0")/common.bash"

find_program
room=$(mktemp -d)
rooms=("$room")
trap 'rm -rf "${rooms[@]}"' EXIT

compile_library tests/late_errors/fail_sync.c "$room/fail_sync.so"

# has_disk DIRECTORY: whether the directory is on a block device, by the major number of its device.
has_disk() {
  local device
  device=$(stat -c %d -- "$1")
  [ $(((device >> 8 & 0xfff) | (device >> 32 & ~0xfff))) -ne 0 ]
}

# enter DIRECTORY: goes to a new directory there that has the inputs.
enter() {
  local new
  new=$(mktemp -d "$1/late_errors.XXXXXX") || exit 2
  rooms+=("$new")
  cd "$new" || exit 2
  printf '@p1/1\nACGT\n+\n#!II\n' > f
  printf '@p1/2\nTTTT\n+\nIIII\n' > r
  cat f r > i
}

# expect NUMBER STATUS LINE WORDS..: how this call ends if the wait of this number fails.
expect() {
  local number=$1 wanted=$2 line=$3 said status
  shift 3
  said=$(timeout 60 env FAILED_SYNC="$number" LD_PRELOAD="$room/fail_sync.so" "$program" "$@" 2> err)
  status=$?
  if [ $status -ne "$wanted" ] || [ "$(cat err)" != "$line" ] || { [ "$wanted" -ne 0 ] && [ -n "$said" ]; }; then
    echo "WRONG: in $PWD, $*, wait $number: status $status, '$(cat err)', printed '$said'"
    failed=1
  fi
}

outputs=('forward paired' 'forward unpaired' 'reverse paired' 'reverse unpaired' 'trim log')

# each_fails WORDS..: each wait of this call fails in turn, those of `outputs` in their order, and
# there is no other wait.
each_fails() {
  local number=0 output
  for output in "${outputs[@]}"; do
    number=$((number + 1))
    expect $number 4 "write failed: $output" "$@"
  done
  expect $((number + 1)) 0 '' "$@"
}

# all_fail [OPTION]: each wait of calls with this option fails in turn: with two texts, with a
# report too, and with an interleaved text.
all_fail() {
  each_fails PE "$@" --trimlog log f r fp fu rp ru LEADING:3
  each_fails IL "$@" --trimlog log i fp fu rp ru LEADING:3
  outputs+=(report)
  each_fails PE "$@" --trimlog log --report report f r fp fu rp ru LEADING:3
  unset 'outputs[-1]'
}

disk='' other=''
for folder in "${TMPDIR:-/tmp}" /var/tmp /dev/shm "$PWD" "${HOME-}"; do
  if ! { [ -d "$folder" ] && [ -w "$folder" ]; }; then continue; fi
  if has_disk "$folder"; then disk=${disk:-$folder}; else other=${other:-$folder}; fi
done
if [ -n "$other" ]; then
  enter "$other"
  all_fail
  all_fail --sync
else
  echo "late_errors: skipped: no directory without a block device"
fi
if [ -n "$disk" ]; then
  enter "$disk"
  all_fail --sync
  # Without --sync the call waits for nothing: its first wait would have failed.
  expect 1 0 '' PE --trimlog log --report report f r fp fu rp ru LEADING:3
else
  echo "late_errors: skipped: no directory on a disk"
fi

row='tibzharuk trim'
enter "${disk:-$other}"
outputs=(p1 u1 p2 u2 log)
for number in 1 2 3 4 5; do
  echo old > p1
  said=$(FAILED_SYNC=$number LD_PRELOAD="$room/fail_sync.so" "$tibzharuk" trim --program "$program" -1 f -2 r --paired1 p1 \
    --unpaired1 u1 --paired2 p2 --unpaired2 u2 --trimlog log LEADING:3 2>&1)
  status=$?
  [ "$status: $said" = "4: tibzharuk: cannot write ${outputs[number - 1]}: Input/output error" ] || fail "wait $number: status $status, '$said'"
  [ "$(ls -A) $(cat p1)" = $'f\ni\np1\nr old' ] || fail "wait $number leaves $(ls -A)"
done
finish ok
