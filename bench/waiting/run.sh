#!/usr/bin/env bash
# Prints what the built program's threads use of the processor while it waits, and how often they
# wake: for its input, for the reader of an output, and for the rest of an input after a failed
# write. Each wait is as long as asked for. No time fails.
#
#     bench/waiting/run.sh [--seconds N] [--program PATH]
#
#     --seconds N      how long each stall lasts (3)
#     --program PATH   the program that is measured (crates/fq_prog/out/fq_prog)
#     --help
#
# Needs /dev/full and the scheduler's statistics in /proc. Files are in a directory of their own
# below TMPDIR, which is removed.
set -euo pipefail
export LC_ALL=C

here=$(cd "$(dirname "$0")" && pwd)
program=$here/../../crates/fq_prog/out/fq_prog
seconds=3

stop() {
  echo "bench: $*" >&2
  exit 1
}

while [ $# -gt 0 ]; do
  case $1 in
    --seconds)
      seconds=${2:?}
      shift 2
      ;;
    --program)
      program=${2:?}
      shift 2
      ;;
    --help)
      awk 'NR > 1 && !/^#/ { exit } NR > 1 { sub(/^# ?/, ""); print }' "$0"
      exit
      ;;
    *) stop "unknown option $1" ;;
  esac
done
program=$(realpath "$program")
[ -x "$program" ] || stop "no program at $program (make build)"
[ -r /proc/self/schedstat ] || stop "the system has no /proc/self/schedstat"

folder=$(mktemp -d)
trap 'rm -rf "$folder"' EXIT
cd "$folder"

# 20,000 pairs of 100 bases, some 9 MB: more than lanes and pipes hold.
draw() {
  awk 'BEGIN { for (i = 0; i < 100; i++) { bases = bases "A"; scores = scores "I" }
                 for (i = 1; i <= 20000; i++) printf "@p%d\n%s\n+\n%s\n", i, bases, scores }'
}
draw > reads.fq
mkfifo forward reverse output

# Nanoseconds on a processor, and times woken, of all threads of a process.
used_by() {
  cat "/proc/$1"/task/*/schedstat | awk '{ sum += $1; woken += $3 } END { print sum, woken }'
}

# Prints what a process used while nothing moved. It has settled when this begins.
watch() { # what it waits for, process
  local before after
  sleep 1
  before=$(used_by "$2")
  sleep "$seconds"
  after=$(used_by "$2")
  echo "$1 $before $after" | awk -v seconds="$seconds" '
        { printf "| %s | %.2f | %.0f |\n", $1, ($4 - $2) / 1e6 / seconds, ($5 - $3) / seconds }' | tr _ ' '
}

# Becomes the program, so it is for the background alone.
trim() { # forward paired output
  exec "$program" PE --block 100 forward reverse "$1" fu rp ru MINLEN:1 > /dev/null 2>&1
}

echo "| Waiting for | Processor milliseconds a second | Wakes a second |"
echo "|---|---|---|"

# Half of the input comes, and then nothing for a while.
trim fp &
process=$!
exec 7> forward 8> reverse
head -n 40000 reads.fq >&7 &
head -n 40000 reads.fq >&8
watch the_input "$process"
exec 7>&- 8>&-
wait "$process" || true

# Nothing reads the paired forward output.
cat reads.fq > forward &
cat reads.fq > reverse &
trim output &
process=$!
exec 9< output
watch the_reader_of_an_output "$process"
cat <&9 > /dev/null
exec 9<&-
wait "$process" || true

# The write has failed, and the input stays open.
trim /dev/full &
process=$!
exec 7> forward 8> reverse
head -n 40000 reads.fq >&7 &
head -n 40000 reads.fq >&8
watch the_input_after_a_failed_write "$process"
exec 7>&- 8>&-
wait "$process" || true
