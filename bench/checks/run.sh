#!/usr/bin/env bash
# Times what proves and tests the last commit. Each row has a clone of its own, and a copy of the
# Rattle kit by hard links, so nothing that an earlier run kept makes it shorter. Prints a row as its
# command ends: figures only. For figures like those of docs/GATE.md run nothing beside it.
#
#     bench/checks/run.sh [--processors N] [ROW]..
#
# Rows (all, in this order):
#     run      make run
#     build    make build
#     test     make test from nothing, and again over the program that it built
#     gate     rt ci
#
# Options:
#     --processors N   uses the first N processors alone
#     --help
#
# Needs git, GNU time and taskset. The clone and the copy are below TMPDIR, which must be on the
# kit's disk, with 11 GB free. They are removed; the output of a command that fails is not.
set -euo pipefail
export LC_ALL=C

top=$(cd "$(dirname "$0")/../.." && pwd)
processors=$(nproc)
asked=
limit=()
rows=()
failed=0

stop() {
  echo "bench: $*" >&2
  exit 1
}

while [ $# -gt 0 ]; do
  case $1 in
    --processors)
      asked=${2:?}
      shift 2
      ;;
    --help)
      awk 'NR > 1 && !/^#/ { exit } NR > 1 { sub(/^# ?/, ""); print }' "$0"
      exit
      ;;
    run | build | test | gate)
      rows+=("$1")
      shift
      ;;
    *) stop "unknown argument $1" ;;
  esac
done
[ "${#rows[@]}" -gt 0 ] || rows=(run build test gate)
if [ -n "$asked" ]; then
  [[ $asked =~ ^[1-9][0-9]*$ && $asked -le $processors ]] || stop "--processors is 1 to $processors"
  processors=$asked
  limit=(RT_JOBS="$processors" taskset -c "0-$((processors - 1))")
fi
rt=$(command -v rt) || stop "the Rattle kit's rt is not on the path"
time=$(type -P time) || stop "no GNU time"
kit=$(dirname "$(dirname "$(realpath "$rt")")")

room=$(mktemp -d)
trap 'rm -rf "$room"' EXIT
trap 'exit 130' INT
trap 'exit 143' TERM HUP

# A clone and a copy of the kit that nothing has used
begin_anew() {
  rm -rf "$room/anew"
  mkdir "$room/anew" # rt keeps what passed beside the kit
  cp -al "$kit" "$room/anew/kit" 2> /dev/null || stop "cannot link $kit in $room: set TMPDIR to a directory on its disk"
  git clone -q "$room/commit" "$room/anew/clone"
}

# What the host took of these processors so far, and all of their time
taken_and_all() {
  awk -v last="$((processors - 1))" '/^cpu[0-9]/ && substr($1, 4) <= last + 0 {
    taken += $9; for (i = 2; i <= 9; i++) all += $i
  } END { print taken, all }' /proc/stat
}

# measure NOTE COMMAND..: runs the command in the clone, and prints its row
measure() {
  local note=$1 status=0 before after begun result kept program=$room/anew/clone/crates/fq_prog/out/fq_prog
  shift
  before=$(taken_and_all)
  begun=$(date +%s)
  (cd "$room/anew/clone" && exec env PATH="$room/anew/kit/bin:$PATH" "${limit[@]}" "$time" -qf '%e %U %S' -o "$room/time" "$@") \
    > "$room/log" 2>&1 < /dev/null || status=$?
  after=$(taken_and_all)
  result=$(sed -nE '/^[0-9]+ passed, [0-9]+ failed/p' "$room/log" | tail -n 1)
  result=${result:-status $status}
  if [ -e "$program" ] && [ "$(stat -c %Y "$program")" -ge "$begun" ]; then
    result+=", the program after $((($(stat -c %Y "$program") - begun + 30) / 60)) minutes"
  fi
  awk -v label="\`$*\`$note" -v spent="$(cat "$room/time")" -v before="$before" -v after="$after" -v result="$result" 'BEGIN {
    split(spent, s); split(before, b); split(after, a)
    printf "| %s | %.1f | %.1f | %.1f | %s |\n", label, s[1] / 60, (s[2] + s[3]) / 60, 100 * (a[1] - b[1]) / (a[2] - b[2]), result
  }'
  if [ "$status" -ne 0 ]; then
    failed=1
    kept=$(mktemp)
    mv "$room/log" "$kept"
    tail -n 20 "$kept" >&2
    echo "bench: its whole output is in $kept" >&2
  fi
}

git clone -q --bare "$top" "$room/commit"
echo "$(git -C "$room/commit" log -1 --format=%h), $(rt version), $(date -u +%F), $processors processors:$(sed -nE 's/^model name\s*:/ /p' /proc/cpuinfo | head -n 1 | tr -s ' ')"
echo
echo '| Command | Minutes | Processor minutes | Taken by the host, % | Result |'
echo '|---|---|---|---|---|'
for row in "${rows[@]}"; do
  begin_anew
  case $row in
    run) measure '' make run ;;
    build) measure '' make build ;;
    test)
      measure ', from nothing' make test
      measure ', over the built program' make test
      ;;
    gate) measure '' rt ci ;;
  esac
done
exit "$failed"
