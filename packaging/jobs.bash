# shellcheck shell=bash
# For a script whose jobs have process groups of their own (`set -m`): none goes on after the script
# has ended. The script calls `stop_jobs` when it exits.

# stop_jobs: ends all jobs, and waits until nothing of them runs, but for 10 seconds at most
stop_jobs() {
  local group groups until=$((SECONDS + 10))
  mapfile -t groups < <(jobs -p)
  for group in "${groups[@]}"; do kill -- "-$group" 2> /dev/null; done
  # bash would print the source of what was stopped.
  for group in "${groups[@]}"; do wait "$group" 2> /dev/null; done
  while [ "$SECONDS" -lt "$until" ] && run_on "${groups[@]}"; do sleep 0.1; done
}

# run_on GROUPS..: whether a process of these groups runs
run_on() {
  ps -A -o pgid=,stat= 2> /dev/null |
    awk -v groups=" $* " '$2 !~ /^Z/ && index(groups, " " $1 " ") { found = 1 } END { exit !found }'
}

# stopped STATUS: ends the script. make passes a signal on, so it may come twice.
stopped() {
  trap '' INT TERM HUP
  exit "$1"
}
trap 'stopped 130' INT
trap 'stopped 143' TERM HUP
