#!/usr/bin/env bash
# Proves the program and every crate below it, and leaves the program at crates/fq_prog/out/fq_prog.
# The crates that depend on each other are proved here, one after the other. Those that can be
# proved beside them are, at the same time, in copies of the sources: rt shares what the checkouts on
# a machine have proved of the same files, so each takes from the others what it needs.
set -uo pipefail
cd "$(dirname "$0")/.." || exit 1

if [ "${1-}" = --help ]; then
  echo "usage: packaging/build.sh
Prints a line for each crate that is proved, and at last the SHA-256 of the program. If a proof
fails, prints the goals that are open, and ends with status 1. JOBS is how many proofs run at a time
in the crates of the longest chain (default: one for each processor; with less than 16 GB of memory
rt decides)."
  exit
fi

# In each list a crate comes after those that it depends on. What is beside the chain is in the chain
# too, but proved by then. 'after:CRATE' waits until the chain has proved that crate.
chain=(fq_text fq_trim fq_pair fq_report_reads fq_report_pairs fq_lane fq_run_core fq_block fq_work fq_run fq_app_words fq_files fq_report fq_law_in_step fq_app_files fq_app_reasons fq_app)
threads=(fq_lane after:fq_text fq_files after:fq_pair fq_app_words fq_block after:fq_report_pairs fq_work)
reports=(after:fq_trim fq_report_reads after:fq_report_pairs fq_report after:fq_run_core fq_app_files fq_app_reasons)
processors=$(nproc)
jobs=(--jobs "${JOBS:-$processors}")
report_jobs=$((processors - 1))
if [ "$(awk '/^MemTotal:/ { print $2 }' /proc/meminfo)" -lt $((15 * 1048576)) ]; then
  jobs=(${JOBS:+--jobs "$JOBS"})
  report_jobs=1
fi

# Each command runs in a process group of its own, so that nothing of it goes on after a signal.
set -m
room=$(mktemp -d)
helpers=()
clean_up() {
  stop_jobs
  rm -rf "$room"
}
trap clean_up EXIT
. packaging/jobs.bash

# shown LOG: what rt printed, without the lines of what is proved
shown() {
  grep -vE '^(fn|struct|enum|impl|trait) .*: proved(,.*)?$|^(so far:|statements|by-macro|axioms|logic |crate )' "$1"
}

# prove COPY CRATE COMMAND..: runs the command in the crate of a copy, and says how long it took
prove() {
  local crate=$2 folder=$1/crates/$2 log=$room/log.$2.${1//\//_} begun=$SECONDS functions
  shift 2
  (cd "$folder" && exec "$@") > "$log" 2>&1 &
  if ! wait "$!"; then
    echo "$crate: NOT PROVED
$(shown "$log")"
    return 1
  fi
  functions=$(sed -n 's/^logic=proved functions=\([0-9]*\) .*/\1/p' "$log" | tail -n 1)
  # Without a number of functions it was proved before.
  if [ -n "$functions" ]; then echo "$crate: $functions functions proved ($((SECONDS - begun)) s)"; fi
}

# beside COUNT NICENESS WORDS..: proves these crates in a copy, in the background, with COUNT jobs
beside() {
  local count=$1 niceness=$2 word copy=$room/copy${#helpers[@]}
  shift 2
  mkdir "$copy" "$copy/.git"
  tar -c --exclude=out --exclude=must-fail --exclude=wrong-bodies.edits crates crates.txt HANDLES | tar -x -C "$copy"
  (
    set +m # all in the group of this helper
    for word; do
      case $word in
        after:*) until [ -e "$room/${word#after:}" ]; do sleep 1; done ;;
        *)
          if ! prove "$copy" "$word" nice -n "$niceness" rt lib --jobs "$count"; then
            echo "$word" > "$room/failed"
            exit 1
          fi
          ;;
      esac
    done
  ) &
  helpers+=($!)
}

# Ends the build when what is proved beside the chain has failed.
not_built() {
  if [ -e "$room/failed" ]; then echo "Not built: $(cat "$room/failed") is NOT PROVED, see above"; fi
  exit 1
}

echo "Proves ${#chain[@]} libraries and the program: 11 to 37 minutes on four processors, if nothing is kept of earlier builds."
# What reports need takes as long as what the chain proves at the same time. For the threads' crates
# the chain doesn't wait, so they must not slow it down.
if [ "$processors" -ge 4 ]; then
  beside 1 10 "${threads[@]}" fq_law_in_step
  beside "$report_jobs" 0 "${reports[@]}"
else
  beside 1 0 "${threads[@]}" "${reports[@]}" fq_law_in_step
fi
for crate in "${chain[@]}"; do
  [ ! -e "$room/failed" ] || not_built
  prove "$PWD" "$crate" rt lib "${jobs[@]}" || exit 1
  : > "$room/$crate"
done
for helper in "${helpers[@]}"; do wait "$helper" || not_built; done
prove "$PWD" fq_prog rt run "${jobs[@]}" -- EXAMPLE || exit 1
# What the proof rests on, for tests/documents.sh. A program that was proved before says nothing.
if grep '^logic=proved ' "$room/log.fq_prog.${PWD//\//_}" > "$room/proof"; then
  tail -n 1 "$room/proof" > crates/fq_prog/out/proof
fi
sha256sum crates/fq_prog/out/fq_prog
