#!/usr/bin/env bash
# Runs a command of `rt`, and shows how far it is: a line for each crate when it is done, in place
# of a line for each function. What was not proved is printed in full. The status is that of the
# command.
set -euo pipefail

if [ $# -eq 0 ] || [ "$1" = --help ]; then
  echo "usage: packaging/progress.sh COMMAND..
Runs COMMAND (such as: rt all check) and prints a line for each crate that it has proved."
  exit 0
fi

log=$(mktemp)
trap 'rm -f "$log"' EXIT
crate=         # the crate whose lines come
proved=0       # its lines so far
begun=$SECONDS # when the crate before was done

# Overwrites one line on a terminal, and prints nothing into a log.
tell() {
  if [ -t 1 ]; then printf '\r\033[K%s' "$1"; fi
}

# Ends the lines of a crate with this text.
end_crate() {
  if [ -n "$crate" ]; then
    tell ''
    echo "$crate: $1"
  fi
  crate=
}

# Ends the lines of a crate with this text and the time since the crate before was done.
end_timed() {
  end_crate "$1 ($((SECONDS - begun)) s)"
  begun=$SECONDS
}

begin_crate() {
  crate=$1
  proved=0
}

# Takes a line of the command: what is proved is counted.
take() {
  local line=$1 name
  case $line in
    '== '*)
      end_crate 'nothing to prove'
      if [ "$line" != '== summary' ]; then begin_crate "${line#== }"; fi
      ;;
    'fn '*': proved'* | 'struct '*': proved'* | 'enum '*': proved'* | 'impl '*': proved'* | 'trait '*': proved'*)
      name=${line#* }
      name=${name%%::*}
      if [ "$name" != "$crate" ]; then begin_crate "$name"; fi
      proved=$((proved + 1))
      tell "$crate: $proved .."
      ;;
    logic=proved*)
      name=${line#*functions=}
      end_timed "${name%% *} functions proved"
      ;;
    logic=*) end_timed 'NOT PROVED' ;;
  esac
}

# Takes all lines and keeps them in the log. A crate that is proved only because others need it
# prints nothing until it is done, so each minute without a line is reported.
show() {
  local line part='' status
  while true; do
    status=0
    IFS= read -r -t 60 line || status=$?
    part=$part$line
    if [ "$status" -gt 128 ]; then
      tell ''
      echo "still proving (${crate:+$crate, }$((SECONDS - begun)) s)"
    else
      if [ -n "$part" ] || [ "$status" -eq 0 ]; then
        printf '%s\n' "$part" >> "$log"
        take "$part"
      fi
      part=
      if [ "$status" -ne 0 ]; then return; fi
    fi
  done
}

status=0
"$@" 2>&1 | show || status=${PIPESTATUS[0]}
if [ "$status" -ne 0 ]; then
  grep -vE '^(fn|struct|enum|impl|trait) .*: proved(,.*)?$|^(so far:|statements|by-macro|axioms|logic |crate )' "$log" || true
  echo "failed with status $status: $*"
fi
exit "$status"
