#!/usr/bin/env bash
# Checks that crates can be compiled here, and says what to do if they can't.
set -uo pipefail
cd "$(dirname "$0")/.." || exit 1

if [ "${1-}" = --help ]; then
  echo "usage: packaging/needs.sh [GIGABYTES [TEMPORARY]]
Ends with status 1 and a line on standard error if this machine isn't Linux on x86-64, if the Rattle
kit is missing, or if fewer than GIGABYTES are free here, or TEMPORARY in the directory for
temporary files; if both are on one disk, it needs their sum. If the kit has another logic than the
one in README.md, it only prints a line."
  exit
fi

refuse() {
  printf '%s\n' "$@" >&2
  exit 1
}

system=$(uname -sm)
[ "$system" = 'Linux x86_64' ] || refuse "Tibzharuk needs Linux on x86-64, and this is $system. It can't be built or run here."

kit=$(rt version 2> /dev/null) ||
  refuse "The Rattle kit is missing: its command 'rt' must be on the path." "If it is installed, put the directory of 'rt' on the path: export PATH=/its/directory:\$PATH"
proved=$(grep -oE -m 1 'rattle-kit-[^ ]+ logic [0-9a-f]+' README.md)
[ "${kit##* }" = "${proved##* }" ] ||
  echo "This kit is $kit; the crates were proved with $proved. If something isn't proved here, use that kit." >&2

# room DIRECTORY MEGABYTES LEFT WHAT-TO-DO: refuses if the disk has less room, with what is LEFT there
room() {
  local free=$(($(df --output=avail -BM "$1" | tail -n 1 | tr -dc 0-9) + $3))
  [ "$free" -ge "$2" ] ||
    refuse "Only $free MB are free in $1, and this needs $(($2 / 1024)) GB. Free some, or $4 on a larger disk."
}

folder=${TMPDIR:-/tmp}
here=$((1024 * ${1:-0}))
temporary=$((1024 * ${2:-0}))
if [ "$(stat -c %d .)" = "$(stat -c %d "$folder")" ]; then
  here=$((here + temporary))
  temporary=0
fi
if [ "$here" -gt 0 ]; then
  # What earlier builds left is used again, so it counts as free. A build beside this may remove
  # files that du is about to read.
  left=$(find crates -maxdepth 2 -name out -exec du -sm {} + 2> /dev/null | awk '{ sum += $1 } END { print sum + 0 }')
  room "$PWD" "$here" "$left" 'clone the repository'
fi
if [ "$temporary" -gt 0 ]; then room "$folder" "$temporary" 0 'set TMPDIR to a directory'; fi
