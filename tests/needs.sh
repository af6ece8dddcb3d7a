#!/usr/bin/env bash
# Whoever can't build here learns why and what to do, before anything is compiled: on another
# system, without the kit, with a kit of another logic, and without room on the disk. `make setup`
# installs the packages that tests need, and names those that it can't. `uname`, `rt`, `df` and what
# installs are stand-ins that come first on the path.
set -uo pipefail
. "$(dirname "$0")/common.bash"
room=$(mktemp -d)
trap 'rm -rf "$room"' EXIT

# stand_in PROGRAM LINE..: the first on the path prints these lines from now on
stand_in() {
  local name=$1
  shift
  {
    echo '#!/bin/sh'
    printf "echo '%s'\n" "$@"
  } > "$room/bin/$name"
  chmod +x "$room/bin/$name"
}

# says STATUS TEXT COMMAND..: the command ends so and prints the text on standard error
says() {
  local want=$1 text=$2 status
  shift 2
  PATH=$room/bin:$PATH "$@" > "$room/out" 2> "$room/err"
  status=$?
  [ "$status" -eq "$want" ] || fail "status $status, not $want"
  [ -z "$text" ] || grep -qF -- "$text" "$room/err" || fail "doesn't say '$text': $(cat "$room/out" "$room/err")"
}

new_stand_ins() {
  rm -rf "${room:?}/bin"
  mkdir "$room/bin"
  stand_in uname 'Linux x86_64'
  stand_in rt "$(grep -oE -m 1 'rattle-kit-[^ ]+ logic [0-9a-f]+' README.md)"
  stand_in df ' Avail' '99000M'
}

# says_nothing COMMAND..: the command ends with status 0 and an empty standard error
says_nothing() {
  says 0 '' "$@"
  [ ! -s "$room/err" ] || fail "says: $(cat "$room/err")"
}

# In a copy, since a build beside this script fills the directories of the tree.
mkdir "$room/copy"
tar -c --exclude=.git --exclude=out --exclude=dist . | tar -x -C "$room/copy"

row='all is there'
new_stand_ins
says_nothing bash "$room/copy/packaging/needs.sh" 1

row='another system'
stand_in uname 'Darwin arm64'
says 1 'Tibzharuk needs Linux on x86-64, and this is Darwin arm64.' bash packaging/needs.sh

row='no kit'
new_stand_ins
printf '#!/bin/sh\nexit 127\n' > "$room/bin/rt"
says 1 "The Rattle kit is missing: its command 'rt' must be on the path." bash packaging/needs.sh

row='a kit of another logic'
new_stand_ins
stand_in rt 'rattle-kit-9x logic 00ff'
says 0 'This kit is rattle-kit-9x logic 00ff; the crates were proved with rattle-kit-' bash packaging/needs.sh

mkdir "$room/copy/crates/fq_text/out"
row='a build beside it removes a file that is measured'
new_stand_ins
printf '#!/bin/sh\necho 5 crates\necho cannot access >&2\nexit 1\n' > "$room/bin/du"
chmod +x "$room/bin/du"
says_nothing bash "$room/copy/packaging/needs.sh" 1

head -c 5000000 /dev/urandom > "$room/copy/crates/fq_text/out/built" # counts as 5 MB
sync "$room/copy/crates/fq_text/out/built"
new_stand_ins
stand_in df ' Avail' '12M'
row='a full disk'
says 1 "Only 17 MB are free in $room/copy, and this needs 1000 GB. Free some, or clone the repository on a larger disk." \
  bash "$room/copy/packaging/needs.sh" 1000
row='a full disk that has the temporary files too'
says 1 "Only 17 MB are free in $room/copy, and this needs 1000 GB." \
  env TMPDIR="$room" bash "$room/copy/packaging/needs.sh" 600 400
row='no room for temporary files'
if [ "$(stat -c %d /dev/shm)" = "$(stat -c %d "$room")" ]; then
  echo "needs: $row: skipped: /dev/shm is on the disk of TMPDIR"
else
  says 1 'Only 12 MB are free in /dev/shm, and this needs 1000 GB. Free some, or set TMPDIR to a directory on a larger disk.' \
    env TMPDIR=/dev/shm bash "$room/copy/packaging/needs.sh" 0 1000
fi
rm -r "$room/copy/crates/fq_text/out"

# In a copy that isn't built each of these ends at once.
new_stand_ins
stand_in uname 'Linux aarch64'
for target in run build try install; do
  row="make $target on another system"
  says 2 'Tibzharuk needs Linux on x86-64, and this is Linux aarch64.' make -C "$room/copy" "$target" PREFIX="$room/prefix"
  [ -z "$(find "$room/copy/crates" -name out)" ] || fail 'something was compiled'
done
row='packages for a user'
new_stand_ins
stand_in id 1000
printf '#!/bin/sh\n[ ! -e "%s/installed" ] || echo installed\n' "$room" > "$room/bin/dpkg-query"
printf '#!/bin/sh\necho "$*" >> "%s/sudo"\ncase $* in *" install "*) touch "%s/installed" ;; esac\n' "$room" "$room" > "$room/bin/sudo"
chmod +x "$room/bin/dpkg-query" "$room/bin/sudo"
says_nothing make -C "$room/copy" setup
grep -qF "Installs $(paste -sd ' ' tests/packages)" "$room/out" || fail "doesn't say what it installs: $(cat "$room/out")"
[ "$(grep -c 'apt-get .* install -y .* zsh$' "$room/sudo")" = 1 ] || fail "sudo was called for $(cat "$room/sudo")"
says_nothing make -C "$room/copy" setup
grep -qF 'All packages of tests/packages are installed.' "$room/out" || fail "another call says $(cat "$room/out")"

row='packages that are not known'
rm "$room/installed"
printf '#!/bin/sh\ncase $* in *" install "*) exit 100 ;; esac\n' > "$room/bin/sudo"
says 2 "setup: these are not installed: $(paste -sd ' ' tests/packages)" make -C "$room/copy" setup
finish 'each lack is named, with what to do'
