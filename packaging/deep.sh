#!/usr/bin/env bash
# Tries the wrong bodies that aren't part of the gate, those of crates/NAME/wrong-bodies.edits: the
# prover must refuse each. Then `rt plant` makes others, and those that it lets through must be those of
# tests/wrong_bodies/survivors.tsv.
set -euo pipefail
cd "$(dirname "$0")/.."

if [ "${1-}" = --help ]; then
  echo "usage: packaging/deep.sh [CRATE..]
Copies the crates, makes a file in crates/CRATE/must-fail/ of the copy of each edit in
crates/CRATE/wrong-bodies.edits, and runs 'rt ci CRATE..' there. Then it runs 'rt plant' in each crate, for at most PLANT_MINUTES
(default: 60), and compares what the contracts let through with tests/wrong_bodies/survivors.tsv.
Without CRATE it does so for every crate that has such edits, and tries the recipes of
CONTRIBUTING.md (tests/rehearsal.sh --try). The last line is 'N wrong bodies refused, M not'.
From kit 13f on, 'rt ci' doesn't prove again what it proved before in any checkout on this machine.
So after a gate only the edits take time (docs/GATE.md says how much). Each refused edit is kept at
once, so after an interruption the next run tries only the others. The 'rt ci' of an older kit
takes no crates. With such a kit 'rt must-fail CRATE..' tries the edits, over a copy of what
'make build' or 'make check' left of the crates below."
  exit
fi

# Whether the kit's 'rt ci' takes the names of crates. If not, it prints its usage.
ci_takes_crates() {
  local said
  mkdir "$room/empty"
  said=$(cd "$room/empty" && rt ci fq_text 2>&1) || true
  [[ $said != 'usage: rt '* ]]
}

room=$(mktemp -d)
trap 'rm -rf "$room"' EXIT

crates_given=$#
if [ $# -gt 0 ]; then
  try=(rt must-fail "$@")
else
  try=(rt ci)
  for edits in crates/*/wrong-bodies.edits; do
    crate=${edits%/wrong-bodies.edits}
    set -- "$@" "${crate#crates/}"
  done
fi
if ci_takes_crates; then
  try=(rt ci "$@")
fi

find crates -name out -prune -o -type f -print0 | xargs -0 cp --parents -t "$room"
cp crates.txt HANDLES "$room"

wanted=() # each edit that must be refused
for crate; do
  if [ ! -f "crates/$crate/wrong-bodies.edits" ]; then
    echo "deep: there is no file crates/$crate/wrong-bodies.edits" >&2
    exit 2
  fi
  folder=$room/crates/$crate/must-fail
  mkdir -p "$folder"
  awk -v folder="$folder" '/^$/ { file = ""; next } file == "" { file = $0; next }
    /^edit: / { edit = folder "/" $2 ".edit"; print file > edit; next } { print > edit }' \
    "crates/$crate/wrong-bodies.edits"
  for edit in "$folder"/*.edit; do wanted+=("$crate/${edit##*/}"); done
done
echo "deep: ${#wanted[@]} wrong bodies of $# crates, including those of the gate"

if [ "${try[1]}" = must-fail ]; then
  find crates -mindepth 2 -maxdepth 2 -name out -exec cp -r --preserve=timestamps --parents -t "$room" {} +
fi
status=0
(cd "$room" && "${try[@]}") | tee "$room/log" || status=$?

# planted CRATE: the table lists each wrong body that rt plant makes, also of private functions, and
# that the contracts of this crate let through: its file, function and body
planted() {
  local said=$room/plant.$1
  if ! (cd "$room/crates/$1" && rt plant --only .rt --max 10000 --minutes "${PLANT_MINUTES:-60}") > "$said"; then
    echo "deep: rt plant fails in $1"
    return 1
  fi
  tail -n 1 "$said"
  sed -nE 's/^(proves|no-ensures) +([^ :]+):[0-9]+ /\2 /p' "$said" | sort > "$said.found"
  awk -F'\t' -v crate="$1" '$1 == crate { print $2 }' tests/wrong_bodies/survivors.tsv | sort > "$said.listed"
  if grep -q ' not-run=0$' "$said"; then
    comm -13 "$said.found" "$said.listed" | sed "s|^|deep: $1 lets this no longer through: |"
  else
    echo "deep: $1: more PLANT_MINUTES would try every plant"
  fi
  ! comm -23 "$said.found" "$said.listed" | sed "s|^|deep: $1 LETS THROUGH: |" | grep .
}

refused=0
for edit in "${wanted[@]}"; do
  if grep -qF "must-fail $edit: refused, as it must be" "$room/log"; then
    refused=$((refused + 1))
  else
    echo "deep: NOT REFUSED, or not tried: $edit"
  fi
done
if [ "$status" -ne 0 ]; then
  echo "deep: '${try[*]}' ended with status $status"
fi
for crate; do planted "$crate" || status=1; done
if [ "$crates_given" -eq 0 ]; then
  bash tests/rehearsal.sh --try || status=1
fi
echo "$refused wrong bodies refused, $((${#wanted[@]} - refused)) not"
[ "$status" -eq 0 ] && [ "$refused" -eq "${#wanted[@]}" ]
