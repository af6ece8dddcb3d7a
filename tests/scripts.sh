#!/usr/bin/env bash
# Each shell script of the repository has no fault that shellcheck finds, and the layout of shfmt.
# Each Python program has no fault that pyflakes finds. A shell script is a file whose first line
# names sh or bash; a Python program is one whose first line names python, or whose name ends in .py.
# Each definition and lemma in crates/ is used by something, and long proofs of one function stand
# with it (tests/unused_lemmas.py).
# Status 77, and 'skipped', if shellcheck is missing.
set -uo pipefail
. "$(dirname "$0")/common.bash"
need shellcheck

files() {
  git ls-files --cached --others --exclude-standard 2> /dev/null || find . -name .git -prune -o -name out -prune -o -type f -printf '%P\n'
}

scripts=()
programs=()
while IFS= read -r file; do
  [ -f "$file" ] || continue
  IFS= read -r first < "$file"
  if [[ $first =~ ^'#!'.*[/\ ]python3( |$) || $file = *.py ]]; then programs+=("$file"); fi
  if [[ $first =~ ^'#!'.*[/\ ](ba)?sh( |$) || $first = '# shellcheck shell=bash'* ]]; then scripts+=("$file"); fi
done < <(files)
[ "${#scripts[@]}" -gt 0 ] || fail 'there are none'
shellcheck -- "${scripts[@]}" || fail 'shellcheck finds faults'
if command -v shfmt > /dev/null; then
  shfmt -d -- "${scripts[@]}" || fail 'shfmt lays them out in another way'
else
  echo 'scripts: the layout: skipped: needs shfmt'
fi
[ "${#programs[@]}" -gt 0 ] || fail 'there is no Python program'
if command -v pyflakes3 > /dev/null; then
  pyflakes3 "${programs[@]}" || fail 'pyflakes finds faults'
else
  echo 'scripts: Python: skipped: needs pyflakes3'
fi
if command -v python3 > /dev/null; then
  python3 tests/unused_lemmas.py || fail 'definitions or lemmas are unused, or stand elsewhere'
else
  echo 'scripts: unused lemmas: skipped: needs python3'
fi
finish ok
