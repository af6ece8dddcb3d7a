#!/usr/bin/env bash
# The recipes of CONTRIBUTING.md, rehearsed. Each patch in tests/rehearsal/ makes the usual change
# that a recipe is about. It applies to a copy of this tree, and all wrong bodies still apply after
# it. Its files are those that the numbered list of the recipe names, below crates/ without that
# directory; a name that ends in / stands for a new file in that directory.
# With --try the crates that the patch names as 'Try: CRATE..' are also tried in the copy, unproved,
# and the scripts that it names as 'Run: tests/NAME.sh..' are run there, with the program of this
# tree or FQ_PROG. This needs the kit, and takes some minutes.
# Status 77 if patch or python3 is missing.
set -uo pipefail
. "$(dirname "$0")/common.bash"
need patch python3
work=$(mktemp -d)
trap 'rm -rf "$work"' EXIT

# The files of a patch, each with '+' if it is new, without crates/.
files_of_patch() {
  awk '/^--- / { new = ($2 == "/dev/null") } /^\+\+\+ / { sub("^b/", "", $2); sub("^crates/", "", $2); print (new ? "+" : "") $2 }' "$1" | sort
}

# The files that the numbered list of the recipe names that is about this patch: paths in backticks.
# shellcheck disable=SC2016  # the backticks are those of the document
files_of_recipe() {
  awk -v patch="\`tests/rehearsal/$1.patch\`" '
    /^#/ { inside = 0 }
    index($0, patch) { inside = 1; next }
    inside && /^[0-9]+\. / { listed = 1 }
    inside && /^$/ { listed = 0 }
    inside && listed { print }' CONTRIBUTING.md |
    grep -oE '`[A-Za-z_]+[A-Za-z0-9_.-]*/[A-Za-z0-9_./-]*`' | tr -d '`' | sort -u
}

# compare NAME: the patch and the recipe have the same files
compare() {
  local file wanted found
  files_of_recipe "$1" > "$work/recipe"
  files_of_patch "tests/rehearsal/$1.patch" > "$work/patch"
  [ -s "$work/recipe" ] || {
    fail 'CONTRIBUTING.md has no recipe that names it, with a numbered list'
    return
  }
  while IFS= read -r file; do
    wanted=$file
    if [[ $file == +* ]]; then wanted=$(dirname "${file#+}")/; fi
    grep -qxF -- "$wanted" "$work/recipe" || fail "the recipe does not name $wanted"
  done < "$work/patch"
  while IFS= read -r wanted; do
    found=$(awk -v wanted="$wanted" '$0 == wanted || (/^\+/ && index(substr($0, 2), wanted) == 1)' "$work/patch")
    [ -n "$found" ] || fail "the recipe names $wanted, which the patch leaves as it is"
  done < "$work/recipe"
}

# The files of this tree, without what is built.
files_of_tree() {
  git ls-files --cached --others --exclude-standard 2> /dev/null || find . -name out -prune -o -type f -printf '%P\n'
}

# rehearse NAME: applies the patch to a copy
rehearse() {
  local room=$work/$1 crates scripts script
  mkdir "$room"
  files_of_tree | while IFS= read -r file; do if [ -f "$file" ]; then printf '%s\0' "$file"; fi; done | xargs -0 cp --parents -t "$room"
  if ! patch -d "$room" -p1 -s --no-backup-if-mismatch < "tests/rehearsal/$1.patch" > "$work/log" 2>&1; then
    fail "it does not apply: $(cat "$work/log")"
    return
  fi
  (cd "$room" && bash tests/wrong_bodies.sh) > "$work/log" 2>&1 || fail "wrong bodies no longer apply: $(cat "$work/log")"
  if [ "$try" -eq 1 ]; then
    read -ra crates < <(sed -n 's/^Try: //p;/^diff/q' "tests/rehearsal/$1.patch")
    if [ ${#crates[@]} -gt 0 ]; then
      (cd "$room" && JOBS=${JOBS:-2} bash packaging/try.sh "${crates[@]}") || fail 'the changed crates fail'
    fi
    read -ra scripts < <(sed -n 's/^Run: //p;/^diff/q' "tests/rehearsal/$1.patch")
    [ ${#scripts[@]} -eq 0 ] || find_program
    for script in "${scripts[@]}"; do
      (cd "$room" && FQ_PROG=$program bash "$script")
      case $? in 0 | 77) ;; *) fail "$script fails" ;; esac
    done
  fi
  rm -rf "$room"
}

try=0
if [ "${1-}" = --try ]; then
  try=1
  shift
fi
tried=0
for patch in tests/rehearsal/*.patch; do
  row=$(basename "$patch" .patch)
  if [ $# -gt 0 ] && [[ " $* " != *" $row "* ]]; then continue; fi
  compare "$row"
  rehearse "$row"
  tried=$((tried + 1))
done
row=''
[ "$tried" -gt 0 ] || fail 'there is no such rehearsal'
finish "$tried recipes, each with the files that CONTRIBUTING.md names"
