#!/usr/bin/env bash
# The manual pages. Those of tibzharuk and its commands are what packaging/man_page.py makes of their
# help. Each has the version and the day of CHANGELOG.md, authors and copyright, is shown without a
# warning, and is found under its name.
# Status 77 if python3 is missing. A part that needs man is skipped if man-db isn't installed.
set -uo pipefail
. "$(dirname "$0")/common.bash"
need python3
work=$(mktemp -d)
trap 'rm -rf "$work"' EXIT

# shown NAME: the page has all that each page must have, and man shows it and finds it
shown() {
  local page=man/$1.1 heading
  for heading in NAME SYNOPSIS 'SEE ALSO' AUTHORS COPYRIGHT; do
    grep -qx ".SH $heading" "$page" || fail "$page has no $heading"
  done
  grep -qF ".TH ${1^^} 1 $day \"Tibzharuk $version\"" "$page" || fail "$page is not of version $version, $day"
  if [ -z "$man" ]; then return; fi
  man --warnings -l "$page" > "$work/shown" 2> "$work/warnings" || fail "man does not show $page"
  if [ -s "$work/warnings" ]; then fail "$page: $(cat "$work/warnings")"; fi
  lexgrog "$page" | grep -qF "\"$1 - " || fail "$page is not found by the name $1"
}

read -r version day < <(sed -n 's/^## \([0-9.]*\) (\([0-9-]*\))$/\1 \2/p' CHANGELOG.md)
man=''
if command -v man > /dev/null && command -v lexgrog > /dev/null; then
  man=yes
else
  echo 'pages: what man shows: skipped: needs man-db'
fi
python3 packaging/man_page.py --check > "$work/difference" || fail "these lines are not those of --help; make the pages by packaging/man_page.py:
$(head -n 10 "$work/difference")"
# The commands that the help names have a page each, and there is no other page.
mapfile -t names < <(python/tibzharuk/__main__.py --help | sed -n '/^COMMANDS/,/^$/s/^    \([a-zA-Z]\+\) .*/tibzharuk-\1/p')
names+=(fq_prog tibzharuk)
diff <(printf '%s.1\n' "${names[@]}" | sort) <(find man -type f -printf '%f\n' | sort) > "$work/difference" ||
  fail "man/ has other pages (> it, < what was wanted): $(cat "$work/difference")"
for name in "${names[@]}"; do
  if [ -e "man/$name.1" ]; then shown "$name"; fi
done
finish 'as help says'
