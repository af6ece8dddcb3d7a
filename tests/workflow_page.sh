#!/usr/bin/env bash
# The page of all samples of the workflow, of 24 and of 96 simulated samples of which one is bad:
# the bad one is first and marked, each sample has its row, its drawings and its link, MultiQC's
# table shows all rows, and the page is small enough. In a browser no drawing is empty and none is
# outside of the window.
#
# Status 77, and 'skipped', if MultiQC is missing. The browser is Debian's chromium.
set -uo pipefail
. "$(dirname "$0")/common.bash"
need multiqc
work=$(mktemp -d) || exit 1
trap 'rm -rf "$work"' EXIT
cd "$work" || exit 1
export XDG_CACHE_HOME=$work/cache MPLCONFIGDIR=$work/cache PYTHONDONTWRITEBYTECODE=1 LC_ALL=C.UTF-8

# page NUMBER: the page of so many samples, in NUMBER/results/report.html
page() {
  mkdir "$1"
  python3 "$tree/tests/workflow/many.py" "$1" "$1" > "$1/names" || exit 1
  (cd "$1" && python3 "$tree/workflow/scripts/page.py" --results results --logs logs < names > told 2>&1) || fail "no page: $(tail -n 3 "$1/told")"
  [ "$(tail -n 1 "$1/told")" = "results/report.html: $1 of $1 samples are good" ] || fail "the last line is $(tail -n 1 "$1/told")"
}

for number in 24 96; do
  row="$number samples"
  page "$number"
  html=$number/results/report.html
  size=$(wc -c < "$html")
  [ "$size" -le 2000000 ] || fail "the page has $size bytes"
  if command -v chromium > /dev/null; then
    timeout 300 chromium --headless --no-sandbox --disable-gpu --user-data-dir="$work/profile" --window-size=1280,1000 --dump-dom "file://$work/$html" > dom 2> browser ||
      fail "the browser: $(tail -n 3 browser)"
    html=dom
  fi
  python3 "$tree/tests/workflow/page_looks.py" "$html" "$number/names" bad || fail 'the rows differ'
done
command -v chromium > /dev/null || echo 'workflow_page: in a browser: skipped: needs chromium'
finish 'as the reports say'
