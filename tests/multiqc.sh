#!/usr/bin/env bash
# The plugin of MultiQC, as `make install` leaves it: `multiqc .` over a directory finds each report
# by its sample, and its tables and its page in a browser have the numbers of the reports, and
# nothing else. The reports are those of the program, and those of a slow count: with no read, with
# 150 bases and with more than 10,000. A run that stopped at a fault is named above the tables. What
# isn't a report is left out, and named.
#
# FQ_PROG is the program, crates/fq_prog/out/fq_prog if not set. Status 77, and 'skipped', if a
# package is missing. The browser is Debian's chromium.
set -uo pipefail
. "$(dirname "$0")/common.bash"
need multiqc python3
find_program
work=$(mktemp -d) || exit 1
trap 'rm -rf "$work"' EXIT
cd "$work" || exit 1
export XDG_CACHE_HOME=$work/cache MPLCONFIGDIR=$work/cache PYTHONDONTWRITEBYTECODE=1 LC_ALL=C.UTF-8
unset PYTHONPATH
packages=$work/installed/lib/python3/dist-packages

# page DIRECTORY WORDS..: MultiQC's page of a directory, in page.html, by its settings in the
# workflow
page() {
  rm -rf page.html page_data
  PYTHONPATH=$packages multiqc --config "$tree/workflow/multiqc.yaml" --filename page.html "$@" > told 2>&1 || fail "status $?: $(tail -n 5 told)"
}

check() { python3 "$tree/tests/multiqc/check.py" "$@"; }

# shows REPORTS..: the tables and the page have the numbers of these reports
shows() {
  check data page_data "$@" || fail 'the tables differ'
  if command -v chromium > /dev/null; then
    timeout 100 chromium --headless --no-sandbox --disable-gpu --user-data-dir="$work/profile" --dump-dom "file://$work/page.html" > dom 2> browser ||
      fail "the browser: $(tail -n 3 browser)"
    check page dom "$@" || fail 'the page differs'
  fi
}

bash "$tree/packaging/install.sh" "$program" "$work/installed" > /dev/null || exit 1
mkdir -p lab/b lab/other
for kind in plain long small none; do python3 "$tree/tests/count.py" "$kind" "lab/$kind.json" || exit 1; done
draw_lane a 1 300
head -n 900 a_2.fq > short_2.fq
outputs=(fp.fq fu.fq rp.fq ru.fq)
"$program" PE --report lab/b/two.json a_1.fq a_2.fq "${outputs[@]}" LEADING:3 TRAILING:3 SLIDINGWINDOW:4:15 MINLEN:36 > /dev/null || fail "status $?"
"$program" PE --report lab/cut.json a_1.fq short_2.fq "${outputs[@]}" MINLEN:36 > /dev/null 2> fault
[ $? -eq 3 ] || fail 'there is no report of a run that stopped'
python3 "$tree/tests/older.py" lab/b/two.json lab/older.json || exit 1

row='without the plugin'
multiqc --filename page.html lab > told 2>&1
if grep -q Tibzharuk page.html 2> /dev/null; then fail 'the page has a part of it'; fi

row='a directory of reports'
reports=(lab/{plain,long,small,none,older}.json lab/b/two.json)
page lab
shows "${reports[@]}"
grep -q 'Found 6 reports' told || fail "6 reports were not found: $(cat told)"
for file in page_data/multiqc_tibzharuk_scores_*; do [ "$(wc -c < "$file")" -lt 60000 ] || fail "$file is too large"; done
grep -o 'class="badge"[^<]*' page.html | wc -l | grep -qx 1 || fail 'other samples than small are marked'

row='a run that stopped at a fault'
sed '/<table/,$d' page.html > above
grep -q "<strong>cut</strong>: <samp>$(cat fault)</samp>" above || fail 'it is not named above the tables'
grep -q 'Stopped at a fault of the inputs: 1' above || fail 'others are named too'

row='warnings'
grep -q '<strong>plain</strong>: <samp>s1_L001_R1.fq.gz may be cut: the end block of BGZF is missing</samp>' above || fail 'that of a report is not named above the tables'
grep -q 'Warnings: 2' above || fail 'others are named too'

row='files that are not reports'
mkdir bad
cp lab/b/two.json bad/
head -c -3 lab/b/two.json > bad/torn.json
sed 's/"q30_bases":[0-9]*,//' lab/b/two.json > bad/less.json
sed 's/"input":/&-/' lab/b/two.json > bad/below.json
sed 's/"input":/&1/' lab/b/two.json > bad/sum.json
sed 's/"bases":\([0-9]*\)/"bases":"\1"/' lab/b/two.json > bad/text.json
sed 's/"lengths":\[\[/"lengths":[[1,1],[/' lab/b/two.json > bad/lengths.json
sed 's/^/[/; s/$/]/' lab/b/two.json > bad/list.json
page bad
shows bad/two.json
for name in torn less below sum text lengths list; do
  grep -q "bad/$name.json: not a report of fq_prog: " told || fail "$name.json is not named: $(cat told)"
done

row='two reports of a sample'
cp lab/b/two.json lab/other/
page lab/b lab/other
shows lab/b/two.json
grep -q 'other/two.json is left out' told || fail "the second one is not named: $(cat told)"
page --dirs --dirs-depth 1 lab/b lab/other
[ "$(cut -f 1 page_data/multiqc_tibzharuk.txt | paste -sd,)" = 'Sample,b | two,other | two' ] || fail 'with --dirs they are not both there'
command -v chromium > /dev/null || echo 'multiqc: the page in a browser: skipped: needs chromium'
finish 'as the reports say'
