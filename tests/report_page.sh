#!/usr/bin/env bash
# Makes pages with tibzharuk page and reads them as HTML. Each is well formed, loads nothing, runs
# nothing, and has the numbers of its report. The reports are those of the program, and those of a
# slow count: with no read, with one base, with 150 bases and with more than 10,000, with reads that
# are all alike, and with other letters than A, C, G, T and N. No text of a report becomes markup.
# Faults, and scores that are too high, are at the top. A file that is not a report is refused in one
# line.
#
# Chromium shows each page in windows of 1280 and of 400 pixels, light and dark: nothing is cut,
# wider than the window, too small or too pale, nothing is printed on the console, and nothing is
# requested. This part is skipped if chromium isn't installed.
#
# FQ_PROG is the program, crates/fq_prog/out/fq_prog if not set. If python3.8 is on the path, it
# makes the pages too.
set -uo pipefail
. "$(dirname "$0")/common.bash"
page=("$tibzharuk" page)
find_program
work=$(mktemp -d) || exit 1
trap 'rm -rf "$work"' EXIT
cd "$work" || exit 1
export PYTHONDONTWRITEBYTECODE=1
# A name that leads to no Python is not used.
old=$(command -v python3.8) && "$old" -c '' 2> /dev/null || old=''

check() { python3 "$tree/tests/report_page/check.py" "$@"; }

# drawn NAME: the page of NAME.json is made and has its numbers; an old Python and another locale
# make the same page
drawn() {
  row="the page of $1"
  "${page[@]}" "$1.json" > "$1.html" 2> told || fail "status $?: $(cat told)"
  [ ! -s told ] || fail "it says $(cat told)"
  check page "$1.json" "$1.html" || fail 'it is not that of its report'
  LC_ALL=C "${page[@]}" "$1.json" | cmp - "$1.html" || fail 'another locale makes another page'
  [ -z "$old" ] || "$old" "${page[@]}" "$1.json" | cmp - "$1.html" || fail 'Python 3.8 makes another page'
}

# refuses FILE: the script ends with status 1 and one line, and prints no page
refuses() {
  row="the page of $1"
  "${page[@]}" "$1" > page 2> told
  [ $? -eq 1 ] || fail 'it is not refused'
  if [ -s page ] || [ "$(wc -l < told)" -ne 1 ]; then fail "it has a page, or not one line: $(head -c 300 told)"; fi
}

# trim STATUS REPORT WORDS..: a run of the program with a report
trim() {
  local wanted=$1 report=$2 command=$3
  shift 3
  row="a run for $report"
  "$program" "$command" --report "$report" "$@" > /dev/null 2> told
  [ $? -eq "$wanted" ] || fail "status is not $wanted: $(cat told)"
}

row='the syntax of Python 3.8'
check syntax "$tree"/python/tibzharuk/{page.py,report/*.py} || fail 'a file has newer syntax'
row='a link, and a copy without its parts'
python3 "$tree/tests/count.py" small small.json || exit 1
mkdir links
ln -s "$tibzharuk" links/tibzharuk
links/tibzharuk page small.json | cmp - <("${page[@]}" small.json) || fail 'a link makes another page'
cp "$tibzharuk" links/alone
[[ $(links/alone page small.json 2>&1) == "tibzharuk: its package isn't beside $PWD/links/alone (make a link to this file, not a copy): "* ]] ||
  fail 'the copy does not say so'

# (The page of `longest` has mean lengths of five digits. Those of `alike` have one number each.)
for kind in plain long longest small one alike other none; do
  python3 "$tree/tests/count.py" "$kind" "$kind.json" || exit 1
  drawn "$kind"
done
row='10,001 positions'
check positions long.json || fail 'the slow count has fewer'
[ "$(wc -c < long.html)" -lt 2000000 ] || fail 'the page is too large'

# Reports of the program: two files and one, no reads, a fault, names that must be escaped, and
# scores that are too high.
python3 "$tree/tests/report_page/draw.py" || exit 1
head -n 790 r2.fq > short.fq
paste -d '\n' <(paste - - - - < r1.fq) <(paste - - - - < r2.fq) | tr '\t' '\n' > both.fq
: > none1.fq
: > none2.fq
strange=$'a<script src=x>&amp;\x1b\'"ü.fq'
cp r1.fq "$strange"
outputs=(fp.fq fu.fq rp.fq ru.fq)
trim 0 two.json PE r1.fq r2.fq "${outputs[@]}" LEADING:3 TRAILING:3 SLIDINGWINDOW:4:15 MINLEN:36
trim 0 one.json IL --no-name-check --trimlog log both.fq "${outputs[@]}" AVGQUAL:20 MINLEN:50
trim 0 gone.json PE r1.fq r2.fq "${outputs[@]}" MINLEN:500
trim 0 no_reads.json PE none1.fq none2.fq "${outputs[@]}" MINLEN:36
trim 0 names.json PE "$strange" r2.fq "${outputs[@]}" MINLEN:36
trim 0 high.json PE high1.fq high2.fq "${outputs[@]}" MINLEN:3
trim 0 even.json PE even1.fq even2.fq "${outputs[@]}" MINLEN:3
trim 3 fault.json PE r1.fq short.fq "${outputs[@]}" MINLEN:36
for name in two one gone no_reads names high even fault; do drawn "$name"; done
python3 "$tree/tests/older.py" two.json older.json || exit 1
drawn older

row='the page of a sum of lanes'
python3 "$tree/tests/count.py" lane lane.json || exit 1
"$tibzharuk" sum plain.json lane.json > lanes.json || fail "status $?"
"${page[@]}" --lane L001 plain.json --lane 'L<2' lane.json lanes.json > lanes.html || fail "status $?"
check page lanes.json lanes.html || fail 'it is not that of the sum'
grep -qF '<th scope="row">L&lt;2</th><td>20</td>' lanes.html || fail 'it lacks a lane'
row='the warnings of a sum'
[ "$(python3 -c 'import json; print(*json.load(open("lanes.json"))["warnings"], sep="\n")')" = "s1_L001_R1.fq.gz may be cut: the end block of BGZF is missing
a<b>.gz & c.gz: the first reads of both sides have the number 1" ] || fail 'they are others'
row='a sum that is larger than a count can be'
sed 's/"score_sum":[0-9]*,/"score_sum":18446744073709551615,/' plain.json > most.json
"$tibzharuk" sum most.json lane.json > sum.json || fail "status $?"
[ "$(grep -oE '"score_sum":[0-9]+' sum.json | head -n 1)" = '"score_sum":18446744073709551615' ] || fail 'it is another number'
row='reports that do not belong together'
# apart LINE WORDS..: these words end with status 1 and that line alone
apart() {
  "${@:2}" > page 2> told
  if [ $? -ne 1 ] || [ -s page ] || ! grep -qx "$1" told; then fail "$(cat told)"; fi
}
apart "tibzharuk page: the lanes don't add up to the report" "${page[@]}" --lane L001 plain.json lanes.json
sed 's/MINLEN:36/MINLEN:37/' plain.json > steps.json
apart 'tibzharuk sum: steps.json: its steps are LEADING:3 TRAILING:6 MINLEN:37, not LEADING:3 TRAILING:6 MINLEN:36' "$tibzharuk" sum plain.json steps.json
apart 'tibzharuk sum: older.json: schema is missing, not 2' "$tibzharuk" sum two.json older.json
apart 'tibzharuk sum: small.json: its adapters were removed in another way' "$tibzharuk" sum plain.json small.json
apart 'tibzharuk sum: fault.json: its run stopped at a fault: input: .*' "$tibzharuk" sum fault.json fault.json

row='the title of a page'
"${page[@]}" --sample 'liver & 1' two.json > told || fail "status $?"
grep -qF '<h1>liver &amp; 1</h1>' told || fail 'it is not the name that was given'
grep -qF '<h1>two</h1>' two.html || fail 'it is not the name of the file'
row='adapters that were removed before'
"${page[@]}" --cutadapt='-a A<C -A GT' two.json > told || fail "status $?"
grep -qF 'Adapters were removed with cutadapt (-a A&lt;C -A GT). Read pairs were trimmed' told || fail 'its text does not say so'
! grep -q cutadapt two.html || fail 'another page says so'
row='a list of names'
grep -qF '<code>s1_L001_R1.fq.gz</code><code>s1_L002_R1.fq.gz</code>' plain.html || fail 'its names are not shown'
row='a report with a text in the place of each of its texts'
check hostile "$tree/python/tibzharuk" small.json || fail 'a text becomes markup'
row='a report with a change at each place'
check changed "$tree/python/tibzharuk" small.json || fail 'one is neither drawn nor refused'

# Files that are not reports.
head -c -3 two.json > torn.json
sed 's/"q30_bases":[0-9]*,//' two.json > less.json
sed 's/"input":/&-/' two.json > below.json
sed 's/"bases":\([0-9]*\)/"bases":"\1"/' two.json > text.json
sed 's/"lengths":\[\[/"lengths":[[99999,1],[/' two.json > lengths.json
sed 's/^/[/; s/$/]/' two.json > list.json
sed 's/"schema":2/"schema":3/' two.json > newer.json
sed 's/"schema":2/"schema":"2"/' two.json > named.json
sed 's/"positions":{"a":\[[0-9]*,/"positions":{"a":[/' plain.json > positions.json
head -c 200000 /dev/zero | tr '\0' '[' > deep.json
printf '\377\376' > bytes.json
for file in {torn,less,below,text,lengths,list,newer,named,positions,deep,bytes}.json r1.fq two.html "$program" /dev/zero /dev/null "$work" 'not there'; do
  refuses "$file"
done
row='a report of a later version'
[ "$("${page[@]}" newer.json 2>&1)" = 'tibzharuk page: newer.json: a report of a later version (its schema is 3, and this program reads 2 and older)' ] ||
  fail 'it does not say so'
row='no argument'
"${page[@]}" 2> told
[ $? -eq 2 ] || fail 'the status is not 2'
if [ -w /dev/full ]; then
  row='a full disk'
  "${page[@]}" two.json > /dev/full 2> told
  [ $? -eq 1 ] || fail 'the status is not 1'
  [ "$(wc -l < told)" -eq 1 ] || fail "not one line: $(cat told)"
fi

# What a reader sees: a browser shows each page, in a large window and in a small one. The pages as
# the browser understood them have the numbers of their reports too.
row='a browser'
if command -v chromium > /dev/null; then
  mkdir shown
  timeout 600 python3 "$tree/tests/report_page/browser.py" shown ./*.html > told 2>&1 || fail "$(cat told)"
  for page in shown/*.html; do
    row="the page of $(basename "$page" .html) in a browser"
    check page "$(basename "$page" .html).json" "$page" || fail 'it is not that of its report'
  done
else
  echo 'report_page: the pages in a browser: skipped: needs chromium'
fi
finish ok
