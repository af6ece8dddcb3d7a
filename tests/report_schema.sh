#!/usr/bin/env bash
# Each report of the program conforms to docs/report.schema.json, and what it says about its call is
# true: runs on two files and on an interleaved one, that finish or end at a fault, on empty inputs,
# in each encoding, with names that JSON must escape. Each of these runs prints, reports, writes and
# ends as it does without a report. The schema itself is valid, and refuses reports that were
# changed. The example of docs/FORMAT.md is what the program makes of its inputs. The reports of
# tibzharuk trim conform too, with what cutadapt counted and without.
#
# FQ_PROG is the program, crates/fq_prog/out/fq_prog if not set. Status 77, and 'skipped', if a
# package is missing.
set -uo pipefail
. "$(dirname "$0")/common.bash"
python3 -c 'from jsonschema import Draft202012Validator' 2> /dev/null || skip 'needs python3-jsonschema'
find_program
work=$(mktemp -d) || exit 1
trap 'rm -rf "$work"' EXIT
cd "$work" || exit 1
mkdir inputs reports
number=0

# record TITLE BASES QUALITY
record() { printf '@%s\n%s\n+\n%s\n' "$@"; }

# Four pairs: letters in both cases, one base, an empty read, and 300 bases.
{
  record p1/1 GcANn '#5?>I'
  record p2/1 A I
  record p3/1 '' ''
  record p4/1 "$(printf 'ACGT%.0s' {1..75})" "$(printf '#III%.0s' {1..75})"
} > inputs/r1.fq
{
  record p1/2 gTC '#4~'
  record p2/2 TTTT IIII
  record p3/2 GG '!!'
  record p4/2 "$(printf 'TTGA%.0s' {1..75})" "$(printf '5555%.0s' {1..75})"
} > inputs/r2.fq
paste -d '\n' <(paste - - - - < inputs/r1.fq) <(paste - - - - < inputs/r2.fq) | tr '\t' '\n' > inputs/both.fq
head -n 12 inputs/r2.fq > inputs/short2.fq
head -n 28 inputs/both.fq > inputs/odd.fq
sed 's/p2/other/' inputs/r2.fq > inputs/other2.fq
sed 's/IIII/II I/' inputs/r2.fq > inputs/bad2.fq
record p1 ACGTA '@BJh~' > inputs/old1.fq
record p1 GGCC 'hhhA' > inputs/old2.fq
cat inputs/old1.fq inputs/old2.fq > inputs/oldboth.fq
: > inputs/none1.fq
: > inputs/none2.fq
strange=($'in "1"\t.fq' $'in\\2\n\1\x1b.fq' $'\b"\f\r.fq' 'ein Ümlaut.fq' $'読み\xe2\x80\xa8.fq' $'\x7f𝄞.fq' $'lo\x1fg/ü')
cp inputs/r1.fq "inputs/${strange[0]}"
cp inputs/r2.fq "inputs/${strange[1]}"
cp inputs/both.fq 'inputs/r"\u".fq'
mkdir "inputs/${strange[6]%/*}"

# call DIRECTORY WORDS..: the program in a directory of its own with the inputs; its output, its
# error lines and its status are left in files
call() {
  local folder=$1
  shift
  rm -rf "$folder"
  cp -r inputs "$folder"
  (cd "$folder" && exec "$program" "$@") > "$folder.printed" 2> "$folder.told"
  echo "$?" > "$folder.status"
}

# run STATUS COMMAND WORDS..: calls without a report and with one, which differ only by the report.
# Keeps the report, with its call.
run() {
  local wanted=$1 report part
  shift
  row="$*"
  number=$((number + 1))
  report=$work/reports/$number.json
  call plain "$@"
  call reported "$1" --report "$report" "${@:2}"
  for part in .printed .told .status ''; do
    diff -r "plain$part" "reported$part" > difference || fail "a report changes what it ${part:+leaves in }${part:-writes}: $(cat difference)"
  done
  [ "$(cat reported.status)" -eq "$wanted" ] || fail "status $(cat reported.status), not $wanted: $(cat reported.told)"
  case $wanted in
    0 | 3)
      printf '%s\0' "$@" > "reports/$number.words"
      mv reported.printed "reports/$number.printed"
      mv reported.told "reports/$number.told"
      ;;
    *) [ ! -s "$report" ] || fail 'a run that did not end whole has a report' ;;
  esac
}

outputs=(fp.fq fu.fq rp.fq ru.fq)
run 0 PE r1.fq r2.fq "${outputs[@]}" MINLEN:1
run 0 PE --trimlog trim.log r1.fq r2.fq "${outputs[@]}" LEADING:3 TRAILING:3 SLIDINGWINDOW:4:15 MINLEN:2
run 0 PE --threads 1 --block 1 r1.fq r2.fq "${outputs[@]}" MINLEN:3 LEADING:0030 MINLEN:3
run 0 IL both.fq "${outputs[@]}" AVGQUAL:30
run 0 IL --trimlog trim.log --threads 3 both.fq "${outputs[@]}" HEADCROP:1 CROP:200 TOPHRED33
# No pair is left; there was none.
run 0 PE r1.fq r2.fq "${outputs[@]}" MINLEN:999999999
run 0 PE none1.fq none2.fq "${outputs[@]}" MINLEN:36
run 0 IL --trimlog trim.log none1.fq "${outputs[@]}" MINLEN:36
# Each encoding.
run 0 PE --encoding sanger r1.fq r2.fq "${outputs[@]}" LEADING:3
for encoding in illumina13 solexa; do
  run 0 PE --encoding "$encoding" old1.fq old2.fq "${outputs[@]}" LEADING:3 TOPHRED33
  run 0 IL --encoding "$encoding" --trimlog trim.log oldboth.fq "${outputs[@]}" TRAILING:30
done
# 64 steps.
mapfile -t steps < <(seq -f 'MINLEN:%.0f' 1 63)
run 0 PE r1.fq r2.fq "${outputs[@]}" "${steps[@]}" CROP:2
# Names that JSON escapes, and names that it doesn't.
run 0 PE --trimlog "${strange[6]}" "${strange[@]:0:6}" MINLEN:3
run 0 IL 'r"\u".fq' "${strange[@]:2:4}" MINLEN:3
# Faults in the inputs.
run 3 PE r1.fq short2.fq "${outputs[@]}" MINLEN:3
run 3 PE --trimlog trim.log r1.fq other2.fq "${outputs[@]}" MINLEN:3
run 0 PE --no-name-check r1.fq other2.fq "${outputs[@]}" MINLEN:3
run 3 PE r1.fq bad2.fq "${outputs[@]}" MINLEN:3
run 3 IL --trimlog trim.log odd.fq "${outputs[@]}" MINLEN:3
run 3 IL --no-name-check odd.fq "${outputs[@]}" MINLEN:3
run 3 PE --encoding illumina13 r1.fq r2.fq "${outputs[@]}" MINLEN:3
run 3 PE none1.fq r2.fq "${outputs[@]}" MINLEN:3
# Runs that don't end whole have no report.
run 2 PE r1.fq r2.fq "${outputs[@]}" minlen:3
run 4 PE r1.fq r3.fq "${outputs[@]}" MINLEN:3
run 4 IL both.fq no/fp.fq "${outputs[@]:1}" MINLEN:3
if [ -w /dev/full ]; then
  run 4 PE r1.fq r2.fq "${outputs[@]:0:3}" /dev/full LEADING:3 MINLEN:4
fi

# The example of docs/FORMAT.md: its inputs, as the text before it names them, and its report.
row='the example of docs/FORMAT.md'
python3 "$tree/tests/report_schema/example.py" || fail 'the document has none'
mapfile -t steps < steps
mv inputs/shown1.fq inputs/r1.fq
mv inputs/shown2.fq inputs/r2.fq
run 0 PE --trimlog trim.log r1.fq r2.fq "${outputs[@]}" "${steps[@]}"

# What tibzharuk trim makes of the program's reports.
row='a report of tibzharuk trim'
outputs=(--paired1 fp.fq --unpaired1 fu.fq --paired2 rp.fq --unpaired2 ru.fq)
"$tibzharuk" trim --program "$program" -1 inputs/r1.fq -2 inputs/r2.fq "${outputs[@]}" --report plain.json -- MINLEN:3 > told 2>&1 ||
  fail "$(cat told)"
row='a report of tibzharuk trim with adapters'
if command -v cutadapt > /dev/null; then
  "$tibzharuk" trim --program "$program" -1 inputs/r1.fq -2 inputs/r2.fq "${outputs[@]}" --adapters ACGTACGT,TTTT \
    --report adapters.json -- MINLEN:3 > told 2>&1 || fail "$(cat told)"
else
  echo "report_schema: skipped: $row: cutadapt isn't installed (apt-get install cutadapt)"
fi

row='the reports'
python3 "$tree/tests/report_schema/check.py" "$("$program" --version)" "reports/$number" || failed=1
finish ok
