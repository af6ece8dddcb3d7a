#!/usr/bin/env bash
# What `tibzharuk trim` does beside trimming. Its report lists what it warned of. `--adapters auto`
# takes the known adapters that the reads hold: what is made is the same as with their name, or as
# without adapters. `--pairs` makes what a run over the first pairs makes. `--checksums` makes a file
# that `sha256sum -c` finds right. Steps need no `--` before them.
#
# FQ_PROG names another build of the program.
set -uo pipefail
. "$(dirname "$0")/common.bash"
find_program
. tests/trim/calls.bash
nextera=(CTGTCTCTTATACACATCT CTGTCTCTTATACACATCT)

# draw NAME FIRST LAST TENTHS FORWARD REVERSE: these pairs of 60 bases in NAME_1.fq and NAME_2.fq. So
# many tenths of them run into an adapter after 30 bases.
draw() {
  awk -v name="$1" -v first="$2" -v last="$3" -v tenths="$4" -v adapters="${*:5}" 'BEGIN {
    split(adapters, adapter, " ")
    for (k = first; k <= last; k++) for (side = 1; side <= 2; side++) {
      x = (k * 7919 + side * 104729) % 1000003; bases = ""; scores = ""
      for (i = 0; i < 60; i++) { x = (x * 16807 + i) % 2147483647; bases = bases substr("ACGT", x % 4 + 1, 1) }
      if (k % 10 < tenths) bases = substr(bases, 1, 30) substr(adapter[side], 1, 30)
      for (i = 0; i < length(bases); i++) scores = scores (i < 55 ? "I" : "#")
      printf "@r%d %d:N:0:ACGT\n%s\n+\n%s\n", k, side, bases, scores > name "_" side ".fq"
    } }'
}

# field NAME: a field of the report
field() {
  python3 -c 'import json, sys; print(json.dumps(json.load(open("out/s.json")).get(sys.argv[1], "missing")))' "$1"
}

# is NAME JSON: the report has this field
is() { [ "$(field "$1")" = "$2" ] || fail "the field $1 is $(field "$1"), not $2"; }

draw plain 1 200 0
draw truseq 1 200 3 "${truseq[@]}"
draw nextera 201 400 3 "${nextera[@]}"
cat plain_1.fq nextera_1.fq > both_1.fq
cat plain_2.fq nextera_2.fq > both_2.fq
gzip -k ./*.fq
steps=(LEADING:3 TRAILING:3 MINLEN:36)
holds='of the first 200 pairs hold an adapter that --adapters truseq removes'

row='nothing to warn of'
made '' -1 plain_1.fq.gz -2 plain_2.fq.gz --out out/s "${steps[@]}"
is warnings '[]'
! grep -q Warnings out/s.html || fail 'the page says so'

row='a warning'
made "tibzharuk: warning: 30 % $holds" -1 truseq_1.fq.gz -2 truseq_2.fq.gz --out out/s "${steps[@]}"
is warnings "[\"30 % $holds\"]"
grep -qF "<section class=\"note\"><h2>Warnings</h2><p>30 % $holds</p></section>" out/s.html || fail 'the page does not show it'
cp out/s.json one.json

row='two warnings, in the order of the lines'
sed 's/ 2:N/ 1:N/' truseq_2.fq > alike_2.fq
alike='the first reads of both sides have the number 1: truseq_1.fq.gz, alike_2.fq'
made "tibzharuk: warning: $alike
tibzharuk: warning: 30 % $holds
tibzharuk: warning: all pairs were dropped" -1 truseq_1.fq.gz -2 alike_2.fq --out out/s MINLEN:500
is warnings "[\"$alike\", \"30 % $holds\", \"all pairs were dropped\"]"

row='the sum of two runs that warned of the same'
made "tibzharuk: warning: 30 % $holds" -1 truseq_1.fq -2 truseq_2.fq --out out/s "${steps[@]}"
"$tibzharuk" sum one.json out/s.json > sum.json || fail "status $?"
mv sum.json out/s.json
is warnings "[\"30 % $holds\"]"

# same WORDS..: a run with these words makes the same files as the one that is in `out`, but for the
# report and its page, which say how it was called
same() {
  rm -rf other
  mv out other
  made "$@"
  rm -f out/s.json out/s.html other/s.json other/s.html
  diff -r out other > difference || fail "$(cat difference)"
}

# auto LINE WORDS..: a run with --adapters auto says this of it
auto() { made "tibzharuk: --adapters auto takes $1" "${@:2}" --out out/s --adapters auto "${steps[@]}"; }

row='auto: adapters that reads hold'
none='none: no known adapter is in more than 1 % of the first 200 pairs'
if command -v cutadapt > /dev/null; then
  for ending in fq fq.gz; do
    auto 'truseq: 30 % of the first 200 pairs hold it' -1 "truseq_1.$ending" -2 "truseq_2.$ending"
    is adapters_auto '"truseq"'
    is warnings '[]'
    grep -qF '<dt>taken by --adapters auto</dt><dd><code>truseq</code></dd>' out/s.html || fail 'the page does not say so'
    cp out/s.json one.json
    same '' -1 "truseq_1.$ending" -2 "truseq_2.$ending" --out out/s --adapters truseq "${steps[@]}"
  done
  row='auto: lanes'
  auto 'nextera: 15 % of the first 400 pairs hold it' -1 plain_1.fq nextera_1.fq.gz -2 plain_2.fq.gz nextera_2.fq
  is adapters_auto '"nextera"'
  row='auto: an interleaved file'
  paste -d '\n' <(paste - - - - < both_1.fq) <(paste - - - - < both_2.fq) | tr '\t' '\n' > both.fq
  auto 'nextera: 15 % of the first 400 pairs hold it' -i both.fq
  row='auto: none, but the reports of cutadapt are made'
  auto "$none" -1 plain_1.fq -2 plain_2.fq --cutadapt-report out/cutadapt.json --cutadapt-log out/cutadapt.log
  is adapters null
  if [ ! -s out/cutadapt.json ] || ! grep -q 'Total read pairs processed: *200$' out/cutadapt.log; then fail 'they are not'; fi
  row='auto: none, but a sequence is named too'
  auto "$none" -1 plain_1.fq -2 plain_2.fq --adapters ACGTACGTACGT
  same '' -1 plain_1.fq -2 plain_2.fq --out out/s --adapters ACGTACGTACGT "${steps[@]}"
else
  echo "trim_wishes: skipped: $row: cutadapt is not installed (apt-get install cutadapt)"
fi

row='auto: none'
auto "$none" -1 plain_1.fq.gz -2 plain_2.fq
is adapters_auto '"none"'
is adapters null
cp out/s.json none.json
same '' -1 plain_1.fq.gz -2 plain_2.fq --out out/s "${steps[@]}"

row='a sum of runs for which auto took others'
sed 's/"adapters_auto":"none"/"adapters_auto":"truseq"/' none.json > taken.json
"$tibzharuk" sum none.json taken.json > sum.json 2> told
[ $? -eq 1 ] || fail 'the status is not 1'
[ "$(cat told)" = 'tibzharuk sum: taken.json: adapters_auto is truseq, not none' ] || fail "it says $(cat told)"

row='auto: a pipe'
mkfifo pipe
refused 2 '--adapters auto looks at the first pairs, but pipe is not a file: name the adapters' -1 plain_1.fq pipe -2 plain_2.fq plain_2.fq.gz \
  --out out/s --adapters auto "${steps[@]}"
row='auto: records that are not of four lines'
sed 's/^.\{20\}/&\n/' plain_1.fq > wrapped_1.fq
refused 3 "--adapters auto: the first records of wrapped_1.fq, plain_2.fq aren't of four lines (seqtk seq makes it so)" -1 wrapped_1.fq -2 plain_2.fq \
  --out out/s --adapters auto "${steps[@]}"
row='auto: a damaged file'
head -c 500 truseq_1.fq.gz > cut_1.fq.gz
trimmed -1 cut_1.fq.gz -2 truseq_2.fq --out out/s --adapters auto "${steps[@]}"
[ "$(tail -n 1 told)" = 'tibzharuk: cannot read cut_1.fq.gz: unexpected end of file' ] || fail "it says $(cat told)"

# The first 250 pairs of two lanes of 200 pairs.
head -n 1000 both_1.fq > first_1.fq
head -n 1000 both_2.fq > first_2.fq
only='tibzharuk: warning: only the first pairs were trimmed (--pairs'
hold="tibzharuk: warning: 15 % of the first 400 pairs hold an adapter that --adapters nextera removes"
lanes=(-1 plain_1.fq.gz nextera_1.fq -2 plain_2.fq nextera_2.fq.gz)

# first LINE WORDS..: a run over the first pairs, in `out`, makes the files of one over `first`, and
# its report names how many there are
first() {
  made "$1" "${lanes[@]}" --out out/s "${@:2}" --pairs 250 "${steps[@]}"
  is first_pairs 250
  rm -rf other
  mv out other
  trimmed -1 first_1.fq -2 first_2.fq --out out/s "${@:2}" "${steps[@]}"
  is first_pairs '"missing"'
  rm -f out/s.json out/s.html other/s.json other/s.html
  diff -r out other > difference || fail "$(cat difference)"
}

row='the first pairs of two lanes'
first "$hold
$only 250)"
if command -v cutadapt > /dev/null; then
  row='the first pairs, with adapters'
  first "$only 250)" --adapters nextera
fi
row='the first pairs of wrapped records'
sed '2~4s/^.\{20\}/&\n/; 4~4s/^.\{20\}/&\n/' both_1.fq > long_1.fq
cp both_2.fq long_2.fq
lanes=(-1 long_1.fq -2 long_2.fq)
first "$only 250)"
row='the first pairs of an interleaved file, and its page'
paste -d '\n' <(paste - - - - < both_1.fq) <(paste - - - - < both_2.fq) | tr '\t' '\n' > both.fq
lanes=(-i both.fq)
first "$hold
$only 250)"
made "tibzharuk: warning: 30 % $holds
$only 7)" -1 truseq_1.fq -2 truseq_2.fq --out out/s --pairs 7 "${steps[@]}"
grep -qF '<p>30 % '"$holds"'</p><p>only the first pairs were trimmed (--pairs 7)</p>' out/s.html || fail 'the page does not begin with it'
grep -qF 'Only the first 7 pairs were taken. Read pairs were trimmed' out/s.html || fail 'the text for the methods section does not say so'
row='a sum of a run over the first pairs'
"$tibzharuk" sum out/s.json > sum.json 2> told
[ $? -eq 1 ] || fail 'the status is not 1'
[ "$(cat told)" = 'tibzharuk sum: out/s.json: its run took only the first pairs (--pairs)' ] || fail "it says $(cat told)"
row='more pairs than there are'
made '' -1 plain_1.fq.gz -2 plain_2.fq.gz --out out/s --pairs 201 "${steps[@]}"
is first_pairs '"missing"'
row='the first pairs, before a fault and after it'
{
  cat plain_1.fq
  echo strange
} > strange_1.fq
trimmed -1 strange_1.fq -2 plain_2.fq --out out/s --pairs 200 "${steps[@]}"
[ "$(cat status)" -eq 0 ] || fail "status $(cat status): $(cat told)"
refused 3 'input: forward record 201: NoTitle: strange_1.fq: the record does not begin with @' -1 strange_1.fq -2 plain_2.fq --out out/s --pairs 201 "${steps[@]}"
row='the first pairs of an endless pipe'
mkfifo endless_1 endless_2
for side in 1 2; do
  while cat "plain_$side.fq"; do :; done > "endless_$side" 2> /dev/null &
done
made "$only 300)" -1 endless_1 -2 endless_2 --out out/s --pairs 300 "${steps[@]}"
wait
[ "$(gzip -dc out/s.r1.paired.fastq.gz | wc -l)" -eq 1200 ] || fail 'not 300 pairs'

# summed DIRECTORY: sha256sum finds all files of the checksums right, from the directory of their file
summed() {
  (cd "$1" && sha256sum -c --strict --quiet s.sha256) > difference 2>&1 || fail "$(cat difference)"
}

# names_in FILE: the names that have a checksum
names_in() { cut -c 67- "$1" | paste -sd' '; }

row='checksums'
made '' -1 plain_1.fq.gz -2 plain_2.fq --out out/s --checksums "${steps[@]}"
summed out
[ "$(names_in out/s.sha256)" = 's.r1.paired.fastq.gz s.r1.unpaired.fastq.gz s.r2.paired.fastq.gz s.r2.unpaired.fastq.gz s.json s.html' ] ||
  fail "it has $(names_in out/s.sha256)"
row='checksums of outputs in other directories, with names that are escaped, and over an earlier file'
mkdir -p far/away
ln -sfn far/away link
echo earlier > far/away/s.sha256
made '' -1 plain_1.fq.gz -2 plain_2.fq --out link/s --checksums --no-unpaired --no-report --summary 'out/a  b' --trimlog $'out/a\\\n b' "${steps[@]}"
summed far/away
summed link
[ "$(grep -c 'fastq.gz$' link/s.sha256) $(wc -l < link/s.sha256)" = '2 4' ] || fail "it has $(cat link/s.sha256)"
row='checksums of what is no stream'
made 'Input Read Pairs: 200
Both Surviving: 200
Forward Only Surviving: 0
Reverse Only Surviving: 0
Dropped: 0' -1 plain_1.fq -2 plain_2.fq --out out/s --checksums --interleaved - --no-unpaired MINLEN:1
summed out
[ "$(names_in out/s.sha256)" = 's.json s.html' ] || fail "it has $(names_in out/s.sha256)"

row='checksums that are refused'
refused 1 '--checksums writes PREFIX.sha256, so it needs --out PREFIX' -1 plain_1.fq -2 plain_2.fq --paired1 out/p1 --paired2 out/p2 --no-unpaired \
  --checksums "${steps[@]}"
refused 1 '--checksums: no output is a file' -1 plain_1.fq -2 plain_2.fq --out out/s --interleaved - --no-unpaired --no-report --checksums "${steps[@]}"
refused 2 'out/s.sha256 is given for two outputs' -1 plain_1.fq -2 plain_2.fq --out out/s --checksums --summary out/s.sha256 "${steps[@]}"
row='checksums of a run that fails'
head -c 500 plain_1.fq.gz > short_1.fq.gz
ln link/s.sha256 kept
refused 3 'cannot read short_1.fq.gz: unexpected end of file' -1 short_1.fq.gz -2 plain_2.fq --out out/s --checksums "${steps[@]}"
trimmed -1 short_1.fq.gz -2 plain_2.fq --out link/s --checksums "${steps[@]}"
[ link/s.sha256 -ef kept ] || fail 'the earlier file is gone'

row='steps without --, and a file that is named like one'
cp plain_1.fq MINLEN:36
cp plain_2.fq LEADING:3
made '' -1 ./MINLEN:36 -2 ./LEADING:3 --out out/s LEADING:3 TRAILING:3 MINLEN:36
same '' -1 plain_1.fq -2 plain_2.fq --out out/s -- LEADING:3 TRAILING:3 MINLEN:36
same '' -2 ./LEADING:3 --out out/s -1 ./MINLEN:36 -- LEADING:3 TRAILING:3 MINLEN:36
row='steps without --, that are wrong'
trimmed -1 plain_1.fq -2 plain_2.fq --out out/s LEADNG:3
[ "$(cat status)" -eq 2 ] || fail "status $(cat status), not 2"
grep -qxF 'tibzharuk: LEADNG:3 is no step; did you mean LEADING:3?' told || fail "it says $(cat told)"
steps=(MINLEN:36 --sync)
refused 1 '--sync comes after the steps; options come before them (tibzharuk trim --help)' -1 plain_1.fq -2 plain_2.fq --out out/s "${steps[@]}"
steps=(minlen:36)
refused 1 'minlen:36 is not an option; did you mean MINLEN:36? (tibzharuk trim --help)' -1 plain_1.fq -2 plain_2.fq --out out/s --sync "${steps[@]}"

finish ok
