#!/usr/bin/env bash
# Usual mistakes, and the line on standard error for each, without a reason and with --explain.
set -uo pipefail
. "$(dirname "$0")/common.bash"
find_program
work=$(mktemp -d)
trap 'rm -rf "$work"' EXIT
cd "$work" || exit 1
outs=(p1 u1 p2 u2)
many=(CROP:1 CROP:1 CROP:1 CROP:1 CROP:1 CROP:1 CROP:1 CROP:1 CROP:1 CROP:1 CROP:1 CROP:1 CROP:1)
many+=("${many[@]}" "${many[@]}" "${many[@]}" "${many[@]}")
steps='is no step (LEADING, TRAILING, SLIDINGWINDOW, CROP, HEADCROP, AVGQUAL, MINLEN, TOPHRED33)'
full='No space left on device'
none='No such file or directory'
rights='Permission denied'
zipped='The file looks compressed, by gzip or as BAM'

# The files of a call: two pairs, in two files and in one, and what is mistaken for them.
make_files() {
  rm -rf r1.fq r2.fq both.fq empty.fq cut.fq gz.fq bam.fq fasta.fq other.fq odd.fq long.fq first.fq link.fq d p1 u1 p2 u2
  printf '@p1/1\nACGT\n+\n#!II\n@p2/1\nGGCC\n+\nIIII\n' > r1.fq
  printf '@p1/2\nTTTT\n+\nIIII\n@p2/2\nAAAA\n+\n!!!"\n' > r2.fq
  printf '@p1/1\nACGT\n+\n#!II\n@p1/2\nTTTT\n+\nIIII\n' > both.fq
  head -n 4 r2.fq > first.fq
  head -n 4 r1.fq >> both.fq
  : > empty.fq
  head -c 28 r2.fq > cut.fq
  gzip -nc r1.fq > gz.fq
  printf 'BAM\001\n' > bam.fq
  printf '>p1/1\nACGT\n' > fasta.fq
  ln -s r1.fq link.fq
  printf '@p2/2\nAAAA\n+\n!!!"\n@p1/2\nTTTT\n+\nIIII\n' > other.fq
  printf '@/1 a name of no byte\nACGT\n+\n#!II\n@\a\033[31mp\303\251/2\nTTTT\n+\nIIII\n' > odd.fq
  printf '@%s/1\nACGT\n+\n#!II\n' "$(printf 'p%.0s' {1..100000})" > long.fq
  mkdir d
}

# line STATUS LINE WORDS..: the command ends with this status, and standard error gets this line
line() {
  local status=$1 line=$2 got
  shift 2
  make_files
  got=$("$@" 2>&1 > out)
  [ $? -eq "$status" ] || fail "'$*' ends with another status than $status"
  [ "$got" = "$line" ] || fail "'$*' prints '$got' in place of '$line'"
}

# both STATUS LINE REASON COMMAND WORDS..: the line of the command, without and with the reason (''
# if there is none)
both() {
  local status=$1 plain=$2 reason=$2${3:+: $3} command=$4
  shift 4
  line "$status" "$plain" "$program" "$command" "$@"
  line "$status" "$reason" "$program" "$command" --explain "$@"
}

row='options'
both 2 'bad setting: workers' '--threads is 0, and can be 1 to 64' PE --threads 0 r1.fq r2.fq "${outs[@]}" CROP:1
both 2 'bad setting: block' '--block is 65537, and can be 1 to 65536' PE --block 65537 r1.fq r2.fq "${outs[@]}" CROP:1
both 2 'bad setting: depth' '--depth is 65, and can be 1 to 64' IL --depth 65 both.fq "${outs[@]}" CROP:1
both 2 'bad setting: chunk' '--chunk is 0, and can be 1 to 1048576' PE --chunk 0 r1.fq r2.fq "${outs[@]}" CROP:1
both 2 'bad encoding: phred33' 'it can be sanger (Phred+33), illumina13 (Phred+64) or solexa' PE --encoding phred33 r1.fq r2.fq "${outs[@]}" CROP:1

row='steps'
both 2 'bad step 1: Unknown' "'ILLUMINACLIP:a.fa:2:30:10' $steps" PE r1.fq r2.fq "${outs[@]}" ILLUMINACLIP:a.fa:2:30:10
both 2 'bad step 1: Unknown' "'leading:3' $steps" PE r1.fq r2.fq "${outs[@]}" leading:3
both 2 'bad step 1: Unknown' "'u3.fq' $steps. Is there one file name too many?" PE r1.fq r2.fq "${outs[@]}" u3.fq CROP:1
both 2 'bad step 1: Unknown' "'out/u3' $steps. Is there one file name too many?" IL both.fq "${outs[@]}" out/u3 CROP:1
both 2 'bad step 1: WrongCount' "'LEADING:3,MINLEN:36' must have one number, as LEADING:3" PE r1.fq r2.fq "${outs[@]}" LEADING:3,MINLEN:36
both 2 'bad step 2: WrongCount' "'MINLEN' must have one number, as MINLEN:36" PE r1.fq r2.fq "${outs[@]}" CROP:1 MINLEN 36
both 2 'bad step 1: WrongCount' "'SLIDINGWINDOW:4' must have two numbers, as SLIDINGWINDOW:4:15" PE r1.fq r2.fq "${outs[@]}" SLIDINGWINDOW:4
both 2 'bad step 1: WrongCount' "'TOPHRED33:1' must have no number, as TOPHRED33" PE r1.fq r2.fq "${outs[@]}" TOPHRED33:1
both 2 'bad step 1: BadNumber' "'AVGQUAL:x' must have numbers of 1 to 9 digits, as AVGQUAL:20" PE r1.fq r2.fq "${outs[@]}" AVGQUAL:x
both 2 'bad step 1: OutOfRange' "'SLIDINGWINDOW:0:15' must have a window of 1 base or more, as SLIDINGWINDOW:4:15" PE r1.fq r2.fq "${outs[@]}" SLIDINGWINDOW:0:15
both 2 'bad step 0: NoSteps' 'the files must be followed by one step or more, as MINLEN:36' PE r1.fq r2.fq "${outs[@]}"
both 2 'bad step 65: TooMany' 'there are 65 steps, and there can be 1 to 64' PE r1.fq r2.fq "${outs[@]}" "${many[@]}"

row='names'
both 2 'same name: r1.fq' 'it is an input and the output of forward paired reads' PE r1.fq r2.fq r1.fq u1 p2 u2 CROP:1
both 2 'same name: both.fq' 'it is an input and the output of reverse unpaired reads' IL both.fq p1 u1 p2 both.fq CROP:1
both 2 'same name: r2.fq' 'it is an input and the trim log' PE --trimlog r2.fq r1.fq r2.fq "${outs[@]}" CROP:1
both 2 'same name: r2.fq' 'it is an input and the report' PE --report r2.fq r1.fq r2.fq "${outs[@]}" CROP:1
both 4 'cannot read r1.fq' 'it is given twice' PE r1.fq r1.fq "${outs[@]}" CROP:1
both 4 'cannot read nosuch.fq' "$none" PE nosuch.fq r2.fq "${outs[@]}" CROP:1
both 4 'cannot read nosuch.fq' "$none" PE nosuch.fq nosuch.fq "${outs[@]}" CROP:1
both 4 'cannot read link.fq' 'it is given twice' PE r1.fq link.fq "${outs[@]}" CROP:1
both 4 'cannot read r1.fq/x' 'Not a directory' PE r1.fq/x r2.fq "${outs[@]}" CROP:1
both 4 'cannot read d' 'it is a directory' IL d "${outs[@]}" CROP:1
both 4 'cannot write p1' 'it is also an output' PE r1.fq r2.fq p1 u1 p1 u2 CROP:1
both 4 'cannot write u1' 'it is also an output' IL both.fq p1 u1 p2 u1 CROP:1
both 4 'cannot write p2' 'it is also an output' PE --trimlog p2 r1.fq r2.fq "${outs[@]}" CROP:1
both 4 'cannot write p1' 'it is also an output' PE --report p1 r1.fq r2.fq "${outs[@]}" CROP:1
both 4 'cannot write d' 'it is a directory' PE r1.fq r2.fq d u1 p2 u2 CROP:1
both 4 'cannot write no/p1' "$none" PE r1.fq r2.fq no/p1 u1 no/p1 u2 CROP:1
both 4 'cannot write link.fq' 'it leads to an input (r1.fq or r2.fq)' PE r1.fq r2.fq p1 link.fq p2 u2 CROP:1
both 4 'cannot write link.fq' 'it leads to the input r1.fq' IL --report link.fq r1.fq "${outs[@]}" CROP:1

row='inputs'
both 3 'input: forward record 1: NoTitle' "gz.fq: the record does not begin with @. $zipped" PE gz.fq r2.fq "${outs[@]}" CROP:1
both 3 'input: forward record 1: NoTitle' 'bam.fq: the record does not begin with @. The file looks like BAM' IL bam.fq "${outs[@]}" CROP:1
both 3 'input: reverse record 1: NoTitle' 'fasta.fq: the record does not begin with @. The file looks like FASTA' PE r1.fq fasta.fq "${outs[@]}" CROP:1
both 3 'input: forward record 1: BadQuality' 'r1.fq: a quality byte has no score in the encoding illumina13 (see --encoding)' PE --encoding illumina13 r1.fq r2.fq "${outs[@]}" CROP:1
both 3 'input: reverse record 2: NoPlus' 'cut.fq: the file ends before the line that begins with +' PE r1.fq cut.fq "${outs[@]}" CROP:1
both 3 'input: forward record 1: MateMissing' 'empty.fq: the file ends before this record, and r2.fq has it' PE empty.fq r2.fq "${outs[@]}" CROP:1
both 3 'input: reverse record 2: MateMissing' 'first.fq: the file ends before this record, and r1.fq has it' PE r1.fq first.fq "${outs[@]}" CROP:1
both 3 'input: reverse record 2: MateMissing' 'both.fq: the file ends after a forward read' IL both.fq "${outs[@]}" CROP:1
both 3 'input: record 1: NamesDiffer' "r1.fq has 'p1' and other.fq has 'p2' (see --no-name-check)" PE r1.fq other.fq "${outs[@]}" CROP:1
both 3 'input: record 1: NamesDiffer' "r1.fq: the pair has the names 'p1' and 'p2/1' (see --no-name-check)" IL r1.fq "${outs[@]}" CROP:1
both 3 'input: record 1: NamesDiffer' "odd.fq has '' and r2.fq has 'p1' (see --no-name-check)" PE odd.fq r2.fq "${outs[@]}" CROP:1
both 3 'input: record 1: NamesDiffer' "odd.fq: the pair has the names '' and '??[31mp??' (see --no-name-check)" IL odd.fq "${outs[@]}" CROP:1
both 3 'input: record 1: NamesDiffer' "long.fq has '$(printf 'p%.0s' {1..100})' (100 of 100000 bytes) and r2.fq has 'p1' (see --no-name-check)" PE long.fq r2.fq "${outs[@]}" CROP:1

row='devices'
both 4 'write failed: forward paired' "/dev/full: $full" PE r1.fq r2.fq /dev/full u1 p2 u2 CROP:1
both 4 'write failed: trim log' "/dev/full: $full" IL --trimlog /dev/full --no-name-check r1.fq "${outs[@]}" CROP:1

# Which number has which words is in one table, from 0 on.
row='words of the system'
sed -n '/ERROR_WORDS:/,/^\];/s/^    "\(.*\)",$/\1/p' "$tree/crates/fq_app_reasons/src/causes.rt" > ours
python3 -c '
import os
own = {0: "the system gave no reason", 21: "it is a directory"}
words = [own.get(number, os.strerror(number)) for number in range(200)]
while words[-1].startswith("Unknown error"):
    words.pop()
for each in words:
    print("" if each.startswith("Unknown error") else each)' > theirs
cmp -s ours theirs || fail "$(diff ours theirs)"

row='no mistake'
line 0 '' "$program" PE --explain r1.fq r2.fq "${outs[@]}" CROP:1

both 4 'write failed: report' "/dev/full: $full" PE --report /dev/full r1.fq r2.fq "${outs[@]}" CROP:1

# As root every file can be read, so a user without rights makes these calls.
row='rights'
reader=()
if [ "$(id -u)" -eq 0 ]; then reader=(setpriv --reuid 65534 --regid 65534 --clear-groups); fi
# closed STATUS LINE WORDS..: the same for a call by a user who may read r2.fq alone, and write nothing
closed() {
  local status=$1 line=$2 got
  shift 2
  make_files
  chmod 755 . && chmod 000 r1.fq && chmod 555 d
  got=$("${reader[@]}" "$@" 2>&1 > /dev/null)
  [ $? -eq "$status" ] || fail "'$*' ends with another status than $status"
  [ "$got" = "$line" ] || fail "'$*' prints '$got' in place of '$line'"
  chmod 755 d
}
if [ "$(id -u)" -ne 0 ] || command -v setpriv > /dev/null; then
  cp "$program" reachable && chmod 755 reachable
  closed 4 'cannot read r1.fq' ./reachable PE r1.fq r2.fq "${outs[@]}" CROP:1
  closed 4 "cannot read r1.fq: $rights" ./reachable PE --explain r1.fq r2.fq "${outs[@]}" CROP:1
  closed 4 "cannot write d/p1: $rights" ./reachable PE --explain r2.fq both.fq d/p1 u1 p2 u2 CROP:1
fi

row='the report has the line without the reason'
make_files
"$program" PE --explain --report json r1.fq first.fq "${outs[@]}" CROP:1 > out 2> err
grep -q '"fault":"input: reverse record 2: MateMissing",' json || fail "it has $(grep -o '"fault":[^,]*' json)"

finish 'lines with reasons and without'
