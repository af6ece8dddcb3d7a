#!/usr/bin/env bash
# Runs the built program on small real files, and compares outputs, status and standard error.
set -uo pipefail
. "$(dirname "$0")/common.bash"
find_program
version=$(bash packaging/version.sh --print)
work=$(mktemp -d)
trap 'rm -rf "$work"' EXIT
cd "$work" || exit 1

# same NAME WHAT: the file NAME holds what WHAT prints
same() {
  # shellcheck disable=SC2059  # WHAT has escapes, which are for printf
  printf "$2" | cmp -s - "$1" || fail "$1 is not as expected"
}

# run STATUS LINE WORDS..
run() {
  local status=$1 line=$2 got
  shift 2
  "$program" "$@" > out 2> err
  got=$?
  [ "$got" -eq "$status" ] || fail "status $got, not $status"
  same err "$line"
}

two_pairs() {
  rm -rf ./*
  printf '@p1/1\nACGT\n+\n#!II\n@p2/1\nGGCC\n+\nIIII\n' > f
  printf '@p1/2\nTTTT\n+\nIIII\n@p2/2\nAAAA\n+\n!!!"\n' > r
  printf '@p1/1\nACGT\n+\n#!II\n@p1/2\nTTTT\n+\nIIII\n@p2/1\nGGCC\n+\nIIII\n@p2/2\nAAAA\n+\n!!!"\n' > i
}

summary='Input Read Pairs: 2\nBoth Surviving: 1\nForward Only Surviving: 1\nReverse Only Surviving: 0\nDropped: 0\n'
none='Input Read Pairs: 0\nBoth Surviving: 0\nForward Only Surviving: 0\nReverse Only Surviving: 0\nDropped: 0\n'

expect_two_pairs() {
  same fp '@p1/1\nGT\n+\nII\n'
  same fu '@p2/1\nGGCC\n+\nIIII\n'
  same rp '@p1/2\nTTTT\n+\nIIII\n'
  same ru ''
  same out "$summary"
}

row='two pairs'
two_pairs
for name in fp fu rp ru log; do printf '%1000s\n' 'old text' > "$name"; done
run 0 '' PE --threads 2 --block 1 --trimlog log f r fp fu rp ru LEADING:3
expect_two_pairs
same log 'p1 2 2 4 0\np1 4 0 4 0\np2 4 0 4 0\np2 0 0 0 0\n'

row='no workers'
two_pairs
run 2 'bad setting: workers\n' PE --threads 0 f r fp fu rp ru LEADING:3
[ -e fp ] && fail "an output was made"

row='one name twice'
run 2 'same name: f\n' PE f r f fu rp ru LEADING:3

row='an output that is an input under another name'
for name in ./f link hard; do
  two_pairs
  ln -s f link
  ln f hard
  run 4 "cannot write $name\n" PE f r "$name" fu rp ru LEADING:3
  same f '@p1/1\nACGT\n+\n#!II\n@p2/1\nGGCC\n+\nIIII\n'
done

row='an output that is an input under another name, after others'
two_pairs
ln -s r link
printf 'old text' > fp
run 4 'cannot write link\n' PE --trimlog link f r fp fu rp ru LEADING:3
same fp 'old text'
same r '@p1/2\nTTTT\n+\nIIII\n@p2/2\nAAAA\n+\n!!!"\n'
[ -e fu ] && fail "an output was made"

row='two outputs into one file'
for name in fp ./fp link; do
  two_pairs
  ln -s fp link
  run 4 "cannot write $name\n" PE f r fp "$name" rp ru LEADING:3
done

row='two outputs that are thrown away'
two_pairs
run 0 '' PE f r fp /dev/null rp /dev/null LEADING:3
same fp '@p1/1\nGT\n+\nII\n'
same out "$summary"

row='a missing input'
two_pairs
rm f
run 4 'cannot read f\n' PE f r fp fu rp ru LEADING:3
[ -e fp ] && fail "an output was made"

row='a directory as an input'
two_pairs
mkdir d
run 4 'cannot read d\n' PE d r fp fu rp ru LEADING:3
[ -e fp ] && fail "an output was made"

row='the summary into the file of the log'
two_pairs
# shellcheck disable=SC2094  # one file for both is what must be refused
"$program" PE --trimlog log f r fp fu rp ru LEADING:3 > log 2> err
[ $? -eq 4 ] || fail "the status is not 4"
same err 'cannot write log\n'
same log ''

row='the summary into the file of an output'
for name in fp ./fp /dev/stdout; do
  two_pairs
  "$program" PE f r "$name" fu rp ru LEADING:3 > fp 2> err
  [ $? -eq 4 ] || fail "the status is not 4"
  same err "cannot write $name\n"
  same fp ''
done

row='the summary into the file of the report'
two_pairs
# shellcheck disable=SC2094  # one file for both is what must be refused
"$program" PE --report report f r fp fu rp ru LEADING:3 > report 2> err
[ $? -eq 4 ] || fail "the status is not 4"
same err 'cannot write report\n'

row='standard error into the file of an output'
for name in ru /dev/stderr; do
  two_pairs
  "$program" PE f r fp fu rp "$name" LEADING:3 > out 2> ru
  [ $? -eq 4 ] || fail "the status is not 4"
  same ru "cannot write $name\n"
  same out ''
done

row='a word that is not UTF-8'
two_pairs
"$program" PE $'\xff' r fp fu rp ru LEADING:3 > out 2> err
[ $? -eq 1 ] || fail "the status is not 1"
same err "error: word 2 is not UTF-8\n\nFor more information, try '--help'.\n"
[ -e fp ] && fail "an output was made"

row='one file as both inputs'
two_pairs
ln f again
run 4 'cannot read f\n' PE f f fp fu rp ru LEADING:3
run 4 'cannot read again\n' PE f again fp fu rp ru LEADING:3
[ -e fp ] && fail "an output was made"
run 0 '' PE /dev/null /dev/null fp fu rp ru LEADING:3

row='the version'
two_pairs
run 0 '' --version
same out "fq_prog $version\n"

row='a directory that is not there'
two_pairs
run 4 'cannot write no/fu\n' PE f r fp no/fu rp ru LEADING:3
same fp ''

if [ -w /dev/full ]; then
  row='an output on a full device'
  two_pairs
  run 4 'write failed: forward paired\n' PE f r /dev/full fu rp ru LEADING:3
  same out ''
  row='a log on a full device'
  two_pairs
  run 4 'write failed: trim log\n' PE --trimlog /dev/full f r fp fu rp ru LEADING:3
  same out ''
fi

row='a report'
two_pairs
printf '%10000s' 'old text' > report
run 0 '' PE --report report f r fp fu rp ru LEADING:3
expect_two_pairs
grep -q '^{"command":"PE",.*"forward_only_surviving":1,"input":2,.*"version":"'"$version"'"}$' report || fail "it is not as expected"
[ "$(wc -l < report)" -eq 1 ] || fail "it is not one line"

row='a report that is an input or another output'
two_pairs
run 2 'same name: f\n' PE --trimlog log --report f f r fp fu rp ru LEADING:3
for name in ./f fp ./fp log link; do
  two_pairs
  ln -s r link
  run 4 "cannot write $name\n" PE --trimlog log --report "$name" f r fp fu rp ru LEADING:3
  same r '@p1/2\nTTTT\n+\nIIII\n@p2/2\nAAAA\n+\n!!!"\n'
done

if [ -w /dev/full ]; then
  row='a report on a full device'
  two_pairs
  run 4 'write failed: report\n' PE --report /dev/full f r fp fu rp ru LEADING:3
  same fp '@p1/1\nGT\n+\nII\n'
  same out ''
fi

row='a truncated input'
two_pairs
head -c 16 f > g && mv g f
run 3 'input: forward record 1: QualityShort\n' PE --trimlog log f r fp fu rp ru LEADING:3
for name in fp fu rp ru log; do same "$name" ''; done
same out "$none"

row='lines that end with CR LF'
two_pairs
sed -i 's/$/\r/' f r
run 0 '' PE f r fp fu rp ru LEADING:3
expect_two_pairs

row='empty inputs'
two_pairs
: > f
: > r
run 0 '' PE --trimlog log f r fp fu rp ru LEADING:3
for name in fp fu rp ru log; do same "$name" ''; done
same out "$none"

row='a shorter input'
two_pairs
head -n 4 r > g && mv g r
run 3 'input: reverse record 2: MateMissing\n' PE f r fp fu rp ru LEADING:3
same fp '@p1/1\nGT\n+\nII\n'

row='names with blanks and other letters'
two_pairs
mv f 'Vorwärts 1.fq'
run 0 '' PE 'Vorwärts 1.fq' r 'gepaart ä.fq' fu rp ru LEADING:3
mv 'gepaart ä.fq' fp
expect_two_pairs

row='inputs that are pipes'
two_pairs
run 0 '' PE <(cat f) <(cat r) fp fu rp ru LEADING:3
expect_two_pairs

row='killed'
two_pairs
printf 'old text' > fp
mkfifo forward reverse
"$program" PE --block 1 forward reverse fp fu rp ru LEADING:3 > out 2> err &
pid=$!
exec 3<> forward 4<> reverse
cat f >&3
head -n 4 r >&4
for _ in {1..200}; do [ -s rp ] || sleep 0.05; done
{
  kill -KILL "$pid"
  wait "$pid"
} 2> err
exec 3>&- 4>&-
same fp '@p1/1\nGT\n+\nII\n'
same fu ''
same rp '@p1/2\nTTTT\n+\nIIII\n'
same out ''

row='one file in which mates take turns'
two_pairs
run 0 '' IL --threads 2 --block 1 --trimlog log i fp fu rp ru LEADING:3
expect_two_pairs
same log 'p1 2 2 4 0\np1 4 0 4 0\np2 4 0 4 0\np2 0 0 0 0\n'

row='one file that is a pipe'
two_pairs
run 0 '' IL <(cat i) fp fu rp ru LEADING:3
expect_two_pairs

row='one file whose last record has no mate'
two_pairs
head -n 12 i > g && mv g i
run 3 'input: reverse record 2: MateMissing\n' IL i fp fu rp ru LEADING:3
same fp '@p1/1\nGT\n+\nII\n'

row='an output that is the one input under another name'
two_pairs
cp i old
ln -s i link
run 4 'cannot write link\n' IL i link fu rp ru LEADING:3
cmp -s i old || fail "the input is not as it was"

row='no command'
"$program" > out 2> err
[ $? -eq 1 ] || fail "the status is not 1"
[ -s err ] || fail "nothing on standard error"

row='help'
"$program" PE --help > out 2> err || fail "the status is not 0"
grep -q 'SLIDINGWINDOW:w:t' out || fail "the steps are not explained"

if [ -w /dev/full ]; then
  row='standard output on a full device'
  two_pairs
  "$program" PE f r fp fu rp ru LEADING:3 > /dev/full 2> err
  [ $? -eq 4 ] || fail "the status is not 4"
  same err 'cannot print\n'
fi

finish ok
