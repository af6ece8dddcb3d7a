#!/usr/bin/env bash
# tibzharuk trim at the rims of what is usual: standard input as an input, one pipe for both sides,
# reads of the SRA without a base, Ctrl-Z, files of another user in a sticky directory, signals of
# every kind, also as the first process of a container before a run has begun, titles beyond ASCII,
# broken records under adapters, Phred+64, pairs that are all dropped, and whether it opens a connection.
# FQ_PROG names another build of the program. A row that is refused here, or whose tool isn't
# installed, is reported as skipped.
set -uo pipefail
. "$(dirname "$0")/common.bash"
find_program
. tests/trim/common.bash
four=(--paired1 out/p1.fq --unpaired1 out/u1.fq --paired2 out/p2.fq --unpaired2 out/u2.fq)

row='standard input'
made -i - "${outputs[@]}" "${last[@]}" < i
as_plain p1.fq u1.fq p2.fq u2.fq
made -1 - -2 data/r.gz "${outputs[@]}" "${last[@]}" < f.gz
as_plain p1.fq u1.fq p2.fq u2.fq
row='one pipe for both sides'
refused 2 'tibzharuk: /dev/stdin is given twice' -1 - -2 - "${rest[@]}" < <(cat f)
mkfifo one
refused 2 'tibzharuk: data/one is given twice' -1 data/one -2 data/one "${rest[@]}"

# Two records without a base on both sides, and then mates that differ, or don't.
row='reads of the SRA without a base'
for side in 1 2; do
  printf '@SRR1.%d %d length=4\nNNNN\n+\n####\n' 1 1 2 2 > "n$side"
  printf '@SRR1.3 3 length=4\n%s\n+\nIIII\n' "$([ "$side" = 1 ] && echo ACGT || echo TTGT)" >> "n$side"
done
cp n1 n3
made -1 data/n1 -2 data/n2 "${four[@]}" MINLEN:1
for side in 1 2; do cmp -s "n$side" "$work/out/p$side.fq" || fail "p$side.fq has other reads"; done
refused 3 'tibzharuk: both sides begin with the same records: data/n1, data/n3 (--no-name-check passes them)' -1 data/n1 -2 data/n3 "${rest[@]}"

row='numbers of reads behind the usual /1 and /2'
printf '@V350/1 1:N:0:ACGT\nACGT\n+\nIIII\n' > v1
printf '@V350/2 1:N:0:ACGT\nACGA\n+\nIIII\n' > v2
made -1 data/v1 -2 data/v2 "${four[@]}" MINLEN:1

row='Phred+64'
printf '@a/1\nACGT\n+\nBCDh\n' > o1
printf '@a/2\nACGA\n+\nhhhh\n' > o2
warned 'tibzharuk: warning: the scores of data/o1 go up to 71, so its qualities are probably Phred+64: use --encoding illumina13' -1 data/o1 -2 data/o2 "${four[@]}" MINLEN:1
made -1 data/o1 -2 data/o2 "${four[@]}" --encoding illumina13 MINLEN:1
row='all pairs dropped'
warned 'tibzharuk: warning: all pairs were dropped' "${both[@]}" "${four[@]}" MINLEN:1000
row='no connection'
if ! strace -o "$work/calls" true 2> /dev/null; then
  echo "$this: skipped: $row: strace is not installed or is refused (apt-get install strace)"
elif has cutadapt cutadapt; then
  (cd "$work" && strace -f -qq -e trace=%network -o calls "${trim[@]}" --program "$program" "${both[@]}" --adapters truseq --checksums --out out/s "${last[@]}") \
    > "$work/printed" 2> "$work/told" || fail "status $?: $(cat "$work/told")"
  ! grep AF_INET "$work/calls" || fail 'it opens a connection'
  rm "$work"/out/s.*
fi

row='a directory as a prefix'
for each in . .. out/. out/; do
  refused 1 "tibzharuk: --out $each is a directory; the names need a beginning, too" "${both[@]}" --out "$each" "${last[@]}"
done

# Each row: the reverse file, and what is said of it with adapters.
draw 1 40 1 > k1
draw 1 40 2 > k2
sed '81s/@/r/' k2 > no_title
sed '84s/.$//' k2 > short
sed '83d' k2 > no_plus
sed '81s/r21/other/' k2 > other
head -n 80 k2 > less
sed '81s/lane/l\xc3\xa4ne/' k2 > not_ascii
sed '80G' k2 > empty_line
row='a broken record under adapters'
if has cutadapt cutadapt; then
  while IFS='|' read -r file line; do
    row="a broken record under adapters: $file"
    refused 3 "tibzharuk: ${line//FILES/data/$file}" -1 data/k1 -2 "data/$file" --adapters truseq -t 1 "${rest[@]}"
  done << 'ROWS'
no_title|input: reverse record 21: NoTitle: FILES: the record does not begin with @
short|input: reverse record 21: QualityLong: FILES: the quality is longer than the sequence
no_plus|input: reverse record 21: BadSequence: FILES: a sequence line begins with @ (is a + line missing?), or holds a space or an unprintable byte; if records have four lines, this one begins at line 81
other|input: record 21: NamesDiffer: data/k1 has 'r21' and FILES has 'other' (see --no-name-check)
less|input: reverse record 21: MateMissing: FILES: the file ends before this record, and data/k1 has it
not_ascii|cutadapt: Error in FASTQ file at unknown line: Non-ASCII characters found in record. (data/k1, FILES): cutadapt needs titles in ASCII
empty_line|cutadapt: Error in FASTQ file at line 81: Line expected to start with '@', but found '\n' (data/k1, FILES): cutadapt needs records of four lines, without empty lines between them
ROWS
fi

row='an older output of another user in a sticky directory'
if [ "$(id -u)" -eq 0 ] && command -v setpriv > /dev/null; then
  earlier
  chmod 755 "$work" "$work/data"
  chmod 1777 "$work/out" "$TMPDIR"
  chmod 666 "$work"/out/*
  (cd "$work" && setpriv --reuid 65534 --regid 65534 --clear-groups "${trim[@]}" --program "$program" "${both[@]}" "${rest[@]}") > "$work/printed" 2> "$work/told"
  got=$?
  if grep -q 'Permission denied' "$work/told"; then
    echo "$this: skipped: $row: another user can't read this tree"
  else
    [ "$got" -eq 4 ] || fail "status $got, not 4"
    [ "$(cat "$work/told")" = 'tibzharuk: cannot write out/p1.fq.gz: it belongs to another user, and its directory is sticky' ] || fail "it says $(cat "$work/told")"
  fi
  untouched
else
  echo "$this: skipped: $row: needs root and setpriv"
fi

# begin [AROUND..]: a run over a text that doesn't end, in a process group of its own, as `pid`
begin() {
  rm -rf "$work/out"
  mkdir "$work/out"
  endless f
  set -m
  (cd "$work" && PATH=$tools exec "$@" "${trim[@]}" --program "$program" -1 data/endless -2 data/r.gz "${rest[@]}") > "$work/printed" 2> "$work/told" &
  pid=$!
  set +m
}

# begun: waits until the outputs are written
begun() {
  for _ in {1..2400}; do
    [ -n "$(find "$work/out" -name '.p1.fq.gz.tibzharuk.*' -size +0)" ] && return
    sleep 0.05
  done
  fail 'it does not begin'
}

row='Ctrl-Z'
begin
begun
kill -TSTP -- "-$pid"
for _ in {1..100}; do
  [ "$(cut -d ')' -f 2 "/proc/$pid/stat" | cut -c 2)" = T ] && break
  sleep 0.05
done
children=$(cat "/proc/$pid/task/$pid/children")
for each in $pid $children; do
  state=$(cut -d ')' -f 2 "/proc/$each/stat" 2> /dev/null | cut -c 2)
  # One that has read its input may have ended.
  [[ ${state:-Z} == [TZ] ]] || fail "after Ctrl-Z $(cat "/proc/$each/comm") is in state $state"
done
kill -CONT -- "-$pid"
for _ in {1..100}; do
  stopped=0
  for each in $pid $children; do
    [ "$(cut -d ')' -f 2 "/proc/$each/stat" 2> /dev/null | cut -c 2)" != T ] || stopped=1
  done
  [ "$stopped" -eq 1 ] || break
  sleep 0.05
done
[ "$stopped" -eq 0 ] || fail 'after fg something is stopped'
kill "$pid"
wait "$pid" 2> /dev/null
got=$?
[ "$got" -eq 143 ] || fail "status $got, not 143"
kill "$fed"
no_rest

# stopped NAME STATUS: this signal ends a run
stopped() {
  begun
  kill "-$1" "$target"
  wait "$pid" 2> /dev/null
  got=$?
  kill "$fed"
  [ "$got" -eq "$2" ] || fail "status $got, not $2"
  [[ $(cat "$work/told") = 'tibzharuk: stopped by '*', no output was made' ]] || fail "it says '$(cat "$work/told")'"
  [ -z "$(ls -A "$work/out")" ] || fail "there is $(ls -A "$work/out")"
  no_rest
}
for each in ABRT:134 IO:157 PWR:158 STKFLT:144 RTMIN:162 RTMAX:192; do
  row="SIG${each%:*}"
  begin
  target=$pid
  stopped "${each%:*}" "${each#*:}"
done
first=(unshare -p -f --mount-proc)
row='the first process of a container'
if "${first[@]}" true 2> /dev/null; then
  for each in ABRT:134 IO:157 RTMIN:162; do
    row="SIG${each%:*} to the first process of a container"
    begin "${first[@]}"
    begun
    target=$(cat "/proc/$pid/task/$pid/children")
    stopped "${each%:*}" "${each#*:}"
  done
  row='SIGTERM to the first process of a container, as soon as it can hear it'
  begin "${first[@]}"
  for _ in {1..2000}; do
    target=$(cat "/proc/$pid/task/$pid/children" 2> /dev/null)
    caught=$(awk '$1 == "SigCgt:" { print substr($2, 12) }' "/proc/${target:-0}/status" 2> /dev/null)
    [ -z "$caught" ] || [ $((0x$caught & 0x4000)) -eq 0 ] || break
  done
  kill "${target% }"
  wait "$pid" 2> /dev/null
  got=$?
  kill "$fed" 2> /dev/null
  [ "$got" -eq 143 ] || fail "status $got, not 143"
  no_rest
else
  echo "$this: skipped: $row: unshare is refused here"
fi

finish ok
