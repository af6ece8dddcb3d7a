#!/usr/bin/env bash
# A mapper inside a run of tibzharuk trim (--through): with bwa, bowtie2 and minimap2 the records are
# those of a call by hand over the two paired files, and what they print on standard error is printed
# there. If the mapper fails, is killed, ends before it has read all pairs, writes nothing, or an
# input is damaged, the disk is full or a signal ends the run, no file gets its name, an older one
# stays as it was, and no process is left. --expect-pairs finds records that are missing. The report
# names the command.
# FQ_PROG names another build of the program. A row whose tool isn't installed is reported as
# skipped.
set -uo pipefail
. "$(dirname "$0")/common.bash"
find_program
. tests/trim/common.bash
. "$tree/tests/trim/genome.bash"
draw_genome 300
head -c 20000 g2 | gzip | head -c 3000 > g2.cut.gz
into=(-1 data/g1 -2 data/g2 --no-unpaired --interleaved out/s.sam)

# run WORDS..: over an older output; its status is in `got`
run() {
  rm -rf "$work/out"
  mkdir "$work/out"
  echo earlier > "$work/out/s.sam"
  (cd "$work" && trimmed "$@" "${last[@]}") > "$work/printed" 2> "$work/told"
  got=$?
}

# mapped FILE COMMAND WORDS..: all is well, and the records are those of this file
mapped() {
  local file=$1 command=$2
  shift 2
  run "${into[@]}" --through "$command" --expect-pairs "$@"
  [ "$got" -eq 0 ] || fail "status $got: $(cat "$work/told")"
  cmp -s "$work/printed" "$plain/summary" || fail 'the summary is another one'
  grep -v '^@' "$work/out/s.sam" | cmp -s - "$file" || fail 'other records than by hand'
  no_rest
}

# kept LINE STATUS WORDS..: the file is as it was, and this is the last line
kept() {
  local line=$1 status=$2
  shift 2
  run "$@"
  [ "$got" -eq "$status" ] || fail "status $got, not $status"
  [ "$(tail -n 1 "$work/told")" = "tibzharuk: $line" ] || fail "it says '$(cat "$work/told")', not '$line'"
  [ ! -s "$work/printed" ] || fail 'a summary was printed'
  [ "$(cd "$work/out" && echo *)" = s.sam ] || fail "outputs: $(ls -A "$work/out")"
  [ "$(cat "$work/out/s.sam")" = earlier ] || fail 'an earlier output was touched'
  no_rest
}

row=bwa
bwa='bwa mem -p data/genome.fa -'
if has bwa bwa; then
  bwa index genome.fa 2> "$work/mapper" || fail "$(cat "$work/mapper")"
  (cd "$work" && bwa mem data/genome.fa plain/g1.fq plain/g2.fq) 2> "$work/mapper" | grep -v '^@' > "$work/files.sam"
  mapped "$work/files.sam" "$bwa" --report out/s.json --html out/s.html
  grep -q '^\[main\] CMD: bwa mem' "$work/told" || fail "it says $(cat "$work/told")"
  sed 's/"data\/g/"data\/h/g' "$work/out/s.json" > "$work/other.json"
  "$tibzharuk" sum "$work/out/s.json" "$work/other.json" > "$work/sum"
  for each in out/s.json sum; do
    grep -qF "\"through\":[\"$bwa\"]" "$work/$each" || fail "$each doesn't name the command"
  done
  grep -qF "<dt>pairs read by</dt><dd><code>$bwa</code></dd>" "$work/out/s.html" || fail "the page doesn't name the command"
  row='damaged input before bwa'
  kept 'cannot read data/g2.cut.gz: unexpected end of file' 3 -1 data/g1 -2 data/g2.cut.gz "${into[@]:4}" --through "$bwa"
  row='no index'
  kept 'cannot write out/s.sam: its command ended with status 1' 4 "${into[@]}" --through 'bwa mem -p data/none.fa -'
  row='records that are missing'
  few="its command was given $pairs pairs, but made primary records of"
  lacking=$((pairs - 1))
  kept "cannot write out/s.sam: $few $lacking first and $lacking second mates" 4 "${into[@]}" --expect-pairs --through "$bwa | grep -v '^g17[[:space:]]'"
  row='mates of different names, each mapped alone'
  sed 's/^@g/@h/' g2 > h2
  kept "cannot write out/s.sam: $few 0 first and 0 second mates, and of $((2 * pairs)) reads without a mate" 4 \
    -1 data/g1 -2 data/h2 --no-name-check "${into[@]:4}" --expect-pairs --through "$bwa"
fi
if has bwa bwa && has samtools samtools; then
  row='bwa and samtools'
  sorted="$bwa | samtools sort -O bam -o - -"
  (cd "$work" && bash -c "cat data/genome.fa > /dev/null; bwa mem data/genome.fa plain/g1.fq plain/g2.fq | samtools sort -O sam -o - -") 2> "$work/mapper" |
    grep -v '^@' > "$work/sorted.sam"
  run "${into[@]}" --expect-pairs --through "$sorted"
  [ "$got" -eq 0 ] || fail "status $got: $(cat "$work/told")"
  samtools view "$work/out/s.sam" | cmp -s - "$work/sorted.sam" || fail 'other records than by hand'
  no_rest
  row='records that are missing in a BAM file'
  kept "cannot write out/s.sam: $few $pairs first and 0 second mates" 4 "${into[@]}" --expect-pairs --through "$bwa | samtools view -b -F 0x80 -"
  run "${into[@]}" --through "$bwa | samtools view -b -F 0x80 -"
  [ "$got" -eq 0 ] || fail "without --expect-pairs: status $got: $(cat "$work/told")"
fi
row=bowtie2
if has bowtie2 bowtie2; then
  bowtie2-build -q genome.fa genome 2> "$work/mapper" || fail "$(cat "$work/mapper")"
  bowtie2 --no-hd -x genome -1 "$plain/g1.fq" -2 "$plain/g2.fq" 2> "$work/mapper" > "$work/files.sam"
  mapped "$work/files.sam" 'bowtie2 --no-hd -x data/genome --interleaved -'
  grep -q 'overall alignment rate$' "$work/told" || fail "it says $(cat "$work/told")"
  row='damaged input before bowtie2, which fails at a broken stream'
  kept 'cannot read data/g2.cut.gz: unexpected end of file' 3 -1 data/g1 -2 data/g2.cut.gz "${into[@]:4}" --through 'bowtie2 -x data/genome --interleaved - && exit 7'
fi
row=minimap2
if has minimap2 minimap2; then
  minimap2 -a -x sr genome.fa "$plain/g1.fq" "$plain/g2.fq" 2> "$work/mapper" | grep -v '^@' > "$work/files.sam"
  mapped "$work/files.sam" 'minimap2 -a -x sr data/genome.fa -'
fi

# Each row: a command, and why its output isn't taken.
while IFS='|' read -r command why; do
  row="a command that fails: $command"
  kept "cannot write out/s.sam: $why" 4 "${into[@]}" --expect-pairs --through "${command//;/|}"
done << 'ROWS'
exit 3|its command ended with status 3
false ; cat|its command ended with status 1
cat ; false|its command ended with status 1
nowhere/mapper|its command ended with status 127
kill -9 $$|its command was ended by SIGKILL
sh -c 'kill -9 $$' ; cat|its command ended with status 137 (SIGKILL)
cat ; sh -c 'cat > /dev/null && kill -9 $$'|its command ended with status 137 (SIGKILL)
true|its command ended before it had read all pairs
head -n 4|its command ended before it had read all pairs
head -c 60000|its command ended before it had read all pairs
cat > /dev/null|its command wrote nothing
cat|it is neither SAM nor BAM
cat > /dev/full|its command ended with status 1
ROWS

row='a full disk'
mkdir -p "$work/small"
if mount -t tmpfs -o size=16k tmpfs "$work/small" 2> /dev/null; then
  run -1 data/g1 -2 data/g2 --no-unpaired --interleaved small/s.sam --through cat
  [ "$got" -eq 4 ] || fail "status $got, not 4"
  grep -qF 'No space left on device' "$work/told" || fail "it says $(cat "$work/told")"
  [ "$(tail -n 1 "$work/told")" = 'tibzharuk: cannot write small/s.sam: its command ended with status 1' ] || fail "it says $(cat "$work/told")"
  [ -z "$(ls -A "$work/small")" ] || fail "there is $(ls -A "$work/small")"
  umount "$work/small"
else
  echo "$this: skipped: $row: mount is refused here"
fi

# signalled NUMBER STATUS LINE: a signal to the whole group of the run, while its command works
signalled() {
  rm -rf "$work/out"
  mkdir "$work/out"
  echo earlier > "$work/out/s.sam"
  set -m
  (cd "$work" && PATH=$tools exec "${trim[@]}" --program "$program" "${into[@]}" --through 'cat; echo > out/ready; exec sleep 600' "${last[@]}") > "$work/printed" 2> "$work/told" &
  set +m
  for _ in {1..2400}; do
    [ -e "$work/out/ready" ] && break
    sleep 0.05
  done
  kill "-$1" -- "-$!"
  wait "$!" 2> /dev/null
  got=$?
  rm -f "$work/out/ready"
  [ "$got" -eq "$2" ] || fail "status $got, not $2"
  [ "$(cat "$work/told")" = "tibzharuk: stopped by SIG$1, no output was made" ] || fail "it says '$(cat "$work/told")'"
  [ "$(cat "$work/out/s.sam")" = earlier ] || fail 'an earlier output was touched'
  no_rest
}
row='a signal to the group'
signalled TERM 143
signalled USR1 138
signalled HUP 129

row='a command that writes to standard output'
in_turn "$plain/g1.fq" "$plain/g2.fq" > "$plain/gil.fq"
run "${into[@]:0:5}" --interleaved - --through cat
[ "$got" -eq 0 ] || fail "status $got: $(cat "$work/told")"
cmp -s "$work/printed" "$plain/gil.fq" || fail 'standard output has other pairs'
cmp -s "$work/told" "$plain/summary" || fail "it says $(cat "$work/told")"
run "${into[@]:0:5}" --interleaved - --through 'cat; exit 5'
[ "$(cat "$work/told")" = 'tibzharuk: cannot write -: its command ended with status 5; what was written to - is incomplete: discard what was made of it' ] ||
  fail "it says $(cat "$work/told")"

row='the environment of a command'
LC_ALL=C.UTF-8 GZIP=-1 run "${into[@]}" --through "cat > /dev/null; echo \$LC_ALL \$GZIP"
[ "$(cat "$work/out/s.sam")" = 'C.UTF-8 -1' ] || fail "it has $(cat "$work/out/s.sam")"

row='programs that are missing'
for each in env sh cat gzip; do ln -s "$(command -v "$each")" "$work/bin/$each"; done
ln -s "$(python3 -c 'import sys; print(sys.executable)')" "$work/bin/python3"
tools=$work/bin
kept 'no program bash (--through)' 1 "${into[@]}" --through cat
ln -s "$(command -v bash)" "$work/bin/bash"
kept 'no program samtools (--expect-pairs)' 1 "${into[@]:0:5}" --interleaved out/s.bam --through cat --expect-pairs
kept '--expect-pairs needs a file, and - isn'\''t one' 1 "${into[@]:0:5}" --interleaved - --through cat --expect-pairs

finish ok
