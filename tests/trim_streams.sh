#!/usr/bin/env bash
# tibzharuk trim into one stream: --interleaved and -, beside what `seqtk mergepe` makes of the two
# paired files, into bwa and bowtie2, and where the summary goes then.
# FQ_PROG names another build of the program. A row whose tool isn't installed is reported as
# skipped.
set -uo pipefail
. "$(dirname "$0")/common.bash"
find_program
. tests/trim/common.bash

in_turn "$plain/p1.fq" "$plain/p2.fq" > "$plain/il.fq"
row='mates in turn, as seqtk has them'
if has seqtk seqtk; then
  seqtk mergepe "$plain/p1.fq" "$plain/p2.fq" | cmp -s - "$plain/il.fq" || fail 'they are in another order'
fi

unpaired=(--unpaired1 out/u1.fq.gz --unpaired2 out/u2.fq.gz)

# streamed WORDS..: all outputs are made, what goes to standard output is in `printed`, and the
# summary is on standard error
streamed() {
  local got
  rm -rf "$work/out"
  mkdir "$work/out"
  (cd "$work" && trimmed "$@") 2> "$work/told" | cat > "$work/printed"
  got=${PIPESTATUS[0]}
  [ "$got" -eq 0 ] || fail "status $got: $(cat "$work/told")"
  cmp -s "$work/told" "$plain/summary" || fail "it says $(cat "$work/told")"
  no_rest
}

# printed_is FILE: what went to standard output
printed_is() { cmp -s "$work/printed" "$1" || fail "standard output is not $1"; }

for each in one two four; do
  row="an interleaved stream, $each threads"
  threads=${each/one/1}
  threads=${threads/two/2}
  streamed "${both[@]}" --interleaved - "${unpaired[@]}" --threads "${threads/four/4}" "${last[@]}"
  printed_is "$plain/il.fq"
  for name in u1.fq u2.fq; do gzip -dc "$work/out/$name.gz" | cmp -s - "$plain/$name" || fail "$name is another one"; done
done
row='an interleaved stream of lanes, and of an interleaved file'
streamed -1 data/a1.gz data/b1.gz -2 data/a2.gz data/b2.gz --interleaved - --no-unpaired "${last[@]}"
printed_is "$plain/il.fq"
streamed -i data/i.gz --interleaved /dev/stdout "${unpaired[@]}" "${last[@]}"
printed_is "$plain/il.fq"
row='an interleaved file, plain and compressed'
for name in il.fq il.fq.gz; do
  made "${both[@]}" --interleaved "out/$name" "${unpaired[@]}" --report out/report "${last[@]}"
  as_plain il.fq u1.fq u2.fq
  same_report "$work/out/report"
  named "$work/out/report" "[\"PE\", {\"forward\": \"data/f.gz\", \"reverse\": \"data/r.gz\"}, {\"forward_paired\": \"out/$name\", \"forward_unpaired\": \"out/u1.fq.gz\", \"reverse_paired\": \"out/$name\", \"reverse_unpaired\": \"out/u2.fq.gz\", \"trim_log\": null}]"
done
for each in pigz:pigz igzip:isal gzip:gzip; do
  has "${each%:*}" "${each#*:}" || continue
  made --compressor "${each%:*}" "${both[@]}" --interleaved out/il.fq.gz "${unpaired[@]}" "${last[@]}"
  as_plain il.fq u1.fq u2.fq
done
row='an interleaved stream, with a prefix for the other outputs'
streamed "${both[@]}" --interleaved - --out out/s "${last[@]}"
printed_is "$plain/il.fq"
[ "$(cd "$work/out" && echo *)" = 's.html s.json s.r1.unpaired.fastq.gz s.r2.unpaired.fastq.gz' ] || fail "there are $(ls -A "$work/out")"

row='the summary beside a stream'
rm -rf "$work/out"
mkdir "$work/out"
(cd "$work" && trimmed "${both[@]}" --interleaved - --no-unpaired --summary out/s "${last[@]}") > "$work/printed" 2> "$work/told" || fail 'it fails'
[ ! -s "$work/told" ] || fail "it says $(cat "$work/told")"
printed_is "$plain/il.fq"
cmp -s "$work/out/s" "$plain/summary" || fail 'the summary is another one'
row='other outputs as a stream'
streamed "${both[@]}" --paired1 /dev/stdout "${outputs[@]:2}" "${last[@]}"
printed_is "$plain/p1.fq"
streamed "${both[@]}" "${outputs[@]:0:6}" --unpaired2 - "${last[@]}"
printed_is "$plain/u2.fq"
streamed "${both[@]}" "${outputs[@]}" --trimlog - "${last[@]}"
printed_is "$plain/log"
streamed "${both[@]}" "${outputs[@]}" --report - "${last[@]}"
same_report "$work/printed"
row='the summary as a stream'
made "${both[@]}" "${outputs[@]}" --summary - "${last[@]}"
as_plain p1.fq

row='what would be mixed'
refused 2 'tibzharuk: /dev/stdout is given for two outputs' "${both[@]}" --interleaved - --no-unpaired --trimlog /dev/stdout "${last[@]}"
earlier
for file in "$work/mixed" /dev/stdout; do
  (cd "$work" && trimmed "${both[@]}" --interleaved - "${unpaired[@]}" "${last[@]}" > "$file" 2>&1) | cat > "$work/printed"
  [ "${PIPESTATUS[0]}" -eq 4 ] || fail 'the status is not 4'
  [ "$(cat "$work/mixed" "$work/printed")" = 'tibzharuk: cannot write -: it is stderr too' ] || fail "there is $(head -n 3 "$work/mixed" "$work/printed")"
  : > "$work/mixed"
  untouched
done
(cd "$work" && trimmed "${both[@]}" --paired1 /dev/stderr "${outputs[@]:2}" "${last[@]}") 2>&1 > /dev/null | cat > "$work/told"
[ "$(cat "$work/told")" = 'tibzharuk: cannot write /dev/stderr: it is stderr too' ] || fail "it says $(head -n 3 "$work/told")"
untouched

row='a stream, and a damaged input'
head -c "$(($(stat -c %s r.gz) / 2))" r.gz > r.half.gz
earlier
(cd "$work" && trimmed -1 data/f.gz -2 data/r.half.gz --interleaved - "${unpaired[@]}" "${last[@]}") 2> "$work/told" | cat > "$work/printed"
[ "${PIPESTATUS[0]}" -eq 3 ] || fail 'the status is not 3'
[ "$(cat "$work/told")" = 'tibzharuk: cannot read data/r.half.gz: unexpected end of file; what was written to - is incomplete: discard what was made of it' ] || fail "it says $(cat "$work/told")"
head -c "$(stat -c %s "$work/printed")" "$plain/il.fq" | cmp -s - "$work/printed" || fail 'the stream is no beginning of the right one'
: > "$work/printed"
untouched
row='a reader that ends early'
earlier
(cd "$work" && trimmed "${both[@]}" --interleaved - "${unpaired[@]}" "${last[@]}") 2> "$work/told" | head -n 1 > "$work/printed"
[ "${PIPESTATUS[0]}" -eq 4 ] || fail 'the status is not 4'
[ "$(cat "$work/told")" = 'tibzharuk: cannot write -: its reader has ended; what was written to - is incomplete: discard what was made of it' ] || fail "it says $(cat "$work/told")"
untouched
if [ -w /dev/full ]; then
  row='a stream onto a full device'
  earlier
  (cd "$work" && trimmed "${both[@]}" --interleaved - "${unpaired[@]}" "${last[@]}") > /dev/full 2> "$work/told"
  [ $? -eq 4 ] || fail 'the status is not 4'
  [ "$(cat "$work/told")" = 'tibzharuk: cannot write -: write error: No space left on device; what was written to - is incomplete: discard what was made of it' ] || fail "it says $(cat "$work/told")"
  untouched
fi

row='the memory of a stream'
for name in f r; do for _ in {1..80}; do cat "$name"; done > "$name.large"; done
(cd "$work" && PATH=$tools python3 "$tree/tests/trim/check.py" memory "${trim[@]}" --program "$program" -1 data/f.large -2 data/r.large --paired1 /dev/null --paired2 /dev/null --no-unpaired --trimlog /dev/stdout -- MINLEN:1) \
  2> "$work/told" > "$work/printed" || fail "it fails: $(cat "$work/told")"
kilobytes=$(tail -n 1 "$work/printed")
[ "$kilobytes" -lt 100000 ] || fail "$kilobytes kB of memory, for a stream of $(stat -c %s "$work/printed") bytes"
rm f.large r.large

# Pairs of a simulated genome, for mappers.
row='mappers'
. "$tree/tests/trim/genome.bash"
draw_genome 2000
into=(-1 data/g1 -2 data/g2 --interleaved - --no-unpaired "${last[@]}")
# mapped COMMAND..: the mapper over the stream gives the same records as over the two files
mapped() {
  (cd "$work" && trimmed "${into[@]}") 2> "$work/told" | "$@" 2> "$work/mapper" | grep -v '^@' > "$work/streamed.sam"
  [ "${PIPESTATUS[*]}" = '0 0 0' ] || fail "a status is not 0: $(cat "$work/told" "$work/mapper")"
  [ "$(grep -c . "$work/streamed.sam")" -ge $((2 * pairs)) ] || fail "$(wc -l < "$work/streamed.sam") records of $pairs pairs"
  cmp -s "$work/streamed.sam" "$work/files.sam" || fail 'other records than of two files'
}
if has bwa bwa; then
  row='bwa mem'
  bwa index genome.fa 2> "$work/mapper" || fail "$(cat "$work/mapper")"
  bwa mem genome.fa "$plain/g1.fq" "$plain/g2.fq" 2> "$work/mapper" | tee "$work/all.sam" | grep -v '^@' > "$work/files.sam"
  mapped bwa mem -p genome.fa -
  if has samtools samtools; then
    (cd "$work" && trimmed "${into[@]}") 2> "$work/told" | bwa mem -p genome.fa - 2> "$work/mapper" | samtools flagstat - > "$work/flags"
    grep -qF "$((2 * pairs)) + 0 properly paired (100.00%" "$work/flags" || fail "$(cat "$work/flags")"
    grep -qF '0 + 0 singletons' "$work/flags" || fail "$(cat "$work/flags")"
  fi
fi
if has bowtie2 bowtie2; then
  row='bowtie2'
  bowtie2-build -q genome.fa genome 2> "$work/mapper" || fail "$(cat "$work/mapper")"
  bowtie2 --no-hd -x genome -1 "$plain/g1.fq" -2 "$plain/g2.fq" 2> "$work/mapper" | grep -v '^@' > "$work/files.sam"
  mapped bowtie2 --no-hd -x genome --interleaved -
fi
if has minimap2 minimap2; then
  row='minimap2'
  minimap2 -a -x sr genome.fa "$plain/g1.fq" "$plain/g2.fq" 2> "$work/mapper" | grep -v '^@' > "$work/files.sam"
  mapped minimap2 -a -x sr genome.fa -
fi

finish ok
