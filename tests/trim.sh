#!/usr/bin/env bash
# Runs tibzharuk trim on good and on bad compressed files, and compares outputs, status and lines
# with those of the program on plain files.
# FQ_PROG names another build of the program. A row whose tool isn't installed is reported as
# skipped.
set -uo pipefail
. "$(dirname "$0")/common.bash"
find_program
. tests/trim/common.bash

# Few tools: neither bgzip nor pigz.
ln -s "$(python3 -c 'import sys; print(sys.executable)')" "$work/bin/python3"
for tool in env sh bash gzip cat; do ln -s "$(command -v "$tool")" "$work/bin/$tool"; done

good_runs() {
  row="two files, $1"
  made "${both[@]}" "${outputs[@]}" --threads 2 "${last[@]}"
  as_plain p1.fq u1.fq p2.fq u2.fq
  row="two lanes a side, log and summary, $1"
  made -1 data/a1.gz -1 data/b1.gz -2 data/a2.gz -2 data/b2.gz "${outputs[@]}" --trimlog out/log.gz --summary out/summary --block=7 "${last[@]}"
  as_plain p1.fq u1.fq p2.fq u2.fq log summary
  row="two lanes a side and a report, $1"
  made -1 data/a1.gz -1 data/b1.gz -2 data/a2.gz -2 data/b2.gz "${outputs[@]}" --report out/report --trimlog=out/log "${last[@]}"
  as_plain p1.fq u1.fq p2.fq u2.fq log
  same_report "$work/out/report"
  made "${both[@]}" "${outputs[@]}" --report=out/report.gz --trimlog=out/log "${last[@]}"
  as_plain p1.fq u1.fq p2.fq u2.fq log
  gzip -dc "$work/out/report.gz" > "$work/out/report"
  same_report "$work/out/report"
  row="one interleaved file, $1"
  made -i data/i.gz "${outputs[@]}" --trimlog out/log --compress-threads 1 --level 1 "${last[@]}"
  as_plain p1.fq u1.fq p2.fq u2.fq log
}

good_runs 'the default'
tools=$work/bin
good_runs 'gzip alone'
tools=$PATH
for each in bgzip:tabix pigz:pigz igzip:isal gzip:gzip; do
  row='compressing'
  has "${each%:*}" "${each#*:}" || continue
  row="compressing by ${each%:*}"
  made --compressor "${each%:*}" "${both[@]}" "${outputs[@]}" --trimlog out/log.gz --threads 5 --level 9 "${last[@]}"
  as_plain p1.fq u1.fq p2.fq u2.fq log
done

row='compressing at --level 1'
if has igzip isal; then
  made "${both[@]}" "${outputs[@]}" --report out/report --level 1 "${last[@]}"
  as_plain p1.fq u1.fq p2.fq u2.fq
  [ "$(od -An -tx1 -j 3 -N 1 "$work/out/p1.fq.gz")" = ' 00' ] || fail 'not by igzip'
fi

row='what compresses by default'
made "${both[@]}" "${rest[@]}"
first=$(od -An -tx1 -j 12 -N 2 "$work/out/p1.fq.gz")
if command -v bgzip > /dev/null; then
  [ "$first" = ' 42 43' ] || fail "not by bgzip: $first"
else
  [ "$first" != ' 42 43' ] || fail 'by bgzip, which is not installed'
fi

row='plain and compressed inputs, plain outputs, an older summary'
cp b1.gz b1.compressed
echo earlier > "$work/summary"
made -1 data/a1 -1 data/b1.compressed -2 data/a2.gz -2 data/b2 --paired1 out/p1.fq --unpaired1 out/u1.fq --paired2=out/p2.fq --unpaired2 out/u2.fq \
  --summary summary "${last[@]}"
as_plain p1.fq u1.fq p2.fq u2.fq
cmp -s "$work/summary" "$work/plain/summary" || fail 'the summary was not written'

row='names with blanks, and a link'
mkdir -p "$work/data/lane 1"
cp f.gz 'lane 1/Vorwärts 1.fq.gz'
cp r.gz 'lane 1/-2.fq.gz'
made -1 'data/lane 1/Vorwärts 1.fq.gz' -2 'data/lane 1/-2.fq.gz' --paired1 'out/ein paar *.gz' --unpaired1 out/u1.fq.gz --paired2 out/p2.fq.gz \
  --unpaired2 out/u2.fq.gz "${last[@]}"
mv "$work/out/ein paar *.gz" "$work/out/p1.fq.gz" || fail 'no output with a blank in its name'
as_plain p1.fq u1.fq p2.fq u2.fq

row='a link that leads to the output'
rm -rf "$work/out"
mkdir "$work/out"
ln -sf ../out/p1.fq.gz "$work/data/link.gz"
"${trim[@]}" --program "$program" -1 f.gz -2 r.gz --paired1 link.gz --unpaired1 /dev/null --paired2 ../out/p2.fq.gz --unpaired2 /dev/null "${last[@]}" \
  > "$work/printed" 2>&1 || fail "$(cat "$work/printed")"
[ -L link.gz ] || fail 'the link was written over'
as_plain p1.fq p2.fq

row='a lane without its last line feed, an empty lane, files of several members'
head -c -1 a1 | gzip > a1.short.gz
gzip < /dev/null > none1.gz
gzip < /dev/null > none2.gz
{
  cat a2.gz none1.gz
  head -n 4000 b2 | gzip
  tail -n +4001 b2 | gzip
} > members.gz
{
  head -c 3000 b1 | gzip
  tail -c +3001 b1 | gzip
} > b1.members.gz
: > empty
made -1 data/a1.short.gz -1 data/none1.gz -1 data/b1.members.gz -2 data/members.gz -2 data/none2.gz -2 data/empty "${rest[@]}"
as_plain p1.fq u1.fq p2.fq u2.fq

row='named pipes whose writers come a second later'
for ending in '' .gz; do
  late "late1$ending" "f$ending"
  late "late2$ending" "r$ending"
  made -1 "data/late1$ending" -2 "data/late2$ending" "${rest[@]}"
  as_plain p1.fq u1.fq p2.fq u2.fq
  all_late
  late "late1$ending" "i$ending"
  made -i "data/late1$ending" "${rest[@]}"
  as_plain p1.fq u1.fq p2.fq u2.fq
  all_late
done
row='compressed text in a named pipe of another name, and a lane that comes late'
late late1 b1.gz
late late2 b2
made -1 data/a1.gz -1 data/late1 -2 data/a2 -2 data/late2 "${rest[@]}"
as_plain p1.fq u1.fq p2.fq u2.fq
all_late
row='a truncated text in a late named pipe'
head -c 3000 f.gz > f.head.gz
late late1.gz f.head.gz
refused 3 'tibzharuk: cannot read data/late1.gz: unexpected end of file' -1 data/late1.gz -2 data/r.gz "${rest[@]}"
all_late

row='a fault within a lane that ends without a line feed'
head -c -20 a1 | gzip > a1.cut.gz
refused 3 'tibzharuk: input: forward record 1500: BadQuality: data/a1.cut.gz data/b1.gz: a quality byte has no score in the encoding sanger (see --encoding)' -1 data/a1.cut.gz -1 data/b1.gz -2 data/a2.gz -2 data/b2.gz "${rest[@]}"

row='a missing file'
refused 4 'tibzharuk: cannot read data/none.gz: No such file or directory' -1 data/f.gz -2 data/none.gz "${rest[@]}"
refused 4 'tibzharuk: cannot read data/none.gz: No such file or directory' -1 data/none.gz -2 data/none.gz "${rest[@]}"
refused 4 'tibzharuk: cannot read data/f.gz/none.gz: Not a directory' -1 data/f.gz/none.gz -2 data/r.gz "${rest[@]}"

row='a directory as an input'
refused 4 'tibzharuk: cannot read data: Is a directory' -1 data -2 data/r.gz "${rest[@]}"

row='compressed files without a byte'
: > nothing1.gz
: > nothing2.gz
damaged data/nothing1.gz 'unexpected end of file' -1 data/nothing1.gz -2 data/nothing2.gz "${rest[@]}"

row='plain text under a compressed name'
cp f text.gz
damaged data/text.gz 'not in gzip format' -1 data/text.gz -2 data/r.gz "${rest[@]}"

row='truncated in a record'
{
  head -n 1843 f
  sed -n 1844p f | head -c 40
} > f.part
{
  gzip < f.part
  gzip < b1 | head -c 12
} > f.cut.gz
damaged data/f.cut.gz 'unexpected end of file' -1 data/f.cut.gz -2 data/r.gz "${rest[@]}"

row='truncated anywhere'
head -c "$(($(stat -c %s r.gz) / 2))" r.gz > r.half.gz
damaged data/r.half.gz 'unexpected end of file' -1 data/f.gz -2 data/r.half.gz "${rest[@]}"

row='truncated between two records, on both sides alike'
for side in f r; do
  {
    head -n 4000 "$side" | gzip
    tail -n +4001 "$side" | gzip | head -c 12
  } > "$side.between.gz"
done
damaged data/f.between.gz 'unexpected end of file' -1 data/f.between.gz -2 data/r.between.gz "${rest[@]}"

row='the last bytes of both files are missing, after all records'
for side in f r; do head -c -4 "$side.gz" > "$side.trailer.gz"; done
damaged data/f.trailer.gz 'unexpected end of file' -1 data/f.trailer.gz -2 data/r.trailer.gz "${rest[@]}"

row='truncated between two records, in one of two lanes'
{
  cat a1.gz
  head -c 12 b1.gz
} > a1.more.gz
damaged data/a1.more.gz 'unexpected end of file' -1 data/b1.gz -1 data/a1.more.gz -2 data/b2.gz -2 data/a2.gz "${outputs[@]}" \
  "${last[@]}"

row='truncated between two pairs of an interleaved file'
{
  head -n 8000 i | gzip
  tail -n +8001 i | gzip | head -c 12
} > i.between.gz
damaged data/i.between.gz 'unexpected end of file' -i data/i.between.gz "${rest[@]}"

row='damaged in the middle'
cp f.gz f.damaged.gz
printf 'damaged damaged damaged' | dd of=f.damaged.gz bs=1 seek=$(($(stat -c %s f.gz) / 2)) conv=notrunc 2> /dev/null
for by in "${decompressors[@]}"; do
  for _ in 1 2 3; do
    earlier
    (cd "$work" && trimmed --decompressor "$by" -1 data/f.damaged.gz -2 data/r.gz "${rest[@]}") > "$work/printed" 2> "$work/told"
    [ $? -eq 3 ] || fail "$by: the status is not 3"
    grep -qx 'tibzharuk: cannot read data/f\.damaged\.gz: invalid compressed data--\(crc error\|format violated\)' "$work/told" || fail "$by: it says $(cat "$work/told")"
    untouched
  done
done

row='a check sum that is wrong, after all records'
cp r.gz r.sum.gz
printf 'sums' | dd of=r.sum.gz bs=1 seek=$(($(stat -c %s r.gz) - 8)) conv=notrunc 2> /dev/null
damaged data/r.sum.gz 'invalid compressed data--crc error' -1 data/f.gz -2 data/r.sum.gz "${rest[@]}"

row='members that are not gzip, on both sides alike'
for side in f r; do
  {
    head -n 4000 "$side" | gzip
    printf 'x'
    tail -n +4001 "$side" | gzip
  } > "$side.member.gz"
done
damaged data/f.member.gz 'decompression OK, trailing garbage ignored' -1 data/f.member.gz -2 data/r.member.gz "${outputs[@]}" \
  "${last[@]}"

# loses TOOL FILE: this decompressor reports success on this file, and leaves out a part of the text
loses() {
  local package=isal
  [ "$1" = igzip ] || package=$1
  has "$1" "$package" || return 0
  if "$1" -dc < "$2" 2> /dev/null > "$work/text" && ! cmp -s "$work/text" f; then return 0; fi
  echo "tibzharuk: $row: this $1 doesn't end well on $2; others do"
}

# These files are why pigz and igzip never decompress.
row='damage that pigz and igzip end well on'
gzip -n < a1 > first.gz
gzip -n < b1 > second.gz
{ cat first.gz && printf '\036' && tail -c +2 second.gz; } > magic.gz
{ cat first.gz && head -c 512 /dev/zero && cat second.gz; } > zeros.gz
{ cat first.gz && head -c 5 second.gz; } > header.gz
for each in magic zeros header; do
  loses pigz $each.gz
  [ $each = header ] || loses igzip $each.gz
done
damaged data/magic.gz 'decompression OK, trailing garbage ignored' -1 data/magic.gz -2 data/r.gz "${rest[@]}"
damaged data/zeros.gz 'decompression OK, trailing garbage ignored' -1 data/zeros.gz -2 data/r.gz "${rest[@]}"
damaged data/header.gz 'unexpected end of file' -1 data/header.gz -2 data/r.gz "${rest[@]}"
damaged data/header.gz 'unexpected end of file' -1 data/header.gz -2 data/a2.gz "${rest[@]}"
refused 1 'tibzharuk: --decompressor must be one of auto, bgzip, gzip, not pigz' --decompressor pigz "${both[@]}" "${rest[@]}"
refused 1 'tibzharuk: --decompressor must be one of auto, bgzip, gzip, not igzip' --decompressor igzip "${both[@]}" "${rest[@]}"

row='mates that are missing'
refused 3 'tibzharuk: input: reverse record 1501: MateMissing: data/a2.gz: the file ends before this record, and data/f.gz has it' -1 data/f.gz -2 data/a2.gz "${rest[@]}"
refused 3 'tibzharuk: input: reverse record 1501: MateMissing: data/a2.gz: the file ends before this record, and data/f.gz has it' -1 data/f.gz -2 data/a2.gz --report out/report "${rest[@]}"

row='files that are not mates'
refused 3 "tibzharuk: input: record 1: NamesDiffer: data/f.gz has 'r1' and data/b2.gz has 'r1501' (see --no-name-check)" -1 data/f.gz -2 data/b2.gz "${rest[@]}"

row='files that are not mates, if a closed pipe gives no signal'
(
  trap '' PIPE
  refused 3 "tibzharuk: input: record 1: NamesDiffer: data/f.gz has 'r1' and data/b2.gz has 'r1501' (see --no-name-check)" -1 data/f.gz -2 data/b2.gz "${rest[@]}"
  exit "$failed"
) || failed=1

row='a wrong encoding of the scores'
refused 3 'tibzharuk: input: forward record 1: BadQuality: data/f.gz: a quality byte has no score in the encoding illumina13 (see --encoding)' "${both[@]}" "${outputs[@]}" --encoding illumina13 "${last[@]}"

row='lanes of both sides, of which cutadapt makes one text'
if has cutadapt cutadapt; then
  refused 3 'tibzharuk: input: forward record 1: BadQuality: data/a1.gz data/b1.gz, data/a2.gz data/b2.gz: a quality byte has no score in the encoding illumina13 (see --encoding)' \
    -1 data/a1.gz data/b1.gz -2 data/a2.gz data/b2.gz "${outputs[@]}" --encoding illumina13 --cutadapt '-u 1' "${last[@]}"
fi

row='words that the program refuses'
refused 2 'tibzharuk: crop:5 is no step; did you mean CROP:5?' "${both[@]}" "${outputs[@]}" -- LEADING:3 crop:5
refused 2 "tibzharuk: bad step 2: Unknown: 'foo:5' is no step (LEADING, TRAILING, SLIDINGWINDOW, CROP, HEADCROP, AVGQUAL, MINLEN, TOPHRED33)" "${both[@]}" "${outputs[@]}" -- LEADING:3 foo:5
refused 2 'tibzharuk: bad step 0: NoSteps: the files must be followed by one step or more, as MINLEN:36' "${both[@]}" "${outputs[@]}" --
refused 2 'tibzharuk: bad encoding: phred: it can be sanger (Phred+33), illumina13 (Phred+64) or solexa' "${both[@]}" "${outputs[@]}" --encoding phred "${last[@]}"
refused 2 'tibzharuk: bad setting: workers: --threads is 0, and can be 1 to 64' "${both[@]}" "${outputs[@]}" --threads 0 "${last[@]}"

row='words that the script refuses'
refused 1 'tibzharuk: 2 forward files (-1), but 1 reverse files (-2)' -1 data/a1.gz -1 data/b1.gz -2 data/r.gz "${rest[@]}"
refused 1 'tibzharuk: no input: -1 and -2, or -i (tibzharuk trim --help)' "${rest[@]}"
refused 1 'tibzharuk: either -i, or -1 and -2' -i data/i.gz "${both[@]}" "${rest[@]}"
refused 1 'tibzharuk: no --unpaired2; --out PREFIX names it, --no-unpaired leaves it out (tibzharuk trim --help)' "${both[@]}" "${outputs[@]:0:6}" "${last[@]}"
refused 1 'tibzharuk: --unpaired2 has no value, as -- is an option; a file of that name is ./--' \
  "${both[@]}" "${outputs[@]:0:6}" --unpaired2 "${last[@]}"
refused 1 'tibzharuk: no steps, such as MINLEN:36 (tibzharuk trim --help)' "${both[@]}" "${outputs[@]}"
refused 1 'tibzharuk: --unknown is not an option; steps are words such as MINLEN:36 (tibzharuk trim --help)' "${both[@]}" "${outputs[@]}" --unknown x "${last[@]}"
refused 1 'tibzharuk: --adapter is not an option; did you mean --adapters? (tibzharuk trim --help)' "${both[@]}" "${outputs[@]}" --adapter A "${last[@]}"
refused 1 'tibzharuk: --level is given twice' "${both[@]}" "${outputs[@]}" --level 1 --level 2 "${last[@]}"
refused 1 'tibzharuk: --cutadapt is given twice' "${both[@]}" "${outputs[@]}" --cutadapt '-e 0.2' --cutadapt '-O 5' "${last[@]}"
refused 1 "tibzharuk: --cutadapt: -Zpvictim.fq can't be given here" "${both[@]}" "${outputs[@]}" --cutadapt '-Zpvictim.fq' "${last[@]}"
program=nowhere/fq_prog refused 1 'tibzharuk: no program nowhere/fq_prog (--program PATH)' "${both[@]}" "${rest[@]}"

row='names that are given twice'
refused 2 'tibzharuk: data/f.gz is given twice' -1 data/f.gz -2 data/f.gz "${rest[@]}"
refused 2 'tibzharuk: data/../data/r.gz is an input and an output' "${both[@]}" "${outputs[@]}" --trimlog data/../data/r.gz "${last[@]}"
refused 2 'tibzharuk: ./out/u1.fq.gz is given for two outputs' "${both[@]}" "${outputs[@]}" --trimlog ./out/u1.fq.gz "${last[@]}"
refused 2 'tibzharuk: ./out/../out/log is given for two outputs' "${both[@]}" "${outputs[@]}" --trimlog out/log --report ./out/../out/log "${last[@]}"
refused 1 'tibzharuk: --report is given twice' "${both[@]}" "${outputs[@]}" --report out/report --report out/log "${last[@]}"
gzip -dc f.gz | cmp -s - f || fail 'an input was touched'
gzip -dc r.gz | cmp -s - r || fail 'an input was touched'

row='an output in a directory that is not there'
refused 4 'tibzharuk: cannot write no/log: No such file or directory' "${both[@]}" "${outputs[@]}" --trimlog no/log "${last[@]}"
refused 4 'tibzharuk: cannot write no/report: No such file or directory' "${both[@]}" "${outputs[@]}" --report no/report "${last[@]}"

row='no place for temporary files'
(
  export TMPDIR=/nowhere
  failed=0
  rm -rf "$work/out" && mkdir "$work/out"
  (cd "$work" && trimmed "${both[@]}" "${rest[@]}") > "$work/printed" 2>&1 || fail "$(cat "$work/printed")"
  as_plain p1.fq u1.fq p2.fq u2.fq
  exit "$failed"
) || failed=1

row='the summary into the file of the log'
earlier
: > "$work/log"
(cd "$work" && trimmed "${both[@]}" "${outputs[@]}" --trimlog log "${last[@]}") > "$work/log" 2> "$work/told"
[ $? -eq 4 ] || fail 'the status is not 4'
[ "$(cat "$work/told")" = 'tibzharuk: cannot write log: it is stdout too' ] || fail "it says $(cat "$work/told")"
untouched

row='a directory as an output'
refused 4 'tibzharuk: cannot write data: Is a directory' "${both[@]}" "${outputs[@]}" --trimlog data "${last[@]}"

row='a write-protected output'
echo protected > protected.gz
chmod a-w protected.gz
if [ -w protected.gz ]; then
  echo 'trim: skipped: a write-protected output, as root may write it'
else
  refused 4 'tibzharuk: cannot write data/protected.gz: Permission denied' "${both[@]}" "${outputs[@]}" --trimlog data/protected.gz "${last[@]}"
fi

# explained WORDS..: the line of the program, with its reason
explained() { { (cd "$work" && "$program" PE --explain "$@" "${steps[@]}") > /dev/null; } 2>&1; }

if [ -w /dev/full ]; then
  row='a full device after the program'
  refused 4 "tibzharuk: $(explained data/f data/r /dev/full /dev/null /dev/null /dev/null); what was written to /dev/full is incomplete: discard what was made of it" "${both[@]}" --paired1 /dev/full "${outputs[@]:2}" "${last[@]}"
  row='a full device as the log'
  refused 4 "tibzharuk: $(explained --trimlog /dev/full data/f data/r /dev/null /dev/null /dev/null /dev/null); what was written to /dev/full is incomplete: discard what was made of it" "${both[@]}" "${outputs[@]}" --trimlog /dev/full "${last[@]}"
  row='a full device as the report'
  refused 4 'tibzharuk: cannot write /dev/full: No space left on device' "${both[@]}" "${outputs[@]}" --report /dev/full "${last[@]}"
  row='a full device after a compressor'
  ln -s /dev/full full.gz
  # full LINE WORDS..
  full() {
    local line="$1; what was written to data/full.gz is incomplete: discard what was made of it"
    shift
    refused 4 "$line" "$@" "${both[@]}" --paired1 out/x.gz --unpaired1 out/y.gz --paired2 out/z.gz --unpaired2 data/full.gz "${last[@]}"
    refused 4 "$line" "$@" "${both[@]}" --paired1 data/full.gz --unpaired1 out/y.gz --paired2 out/z.gz --unpaired2 out/x "${last[@]}"
  }
  if has pigz pigz; then
    full 'tibzharuk: cannot write data/full.gz: write error on <stdout> (No space left on device)' --compressor pigz
  fi
  if has bgzip tabix; then
    full 'tibzharuk: cannot write data/full.gz: write error: No space left on device' --compressor bgzip
  fi
  if has igzip isal; then
    full 'tibzharuk: cannot write data/full.gz: write error: No space left on device' --compressor igzip
    full 'tibzharuk: cannot write data/full.gz: write error: No space left on device' --level 1
  fi
  tools=$work/bin
  full 'tibzharuk: cannot write data/full.gz: stdout: No space left on device'
  tools=$PATH
  row='standard output on a full device'
  earlier
  (cd "$work" && trimmed "${both[@]}" "${rest[@]}") > /dev/full 2> "$work/told"
  [ $? -eq 4 ] || fail 'the status is not 4'
  [ "$(cat "$work/told")" = 'tibzharuk: cannot print: No space left on device' ] || fail "it says $(cat "$work/told")"
  untouched
else
  echo 'trim: skipped: a full device, as there is no /dev/full'
fi

row='a full disk'
mkdir "$work/small"
if mount -t tmpfs -o size=16k tmpfs "$work/small" 2> /dev/null; then
  earlier
  (cd "$work" && trimmed "${both[@]}" --paired1 small/p1.fq.gz "${outputs[@]:2}" "${last[@]}") \
    > "$work/printed" 2> "$work/told"
  [ $? -eq 4 ] || fail 'the status is not 4'
  grep -q '^tibzharuk: cannot write small/p1.fq.gz: .*No space left on device' "$work/told" || fail "it says $(cat "$work/told")"
  [ -z "$(ls -A "$work/small")" ] || fail 'something is left on the full disk'
  untouched
  umount "$work/small"
else
  echo 'trim: skipped: a full disk, as no small one can be mounted here'
fi

row='an output larger than ulimit -f allows'
earlier
(
  cd "$work" && ulimit -f 100 &&
    "${trim[@]}" --program "$program" "${both[@]}" --paired1 out/p1.fq "${outputs[@]:2}" "${last[@]}"
) > "$work/printed" 2> "$work/told"
[ $? -eq 153 ] || fail 'the status is not 153'
[ "$(cat "$work/told")" = "tibzharuk: $program was ended by SIGXFSZ" ] || fail "it says $(cat "$work/told")"
untouched

row='an output that cannot get its name'
# A program that puts a directory under the log's name while it runs.
cat > "$work/meddling" << END
#!/usr/bin/env bash
mkdir -p "$work/out/log.gz/folder"
exec "$program" "\$@"
END
chmod +x "$work/meddling"
earlier
(cd "$work" && PATH=$tools "${trim[@]}" --program ./meddling "${both[@]}" "${outputs[@]}" --trimlog out/log.gz "${last[@]}") \
  > "$work/printed" 2> "$work/told"
[ $? -eq 4 ] || fail 'the status is not 4'
[ "$(cat "$work/told")" = 'tibzharuk: cannot write out/log.gz: Is a directory' ] || fail "it says $(cat "$work/told")"
[ ! -s "$work/printed" ] || fail 'a summary was printed'
rm -r "$work/out/log.gz"
untouched

# stopped SIGNAL STATUS HOW: a run whose input doesn't end gets this signal. `around` runs it as its
# child.
around=()
stopped() {
  local pid victim got
  earlier
  endless f
  set -m
  (cd "$work" && ulimit -c 0 && exec "${around[@]}" "${trim[@]}" --program "$program" -1 data/endless -2 data/r.gz --paired1 out/p1.fq \
    "${outputs[@]:2}" "${last[@]}") > "$work/printed" 2> "$work/told" &
  pid=$!
  set +m
  # The run works once the plain output beside the final name has something in it.
  for _ in {1..200}; do
    [ -n "$(find "$work/out" -name '.p1.fq.tibzharuk.*' -size +0)" ] && break
    sleep 0.05
  done
  [ -n "$(find "$work/out" -name '.p1.fq.tibzharuk.*' -size +0)" ] || fail 'nothing is written beside the final name'
  victim=$pid
  [ "${#around[@]}" -eq 0 ] || victim=$(pgrep -P "$pid")
  kill -s "$1" -- "$3$victim"
  {
    for _ in {1..400}; do
      kill -0 "$pid" || break
      sleep 0.05
    done
    kill -KILL "$victim" "$pid" && fail "SIG$1 does not end it"
    wait "$pid"
    got=$?
  } 2> /dev/null
  kill "$fed"
  [ "$got" -eq "$2" ] || fail "status $got, not $2"
  [ "$(cat "$work/told")" = "tibzharuk: stopped by SIG$1, no output was made" ] || fail "it says $(cat "$work/told")"
  [ ! -s "$work/printed" ] || fail 'a summary was printed'
  untouched
}

row='Ctrl-C'
# ignores SIGNAL: this shell was started with the signal ignored, as background jobs of a script are
# with SIGINT and SIGQUIT, and what nohup starts with SIGHUP. So would the run be.
ignores() {
  local ignored
  ignored=$(sed -n 's/^SigIgn:[[:space:]]*//p' /proc/self/status)
  ((16#$ignored >> ($(kill -l "$1") - 1) & 1))
}

if ignores INT; then
  echo 'trim: skipped: Ctrl-C, as SIGINT is ignored here (run in the foreground)'
else
  stopped INT 130 -
fi
row='ended by SIGTERM'
stopped TERM 143 ''
row='signals that batch systems send before they kill'
for each in USR1:138 USR2:140 XCPU:152 ALRM:142 VTALRM:154 PROF:155; do stopped "${each%:*}" "${each#*:}" ''; done
row='the first process of a container'
around=(unshare -m -p -f --mount-proc)
if ! "${around[@]}" true 2> /dev/null; then
  echo "trim: skipped: $row, as unshare is refused here"
elif has pgrep procps; then
  for each in TERM:143 HUP:129 QUIT:131 USR1:138; do
    if ignores "${each%:*}"; then
      echo "trim: skipped: $row, as SIG${each%:*} is ignored here"
    else
      stopped "${each%:*}" "${each#*:}" ''
    fi
  done
fi
around=()

# with_mark: the processes that a run has started, with their names
with_mark() {
  grep -lz "^TRIM_ROW=$$\$" /proc/[0-9]*/environ 2> /dev/null | sed 's/environ$/comm/' | xargs -r cat 2> /dev/null | sort -u | paste -sd ' '
}

# killed FILE WORDS..: after kill -9 of a run over this text, which doesn't end, no process goes on
killed() {
  local pid
  rm -rf "$work/out"
  mkdir "$work/out"
  endless "$1"
  shift
  set -m
  (cd "$work" && TRIM_ROW=$$ exec "${trim[@]}" --program "$program" -1 data/endless "$@") > "$work/printed" 2> "$work/told" &
  pid=$!
  set +m
  for _ in {1..200}; do
    [ -n "$(find "$work/out" -name '.p1.fq.tibzharuk.*' -size +0)" ] && break
    sleep 0.05
  done
  [[ $(with_mark) == *gzip* ]] || fail "there is no decompressor, but $(with_mark)"
  kill -KILL "$pid"
  wait "$pid" 2> /dev/null
  for _ in {1..60}; do
    [ -n "$(with_mark)" ] || break
    sleep 0.05
  done
  [ -z "$(with_mark)" ] || fail "3 seconds later there are $(with_mark)"
  kill "$fed"
  rm -rf "$work/out"
}

row='kill -9'
killed f -2 data/r.gz --paired1 out/p1.fq "${outputs[@]:2}" "${last[@]}"

row='a decompressor that is killed'
if command -v pgrep > /dev/null; then
  earlier
  endless f.part
  (cd "$work" && exec "${trim[@]}" --program "$program" -1 "$work/data/endless" -2 data/r.gz "${rest[@]}") > "$work/printed" 2> "$work/told" &
  pid=$!
  for _ in {1..200}; do
    victim=$(pgrep -P "$pid" -f -x -- 'gzip -dcf')
    [ -n "$victim" ] && break
    sleep 0.05
  done
  kill -KILL "$victim"
  wait "$pid"
  [ $? -eq 3 ] || fail 'the status is not 3'
  kill "$fed"
  [ "$(cat "$work/told")" = "tibzharuk: cannot read $work/data/endless: ended by SIGKILL" ] || fail "it says $(cat "$work/told")"
  untouched
else
  echo 'trim: skipped: a decompressor that is killed, as there is no pgrep (apt-get install procps)'
fi

row='the report names the files of the call'
made "${both[@]}" "${outputs[@]}" --report out/report --trimlog out/log "${last[@]}"
as_outputs='{"forward_paired": "out/p1.fq.gz", "forward_unpaired": "out/u1.fq.gz", "reverse_paired": "out/p2.fq.gz", "reverse_unpaired": "out/u2.fq.gz", "trim_log":'
named "$work/out/report" "[\"PE\", {\"forward\": \"data/f.gz\", \"reverse\": \"data/r.gz\"}, $as_outputs \"out/log\"}]"
made -1 data/a1.gz -1 data/b1.gz -2 data/a2.gz -2 data/b2.gz "${outputs[@]}" --report out/report "${last[@]}"
named "$work/out/report" "[\"PE\", {\"forward\": [\"data/a1.gz\", \"data/b1.gz\"], \"reverse\": [\"data/a2.gz\", \"data/b2.gz\"]}, $as_outputs null}]"
made -i data/i.gz "${outputs[@]}" --report out/report "${last[@]}"
named "$work/out/report" "[\"IL\", {\"interleaved\": \"data/i.gz\"}, $as_outputs null}]"

row='a link, and a copy that finds its package'
mkdir "$work/links"
cp -r "$tree/python/tibzharuk" "$work/copy"
mkdir "$work/package"
mv "$work/copy" "$work/package/tibzharuk"
ln -s ../package/tibzharuk/__main__.py "$work/links/first"
ln -s first "$work/links/tibzharuk"
trim=("$work/links/tibzharuk" trim)
made "${both[@]}" "${rest[@]}"
as_plain p1.fq u1.fq p2.fq u2.fq
cp "$tibzharuk" "$work/links/alone"
[[ $("$work/links/alone" --help 2>&1) == "tibzharuk: its package isn't beside $work/links/alone (make a link to this file, not a copy): "* ]] ||
  fail 'a copy without its package does not say so'
trim=("$tibzharuk" trim)

row='a page of the report'
made "${both[@]}" "${outputs[@]}" --html out/s1.html --report out/s1.json "${last[@]}"
grep -q '<title>s1' "$work/out/s1.html" || fail 'the page has no title'
"$tibzharuk" page "$work/out/s1.json" | cmp - "$work/out/s1.html" || fail 'the page is not that of the report'
made "${both[@]}" "${outputs[@]}" --html out/s1.html.gz "${last[@]}"
[[ $(gzip -dc "$work/out/s1.html.gz") == *'<title>s1'* ]] || fail 'no page without a report'

row='progress on a terminal'
if has script bsdutils; then
  late late1 f 3
  (cd "$work" && rm -rf out && mkdir out && script -qec \
    "${trim[*]} --program '$program' -1 data/late1 -2 data/a2.gz ${outputs[*]} ${last[*]}" /dev/null < /dev/null) > "$work/printed" 2>&1
  all_late
  wiped=$'\r\033[K'
  [[ $(cat "$work/printed") == *"${wiped}tibzharuk: "*" %, "*"$wiped"'tibzharuk: input: reverse record 1501: MateMissing: data/a2.gz: '* ]] ||
    fail "it says $(cat -v "$work/printed")"
  row='gzip alone, on a terminal'
  (cd "$work" && rm -rf out && mkdir out && PATH=$work/bin "$(command -v script)" -qec "${trim[*]} --program '$program' ${both[*]} ${rest[*]}" /dev/null < /dev/null) \
    > "$work/printed" 2>&1
  [[ $(cat "$work/printed") == *"tibzharuk: bgzip isn't installed, so this takes several times as long (Debian: tabix)"* ]] || fail "it says $(cat -v "$work/printed")"
fi

# Adapters in every fifth read, which cutadapt removes first.
adapters=AGATCGGAAGAGCACACGTCTGAACTCCAGTCA,AGATCGGAAGAGCGTCGTGTAGGGAAAGAGTGT
with_adapters() {
  awk -v adapter="$2" 'NR % 4 == 2 && int(NR / 4) % 5 == 0 { n = 20 + NR % 70; $0 = substr(substr($0, 1, n) adapter $0, 1, 100) } { print }' "$1"
}
row='adapters'
if has cutadapt cutadapt; then
  for each in a1 b1; do with_adapters $each "${adapters%,*}" > "x$each"; done
  for each in a2 b2; do with_adapters $each "${adapters#*,}" > "x$each"; done
  cat xa1 xb1 > xf
  cat xa2 xb2 > xr
  in_turn xf xr > xi
  for each in xa1 xb1 xa2 xb2 xi; do gzip -1 < $each > $each.gz; done
  printf '>one\n%s\n>two\n%s\n' "${adapters%,*}" "${adapters#*,}" > adapters.fa
  plain=$work/cut
  mkdir "$plain"
  # cut_plainly WORDS..: what cutadapt and then the program make of plain files
  cut_plainly() {
    cutadapt --interleaved --json "$plain/json" -o "$plain/il" "$@" xf xr > "$plain/text" || fail 'cutadapt alone'
    "$program" IL --trimlog "$plain/log" "$plain/il" "$plain/p1.fq" "$plain/u1.fq" "$plain/p2.fq" "$plain/u2.fq" "${steps[@]}" > "$plain/summary" ||
      fail 'the program on what cutadapt made'
  }
  cut_plainly -a "${adapters%,*}" -A "${adapters#*,}"
  cmp -s "$plain/p1.fq" "$work/plain/p1.fq" && fail 'no adapter was removed'
  lanes=(-1 data/xa1.gz -1 data/xb1.gz -2 data/xa2.gz -2 data/xb2.gz)
  made "${lanes[@]}" "${outputs[@]}" --adapters "$adapters" --trimlog out/log --cutadapt-report out/json --cutadapt-log out/text --report out/report "${last[@]}"
  as_plain p1.fq u1.fq p2.fq u2.fq log
  named "$work/out/report" "[\"PE\", {\"forward\": [\"data/xa1.gz\", \"data/xb1.gz\"], \"reverse\": [\"data/xa2.gz\", \"data/xb2.gz\"]}, $as_outputs \"out/log\"}]"
  python3 "$tree/tests/trim/check.py" cutadapt "$work/out/json" "$plain/json" || fail 'the report of cutadapt has other counts or names'
  [ "$(sed '1,/=== Summary/d' "$work/out/text")" = "$(sed '1,/=== Summary/d' "$plain/text")" ] || fail 'the log of cutadapt is another one'
  grep -q '^Command line parameters: .* data/xa1.gz data/xb1.gz data/xa2.gz data/xb2.gz # report$' "$work/out/text" || fail 'the log of cutadapt names other files'
  row='adapters, an interleaved file'
  made -i data/xi.gz "${outputs[@]}" --adapters "$adapters" --threads 1 "${last[@]}"
  as_plain p1.fq u1.fq p2.fq u2.fq
  row='adapters, and both mates in turn'
  in_turn "$plain/p1.fq" "$plain/p2.fq" > "$plain/il.fq"
  made "${lanes[@]}" --interleaved out/il.fq.gz --no-unpaired --adapters "$adapters" "${last[@]}"
  as_plain il.fq
  row='adapters of a file, and options'
  cut_plainly -a file:adapters.fa -A file:adapters.fa -e 0.2 -O 5 -m 30
  made "${lanes[@]}" "${outputs[@]}" --adapters data/adapters.fa --cutadapt '-e 0.2 -O 5 -m 30' "${last[@]}"
  as_plain p1.fq u1.fq p2.fq u2.fq
  row='adapters that are given twice'
  cut_plainly -a "${adapters%,*}" -A "${adapters%,*}" -a "${adapters#*,}" -A "${adapters#*,}"
  made "${lanes[@]}" "${outputs[@]}" --adapters "${adapters%,*}" --adapters "${adapters#*,}" "${last[@]}"
  as_plain p1.fq u1.fq p2.fq u2.fq
  row='adapters by options alone'
  cut_plainly -a file:adapters.fa -A file:adapters.fa -e 0.2 -O 5 -m 30
  made "${lanes[@]}" "${outputs[@]}" --cutadapt '-a file:data/adapters.fa -A file:data/adapters.fa -e 0.2 -O 5 -m 30' "${last[@]}"
  as_plain p1.fq u1.fq p2.fq u2.fq
  plain=$work/plain
  row='adapters that are refused'
  refused 1 "tibzharuk: --cutadapt: --info-file=x can't be given here" "${lanes[@]}" --cutadapt '-a A --info-file=x' "${rest[@]}"
  refused 2 'tibzharuk: cutadapt: unrecognized arguments: --frob' "${lanes[@]}" --adapters A --cutadapt '--frob' "${rest[@]}"
  row='a file of adapters as an output'
  ln -s adapters.fa link.fa
  cp adapters.fa adapters.kept
  refused 2 'tibzharuk: data/adapters.fa is an input and an output' "${lanes[@]}" --adapters data/adapters.fa "${outputs[@]:0:6}" --unpaired2 data/adapters.fa "${last[@]}"
  refused 2 'tibzharuk: data/link.fa is an input and an output' "${lanes[@]}" --adapters data/adapters.fa --report data/link.fa "${rest[@]}"
  refused 2 'tibzharuk: data/link.fa is an input and an output' "${lanes[@]}" --cutadapt '-a file:data/adapters.fa' --html data/link.fa "${rest[@]}"
  cmp -s adapters.fa adapters.kept || fail 'the adapters were written over'
  row='adapters that are refused'
  refused 2 'tibzharuk: cutadapt: unrecognized arguments: data/xi.gz' -i data/xi.gz --adapters A --cutadapt "data/xf" "${rest[@]}"
  row='adapters, and a damaged input'
  damaged data/f.cut.gz 'unexpected end of file' -1 data/f.cut.gz -2 data/r.gz --adapters "$adapters" "${rest[@]}"
  damaged data/i.between.gz 'unexpected end of file' -i data/i.between.gz --adapters "$adapters" "${rest[@]}"
  row='adapters, and files that are not mates'
  refused 3 "tibzharuk: input: record 1: NamesDiffer: data/f.gz has 'r1' and data/b2.gz has 'r1501' (see --no-name-check)" \
    -1 data/f.gz -2 data/b2.gz --adapters "$adapters" "${rest[@]}"
  row='kill -9, with cutadapt'
  killed xf -2 data/xr --paired1 out/p1.fq "${outputs[@]:2}" --adapters "$adapters" --threads 2 "${last[@]}"
  row='a process of cutadapt that is killed'
  if has pgrep procps; then
    earlier
    endless xf
    (cd "$work" && exec "${trim[@]}" --program "$program" -1 data/endless -2 data/xr --adapters "$adapters" --threads 3 "${rest[@]}") > "$work/printed" 2> "$work/told" &
    pid=$!
    victim=
    for _ in {1..200}; do
      parent=$(pgrep -P "$pid" -f cutadapt)
      victim=$([ -z "$parent" ] || pgrep -P "$parent" | tail -n 1)
      [ -z "$victim" ] || break
      sleep 0.05
    done
    sleep 0.5
    kill -KILL "$victim"
    wait "$pid"
    [ $? -eq 4 ] || fail 'the status is not 4'
    kill "$fed"
    [ "$(cat "$work/told")" = 'tibzharuk: cutadapt: one of its processes was ended by SIGKILL' ] || fail "it says $(cat "$work/told")"
    untouched
  fi
fi

row='help and version'
"${trim[@]}" --help > "$work/help" || fail 'help fails'
grep -q -- '--paired1 OUT' "$work/help" || fail 'the outputs are not explained'
wide=$(awk 'length > 80' "$work/help")
[ -z "$wide" ] || fail "wider than 80 columns: $wide"
[[ $("${trim[@]}" --program "$program" --version) == tibzharuk\ *$'\n'"$("$program" --version)" ]] || fail 'other versions'

finish ok
