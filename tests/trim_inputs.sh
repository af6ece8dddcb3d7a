#!/usr/bin/env bash
# What tibzharuk trim sees of inputs and outputs before and after a run: an end that is missing,
# sides that are exchanged, other formats, no pairs, programs that read nothing, names, and rights.
# FQ_PROG names another build of the program. A row whose tool isn't installed is reported as
# skipped.
set -uo pipefail
. "$(dirname "$0")/common.bash"
find_program
. tests/trim/common.bash

# may_be_cut NAME..: the warnings for these files
may_be_cut() {
  printf 'tibzharuk: warning: %s may be cut: the end block of BGZF is missing (--need-end refuses such a file)\n' "$@"
}

row='BGZF without its end block, on both sides alike'
if has bgzip tabix; then
  for name in f r; do
    head -n 6000 $name | bgzip -c | head -c -28 > $name.open.gz
    head -n 6000 $name | bgzip -c > $name.closed.gz
    { cat $name.open.gz && tail -n +6001 $name | bgzip -c; } > $name.joined.gz
    { cat $name.open.gz && tail -n +6001 $name | gzip; } > $name.other.gz
  done
  for by in bgzip gzip; do
    warned "$(may_be_cut data/f.open.gz data/r.open.gz)" --decompressor $by -1 data/f.open.gz -2 data/r.open.gz "${rest[@]}"
    grep -qx 'Input Read Pairs: 1500' "$work/printed" || fail "the summary is $(cat "$work/printed")"
    refused 3 'tibzharuk: data/f.open.gz may be cut: the end block of BGZF is missing' \
      --decompressor $by --need-end -1 data/f.open.gz -2 data/r.open.gz "${rest[@]}"
  done
  refused 3 'tibzharuk: data/r.open.gz may be cut: the end block of BGZF is missing' --need-end -1 data/f.closed.gz -2 data/r.open.gz "${rest[@]}"
  row='files that have their end'
  for each in closed:0 joined:1 other:1; do
    made --need-end -1 data/f.${each%:*}.gz -2 data/r.${each%:*}.gz "${rest[@]}"
    [ ${each#*:} -eq 0 ] || as_plain p1.fq u1.fq p2.fq u2.fq
  done
  made --need-end "${both[@]}" "${rest[@]}"
  as_plain p1.fq u1.fq p2.fq u2.fq
  row='a named pipe of BGZF without its end block'
  late late1.gz f.open.gz 0
  warned "$(may_be_cut data/late1.gz)" -1 data/late1.gz -2 data/r.closed.gz "${rest[@]}"
  all_late
  late late1.gz f.open.gz 0
  refused 3 'tibzharuk: data/late1.gz may be cut: the end block of BGZF is missing' --need-end -1 data/late1.gz -2 data/r.closed.gz "${rest[@]}"
  all_late
  row='such a pipe, of which a stream was made'
  late late1.gz f.open.gz 0
  refused 3 'tibzharuk: data/late1.gz may be cut: the end block of BGZF is missing; what was written to /dev/zero is incomplete: discard what was made of it' \
    --need-end -1 data/late1.gz -2 data/r.closed.gz --out out/s --unpaired1 /dev/zero "${last[@]}"
  all_late
fi

# numbered NUMBER FILE: with titles as sequencers write them today
numbered() { sed -E "1~4s|^@r([0-9]+)/.*|@m:\\1 $1:N:0:ACGT|" "$2" | gzip -1; }
row='sides that are exchanged'
numbered 1 f > n1.gz
numbered 2 r > n2.gz
numbered 3 r > n3.gz
numbered 1 r > n4.gz
gzip -dc n1.gz > n1
in_turn <(gzip -dc n2.gz) n1 > n21
exchanged() { echo "tibzharuk: the sides seem to be exchanged: the first read numbers are $1 and 1: $2 (--no-name-check passes them)"; }
refused 3 "$(exchanged 2 'data/n2.gz, data/n1.gz')" -1 data/n2.gz -2 data/n1.gz "${rest[@]}"
refused 3 "$(exchanged 3 'data/n3.gz, data/n1')" -1 data/n3.gz -2 data/n1 "${rest[@]}"
refused 3 "$(exchanged 2 'data/n2.gz, data/n1.gz')" -1 data/a1.gz -1 data/n2.gz -2 data/a2.gz -2 data/n1.gz "${rest[@]}"
refused 3 "$(exchanged 2 data/n21)" -i data/n21 "${rest[@]}"
made --no-name-check -1 data/n2.gz -2 data/n1.gz "${rest[@]}"
row='a copy of the forward side'
cp n1.gz n1.copy.gz
for each in n1 n1.copy.gz; do
  refused 3 "tibzharuk: both sides begin with the same records: data/n1.gz, data/$each (--no-name-check passes them)" -1 data/n1.gz -2 data/$each "${rest[@]}"
  made --no-name-check -1 data/n1.gz -2 data/$each "${rest[@]}"
done
row='read numbers of mates'
made -1 data/n1.gz -2 data/n2.gz "${rest[@]}"
made -1 data/n1.gz -2 data/n3.gz "${rest[@]}"
made -1 data/n2.gz -2 data/n3.gz --no-name-check "${rest[@]}"
warned 'tibzharuk: warning: the first reads of both sides have the number 1: data/n1.gz, data/n4.gz' -1 data/n1.gz -2 data/n4.gz "${rest[@]}"

row='inputs without pairs'
: | gzip > none1.gz
: | gzip > none2.gz
warned 'tibzharuk: warning: the inputs have no pairs' -1 data/none1.gz -2 data/none2.gz "${rest[@]}"
warned 'tibzharuk: warning: the inputs have no pairs' -1 /dev/null -2 /dev/null "${rest[@]}"

row='inputs in other formats'
printf 'BZh91AY&SY\0\0' > f.bz2
printf '\xfd7zXZ\0\0\4' > f.xz
printf '\x28\xb5\x2f\xfd$\0' > f.zst
for each in bz2:bzip2 xz:xz zst:zstd; do
  refused 3 "tibzharuk: cannot read data/f.${each%:*}: it is compressed by ${each#*:}, not by gzip; ${each#*:} -d decompresses it" -1 "data/f.${each%:*}" -2 data/r.gz "${rest[@]}"
done
row='outputs in other formats'
for each in bz2 xz zst Bz2; do
  refused 2 "tibzharuk: out/x.$each: outputs are compressed only under names that end in .gz" "${both[@]}" --paired1 "out/x.$each" "${outputs[@]:2}" "${last[@]}"
done
row='names that end in .GZ'
cp f.gz F.GZ
cp f TEXT.GZ
made -1 data/F.GZ -2 data/r.gz --paired1 out/P1.GZ "${outputs[@]:2}" --summary out/S.Gz "${last[@]}"
gzip -dc < "$work/out/P1.GZ" | cmp -s - "$plain/p1.fq" || fail 'out/P1.GZ is not compressed'
gzip -dc < "$work/out/S.Gz" | cmp -s - "$plain/summary" || fail 'out/S.Gz is not compressed'
damaged data/TEXT.GZ 'not in gzip format' -1 data/TEXT.GZ -2 data/r.gz "${rest[@]}"

row='a decompressor that is not installed'
mkdir "$work/few"
ln -s "$(python3 -c 'import sys; print(sys.executable)')" "$work/few/python3"
for each in sh cat bgzip cutadapt; do
  if command -v $each > /dev/null; then ln -s "$(command -v $each)" "$work/few/"; fi
done
{ cat f.gz && head -c 9 /dev/zero; } > padded.gz # only gzip takes zeros at the end
made -1 data/padded.gz -2 data/r.gz "${rest[@]}"
as_plain p1.fq u1.fq p2.fq u2.fq
tools=$work/few refused 1 'tibzharuk: no program gzip, which reads data/padded.gz' -1 data/padded.gz -2 data/r "${rest[@]}"
row='a decompressor that cannot be started'
echo '#!/nowhere/sh' > "$work/few/gzip"
chmod +x "$work/few/gzip"
plain_out=(--paired1 out/p1.fq --unpaired1 out/u1.fq --paired2 out/p2.fq --unpaired2 out/u2.fq)
tools=$work/few refused 4 'tibzharuk: cannot start gzip: No such file or directory' -1 data/padded.gz -2 data/r "${plain_out[@]}" "${last[@]}"
earlier
(cd "$work" && tools=$work/few trimmed -1 data/a1 -1 data/padded.gz -2 data/a2 -2 data/r "${plain_out[@]}" "${last[@]}") > "$work/printed" 2> "$work/told"
[ $? -eq 4 ] || fail 'in a later lane the status is not 4'
grep -qx 'tibzharuk: cannot read data/padded.gz: .*gzip.*' "$work/told" || fail "of a later lane it says '$(cat "$work/told")'"
untouched
if has cutadapt cutadapt; then
  tools=$work/few refused 4 'tibzharuk: cannot read data/padded.gz: cannot start gzip: No such file or directory' \
    -1 data/padded.gz -2 data/r --adapters truseq "${plain_out[@]}" "${last[@]}"
fi

row='a program that reads nothing'
for each in n1.gz:n2.gz none1.gz:none2.gz; do
  program=$(command -v true) refused 4 "tibzharuk: $(command -v true) ended before it had read its inputs" -1 "data/${each%:*}" -2 "data/${each#*:}" "${rest[@]}"
done
program=$(command -v false) refused 1 "tibzharuk: $(command -v false) ended with status 1" "${both[@]}" "${rest[@]}"

row='rights that a directory gives'
if has setfacl acl; then
  rm -rf "$work/shared"
  mkdir "$work/shared"
  if (umask 077 && setfacl -d -m u::rwx,g::rx,g:daemon:rwx,o::- "$work/shared" && : > "$work/shared/any") 2> /dev/null; then
    (umask 077 && made "${both[@]}" --paired1 shared/p1.fq.gz --unpaired1 shared/u1.fq "${outputs[@]:4}" "${last[@]}") || failed=1
    for name in p1.fq.gz u1.fq; do
      [ "$(getfacl -cp "$work/shared/$name")" = "$(getfacl -cp "$work/shared/any")" ] || fail "$name has $(getfacl -cp "$work/shared/$name" | paste -sd ' ')"
    done
  else
    echo "$this: skipped: $row, as the file system has no ACL"
  fi
fi
row='rights that the umask gives'
(umask 027 && made "${both[@]}" "${rest[@]}") || failed=1
[ "$(stat -c %a "$work/out/p1.fq.gz" "$work/out/u2.fq.gz" | paste -sd ' ')" = '640 640' ] || fail "they are $(stat -c %a "$work/out/p1.fq.gz")"

row='names as long as names can be, over older files'
long=$(printf 'n%.0s' {1..252})
mkdir "$work/long"
for name in "$long.gz" "${long%nnn}.fq.gz"; do
  name=${name: -255}
  echo older > "$work/long/$name"
  made "${both[@]}" --paired1 "long/$name" "${outputs[@]:2}" "${last[@]}"
  gzip -dc < "$work/long/$name" | cmp -s - "$plain/p1.fq" || fail "the output of ${#name} bytes is another one"
done
[ "$(find "$work/long" -type f | wc -l)" -eq 2 ] || fail 'another file is there'
row='a name that is too long'
refused 4 "tibzharuk: cannot write out/n$long.gz: File name too long" "${both[@]}" --paired1 "out/n$long.gz" "${outputs[@]:2}" "${last[@]}"

row='a prefix for all outputs, and several files after an option'
made -1 data/a1.gz data/b1.gz -2 data/a2.gz data/b2.gz --out out/s -t 2 "${last[@]}"
[ "$(ls -A "$work/out")" = "$(printf 's.%s\n' html json r1.paired.fastq.gz r1.unpaired.fastq.gz r2.paired.fastq.gz r2.unpaired.fastq.gz)" ] ||
  fail "there are $(ls -A "$work/out")"
same_report "$work/out/s.json"
grep -q '<title>s' "$work/out/s.html" || fail 'the page has no title'
for each in r1.paired:p1 r1.unpaired:u1 r2.paired:p2 r2.unpaired:u2; do mv "$work/out/s.${each%:*}.fastq.gz" "$work/out/${each#*:}.fq.gz"; done
as_plain p1.fq u1.fq p2.fq u2.fq
row='a prefix, without unpaired reads and report'
made "${both[@]}" --out out/s --no-unpaired --no-report --unpaired2 out/u2.fq "${last[@]}"
[ "$(cd "$work/out" && echo *)" = 's.r1.paired.fastq.gz s.r2.paired.fastq.gz u2.fq' ] || fail "there are $(ls -A "$work/out")"
as_plain u2.fq
row='a prefix with a letter that the locale does not have'
LC_ALL=C PYTHONUTF8=0 PYTHONCOERCECLOCALE=0 made "${both[@]}" --out out/sα "${last[@]}"
grep -q '<title>sα:' "$work/out/sα.html" || fail 'the page has another title'
grep -qF '"forward_paired":"out/sα.r1.paired.fastq.gz"' "$work/out/sα.json" || fail 'the report has another name'

finish ok
