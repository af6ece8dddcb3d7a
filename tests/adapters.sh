#!/usr/bin/env bash
# Removes adapters with tibzharuk trim: by name, by sequence and by file. The reads are those that
# cutadapt and the program make one after the other. Files of adapters that would be taken wrongly
# are refused. If reads hold a known adapter and none is named, one line says so. Input that is good
# without adapters is good with them. The report, its page and the log of cutadapt say what was
# removed, and name the sample alike.
#
# FQ_PROG names another build of the program. Status 77, and 'skipped', if cutadapt is missing.
set -uo pipefail
. "$(dirname "$0")/common.bash"
need cutadapt
find_program
. tests/trim/calls.bash
mkdir plain
python3 "$tree/tests/adapters/draw.py" || exit 1
gzip -1 -k ./*.fq
steps=(LEADING:3 SLIDINGWINDOW:4:15 MINLEN:36)
outputs=(--paired1 out/p1.fq --unpaired1 out/u1.fq --paired2 out/p2.fq --unpaired2 out/u2.fq)

# as_plain: the reads are those of the files in `plain`
as_plain() {
  local name
  for name in p1 u1 p2 u2; do
    cmp -s "out/$name.fq" "plain/$name.fq" || fail "the reads differ ($name)"
  done
}

# plainly LANE OPTIONS..: what cutadapt and then the program make of a lane
plainly() {
  local lane=$1
  shift
  cutadapt --interleaved --json plain/json -o plain/il "$@" "${lane}_1.fq" "${lane}_2.fq" > plain/text ||
    fail 'cutadapt alone'
  "$program" IL plain/il plain/{p1,u1,p2,u2}.fq "${steps[@]}" > plain/summary ||
    fail 'the program alone'
}

for side in 1 2; do head -n 8 "truseq_$side.fq" > "few_$side.fq"; done

# Each row: the reads, how the adapters are named, and the same for cutadapt.
printf '>other\nACGTTGCAACGT\n' > other.fa
gzip -k other.fa
while IFS='|' read -r lane words options; do
  row="$lane, $words"
  read -ra words <<< "$words"
  read -ra options <<< "$options"
  plainly "$lane" "${options[@]}"
  made '' -1 "${lane}_1.fq.gz" -2 "${lane}_2.fq.gz" "${outputs[@]}" "${words[@]}" -- "${steps[@]}"
  as_plain
  "$program" PE "${lane}_1.fq" "${lane}_2.fq" plain/{p1,u1,p2,u2}.fq "${steps[@]}" > plain/summary
  ! cmp -s out/p1.fq plain/p1.fq || fail 'nothing was removed'
done << END
truseq|--adapters truseq|-a ${truseq[0]} -A ${truseq[1]}
truseq|--adapters TruSeq|-a ${truseq[0]} -A ${truseq[1]}
nextera|--adapters nextera|-a CTGTCTCTTATACACATCT -A CTGTCTCTTATACACATCT
smallrna|--adapters smallrna|-a TGGAATTCTCGGGTGCCAAGG -A GATCGTCGGACTGTAGAACTCTGAAC
truseq|--adapters nextera --adapters truseq|-a CTGTCTCTTATACACATCT -A CTGTCTCTTATACACATCT -a ${truseq[0]} -A ${truseq[1]}
truseq|--adapters other.fa --adapters ${truseq[0]},${truseq[1]}|-a file:other.fa -A file:other.fa -a ${truseq[0]} -A ${truseq[1]}
truseq|--adapters other.fa.gz --adapters AGATCGGAAGAGC|-a file:other.fa -A file:other.fa -a AGATCGGAAGAGC -A AGATCGGAAGAGC
truseq|--adapters truseq --cutadapt --error-rate=0.2|-a ${truseq[0]} -A ${truseq[1]} --error-rate=0.2
polyg|--poly-g|--nextseq-trim=20
polyg|--poly-g --cutadapt --nextseq-trim=35|--nextseq-trim=35
truseq|--poly-g --adapters truseq|--nextseq-trim=20 -a ${truseq[0]} -A ${truseq[1]}
END
row='the options that docs/GUIDE.md names'
mapfile -t named < <(grep -o -- "--cutadapt '[^']*'" "$tree/docs/GUIDE.md" | sort -u)
[ "${#named[@]}" -ge 8 ] || fail "only ${#named[@]}"
for words in "${named[@]}"; do
  given=${words#*\'}
  trimmed -1 few_1.fq -2 few_2.fq "${outputs[@]}" --cutadapt "${given%\'}" -- MINLEN:1
  [ "$(cat status)" -eq 0 ] || fail "$words: $(cat told)"
done

# Files of adapters that aren't what they seem. The first two begin as those of Trimmomatic do.
printf '>PrefixPE/1\nTACACTCTTTCCCTACACGACGCTCTTCCGATCT\n>PrefixPE/2\nGTGACTGGAGTTCAGACGTGTGCTCTTCCGATCT\n' > TruSeq3-PE.fa
printf '>PrefixNX/1\nAGATGTGTATAAGAGACAG\n>PrefixNX/2\nAGATGTGTATAAGAGACAG\n>Trans1\nTCGTCGGCAGCGTC\n' > NexteraPE-PE.fa
printf '>PrefixPE/1\nAATTGGCCACGT\n>PrefixPE/2\nGGGTTTAAAC\n' > own-PE.fa
printf '>PrefixPE/1\nAATTGGCCACGT\n' > half-PE.fa
: > empty.fa
printf '>a\nACGT\n>b\n>c\nACGT\n' > nothing.fa
printf 'ACGT\n' > list.txt
cp other.fa 'a;b.fa'
known='truseq, nextera or smallrna'
while IFS='|' read -r given status line; do
  row=$given
  refused "$status" "$line" -1 truseq_1.fq -2 truseq_2.fq "${outputs[@]}" --adapters "$given" -- "${steps[@]}"
done << END
TruSeq3-PE.fa|2|--adapters: TruSeq3-PE.fa has palindrome entries of Trimmomatic (PrefixPE/1): use --adapters truseq
NexteraPE-PE.fa|2|--adapters: NexteraPE-PE.fa has palindrome entries of Trimmomatic (PrefixNX/1): use --adapters nextera
own-PE.fa|2|--adapters: own-PE.fa has palindrome entries of Trimmomatic (PrefixPE/1): use --adapters GTTTAAACCC,ACGTGGCCAATT
half-PE.fa|2|--adapters: half-PE.fa has palindrome entries of Trimmomatic (PrefixPE/1): use --adapters $known, or a FASTA file of the 3' adapters
none.fa|2|--adapters: none.fa is neither a file nor a sequence nor auto, $known
A{10}|2|--adapters: A{10} is neither a file nor a sequence nor auto, $known
ACGT,|2|--adapters: ACGT, is neither a file nor a sequence nor auto, $known
empty.fa|2|--adapters: empty.fa has no adapters
nothing.fa|2|--adapters: nothing.fa has no sequence for b
list.txt|2|--adapters: list.txt isn't FASTA: its first line doesn't begin with >
truseq_1.fq|2|--adapters: truseq_1.fq isn't FASTA: its first line doesn't begin with >
a;b.fa|2|--adapters: cutadapt takes no name with ; in it: a;b.fa
plain|4|cannot read plain: not a file
/dev/null|4|cannot read /dev/null: not a file
END

# Reads that hold a known adapter, of which none is named.
holds='pairs hold an adapter that --adapters truseq removes'
while IFS='|' read -r row line words; do
  read -ra words <<< "$words"
  made "${line:+tibzharuk: warning: $line}" "${words[@]}" "${outputs[@]}" -- "${steps[@]}"
done << END
2 % of the pairs|2.0 % of the first 1,000 $holds|-1 two_1.fq -2 two_2.fq
2 % of the pairs, compressed|2.0 % of the first 1,000 $holds|-1 two_1.fq.gz -2 two_2.fq.gz
2 % of the pairs, interleaved|2.0 % of the first 1,000 $holds|-i two_both.fq.gz
the adapter in reverse reads alone|2.0 % of the first 1,000 $holds|-1 no_1.fq -2 two_2.fq
1 % of the pairs||-1 one_1.fq -2 one_2.fq
adapters after 10,000 pairs||-1 late_1.fq.gz -2 late_2.fq.gz
only poly-G is named|2.0 % of the first 1,000 $holds|-1 two_1.fq -2 two_2.fq --poly-g
other adapters are named||-1 two_1.fq -2 two_2.fq --adapters nextera
cutadapt trims by quality alone|2.0 % of the first 1,000 $holds|-1 two_1.fq -2 two_2.fq --cutadapt=-q10
cutadapt is given an adapter||-1 two_1.fq -2 two_2.fq --cutadapt=-GACGTTGCA
cutadapt is given an adapter by a long option||-1 two_1.fq -2 two_2.fq --cutadapt=--front=ACGTTGCA
cutadapt is given an adapter by a shortened option||-1 two_1.fq -2 two_2.fq --cutadapt=--anyw=ACGTTGCA
cutadapt is given an adapter beside another option||-1 two_1.fq -2 two_2.fq --cutadapt=-ZbACGTTGCA
cutadapt drops every pair|cutadapt removed all pairs|-1 one_1.fq -2 one_2.fq --cutadapt=-m1000
END
row='reads from a pipe'
made '' -1 <(cat two_1.fq) -2 two_2.fq "${outputs[@]}" -- "${steps[@]}"

# What is good input without adapters is good with them.
plainly truseq -a "${truseq[0]}" -A "${truseq[1]}"
for side in 1 2; do
  head -n 4000 "truseq_$side.fq" > "front_$side.fq"
  tail -n +4001 "truseq_$side.fq" > "rest_$side.fq"
  { cat "truseq_$side.fq" && printf '\n'; } > "blank_$side.fq"
  { printf '\n\r\n' && cat "truseq_$side.fq" && printf '\n\n\n'; } > "blanks_$side.fq"
  head -c -1 "truseq_$side.fq" > "short_$side.fq"
  head -c -1 "front_$side.fq" > "front_short_$side.fq"
  { cat "front_$side.fq" && printf '\n\n'; } > "front_blank_$side.fq"
done
gzip -1 -k {blank,blanks,short,rest,front_short,front_blank}_{1,2}.fq
while IFS='|' read -r row words; do
  read -ra words <<< "$words"
  made '' "${words[@]}" "${outputs[@]}" --adapters truseq -- "${steps[@]}"
  as_plain
done << END
an empty line at the end|-1 blank_1.fq -2 truseq_2.fq
an empty line at the end, compressed|-1 truseq_1.fq.gz -2 blank_2.fq.gz
empty lines at both ends|-1 blanks_1.fq.gz -2 blanks_2.fq
no last line feed|-1 short_1.fq -2 short_2.fq.gz
a lane without its last line feed|-1 front_short_1.fq -1 rest_1.fq -2 front_short_2.fq.gz -2 rest_2.fq.gz
an empty line between two lanes|-1 front_blank_1.fq.gz -1 rest_1.fq.gz -2 front_2.fq -2 rest_2.fq
END
row='a last read without bases'
printf '@last/1\n\n+\n\n' >> few_1.fq
printf '@last/2\nACGT\n+\nIIII\n' >> few_2.fq
made '' -1 few_1.fq -2 few_2.fq "${outputs[@]}" --adapters truseq -- MINLEN:3
[ "$(sed 's/.*: //' printed | paste -sd ' ')" = '3 2 0 1 0' ] || fail "$(cat printed)"

# What cutadapt can't read is refused in a line that names the files and says what to do.
fold -w 50 few_1.fq > wrapped_1.fq
gzip -k wrapped_1.fq
{ head -n 8 truseq_1.fq && tail -n +9 truseq_1.fq | fold -w 50; } > later_1.fq
sed '5s/^@r2/@x2/' truseq_2.fq > other_2.fq
head -n 400 truseq_2.fq > fewer_2.fq
wrapped="its first record isn't of four lines, as cutadapt needs (seqtk seq makes it so)"
remedy='cutadapt needs records of four lines, without empty lines between them'
unpaired='Error in sequence file at unknown line: Reads are improperly paired.'
other="$unpaired Read name 'r2/1' in file 1 does not match 'x2/2' in file 2."
while IFS='|' read -r row line words; do
  read -ra words <<< "$words"
  refused 3 "$line" "${words[@]}" "${outputs[@]}" --adapters truseq -- "${steps[@]}"
done << END
wrapped records|cannot read wrapped_1.fq: $wrapped|-1 wrapped_1.fq -2 truseq_2.fq
wrapped records, compressed|cannot read wrapped_1.fq.gz: $wrapped|-1 wrapped_1.fq.gz -2 truseq_2.fq
names that differ|input: record 2: NamesDiffer: truseq_1.fq has 'r2' and other_2.fq has 'x2' (see --no-name-check)|-1 truseq_1.fq -2 other_2.fq
mates that are missing|input: reverse record 101: MateMissing: fewer_2.fq: the file ends before this record, and truseq_1.fq has it|-1 truseq_1.fq -2 fewer_2.fq
names that differ, and need not be the same|cutadapt: $other (truseq_1.fq, other_2.fq): cutadapt compares names even with --no-name-check; seqtk rename gives both mates the same ones|-1 truseq_1.fq -2 other_2.fq --no-name-check
END

# What cutadapt says of these depends on how many bytes it read at once.
while IFS='|' read -r row begin end words; do
  read -ra words <<< "$words"
  trimmed "${words[@]}" "${outputs[@]}" --adapters truseq -- "${steps[@]}"
  [ "$(cat status)" -eq 3 ] || fail "status $(cat status)"
  [[ $(cat told) == "tibzharuk: cutadapt: $begin "*" $end" ]] || fail "it says $(cat told)"
done << END
wrapped records after others|Error in FASTQ file at line|(later_1.fq, truseq_2.fq): $remedy|-1 later_1.fq -2 truseq_2.fq
END

row='the report without cutadapt'
made '' -1 one_1.fq -2 one_2.fq "${outputs[@]}" --report out/one.json -- "${steps[@]}"
grep -q '^{"adapters":null,' out/one.json || fail "$(head -c 100 out/one.json)"
row='the report of adapters'
plainly truseq -a "${truseq[0]}" -A "${truseq[1]}" -m 50
made '' -1 truseq_1.fq.gz -2 truseq_2.fq.gz "${outputs[@]}" --adapters "${truseq[0]},${truseq[1]}" --cutadapt '-m 50' \
  --report out/liver.json --html out/liver.html --cutadapt-log out/liver.log -- "${steps[@]}"
as_plain
python3 "$tree/tests/adapters/check.py" out/liver.json plain/json "$(cutadapt --version)" out/liver.html ||
  fail 'it has other numbers, or its page has'
"$tibzharuk" page out/liver.json | cmp - out/liver.html || fail 'a page of the saved report is another one'
row='the report of adapters of one side'
made '' -1 truseq_1.fq -2 truseq_2.fq "${outputs[@]}" --cutadapt "-a ${truseq[0]}" --report out/one.json -- "${steps[@]}"
grep -q '"reverse":{"bases_removed":0,"pairs_with_adapter":null},"version"' out/one.json || fail "$(head -c 400 out/one.json)"

row='the name of the sample'
# Each row: the name, and the files that name it.
while IFS='|' read -r name words; do
  read -ra words <<< "$words"
  made '' -1 truseq_1.fq -2 truseq_2.fq "${outputs[@]}" --adapters truseq "${words[@]}" -- "${steps[@]}"
  [ ! -e out/s.html ] || grep -qF "<h1>$name</h1>" out/s.html || fail "the page of ${words[*]} isn't that of $name"
  grep -q "^Command line parameters: .* truseq_1.fq truseq_2.fq # $name\$" out/text || fail "the log of ${words[*]} isn't that of $name"
done << END
liver|--report out/liver.json --html out/s.html --cutadapt-log out/text
s|--report out/report --html out/s.html --cutadapt-log out/text
text|--cutadapt-log out/text
END
row='the samples of MultiQC'
if command -v multiqc > /dev/null; then
  made '' -1 truseq_1.fq -2 truseq_2.fq "${outputs[@]}" --adapters truseq --report out/liver.json --cutadapt-log out/liver.log -- "${steps[@]}"
  bash "$tree/packaging/install.sh" "$program" installed > /dev/null || fail 'it is not installed'
  PYTHONPATH=installed/lib/python3/dist-packages multiqc --outdir seen out > multiqc.log 2>&1 || fail "$(cat multiqc.log)"
  for each in cutadapt tibzharuk; do grep -q "$each" multiqc.log || fail "it doesn't find $each: $(cat multiqc.log)"; done
  samples=$(cut -f 1 seen/multiqc_data/multiqc_general_stats.txt)
  [ "$samples" = $'Sample\nliver' ] || fail "they are ${samples//$'\n'/ }"
else
  echo "adapters: skipped: $row: multiqc isn't installed (apt-get install multiqc)"
fi
finish ok
