#!/usr/bin/env bash
# Lines of Trimmomatic run as they are, by `tibzharuk PE`, beside Trimmomatic itself: without
# adapters each output has the same bytes, and with adapters the reads are nearly the same
# (tests/trimmomatic/lines). MultiQC's own module finds one row a sample in what is printed. A line
# of `fq_prog PE` runs, too, and gives the same reads. Real reads are those in the documents of
# Debian's package, if they are installed.
#
# FQ_PROG names another build of the program. Status 77, and 'skipped', if a package is missing.
set -uo pipefail
. "$(dirname "$0")/common.bash"
need TrimmomaticPE:trimmomatic cutadapt python3
find_program
command=$tree/python/tibzharuk/__main__.py
work=$(mktemp -d) || exit 1
trap 'rm -rf "$work"' EXIT
cd "$work" || exit 1
mkdir bin reads
ln -s "$program" bin/fq_prog
export PATH=$work/bin:$PATH LC_ALL=C.UTF-8
(cd reads && python3 "$tree/tests/trimmomatic/draw.py" 1000) || exit 1
real=/usr/share/doc/trimmomatic/test_data
if [ -e "$real/test_forward.fq.gz" ]; then
  ln -s "$real/test_forward.fq.gz" reads/real_f.fq.gz
  ln -s "$real/test_reverse.fq.gz" reads/real_r.fq.gz
else
  echo 'trimmomatic: real reads: skipped: needs the documents of trimmomatic'
fi

# by WHO COMMAND..: runs a line in a directory of its own, and keeps what is printed
by() {
  local who=$1
  shift
  mkdir "$number/$who"
  ln -s "$work"/reads/* "$number/$who/"
  (cd "$number/$who" && "$@" > said 2>&1) || fail "$who: status $?: $(tail -n 1 "$number/$who/said")"
}

# both LEAST MOST WORDS..: a line by both
both() {
  local bounds=("$1" "$2") said
  shift 2
  number=$((number + 1))
  mkdir "$number"
  row="line $number: $*"
  by theirs TrimmomaticPE "$@"
  by ours "$command" PE "$@"
  said=$(python3 "$tree/tests/trimmomatic/check.py" "${bounds[@]}" "$number/theirs" "$number/ours" 2>&1) || fail "$said"
}

# has FILE TEXT: a line of the file begins so
has() { grep -q "^$2" "$1" || fail "it doesn't print '$2': $(cat "$1")"; }

number=0
while IFS='|' read -r least most line; do
  read -ra words <<< "$line"
  both "$least" "$most" "${words[@]}"
done < <(grep -v '^#' "$tree/tests/trimmomatic/lines")
[ "$number" -eq 20 ] || fail "$number lines, not 20"
if [ -e reads/real_f.fq.gz ]; then
  both same '' -basein real_f.fq.gz -baseout real.fq.gz LEADING:3 TRAILING:3 SLIDINGWINDOW:4:15 MINLEN:36
  both 99 2 -basein real_f.fq.gz -baseout real.fq.gz ILLUMINACLIP:TruSeq3-PE.fa:2:30:10 SLIDINGWINDOW:4:15 MINLEN:36
fi

row='what differs is said'
has 11/ours/said "tibzharuk: ILLUMINACLIP: the adapters of /usr/share/trimmomatic/TruSeq3-PE.fa are removed by cutadapt, not by Trimmomatic's rule; both mates of a pair that reads through are kept\$"
has 14/ours/said 'tibzharuk: ILLUMINACLIP is done before all other steps, though it comes after SLIDINGWINDOW:4:20$'
has 16/ours/said "tibzharuk: ILLUMINACLIP: the adapters of /usr/share/trimmomatic/NexteraPE-PE.fa are removed by cutadapt, not by Trimmomatic's rule\$"
[ ! -s 5/ours/said ] || fail "it isn't quiet: $(cat 5/ours/said)"

row='a log whose name is missing'
cp reads/plain_1.fq.gz reads/plain_2.fq.gz .
"$command" PE -trimlog plain_{1,2}.fq.gz p1.fq u1.fq p2.fq u2.fq MINLEN:36 > said 2>&1
[ $? -eq 2 ] || fail "PE takes the reads for a log: $(tail -n 1 said)"
"$command" trim -1 plain_1.fq.gz -2 plain_2.fq.gz --out s --trimlog reads/nextera_1.fq.gz MINLEN:36 > said 2>&1
[ $? -eq 2 ] || fail "trim takes the reads for a log: $(tail -n 1 said)"
cmp reads/plain_1.fq.gz plain_1.fq.gz || fail 'the reads are lost'

row='a line of fq_prog PE'
number=plain
mkdir plain packed
for side in 1 2; do gzip -dc "reads/plain_$side.fq.gz" > "plain_$side.fq"; done
words=(LEADING:3 SLIDINGWINDOW:4:15 MINLEN:36 --threads 2)
outputs=(p1.fq u1.fq p2.fq u2.fq)
fq_prog PE --explain --trimlog plain/log plain_{1,2}.fq "${outputs[@]/#/plain/}" "${words[@]}" > said || fail "status $?"
packed=("${outputs[@]/#/packed/}")
"$command" PE --explain --trimlog packed/log.gz reads/plain_{1,2}.fq.gz "${packed[@]/%/.gz}" "${words[@]}" > said 2>&1 ||
  fail "status $?: $(tail -n 1 said)"
gzip -d packed/*.gz
diff -r plain packed > differ || fail "$(head -n 3 differ)"

row=MultiQC
if command -v multiqc > /dev/null; then
  mkdir logs
  for each in 1 7 11 14 15; do cp "$each/ours/said" "logs/$each.log"; done
  multiqc --outdir page --module trimmomatic logs > told 2>&1 || fail "status $?: $(tail -n 3 told)"
  [ "$(cut -f 1 page/multiqc_data/multiqc_trimmomatic.txt | sort | paste -sd,)" = Sample,nextera_1,old_1,plain_1,truseq_1 ] ||
    fail "it finds $(cut -f 1 page/multiqc_data/multiqc_trimmomatic.txt | paste -sd,)"
else
  echo 'trimmomatic: the page of MultiQC: skipped: needs multiqc'
fi
finish 'lines of Trimmomatic run as they are'
