#!/usr/bin/env bash
# Runs the workflow for many samples with the real Snakemake and MultiQC, on this machine: four
# samples, one of two lanes and one damaged. Compares each output with direct calls of the program,
# and reads the page's data, and its table in a browser. It also reads tables that tibzharuk samples
# and nf-core make, and refuses bad ones.
#
# FQ_PROG is the program, crates/fq_prog/out/fq_prog if not set. Status 77, and 'skipped', if a
# package is missing.
set -uo pipefail
. "$(dirname "$0")/common.bash"
need snakemake multiqc
find_program
. tests/workflow/lab.bash

# table ROWS: the table has these rows, as printf prints them
table() {
  # shellcheck disable=SC2059
  printf "sample\tlane\tr1\tr2\n$1" > config/samples.tsv
}

bad_tables() {
  local one='reads/s1_L001_R1.fq.gz' two='reads/s1_L001_R2.fq.gz'
  row='a table with a blank in a name'
  table "a b\tL1\t$one\t$two\n"
  refused "config/samples.tsv, line 2: column sample: 'a b' isn't letters, digits"
  row='a table with a lane twice'
  table "s1\tL1\t$one\t$two\ns1\tL1\treads/s2_L001_R1.fq.gz\treads/s2_L001_R2.fq.gz\n"
  refused 'config/samples.tsv, line 3: sample s1 already has lane L1'
  row='a table with a file twice'
  table "s1\tL1\t$one\t$two\ns2\tL1\treads/s2_L001_R1.fq.gz\t$two\n"
  refused "config/samples.tsv, line 3: column r2: $two is already in config/samples.tsv, line 2, column r2"
  row='a table with a file that is not there'
  table "s1\tL1\t$one\treads/none.fq.gz\n"
  refused 'config/samples.tsv, line 2: column r2: there is no file reads/none.fq.gz'
  row='a table with a name that Snakemake would read in its own way'
  table "s1\tL1\t$one\treads/{sample}.fq.gz\n"
  refused "config/samples.tsv, line 2: column r2: 'reads/{sample}.fq.gz' isn't the name of a file without { and }"
  row='a table with three columns'
  table "s1\t$one\t$two\n"
  refused 'config/samples.tsv, line 2: 3 columns, not 4 with tabs between them'
  row='a table without rows'
  table ''
  refused 'config/samples.tsv: there are no samples'
  row='settings with a wrong kind'
  table "s1\tL1\t$one\t$two\n"
  sed -i 's/^trim_logs:.*/trim_logs: perhaps/' config/config.yaml
  refused "settings: trim_logs: 'perhaps' is not of type 'boolean'"
}

# nf_core ROWS: the table is one of nf-core, with these rows
nf_core() {
  # shellcheck disable=SC2059
  printf "sample,fastq_1,fastq_2,strandedness\n$1" > config/samples.tsv
}

bad_nf_core() {
  local one='reads/s1_L001_R1.fq.gz' two='reads/s1_L001_R2.fq.gz'
  row='a table of nf-core with single reads'
  nf_core "s1,$one,,auto\n"
  refused "config/samples.tsv, line 2: column fastq_2: there is no file of reverse reads, and single reads aren't trimmed"
  row='a table of nf-core that lacks a cell'
  nf_core "s1,$one,$two\n"
  refused 'config/samples.tsv, line 2: 3 columns, not 4 with commas between them'
  row='a table of nf-core with a file twice'
  nf_core "s1,$one,$two,auto\ns1,reads/s2_L001_R1.fq.gz,\"$two\",auto\n"
  refused "config/samples.tsv, line 3: column r2: $two is already in config/samples.tsv, line 2, column r2"
}

# touched NAMES..: a directory names/ with these empty files
touched() {
  rm -rf names
  mkdir -p names/run2
  (cd names && touch -- "$@")
}

# listed ROWS: tibzharuk samples makes a table with these rows of names/, as printf prints them
listed() {
  # shellcheck disable=SC2059
  printf "sample\tlane\tr1\tr2\n$1" > wanted
  "$tibzharuk" samples names > got 2> told || fail "status $?: $(cat told)"
  diff wanted got || fail 'the table is another'
}

# unlisted LINE..: tibzharuk samples refuses names/ with these lines
unlisted() {
  "$tibzharuk" samples names > got 2> told
  [ $? -eq 1 ] || fail 'the status is not 1'
  [ ! -s got ] || fail 'a table is printed'
  printf 'tibzharuk samples: %s\n' "$@" | diff - told || fail 'other lines'
}

# The kinds of names are in python/tests/test_samples.py.
names_of_files() {
  row='names of files'
  touched a_S1_L00{1,2}_R{1,2}_001.fastq.gz a_S1_L001_I1_001.fastq.gz run2/b_c_S12_L001_R{1,2}_001.fastq.gz list.csv
  listed 'a\tL001\tnames/a_S1_L001_R1_001.fastq.gz\tnames/a_S1_L001_R2_001.fastq.gz
a\tL002\tnames/a_S1_L002_R1_001.fastq.gz\tnames/a_S1_L002_R2_001.fastq.gz
b_c\tL001\tnames/run2/b_c_S12_L001_R1_001.fastq.gz\tnames/run2/b_c_S12_L001_R2_001.fastq.gz\n'
  row='a directory whose name is no UTF-8'
  touched x
  mkdir $'names/M\xfcller'
  touch $'names/M\xfcller/a_R'{1,2}.fq
  unlisted "names/M\\udcfcller/a_R1.fq: it has a character that the workflow doesn't take" \
    "names/M\\udcfcller/a_R2.fq: it has a character that the workflow doesn't take"
}

# same_from_tables: tibzharuk samples makes the table of this lab's reads, and the samples of an nf-core
# table are trimmed as those of ours
same_from_tables() {
  mv "reads/it's s3.fq.gz" reads/s3_L001_R1.fq.gz
  sed -i "s|it's s3|s3_L001_R1|" config/samples.tsv
  "$tibzharuk" samples reads | diff - config/samples.tsv || fail 'tibzharuk samples makes another table'
  {
    echo 'sample,fastq_1,fastq_2,strandedness'
    sed '1d; s/\t/,/g; s/,L00.,/,/; s/$/,auto/' config/samples.tsv
  } > config/samples.csv
  sed -i 's/samples.tsv$/samples.csv/' config/config.yaml
}

new_lab tables
names_of_files
bad_tables
new_lab nf_core
bad_nf_core
new_lab local
a_whole_life local
row='nothing to do'
nothing_is_done
row='fewer processors, and no trim logs'
call 0 --profile profiles/local --cores 1 --config trim_logs=False
ran 0
page_tells s1 s2 s3 s4
removed_bases s1 s2 s3 s4

new_lab plain
row='no trim logs from the start, a table of nf-core, and a file that may be cut'
same_from_tables
cp reads/s4_L001_R2.fq.gz.whole reads/s4_L001_R2.fq.gz
if command -v bgzip > /dev/null; then
  gzip -dc reads/s2_L001_R1.fq.gz | bgzip -c | head -c -28 > cut.gz
  mv cut.gz reads/s2_L001_R1.fq.gz
fi
call 0 --profile profiles/local --config trim_logs=False
if command -v bgzip > /dev/null; then
  word='reads/s2_L001_R1.fq.gz may be cut: the end block of BGZF is missing (--need-end refuses such a file)'
  [ "$(grep '^warning:' said)" = "warning: s2: $word" ] || fail "the run warns: $(grep '^warning:' said)"
  [ "$(grep -o '<li><a href="reports/[^<]*</a>: .*' results/report.html)" = "<li><a href=\"reports/s2.html\">s2</a>: <samp>$word</samp></li>" ] ||
    fail 'the page does not warn'
else
  echo "$this: a file that may be cut: skipped: needs tabix"
fi
ran 4
same_as_direct s1 s2 s3 s4
page_tells s1 s2 s3 s4
removed_bases s1 s2 s3 s4
[ ! -e results/trim_logs ] || fail 'there is a trim log'
no_cutadapt
row='trim logs that are wanted later'
call 0 --profile profiles/local
ran 4
same_logs s1 s2 s3 s4

end_lab
