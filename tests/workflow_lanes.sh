#!/usr/bin/env bash
# The workflow with a job for each lane, of which one fails; imported by another workflow; and with
# adapters. The samples are those of workflow.sh.
#
# FQ_PROG is the program, crates/fq_prog/out/fq_prog if not set. Status 77, and 'skipped', if a
# package is missing.
set -uo pipefail
. "$(dirname "$0")/common.bash"
need snakemake multiqc
find_program
. tests/workflow/lab.bash

# as_module: another workflow imports this one, and uses its reads. Both make what they should, with
# the page of all samples
as_module() {
  cp reads/s4_L001_R2.fq.gz.whole reads/s4_L001_R2.fq.gz
  { echo 'trimming:' && sed 's/^/  /; s/scatter: none/scatter: lanes/' config/config.yaml; } > lab.yaml
  rm config/config.yaml
  mkdir importer
  mv workflow python profiles importer
  cat > Snakefile << 'SNAKEFILE'
configfile: "lab.yaml"


module trimming:
    snakefile: "importer/workflow/Snakefile"
    config: config["trimming"]


use rule * from trimming as tibzharuk_*


rule counted:
    default_target: True
    input:
        rules.tibzharuk_all.input,
    output:
        "counted",
    shell:
        "gzip -dc results/trimmed/*.r1.paired.fastq.gz | wc -l > {output}"
SNAKEFILE
  call 0 --profile importer/profiles/local
  ran 3 2 1
  same_as_direct s1 s2 s3 s4
  same_logs s1 s2 s3 s4
  page_tells s1 s2 s3 s4
  sample_pages s1 s2 s3 s4
  lanes_apart
  [ "$(cat counted)" -eq "$(cat "$work"/direct/s?.r1.paired | wc -l)" ] || fail 'the importing workflow counts other reads'
  row='a module whose sample fails'
  head -c 3000 "$work/reads/s1_L002_R2.fq.gz" > reads/s2_L001_R2.fq.gz
  call 1 --profile importer/profiles/local
  above_table | grep '<strong>s2</strong>: <samp>[^<]*reads/s2_L001_R2.fq.gz' > /dev/null || fail 'the page does not name s2'
}

# lint: the linter of Snakemake has no finding but the one that the Snakefile answers
lint() {
  local answered
  answered=$(sed -n "s/^# .*'\(Specify a conda.*\)$/\1/p" workflow/Snakefile)
  snakemake --lint > linted 2>&1
  grep '^    \* ' linted | grep -vF "${answered:-none}" && fail 'Snakemake finds something else'
  [ -n "$answered" ] || fail 'the Snakefile answers nothing'
}

# same_after_cutadapt SAMPLE: the outputs are those of cutadapt and the program, one after the other
same_after_cutadapt() {
  local to=$work/direct/cut part
  cutadapt --interleaved -a "$adapter" -A "$adapter" -o "$to.il" "$work/direct/$1.in1" "$work/direct/$1.in2" > "$to.text" || fail 'cutadapt'
  "$program" IL "$to.il" "$to.r1.paired" "$to.r1.unpaired" "$to.r2.paired" "$to.r2.unpaired" "${steps[@]}" > "$to.summary" || fail 'the program'
  for part in r1.paired r1.unpaired r2.paired r2.unpaired; do
    gzip -dc "results/trimmed/$1.$part.fastq.gz" | cmp - "$to.$part" || fail "$1: $part differs"
  done
  cmp "results/summaries/$1.summary" "$to.summary" || fail "$1: the summary differs"
}

# with_adapters: a sequence, a file that changes, no adapters, and a file that doesn't exist
with_adapters() {
  cp reads/s4_L001_R2.fq.gz.whole reads/s4_L001_R2.fq.gz
  sed -i "s/^adapters:.*/adapters: $adapter/" config/config.yaml
  call 0 --profile profiles/local --config trim_logs=False
  ran 4
  same_after_cutadapt s1
  same_after_cutadapt s2
  [ "$(sed 1d results/report_data/multiqc_cutadapt.txt | cut -f 1 | paste -sd' ')" = 's1 s2 s3 s4' ] || fail 'the page has no part of cutadapt for each sample'
  grep -qF "<tr><th>Options</th><td><samp>none</samp></td></tr><tr><th>Adapters</th><td><samp>$adapter</samp></td></tr>" results/report.html ||
    fail 'the page does not name the adapters as such'
  printf '>one\n%s\n' "$adapter" > adapters.fa
  row='adapters in a file'
  call 0 --profile profiles/local --config trim_logs=False adapters=adapters.fa
  ran 4
  same_after_cutadapt s1
  row='adapters by lanes'
  call 0 --profile profiles/local --config trim_logs=False adapters=adapters.fa scatter=lanes
  ran 0 2 1
  same_after_cutadapt s1
  [ "$(sed 1d results/report_data/multiqc_cutadapt.txt | cut -f 1 | paste -sd' ')" = 's1_L001 s1_L002 s2 s3 s4' ] || fail 'the page has no part of cutadapt for each lane'
  row='a file of adapters that changes'
  printf '>two\nGGGGGGGGGGGGGGG\n' >> adapters.fa
  call 0 --profile profiles/local --config trim_logs=False adapters=adapters.fa
  ran 4
  row='adapters no more'
  sed -i 's/^adapters:.*/adapters: ""/' config/config.yaml
  call 0 --profile profiles/local --config trim_logs=False
  ran 4
  same_as_direct s1 s2 s3 s4
  page_tells s1 s2 s3 s4
  no_cutadapt
  row='adapters that are not there'
  rm -r results
  sed -i 's/^adapters:.*/adapters: none.fa/' config/config.yaml
  refused "settings: adapters: 'none.fa' is neither a file nor a sequence nor auto, truseq, nextera or smallrna"
  row='adapters that each sample finds for itself'
  sed -i 's/^adapters:.*/adapters: auto/' config/config.yaml
  for side in 1 2; do
    gzip -dc "$work/reads/s2_L001_R$side.fq.gz" | awk -v adapter=AGATCGGAAGAGC 'NR % 40 == 2 { $0 = substr($0, 1, length - 13) adapter } { print }' |
      gzip > "reads/s2_L001_R$side.fq.gz"
  done
  sed -i 's/^scatter:.*/scatter: lanes/' config/config.yaml
  refused 'settings: adapters: auto looks at the reads of each job, so two lanes of a sample might get others: name them, or set scatter to none'
  sed -i 's/^scatter:.*/scatter: none/' config/config.yaml
  call 0 --profile profiles/local --config trim_logs=False
  ran 4
  same_as_direct s1 s3 s4
  python3 -c 'import re, sys
for found in re.findall("<h4>([^<]*)</h4>\\s*<table.*?<th>Adapters</th><td><samp>([^<]*)<", sys.stdin.read()): print(*found)' < results/report.html > told
  [ "$(cat told)" = $'s1, s3, s4 auto, which took none\ns2 auto, which took truseq' ] || fail "the page says $(cat told)"
  grep -q '"adapters":{' results/reports/s2.json || fail 's2 was trimmed without adapters'
  grep -c 'Adapters were removed' results/reports/s?.html | paste -sd ' ' > told
  [ "$(cat told)" = 'results/reports/s1.html:0 results/reports/s2.html:1 results/reports/s3.html:0 results/reports/s4.html:0' ] || fail "their pages: $(cat told)"
}

new_lab lanes
row='the linter'
lint
by_lane local
row='nothing to do by lanes'
nothing_is_done
row='a lane that is damaged after its sample was trimmed'
head -c 3000 "$work/reads/s1_L002_R2.fq.gz" > reads/s1_L002_R2.fq.gz
call 1 --profile profiles/local
[[ $(tail -n 1 said) == 'results/report.html: 3 of 4 samples are good; failed: s1 (lane L002: tibzharuk: cannot read '* ]] || fail "the last line is $(tail -n 1 said)"
grep -qx 'failed: s1: lane L002: tibzharuk: cannot read reads/s1_L002_R2.fq.gz: unexpected end of file' said || fail "the lane is not named: $(grep '^failed' said)"

new_lab module
row='a module of another workflow'
as_module

new_lab adapters
row='adapters'
adapter=AGATCGGAAGAGC
if command -v cutadapt > /dev/null; then
  with_adapters
else
  echo "$this: skipped: adapters, which need cutadapt"
fi

end_lab
