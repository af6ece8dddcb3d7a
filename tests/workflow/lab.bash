# shellcheck shell=bash disable=SC2034,SC2154  # row is that of the script
# A lab for tests/workflow.sh, workflow_lanes.sh and workflow_slurm.sh: four samples, one of two
# lanes and one damaged, directories with the workflow as a user has it, and what is asked of a run.
# A script that reads this file has its reads below $work, and what the program makes of them.

# Not below TMPDIR, because the name of a socket in it may have no more than 107 bytes.
work=$(mktemp -d -p /tmp tibzharuk.XXXXXX) || exit 1
# Everything that is started has this in its environment, so that what is left of it can be found at
# the end.
export TIBZHARUK_TEST=$work
export XDG_CACHE_HOME=$work/cache MPLCONFIGDIR=$work/cache PYTHONDONTWRITEBYTECODE=1 LC_ALL=C.UTF-8
unset SNAKEMAKE_PROFILE SLURM_CONF SBATCH_PARTITION SBATCH_ACCOUNT
steps=(LEADING:3 TRAILING:3 SLIDINGWINDOW:4:15 MINLEN:36)
. tests/workflow/slurm.bash

# left: the ids of the processes that this test started and that still run, except those that look
# for them
left() {
  # shellcheck disable=SC2016
  env -u TIBZHARUK_TEST bash -c 'grep -lzxF "TIBZHARUK_TEST=$1" /proc/[0-9]*/environ | cut -d/ -f3' left "$work" 2> /dev/null
}

# shellcheck disable=SC2317
clean_up() {
  local signal id ids
  stop_slurm
  for signal in TERM KILL; do
    for _ in $(seq 10); do
      ids=$(left)
      [ -n "$ids" ] || break 2
      for id in $ids; do kill -s "$signal" "$id" 2> /dev/null; done
      sleep 0.5
    done
  done
  rm -rf "$work"
}
trap clean_up EXIT
trap 'exit 130' INT
trap 'exit 143' TERM HUP

# draw_reads: the reads of four samples. Less than half of the pairs of s3 are kept. The second file
# of s4 is truncated.
draw_reads() {
  mkdir "$work/reads"
  python3 "$tree/tests/workflow/draw.py" "$work/reads" || exit 1
}

# trim_directly NAME LANES..: what the program makes of the plain texts of lanes, in the directory
# $work/direct
trim_directly() {
  local to=$work/direct/$1 side lane
  shift
  mkdir -p "$work/direct"
  for side in 1 2; do
    for lane in "$@"; do gzip -dc "$work/reads/${lane}_R$side.fq.gz"; done > "$to.in$side"
  done
  "$program" PE --trimlog "$to.log" --report "$to.json" "$to.in1" "$to.in2" "$to.r1.paired" "$to.r1.unpaired" "$to.r2.paired" "$to.r2.unpaired" \
    "${steps[@]}" > "$to.summary" || fail "the program on $to"
}

# new_lab NAME: a directory with the workflow as a user has it, its table and its settings; the
# shell goes there
new_lab() {
  mkdir "$work/$1"
  cd "$work/$1" || exit 1
  cp -r "$tree/workflow" "$tree/config" "$tree/profiles" "$tree/python" .
  cp -r "$work/reads" reads
  {
    printf 'sample\tlane\tr1\tr2\n'
    for lane in s1_L001 s1_L002 s2_L001 s3_L001 s4_L001; do
      printf '%s\t%s\treads/%s_R1.fq.gz\treads/%s_R2.fq.gz\n' "${lane%_*}" "${lane#*_}" "$lane" "$lane"
    done
  } > config/samples.tsv
  mv reads/s3_L001_R1.fq.gz "reads/it's s3.fq.gz"
  sed -i "s|reads/s3_L001_R1.fq.gz|reads/it's s3.fq.gz|" config/samples.tsv
  sed -i "s|^program:.*|program: $program|; s/^trim_logs:.*/trim_logs: true/; s/^steps:.*/steps: ${steps[*]}/
    s/threads: .*/threads: 2/; s/memory_mb: .*/memory_mb: 200/; s/minutes: .*/minutes: 5/" config/config.yaml
}

# call STATUS WORDS..: calls snakemake, which must end with 0, or with another status
call() {
  local wanted=$1 got
  shift
  timeout -k 5 300 snakemake "$@" > said 2>&1 &
  wait "$!"
  got=$?
  if [ "$wanted" -eq 0 ] && [ "$got" -ne 0 ] || [ "$wanted" -ne 0 ] && [ "$got" -eq 0 ] || [ "$got" -ge 124 ]; then
    fail "status $got, not $wanted"
    sed 's/^/  | /' said
  fi
}

# ran NUMBER [LANES [JOINED]]: that many samples were trimmed in one job, that many lanes in a job
# each, and the lanes of that many samples joined, by Snakemake's log
ran() {
  local said wanted got log
  log=$(find .snakemake/log -name '*.snakemake.log' | sort | tail -n 1)
  for said in 'trim [^ ,]*' 'trim [^ ,]*, lane .*' 'join the lanes of .*'; do
    wanted=${1:-0}
    [ $# -eq 0 ] || shift
    got=$(grep -cE "^Job [0-9]+: $said\$" "$log")
    [ "$got" -eq "$wanted" ] || fail "there were $got jobs '$said', not $wanted"
  done
}

# one_line_a_job: each job that ended well has one line, and no line is longer than some
one_line_a_job() {
  local ended
  ended=$(grep -c '^Finished job' "$(find .snakemake/log -name '*.snakemake.log' | sort | tail -n 1)")
  [ "$(grep -cE '^[0-9:]{8} [0-9]+ of [0-9]+ done: ' said)" -eq "$ended" ] || fail "not one line for each of $ended jobs"
  [ "$(awk 'length > 800' said | wc -l)" -eq 0 ] || fail "a line of $(wc -L < said) characters"
}

# same_as_direct SAMPLES..: all their files hold what direct calls made
same_as_direct() {
  local sample part
  for sample in "$@"; do
    for part in r1.paired r1.unpaired r2.paired r2.unpaired; do
      gzip -dc "results/trimmed/$sample.$part.fastq.gz" | cmp - "$work/direct/$sample.$part" || fail "$sample: $part differs"
    done
    cmp "results/summaries/$sample.summary" "$work/direct/$sample.summary" || fail "$sample: the summary differs"
    cmp <(counted "results/reports/$sample.json") <(counted "$work/direct/$sample.json") || fail "$sample: the report differs"
  done
}

# counted REPORT: a report without the names of its files, how it was made and its warnings, and
# without the field by which tibzharuk trim says that no adapters were looked for, or that it found
# none
counted() { sed 's/^{"adapters":null,\("adapters_auto":"none",\)\?/{/; s/,"provenance":\[{.*}\],"reads"/,"reads"/; s/,"warnings":\[[^]]*\]}$/}/; s/"inputs":{[^}]*}//; s/"outputs":{[^}]*}//' "$1"; }

# same_logs SAMPLES..: their trim logs are those of direct calls
same_logs() {
  local sample
  for sample in "$@"; do
    gzip -dc "results/trim_logs/$sample.log.gz" | cmp - "$work/direct/$sample.log" || fail "$sample: the log differs"
  done
}

# page_tells SAMPLES..: the page's data are those of the direct calls, for these samples and no
# others
page_tells() {
  local data=results/report_data sample text reports=("${@/#/$work/direct/}")
  reports=("${reports[@]/%/.json}")
  for sample in "$@"; do
    sed 's/.*: //' "$work/direct/$sample.summary" | paste -sd' ' | awk -v s="$sample" '{ print s, $2, $3, $4, $5 }'
  done | cmp - <(sed 1d $data/multiqc_tibzharuk_pairs_plot.txt | awk '{ print $1, $2 + 0, $3 + 0, $4 + 0, $5 + 0 }') ||
    fail 'the bars differ'
  python3 "$tree/tests/workflow/page_tells.py" "$work/direct" $data "$@" || fail 'the table, the dropped reads or the lengths differ'
  [ "$(grep -oE '>(This run|Tibzharuk)<' results/report.html | head -n 1)" = '>This run<' ] || fail 'the page does not begin with what is said of the run'
  for text in "$("$program" --version)" "${steps[*]}"; do
    grep -qF "$text" results/report.html || fail "the page lacks $text"
  done
  if command -v chromium > /dev/null; then
    timeout 100 chromium --headless --no-sandbox --disable-gpu --user-data-dir="$work/profile" --dump-dom "file://$PWD/results/report.html" > "$work/dom" 2> "$work/browser" ||
      fail "the browser: $(tail -n 3 "$work/browser")"
    python3 "$tree/tests/multiqc/check.py" page "$work/dom" "${reports[@]}" || fail 'the table in the browser differs'
  fi
}

# above_table: what the page shows above its tables
above_table() { sed '/<table/,$d' results/report.html; }

# sample_pages SAMPLES..: each has a page of its own, which is linked; samples of which less than
# half of the pairs are kept are marked
sample_pages() {
  local sample pairs kept few=''
  for sample in "$@"; do
    python3 "$tree/tests/report_page/check.py" page "results/reports/$sample.json" "results/reports/$sample.html" || fail "$sample: its page differs"
    grep -qF "<a href=\"reports/$sample.html\">$sample</a>" results/report.html || fail "$sample: its page is not linked"
    { read -r pairs && read -r kept; } < <(sed 's/.*: //' "$work/direct/$sample.summary")
    if [ $((2 * kept)) -lt "$pairs" ]; then few+="<li><strong><a href=\"reports/$sample.html\">$sample</a></strong>: $kept of $pairs pairs</li>"; fi
  done
  [ "$(grep -o '<li><strong><a href="reports/.*' results/report.html | tr -d '\n')" = "$few" ] || fail 'other samples are marked'
  [ -n "$few" ] || fail 'there is no sample to mark'
  [ "$(grep -o 'class="badge"' results/report.html | wc -l)" -eq "$(grep -o '</li>' <<< "$few" | wc -l)" ] || fail 'the table marks other samples'
}

# removed_bases SAMPLES..: the page's lines of removed bases are those of the logs, at each position
removed_bases() {
  python3 "$tree/tests/workflow/page_tells.py" "$work/direct" results/report_data --removed "$@" || fail 'the line graphs of removed bases differ'
}

# made: all files that were made of samples, with their times
made() {
  find results/trimmed results/trim_logs results/summaries results/reports -type f -printf '%p %T@\n' | sort
}

# shown_failure: the line that workflow/README.md shows of a truncated input, with the names of s4
shown_failure() {
  sed -n 's/^ *\(failed: \)blood1\(: .*\)blood1_L001_R2\.fastq\.gz/\1s4\2s4_L001_R2.fq.gz/p' "$tree/workflow/README.md"
}

# a_whole_life PROFILE: a call with a damaged sample, a second one, and one after the repair
a_whole_life() {
  row="$1: a damaged sample"
  call 1 --profile "profiles/$1"
  ran 4
  one_line_a_job
  [[ $(tail -n 1 said) == 'results/report.html: 3 of 4 samples are good; failed: s4 (tibzharuk: '*')' ]] || fail "the last line is $(tail -n 1 said)"
  same_as_direct s1 s2 s3
  same_logs s1 s2 s3
  page_tells s1 s2 s3
  sample_pages s1 s2 s3
  removed_bases s1 s2 s3
  [ "$(grep '^failed:' said)" = "$(shown_failure)" ] || fail "workflow/README.md shows '$(shown_failure)', but '$(grep '^failed:' said)' was said"
  above_table | grep '<strong>s4</strong>: <samp>[^<]*reads/s4_L001_R2.fq.gz' > /dev/null || fail 'the page does not name s4 and its file above its tables'
  [ -z "$(find results -name 's4*')" ] || fail "of s4 there is $(find results -name 's4*' | paste -sd' ')"
  made > before
  row="$1: a second call"
  call 1 --profile "profiles/$1"
  ran 1
  page_tells s1 s2 s3
  row="$1: after a repair"
  cp reads/s4_L001_R2.fq.gz.whole reads/s4_L001_R2.fq.gz
  call 0 --profile "profiles/$1"
  ran 1
  same_as_direct s1 s2 s3 s4
  same_logs s1 s2 s3 s4
  page_tells s1 s2 s3 s4
  sample_pages s1 s2 s3 s4
  removed_bases s1 s2 s3 s4
  ! grep -q 'Failed' results/report.html || fail 'the page still names a failed sample'
  made | grep -v /s4 | cmp - before || fail 'a sample that was trimmed was touched again'
}

# lanes_apart: the lanes of s1 were trimmed by themselves. Their reports stay, and the page of s1
# shows them; their reads are gone
lanes_apart() {
  local lane
  for lane in s1_L001 s1_L002; do
    cmp <(counted "results/lanes/s1/$lane.json") <(counted "$work/direct/$lane.json") || fail "$lane: the report differs"
  done
  python3 "$tree/tests/workflow/page_tells.py" "$work/direct" results/reports/s1.html --lanes s1_L001 s1_L002 || fail 'the table of lanes differs'
  [ -z "$(find results/lanes -name '*.gz')" ] || fail "of the lanes there is $(find results/lanes -name '*.gz' | paste -sd' ')"
  [ "$(find results/lanes -type d | paste -sd' ')" = 'results/lanes results/lanes/s1' ] || fail 'a sample of one lane was trimmed by lanes'
}

# by_lane PROFILE: a job for each lane, of which one fails; then only that lane is trimmed again
by_lane() {
  sed -i 's/^scatter:.*/scatter: lanes/' config/config.yaml
  cp reads/s4_L001_R2.fq.gz.whole reads/s4_L001_R2.fq.gz
  head -c 3000 "$work/reads/s1_L002_R2.fq.gz" > reads/s1_L002_R2.fq.gz
  row="$1: a damaged lane"
  call 1 --profile "profiles/$1"
  ran 3 2 0
  same_as_direct s2 s3 s4
  page_tells s2 s3 s4
  grep -qx 'failed: s1: lane L002: tibzharuk: cannot read reads/s1_L002_R2.fq.gz: unexpected end of file' said || fail "the lane is not named: $(grep '^failed' said)"
  above_table | grep '<strong>s1</strong>: <samp>lane L002: [^<]*reads/s1_L002_R2.fq.gz' > /dev/null || fail 'the page does not name s1 and its lane above its tables'
  [ -z "$(find results -name 's1*' ! -path 'results/lanes/*')" ] || fail 'there are outputs of s1'
  made > before
  row="$1: only that lane again"
  cp "$work/reads/s1_L002_R2.fq.gz" reads/
  call 0 --profile "profiles/$1"
  ran 0 1 1
  same_as_direct s1 s2 s3 s4
  same_logs s1 s2 s3 s4
  page_tells s1 s2 s3 s4
  sample_pages s1 s2 s3 s4
  removed_bases s1 s2 s3 s4
  lanes_apart
  made | grep -v /s1 | cmp - before || fail 'a sample that was trimmed was touched again'
  if above_table | grep -i failed > /dev/null; then fail 'the page still names a failed sample'; fi
}

# refused LINE: the present settings or table are refused with that line, and nothing is made
refused() {
  call 1 --profile profiles/local
  grep -qF -- "$1" said || fail "'$1' was not said, but: $(grep -v '^ *File' said | paste -sd' ' | cut -c 1-300)"
  [ ! -e results ] || fail 'something was made'
}

# no_cutadapt: the page has nothing of cutadapt
no_cutadapt() {
  [ ! -e results/report_data/multiqc_cutadapt.txt ] || fail 'the page has a part of cutadapt'
  if grep -qi cutadapt results/report.html; then fail 'the page names cutadapt'; fi
}

# nothing_is_done: all is made already
nothing_is_done() {
  call 0 --profile profiles/local
  ran 0
  grep -q 'Nothing to be done' said || fail 'something was done'
}

# end_lab: the end of a script. No process that it started is left.
end_lab() {
  command -v chromium > /dev/null || echo "$this: the page in a browser: skipped: needs chromium"
  row='the end'
  for _ in $(seq 20); do
    ids=$(left)
    [ -n "$ids" ] || break
    sleep 0.5
  done
  [ -z "$ids" ] || fail "processes are left: $(paste -sd' ' <<< "$ids")"
  finish ok
}

draw_reads
trim_directly s1 s1_L001 s1_L002
trim_directly s1_L001 s1_L001
trim_directly s1_L002 s1_L002
trim_directly s2 s2_L001
trim_directly s3 s3_L001
mv "$work/reads/s4_L001_R2.fq.gz" "$work/half"
cp "$work/reads/s4_L001_R2.fq.gz.whole" "$work/reads/s4_L001_R2.fq.gz"
trim_directly s4 s4_L001
mv "$work/half" "$work/reads/s4_L001_R2.fq.gz"
