#!/usr/bin/env bash
# Times four ways to trim many samples on four processors, from the .gz files of their lanes to
# trimmed .gz files and a page of MultiQC: the workflow, with one job for all lanes of a sample and
# with a job for each lane; a loop of fastp; and a loop of TrimmomaticPE. Prints a table, and the
# commands of each way, which are those that were timed.
#
#     bench/samples/run.sh [OPTION]..
#
# Options:
#     --samples N      samples (4)
#     --lanes N        lanes of a sample, 1 to 9 (2)
#     --pairs N        pairs of 2 x 150 bases in a lane (50000)
#     --rounds N       runs of each way, taken in turn, of which the median is printed (3)
#     --job-threads N  processors of a job of the workflow (those of config/config.yaml, 4)
#     --in PLACE       where the files are: disk (TMPDIR, or /tmp) or memory (/dev/shm) (disk)
#     --program PATH   the program (crates/fq_prog/out/fq_prog)
#     --help
#
# Needs cc, taskset and findmnt. A way whose tool isn't installed is skipped, with its Debian
# package: snakemake, multiqc, fastp or trimmomatic. Files are in a directory of their own, which is
# removed.
set -euo pipefail
export LC_ALL=C.UTF-8

tree=$(cd "$(dirname "$0")/../.." && pwd)
program=$tree/crates/fq_prog/out/fq_prog
samples=4
lanes=2
pairs=50000
rounds=3
job_threads=
place=disk

stop() {
  echo "bench: $*" >&2
  exit 1
}

while [ $# -gt 0 ]; do
  case $1 in
    --samples) samples=${2:?} ;;
    --lanes) lanes=${2:?} ;;
    --pairs) pairs=${2:?} ;;
    --rounds) rounds=${2:?} ;;
    --job-threads) job_threads=${2:?} ;;
    --in) place=${2:?} ;;
    --program) program=${2:?} ;;
    --help)
      awk 'NR > 1 && !/^#/ { exit } NR > 1 { sub(/^# ?/, ""); print }' "$0"
      exit
      ;;
    *) stop "unknown argument $1 (--help lists all)" ;;
  esac
  shift 2
done
[ -x "$program" ] || stop "no program $program (make build makes it)"
case $place in
  disk) room=$(mktemp -d) ;;
  memory) room=$(mktemp -d -p /dev/shm) ;;
  *) stop "no place $place: disk or memory" ;;
esac
trap 'rm -rf "$room"' EXIT

# What a user has installed: the program by its name, and the system's Python.
mkdir "$room/bin" "$room/reads"
ln -s "$(realpath "$program")" "$room/bin/fq_prog"
[ ! -x /usr/bin/python3 ] || ln -s /usr/bin/python3 "$room/bin/python3"
export PATH=$room/bin:$PATH XDG_CACHE_HOME=$room/cache MPLCONFIGDIR=$room/cache
unset SNAKEMAKE_PROFILE
four=()
[ "$(nproc)" -le 4 ] || four=(taskset -c 0-3)
names=$(seq -s ' ' -f 's%g' "$samples")

# draw: the lanes. All are parts of one simulated text, so no two have the same reads.
draw() {
  local side sample lane
  cc -std=c11 -O2 -o "$room/pairs" "$tree/bench/trimming/pairs.c"
  "$room/pairs" $((samples * lanes * pairs)) "$room/1" "$room/2"
  for side in 1 2; do
    split -d -a 3 -l $((4 * pairs)) "$room/$side" "$room/part.$side."
    rm "$room/$side"
    set -- "$room/part.$side."*
    for sample in $names; do
      for ((lane = 1; lane <= lanes; lane++)); do
        mv "$1" "$room/reads/${sample}_L00${lane}_R$side.fastq"
        shift
      done
    done
  done
  find "$room/reads" -type f -print0 | xargs -0 -P 4 -n 1 gzip -n
}

# The commands of each way, as a user types them in the directory of the samples.

way_of_workflow() {
  cat << 'END'
tibzharuk samples reads > config/samples.tsv
snakemake --profile profiles/local --cores 4
END
}

way_of_lanes() {
  cat << 'END'
tibzharuk samples reads > config/samples.tsv
sed -i 's/^scatter: .*/scatter: lanes/' config/config.yaml
snakemake --profile profiles/local --cores 4
END
}

# loop COMMAND..: the lanes of each sample are joined, then this is called, and then MultiQC
loop() {
  cat << END
mkdir joined trimmed
for s in $names; do
  cat reads/\${s}_L*_R1.fastq.gz > joined/\${s}_R1.fastq.gz
  cat reads/\${s}_L*_R2.fastq.gz > joined/\${s}_R2.fastq.gz
END
  cat
  printf 'done\nmultiqc .\n'
}

# The flags are those by which fastp's steps come nearest to ours; see bench/README.md.
way_of_fastp() {
  loop << 'END'
  fastp --thread 4 -i joined/${s}_R1.fastq.gz -I joined/${s}_R2.fastq.gz \
    -o trimmed/$s.r1.paired.fastq.gz -O trimmed/$s.r2.paired.fastq.gz \
    --unpaired1 trimmed/$s.r1.unpaired.fastq.gz --unpaired2 trimmed/$s.r2.unpaired.fastq.gz \
    --json trimmed/$s.fastp.json --html trimmed/$s.fastp.html \
    --cut_front --cut_front_window_size 1 --cut_front_mean_quality 3 \
    --cut_tail --cut_tail_window_size 1 --cut_tail_mean_quality 3 \
    --cut_right --cut_right_window_size 4 --cut_right_mean_quality 15 --length_required 36 \
    --disable_adapter_trimming --disable_trim_poly_g --disable_quality_filtering \
    --dont_eval_duplication
END
}

way_of_trimmomatic() {
  loop << 'END'
  TrimmomaticPE -threads 4 -phred33 joined/${s}_R1.fastq.gz joined/${s}_R2.fastq.gz \
    trimmed/$s.r1.paired.fastq.gz trimmed/$s.r1.unpaired.fastq.gz \
    trimmed/$s.r2.paired.fastq.gz trimmed/$s.r2.unpaired.fastq.gz \
    LEADING:3 TRAILING:3 SLIDINGWINDOW:4:15 MINLEN:36 2> trimmed/$s.log
END
}

# The ways by what they are called here, and in the table, and what they need.
# shellcheck disable=SC2016  # the backticks are those of the table
ways=(
  'workflow|workflow, `scatter: none`|snakemake multiqc'
  'lanes|workflow, `scatter: lanes`|snakemake multiqc'
  'fastp|loop of `fastp`|fastp multiqc'
  'trimmomatic|loop of `TrimmomaticPE`|TrimmomaticPE:trimmomatic multiqc'
)

# lacks COMMAND[:PACKAGE]..: the packages of those that aren't installed
lacks() {
  local each
  for each in "$@"; do
    type -P "${each%%:*}" > "$room/found" || echo "${each#*:}"
  done
}

# new_lab WAY: the directory `lab`, with the reads and what this way needs beside them
new_lab() {
  rm -rf "$room/lab"
  mkdir "$room/lab"
  ln -s "$room/reads" "$room/lab/reads"
  case $1 in
    workflow | lanes)
      cp -r "$tree/workflow" "$tree/config" "$tree/profiles" "$tree/python" "$room/lab"
      [ -z "$job_threads" ] || sed -i "s/^  threads: .*/  threads: $job_threads/" "$room/lab/config/config.yaml"
      ;;
    *) echo 'no_version_check: true' > "$room/lab/multiqc_config.yaml" ;; # as in the workflow
  esac
}

# made [EXPRESSION..]: the files that a way has made, without the notes of Snakemake, by find
made() {
  find "$room/lab" -name .snakemake -prune -o -type f -newer "$room/begun" "$@"
}

# run_way WAY: one run, whose line is added to the file of the way: seconds, seconds to the last
# read, processor seconds, files, bytes, pairs kept, MultiQC's samples and sections
run_way() {
  local TIMEFORMAT='%3R %3U %3S' page=$room/lab/multiqc_report.html data=$room/lab/multiqc_data begun last kept shown sections
  new_lab "$1"
  "way_of_$1" > "$room/commands.$1"
  sync -f "$room"
  sleep 0.1
  touch "$room/begun"
  sleep 0.1
  begun=$EPOCHREALTIME
  if ! { time (cd "$room/lab" && "${four[@]}" bash -euo pipefail "$room/commands.$1" > "$room/said" 2>&1); } 2> "$room/took"; then
    tail -n 20 "$room/said" >&2
    stop "failed: the way by $1"
  fi
  [ -e "$page" ] || page=$room/lab/results/report.html data=$room/lab/results/report_data
  last=$(made -name '*.fastq.gz' -printf '%T@\n' | sort -n | tail -n 1)
  kept=$(($(made -name '*r1.paired.fastq.gz' -print0 | xargs -0 gzip -dc | wc -l) / 4))
  shown=$(tail -n +2 "$data/multiqc_general_stats.txt" | cut -f 1 | sort -u | wc -l)
  sections=$(grep -o 'class="mqc-section mqc-section-' "$page" | wc -l)
  awk -v begun="$begun" -v last="$last" -v files="$(made -print | wc -l)" \
    -v bytes="$(made -printf '%s\n' | awk '{ sum += $1 } END { print sum }')" -v rest="$kept $shown $sections" \
    '{ print $1, last - begun, $2 + $3, files, bytes, rest }' "$room/took" >> "$room/runs.$1"
}

# median FIELD WAY
median() {
  awk -v field="$1" '{ print $field }' "$room/runs.$2" | sort -n | awk '{ x[NR] = $1 } END { print x[int((NR + 1) / 2)] }'
}

# typed WAY: how many commands are typed: one in a loop counts once
typed() { grep -cvE '^(for .*|done|    .*)$' "$room/commands.$1"; }

print_table() {
  local way name label needed field medians
  echo '| Way | Commands | Seconds | to the last read | Processor seconds | Files made | MB made | Pairs kept | On the page: samples | sections |'
  echo '|---|---|---|---|---|---|---|---|---|---|'
  for way in "${ways[@]}"; do
    IFS='|' read -r name label needed <<< "$way"
    [ -e "$room/runs.$name" ] || continue
    medians=''
    for field in 1 2 3 4 5 6 7 8; do medians+=" $(median $field "$name")"; done
    awk -v label="$label" -v typed="$(typed "$name")" \
      '{ printf "| %s | %d | %.1f | %.1f | %.1f | %d | %.0f | %d | %d | %d |\n", label, typed, $1, $2, $3, $4, $5 / 1e6, $6, $7, $8 }' <<< "$medians"
  done
}

draw
echo "$samples samples of $lanes lanes, $pairs pairs of 2 x 150 bases a lane, $(du -cb "$room"/reads/* | awk 'END { printf "%.0f", $1 / 1e6 }') MB of .gz;" \
  "$place, $(findmnt -no FSTYPE -T "$room"); median of $rounds;" \
  "$(nproc) processors ($(sed -n 's/^model name[^:]*: //p' /proc/cpuinfo | head -n 1)), load $(cut -d ' ' -f 1 /proc/loadavg) before"
echo
todo=()
for way in "${ways[@]}"; do
  IFS='|' read -r name label needed <<< "$way"
  # shellcheck disable=SC2086  # the words of what it needs
  missing=$(lacks $needed | paste -sd ' ')
  if [ -z "$missing" ]; then
    todo+=("$name")
  else
    echo "skipped: $label: needs $missing"
  fi
done
[ ${#todo[@]} -gt 0 ] || exit 0
for ((round = 0; round < rounds; round++)); do
  for name in "${todo[@]}"; do run_way "$name"; done
done
print_table
echo
echo "The commands:"
for way in "${ways[@]}"; do
  IFS='|' read -r name label needed <<< "$way"
  [ -e "$room/commands.$name" ] || continue
  printf '\n%s:\n\n' "$label"
  sed 's/^/    /' "$room/commands.$name"
done
if type -P dpkg-query > "$room/found"; then
  echo
  # shellcheck disable=SC2016  # the fields are dpkg-query's
  { dpkg-query -W -f '${Package} ${Version}\n' snakemake multiqc tabix fastp trimmomatic 2> "$room/found" || true; } | awk 'NF == 2'
fi
"$room/bin/fq_prog" --version
