#!/usr/bin/env bash
# Times the built program on simulated pairs, beside the trimmers that are installed: tibzharuk over
# compressed files, and the program over plain ones, also beside a loop that only copies lines,
# threads that only pass pairs on, and cat. bench/README.md says what is measured.
#
#     bench/trimming/run.sh [MODE] [OPTION]..
#
# Modes; without one it prints what --gz and --plain do:
#     --gz             from .gz to .gz, at each tool's own level of compression and at its fastest,
#                      and the processor seconds of each program that tibzharuk runs: without
#                      adapters, with scores in four bins, with real reads, and with adapters
#     --growth         from .gz to .gz, tibzharuk beside fastp, at 150,000, 1,500,000 and 6,000,000
#                      pairs
#     --plain          plain files: a row for each tool
#     --sets           the program and the loop over all data sets, in memory and on the disk: a row for each set
#     --threads-time   the processor seconds of each of the program's threads
#     --memory         the program's peak memory at 50,000, 250,000 and 1,000,000 pairs
#     --settings       the program's peak memory with other settings, while an output is blocked
#     --beside OPTIONS the program's time and memory with these options of it beside those without,
#                      such as --beside '--block 1' and --beside '--report report.json'
#
# Options:
#     --pairs N        pairs of reads (1000000; with --gz 400000)
#     --rounds N       runs of each row, taken in turn, of which the median is printed (3)
#     --in PLACE       where inputs and outputs are: disk (TMPDIR, or /tmp) or memory (/dev/shm).
#                      Without it: with --sets both, with --gz memory, else the disk
#     --program PATH   the program that is measured (crates/fq_prog/out/fq_prog)
#     --real PREFIX    the real pairs of Debian's package seqprep-data, if it isn't installed: PREFIX_1.fq.gz
#                      and PREFIX_2.fq.gz, whose scores are Phred+64. They are repeated
#     --serial PATH    the run on one thread, as bench/trimming/serial.sh builds it (no row without it)
#     --ours           no other trimmer
#     --fastp          no other trimmer but fastp, with --gz
#     --bases N, --bases LEAST-MOST, --bins, --titles, --crlf
#                      how the reads are simulated, as bench/trimming/pairs.c says (ignored with --sets
#                      and --settings)
#     --help
#
# Needs cc, GNU time, taskset and findmnt; with --gz also gzip, bgzip and Python 3. Files are in
# directories of their own in that place and below TMPDIR, which are removed.
set -euo pipefail
export LC_ALL=C

here=$(cd "$(dirname "$0")" && pwd)
program=$here/../../crates/fq_prog/out/fq_prog
serial=
asked=
rounds=3
beside=()
peers=yes
mode=all
place=
form=()
room=
spent=
pairs_read=
real=/usr/share/doc/seqprep/examples/data/multiplex_bad_contam
only_fastp=''

stop() {
  echo "bench: $*" >&2
  exit 1
}

print_help() {
  awk 'NR > 1 && !/^#/ { exit } NR > 1 { sub(/^# ?/, ""); print }' "$0"
}

while [ $# -gt 0 ]; do
  case $1 in
    --gz | --growth | --plain | --sets | --threads-time | --memory | --settings)
      mode=${1#--}
      shift
      ;;
    --pairs)
      asked=${2:?}
      shift 2
      ;;
    --rounds)
      rounds=${2:?}
      shift 2
      ;;
    --in)
      place=${2:?}
      shift 2
      ;;
    --program)
      program=${2:?}
      shift 2
      ;;
    --real)
      real=$(realpath -m "${2:?}")
      shift 2
      ;;
    --serial)
      serial=$(realpath "${2:?}")
      shift 2
      ;;
    --ours)
      peers=no
      shift
      ;;
    --fastp)
      only_fastp=yes
      shift
      ;;
    --beside)
      mode=beside
      read -r -a beside <<< "${2:?}"
      shift 2
      ;;
    --bases)
      form+=(--bases "${2:?}")
      shift 2
      ;;
    --bins | --titles | --crlf)
      form+=("$1")
      shift
      ;;
    --help)
      print_help
      exit
      ;;
    *) stop "unknown argument $1 (--help lists all)" ;;
  esac
done

count=${asked:-1000000}
[ -x "$program" ] || stop "no program $program (make build makes it)"
program=$(realpath "$program")
# tibzharuk is run by the system's Python, as Debian's cutadapt is, and with the options of its first
# line. A version manager's python3 may be a script that takes 0.1 s.
python=$(type -P /usr/bin/python3 || type -P python3) || stop "no python3"
export python
built=$(mktemp -d)
trap 'rm -rf "$built" ${room:+"$room"}' EXIT
for tool in pairs copy passing thread_times; do
  cc -std=c11 -O2 -Wall -Wextra -pthread -o "$built/$tool" "$here/$tool.c"
done
# shellcheck source=/dev/null
. "$here/tools.sh"

# folder_of PLACE
folder_of() {
  case $1 in
    disk) echo "${TMPDIR:-/tmp}" ;;
    memory) echo /dev/shm ;;
    *) stop "no place $1: disk or memory" ;;
  esac
}

# enter PLACE: makes a directory there for inputs and outputs.
enter() {
  local folder
  folder=$(folder_of "$1")
  [ -z "$room" ] || rm -rf "$room"
  room=$(mktemp -d -p "$folder")
  forward=$room/forward.fq
  reverse=$room/reverse.fq
  out=$room/out
  kind="$1, $(findmnt -no FSTYPE,SOURCE -T "$room" | awk '{ kind = $1 == $2 ? $1 : $1 " on " $2 } END { print kind }')"
}

# free_bytes DIRECTORY: what may still be written there.
free_bytes() {
  df -B1 --output=avail "$1" | tail -n 1
}

# draw OPTION..: the inputs, which are in the page cache then.
draw() {
  "$built/pairs" "$@" "$count" "$forward" "$reverse"
  look_at_inputs
}

# draw_real: the inputs, of real pairs, again and again, with scores as Phred+33 and N for an unknown
# base.
draw_real() {
  local file side=1
  for file in "$forward" "$reverse"; do
    gzip -dc "${real}_$side.fq.gz" | "$python" -c 'import sys
lines = sys.stdin.buffer.read().splitlines(keepends=True)
lines[1::4] = [line.replace(b".", b"N") for line in lines[1::4]]
shift = bytes(max(each - 31, 33) if each >= 64 else each for each in range(256))
lines[3::4] = [line.translate(shift) for line in lines[3::4]]
left = 4 * int(sys.argv[1])
while left > 0:
    sys.stdout.buffer.writelines(lines[:left])
    left -= len(lines)' "$count" > "$file"
    side=2
  done
  look_at_inputs
}

look_at_inputs() {
  size=$(($(stat -c %s "$forward") + $(stat -c %s "$reverse")))
  sync -f "$room"
  [ "$(cat "$forward" "$reverse" | wc -l)" = $((8 * count)) ] || stop "the inputs aren't whole"
  [ "$(free_bytes "$room")" -gt $((size + size / 4)) ] || stop "no room for the outputs at $room"
}

rows=()
missing=()

# row LABEL THREADS FUNCTION
row() {
  rows+=("$1|$2|$3")
}

# peer COMMAND LABEL FUNCTION THREADS..: rows of another trimmer, if it is installed.
peer() {
  local command=$1 label=$2 function=$3 threads
  shift 3
  if ! type -P "$command" > "$built/found"; then
    missing+=("$label")
    return
  fi
  for threads in "$@"; do
    row "$label" "$threads" "$function"
  done
}

# The rows that all modes have in common, at the places that the names below give them.
list_own_rows() {
  row 'fq_prog, log' 1 run_ours_log
  row 'fq_prog, log' 2 run_ours_log
  row 'fq_prog, log' 4 run_ours_log
  row 'fq_prog, log, one processor' 1 run_ours_alone
  row 'loop' 1 run_loop
  row 'loop, one processor' 1 run_loop_alone
  row 'cat' 1 run_cat
}
at_1=0 at_2=1 at_4=2 at_alone=3 at_loop=4 at_loop_alone=5 at_cat=6

list_rows() {
  list_own_rows
  row 'loop' 2 run_loop
  row 'passing' 1 run_passing
  row 'passing' 2 run_passing
  row 'passing' 4 run_passing
  row 'passing, one processor' 1 run_passing_alone
  row 'fq_prog' 1 run_ours
  row 'fq_prog' 4 run_ours
  row 'tibzharuk trim' 4 run_command
  [ -z "$serial" ] || row 'run_serial, log' 1 run_ours_serial
  [ "$peers" = yes ] || return 0
  peer TrimmomaticPE 'trimmomatic, log' run_trimmomatic_log 1 4
  peer TrimmomaticPE 'trimmomatic' run_trimmomatic 1 4
  peer fastp 'fastp' run_fastp 1 4
  peer cutadapt 'cutadapt' run_cutadapt 1 4
  peer sickle 'sickle' run_sickle 1
  peer bbduk.sh 'bbduk' run_bbduk 1 4
  peer AdapterRemoval 'AdapterRemoval' run_adapterremoval 1 4
}

# call_row NUMBER: one run. The row's last field is a function and its arguments after the threads.
call_row() {
  local label threads words
  IFS='|' read -r label threads words <<< "${rows[$1]}"
  read -r -a words <<< "$words"
  "${words[0]}" "$threads" "${words[@]:1}"
  [ "$pairs_read" = "$count" ] || stop "$label read ${pairs_read:-no} pairs, not $count"
}

# pairs_kept: the pairs of which both mates were written
pairs_kept() {
  if [ -e "$out/kept" ]; then
    cat "$out/kept"
  elif [ -e "$out/fp" ]; then
    echo $(($(wc -l < "$out/fp") / 4))
  else
    echo $(($(gzip -dc "$out/fp.gz" | wc -l) / 4))
  fi
}

# run_row NUMBER: one run, whose line is added to the file of its row: seconds, processor seconds,
# kilobytes, pairs kept, bytes of compressed reads.
run_row() {
  call_row "$1"
  echo "$spent $(pairs_kept) $(cat "$out"/*.gz 2> /dev/null | wc -c)" >> "$room/row.$1"
}

# Runs all rows one after the other, $rounds times over.
run_rows() {
  local number round
  rm -f "$room"/row.*
  for ((round = 0; round < rounds; round++)); do
    for number in "${!rows[@]}"; do
      run_row "$number"
    done
  done
}

# median FIELD FILE
median() {
  awk -v field="$1" '{ print $field }' "$2" | sort -n | awk '{ x[NR] = $1 } END { print x[int((NR + 1) / 2)] }'
}

# medians FIELD ROW..: of each of these rows.
medians() {
  local field=$1 number
  shift
  for number in "$@"; do
    median "$field" "$room/row.$number"
  done | paste -s -d ' '
}

print_machine() {
  echo "$(nproc) processors ($(sed -n 's/^model name[^:]*: //p' /proc/cpuinfo | head -n 1)), load $(cut -d ' ' -f 1 /proc/loadavg) before"
}

# print_row NUMBER: its medians, beside those of the loop (on one processor if the row is), of cat,
# and of ours at 4 threads.
print_row() {
  local label threads function loop=$at_loop
  IFS='|' read -r label threads function <<< "${rows[$1]}"
  [[ $label != *'one processor' ]] || loop=$at_loop_alone
  awk -v label="$label" -v threads="$threads" -v size="$size" \
    -v seconds="$(medians 1 "$1" "$loop" "$at_cat" "$at_4")" -v spent="$(medians 2 "$1" "$loop")" \
    -v memory="$(medians 3 "$1")" -v kept="$(medians 4 "$1")" \
    'BEGIN { split(seconds, s, " "); split(spent, p, " ")
            printf "| %s | %d | %.3f | %.0f | %.3f | %.1f | %d | %.2f | %.2f | %.2f | %.2f |\n",
                label, threads, s[1], size / s[1] / 1e6, p[1], memory * 1.024 / 1000, kept, p[1] / p[2], s[1] / s[2], s[1] / s[3], s[1] / s[4] }'
}

measure_plain() {
  local number
  rows=()
  count=${asked:-1000000}
  enter "${place:-disk}"
  draw "${form[@]}"
  list_rows
  echo "$count pairs, $((size / 1000000)) MB, $kind; median of $rounds; $(print_machine)"
  run_rows
  echo "| Tool | Threads | Seconds | MB/s | Processor seconds | Peak MB | Pairs kept | Processor to the loop's | Time to the loop's | to cat's | to ours at 4 |"
  echo '|---|---|---|---|---|---|---|---|---|---|---|'
  for number in "${!rows[@]}"; do
    print_row "$number"
  done
  print_versions trimmomatic fastp cutadapt sickle bbmap adapterremoval
}

# print_versions PACKAGE..: those that are installed, and the trimmers that aren't
print_versions() {
  [ ${#missing[@]} -eq 0 ] || echo "not installed: ${missing[*]}"
  if [ "$peers" = yes ] && type -P dpkg-query > "$built/found"; then
    # shellcheck disable=SC2016  # the fields are dpkg-query's
    { dpkg-query -W -f '${Package} ${Version}\n' "$@" 2> "$built/told" || true; } | awk 'NF == 2'
  fi
  missing=()
}

# list_gz_rows WORD..: the rows of one table, whose functions get these words: `fast`, `adapters`
list_gz_rows() {
  local how="$*" label=''
  [ $# -eq 0 ] || label=$(printf ', %s' "$@")
  row "tibzharuk$label" 4 "gz_ours $how"
  [ "$peers" = yes ] || return 0
  peer fastp "fastp$label" "gz_fastp $how" 4
  [[ $how == *fast* ]] || peer fastp 'fastp, its defaults' gz_fastp_usual 4
  [ -z "$only_fastp" ] || return 0
  peer cutadapt "cutadapt$label" "gz_cutadapt $how" 4
  [[ $how != *adapters* ]] || peer cutadapt "cutadapt -Z, then tibzharuk$label" "gz_two_passes $how" 4
  [[ $how == *fast* ]] || peer TrimmomaticPE "trimmomatic$label" "gz_trimmomatic $how" 4
  peer bbduk.sh "bbduk$label" "gz_bbduk $how" 4
  peer AdapterRemoval "AdapterRemoval$label" "gz_adapterremoval $how" 4
}

# print_gz_rows TITLE FIRST LAST: a table of these rows. The second one, of fastp, is what the first
# one is compared with.
print_gz_rows() {
  local number label threads function second=$(($2 < $3 ? $2 + 1 : $2))
  echo
  echo "$1"
  echo
  echo '| Tool | Seconds | Processor seconds | MB out | Peak MB | Pairs kept | Time to the second row | MB out to it |'
  echo '|---|---|---|---|---|---|---|---|'
  for ((number = $2; number <= $3; number++)); do
    with_memory call_row "$number"
    IFS='|' read -r label threads function <<< "${rows[$number]}"
    awk -v label="$label" -v peak="$(cat "$room/peak")" -v kept="$(medians 4 "$number")" -v spent="$(medians 2 "$number")" \
      -v seconds="$(medians 1 "$number" "$second")" -v bytes="$(medians 5 "$number" "$second")" \
      'BEGIN { split(seconds, s, " "); split(bytes, b, " ")
                printf "| %s | %.2f | %.1f | %.1f | %.0f | %d | %.2f | %.3f |\n", label, s[1], spent, b[1] / 1e6, peak * 1.024 / 1000, kept, s[1] / s[2], b[1] / b[2] }'
  done
}

# measure_gz_data TITLE [adapters]: both tables over the reads that were made: each tool's own level,
# and its fastest
measure_gz_data() {
  local slow word=${2-}
  rows=()
  pack_inputs
  list_gz_rows ${word:+"$word"}
  row "tibzharuk, report and page${word:+, $word}" 4 "gz_ours report $word"
  row "tibzharuk --level 5${word:+, $word}" 4 "gz_ours level5 $word"
  row "tibzharuk --interleaved -${word:+, $word}" 4 "gz_stream $word"
  slow=${#rows[@]}
  list_gz_rows fast ${word:+"$word"}
  row "tibzharuk --level 2${word:+, $word}" 4 "gz_ours level2 $word"
  run_rows
  print_gz_rows "$1, each at its own level of compression:" 0 $((slow - 1))
  print_gz_rows "$1, each at its fastest level:" "$slow" $((${#rows[@]} - 1))
  print_stages ${word:+"$word"}
  print_stages fast ${word:+"$word"}
  print_same_reads ${word:+"$word"}
}

# print_stages WORD..: the processor seconds of each program that tibzharuk runs, in one more run, as
# the kernel counts them for each process. What is left is Python's: the command, and with adapters
# what hands whole lines to cutadapt.
print_stages() {
  local program=$built/stages/fq_prog PATH=$built/stages:$PATH label=''
  [ $# -eq 0 ] || label=$(printf ', %s' "$@")
  : > "$room/stages"
  gz_ours 4 "$@"
  awk -v label="$label" -v whole="$(cut -d ' ' -f 2 <<< "$spent")" '
    function said(name, seconds) { return sprintf("%s %.2f (%.0f %%)", name, seconds, 100 * seconds / whole) }
    { stage[$1] += $2 + $3; left += $2 + $3 }
    END { left = whole - left
      count = split("compressing decompressing cutadapt fq_prog cat", names, " ")
      printf "\nProcessor seconds by stages%s: ", label
      for (k = 1; k <= count; k++) if (names[k] in stage) printf "%s, ", said(names[k], stage[names[k]])
      print said("Python", left) }' "$room/stages"
}

# print_same_reads [adapters]: what the reads that fastp keeps take if they are compressed as
# tibzharuk does it. The tools don't keep the same reads, so this alone compares how well they
# compress.
print_same_reads() {
  local file bytes=0
  if [ "$peers" = no ] || ! type -P fastp bgzip > "$built/found"; then
    return 0
  fi
  gz_fastp 4 "$@"
  for file in "$out"/*.gz; do
    bytes=$((bytes + $(gzip -dc "$file" | bgzip -c -l 3 | wc -c)))
  done
  echo
  awk -v bytes="$bytes" -v theirs="$(cat "$out"/*.gz | wc -c)" \
    'BEGIN { printf "The reads that fastp keeps: %.1f MB as it compresses them, %.1f MB as tibzharuk does (%.3f)\n", theirs / 1e6, bytes / 1e6, bytes / theirs }'
}

measure_gz() {
  count=${asked:-400000}
  enter "${place:-memory}"
  echo "From .gz to .gz: $count pairs, $kind; 4 threads; median of $rounds; $(print_machine)"
  echo "tibzharuk is run by $("$python" --version), $python"
  make_stages
  draw "${form[@]}"
  measure_gz_data 'Without adapters'
  draw "${form[@]}" --adapters
  measure_gz_data 'With adapters in a quarter of the pairs' adapters
  local only_fastp=yes
  draw "${form[@]}" --bins
  measure_gz_data 'Scores in four bins, without adapters'
  if [ -e "${real}_1.fq.gz" ]; then
    draw_real
    measure_gz_data 'Real reads, without adapters'
  else
    echo "no real reads, ${real}_1.fq.gz: see --real"
  fi
  print_versions tabix isal trimmomatic fastp cutadapt bbmap adapterremoval
}

# measure_growth: a row for each number of pairs, whose time and memory are those of all processes
measure_growth() {
  local pairs
  enter "${place:-disk}"
  make_stages
  echo "From .gz to .gz, $kind; 4 threads; median of $rounds; $(print_machine)"
  for pairs in ${asked:-150000 1500000 6000000}; do
    count=$pairs
    rows=()
    draw "${form[@]}"
    pack_inputs -1
    rm "$forward" "$reverse"
    row tibzharuk 4 gz_ours
    peer fastp fastp gz_fastp 4
    run_rows
    print_gz_rows "$count pairs:" 0 1
    print_stages
  done
  print_versions tabix fastp
}

sets=(
  '150 bases|'
  '50 bases|--bases 50'
  '300 bases|--bases 300'
  '35 to 150 bases|--bases 35-150'
  'scores in four bins|--bins'
  'titles after +|--titles'
  'lines in CR LF|--crlf'
)

# print_set LABEL
print_set() {
  awk -v label="$1" -v size="$size" -v spent="$(medians 2 $at_loop $at_1 $at_2 $at_4)" \
    -v seconds="$(medians 1 $at_cat $at_1 $at_2 $at_4 $at_loop_alone $at_alone)" -v memory="$(medians 3 $at_4)" \
    'BEGIN { split(spent, p, " "); split(seconds, s, " ")
            printf "| %s | %.0f | %.3f | %.2f | %.2f | %.2f | %.3f | %.2f | %.2f | %.2f | %.3f | %.2f | %.1f |\n", label, size / 1e6,
                p[1], p[2] / p[1], p[3] / p[1], p[4] / p[1], s[1], s[2] / s[1], s[3] / s[1], s[4] / s[1], s[5], s[6] / s[5], memory * 1.024 / 1000 }'
}

# measure_sets PLACE
measure_sets() {
  local set options
  enter "$1"
  echo
  echo "$count pairs, $kind; median of $rounds; $(print_machine)"
  echo "| Data | MB | Loop, processor s | ours to it, 1 thread | 2 | 4 | cat, s | ours to it, 1 thread | 2 | 4 | Loop on one processor, s | ours to it | Peak MB at 4 |"
  echo '|---|---|---|---|---|---|---|---|---|---|---|---|---|'
  for set in "${sets[@]}"; do
    read -r -a options <<< "${set#*|}"
    draw "${options[@]}"
    run_rows
    print_set "${set%%|*}"
  done
}

# If only one of the places has room for the longest reads, the other is left out, and the output
# says so.
measure_all_sets() {
  local at
  list_own_rows
  for at in ${place:-memory disk}; do
    if [ -z "$place" ] && [ "$(free_bytes "$(folder_of "$at")")" -lt $((3000 * count)) ]; then
      echo "skipped: $at has no room for $count pairs of 300 bases and their outputs"
      continue
    fi
    measure_sets "$at"
  done
}

# The times of the threads of one run in one line: the writing thread's and the system's part of it,
# the reading thread's, the trimming ones' together, the least and the most of them, and the sum.
# The program makes its reading thread first.
times_of_threads() {
  awk -v threads="$1" '
        NR == 1 { writing = $1 " " $2 }
        NR == 2 { reading = $1 " " $2 }
        NR > 2 { trimming += $1; trimming_system += $2; least = NR == 3 || $1 < least ? $1 : least; most = $1 > most ? $1 : most }
        { sum += $1 }
        END { if (NR != threads + 2) exit 1; print reading, trimming, trimming_system, least, most, writing, sum }' "$room/threads"
}

measure_threads() {
  local threads round field
  enter "${place:-disk}"
  draw "${form[@]}"
  echo "$count pairs, $((size / 1000000)) MB, $kind; processor seconds, median of $rounds; $(print_machine)"
  echo "| Threads | Reading | the system's | Trimming, all | the system's | least | most | Writing | the system's | Sum |"
  echo '|---|---|---|---|---|---|---|---|---|---|'
  for threads in 1 2 4; do
    for ((round = 0; round < rounds; round++)); do
      run_ours_traced "$threads"
      times_of_threads "$threads" >> "$room/times.$threads" || stop "the program has other threads than one to read and one to write"
    done
    printf '| %d |' "$threads"
    for field in 1 2 3 4 5 6 7 8 9; do
      printf ' %.2f |' "$(median "$field" "$room/times.$threads")"
    done
    echo
  done
}

measure_memory() {
  local threads
  enter "${place:-disk}"
  echo '| Pairs | Input MB | Peak MB at 1 thread | at 2 | at 4 |'
  echo '|---|---|---|---|---|'
  for count in 50000 250000 1000000; do
    draw "${form[@]}"
    printf '| %d | %d |' "$count" $((size / 1000000))
    for threads in 1 2 4; do
      run_ours_log "$threads"
      awk '{ printf " %.1f |", $3 * 1.024 / 1000 }' <<< "$spent"
    done
    echo
  done
}

# The runs of --settings: pairs, bases, settings.
blocked=(
  '1000000|150|'
  '1000000|150|--threads 1'
  '1000000|150|--threads 64'
  '1000000|150|--depth 64'
  '1000000|150|--block 1'
  '1000000|150|--block 100'
  '1000000|150|--block 256'
  '1000000|150|--report report.json'
  '1000000|300|'
  '60|1000000|'
  '60|1000000|--block 1'
  '2000000|150|--block 65536'
  '5000000|150|--threads 64 --depth 64'
  '120000|150|--threads 64 --depth 64 --block 20'
  '120000|150|--threads 64 --depth 64 --block 20 --report report.json'
)

# Peak memory with settings, while an output is blocked, because that fills every block.
measure_settings() {
  local run pairs bases settings options drawn=
  enter "${place:-disk}"
  echo '| Settings | Pairs | Bases | Peak MB |'
  echo '|---|---|---|---|'
  for run in "${blocked[@]}"; do
    IFS='|' read -r pairs bases settings <<< "$run"
    if [ "$pairs $bases" != "$drawn" ]; then
      count=$pairs
      draw --bases "$bases"
      drawn="$pairs $bases"
    fi
    read -r -a options <<< "$settings"
    run_ours_blocked "${options[@]}"
    [ "$pairs_read" = "$count" ] || stop "the program read ${pairs_read:-no} pairs, not $count"
    awk -v settings="${settings:-the defaults}" -v pairs="$pairs" -v bases="$bases" \
      '{ printf "| %s | %d | %d | %.0f |\n", settings, pairs, bases, $3 * 1.024 / 1000 }' <<< "$spent"
  done
}

# measure_beside OPTION..: runs with these options beside runs with the defaults
measure_beside() {
  local threads round
  enter "${place:-disk}"
  draw "${form[@]}"
  echo "$count pairs, $((size / 1000000)) MB, $kind; median of $rounds; $(print_machine)"
  echo "| Threads | Seconds | with \`$*\` | ratio | Processor seconds | with \`$*\` | ratio | Peak MB | with \`$*\` |"
  echo '|---|---|---|---|---|---|---|---|---|'
  for threads in 1 2 4; do
    for ((round = 0; round < rounds; round++)); do
      run_ours_log "$threads"
      echo "$spent" >> "$room/row.$threads.default"
      run_ours_log "$threads" "$@"
      echo "$spent" >> "$room/row.$threads.beside"
    done
    awk -v threads="$threads" -v seconds="$(medians 1 "$threads.default" "$threads.beside")" -v spent="$(medians 2 "$threads.default" "$threads.beside")" \
      -v memory="$(medians 3 "$threads.default" "$threads.beside")" \
      'BEGIN { split(seconds, s, " "); split(spent, p, " "); split(memory, m, " ")
                printf "| %d | %.3f | %.3f | %.2f | %.2f | %.2f | %.2f | %.1f | %.1f |\n",
                    threads, s[1], s[2], s[2] / s[1], p[1], p[2], p[2] / p[1], m[1] * 1.024 / 1000, m[2] * 1.024 / 1000 }'
  done
}

case $mode in
  all) measure_gz && echo && measure_plain ;;
  gz) measure_gz ;;
  growth) measure_growth ;;
  plain) measure_plain ;;
  sets) measure_all_sets ;;
  threads-time) measure_threads ;;
  memory) measure_memory ;;
  settings) measure_settings ;;
  beside) measure_beside "${beside[@]}" ;;
esac
