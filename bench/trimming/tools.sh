#!/usr/bin/env bash
# How each tool is run and timed: functions for run.sh, which sets what they use.
#
# `timed` and each run_* function leave the seconds, processor seconds and kilobytes of a run in
# `spent`. Each run_* function takes a number of threads, leaves in `pairs_read` how many pairs the
# tool says that it read, and has the pairs of which both mates survive written to fp and rp in the
# directory of outputs.
#
# shellcheck disable=SC2154,SC2034

adapters=(AGATCGGAAGAGCACACGTCTGAACTCCAGTCA AGATCGGAAGAGCGTCGTGTAGGGAAAGAGTGT)
under=() # a command that runs the command of a row
clock=$(type -P time) || stop "no GNU time (Debian package time)"
steps=(LEADING:3 TRAILING:3 SLIDINGWINDOW:4:15 MINLEN:36)
alone=(taskset -c 0)

# timed COMMAND..: runs it in the directory of outputs. What runs before have written is on the disk
# first, and their outputs are gone.
timed() {
  local TIMEFORMAT='%3R %3U %3S'
  rm -rf "$out" "$room/said" "$room/told"
  mkdir "$out"
  sync -f "$room"
  if ! { time (cd "$out" && "$clock" -o "$room/clock" -f %M "${under[@]}" "$@" > "$room/said" 2> "$room/told"); } 2> "$room/took"; then
    tail -n 20 "$room/said" "$room/told" >&2
    stop "failed: $*"
  fi
  spent=$(awk 'NR == FNR { kilobytes = $1; next } { print $1, $2 + $3, kilobytes }' "$room/clock" "$room/took")
}

# with_memory COMMAND..: a run during which the memory of all its processes is sampled; the most
# kilobytes go into the file `peak`
with_memory() {
  under=(python3 "$here/tree_memory.py" "$room/peak")
  "$@"
  under=()
}

# number_in FILE TEXT: the number after TEXT.
number_in() {
  sed -n "s/.*$2[ \t:]*\([0-9][0-9,]*\).*/\1/p" "$1" | head -n 1 | tr -d ,
}

# The bytes of both inputs in one file, which is cut to those of the first one when the time is
# taken, to be counted as the others are.
run_cat() {
  timed sh -c 'exec cat "$@" >fp' cat "$forward" "$reverse"
  [ "$(stat -c %s "$out/fp")" = "$size" ] || stop "cat copied other bytes"
  truncate -s "$(stat -c %s "$forward")" "$out/fp"
  pairs_read=$count
}

run_loop() {
  timed "$built/copy" "$1" "$forward" "$reverse" fp rp
  pairs_read=$(($(number_in "$room/said" lines) / 8))
}

run_loop_alone() {
  timed "${alone[@]}" "$built/copy" "$1" "$forward" "$reverse" fp rp
  pairs_read=$(($(number_in "$room/said" lines) / 8))
}

run_passing() {
  timed "$built/passing" "$1" "$forward" "$reverse" fp rp
  pairs_read=$(number_in "$room/said" pairs)
}

run_passing_alone() {
  timed "${alone[@]}" "$built/passing" "$1" "$forward" "$reverse" fp rp
  pairs_read=$(number_in "$room/said" pairs)
}

run_ours() {
  timed "$program" PE --threads "$1" "$forward" "$reverse" fp fu rp ru "${steps[@]}"
  pairs_read=$(number_in "$room/said" 'Input Read Pairs')
}

# The command over the same plain files.
run_command() {
  timed "$python" -IS "$here/../../python/tibzharuk/__main__.py" trim --program "$program" --threads "$1" -1 "$forward" -2 "$reverse" \
    --paired1 fp --unpaired1 fu --paired2 rp --unpaired2 ru -- "${steps[@]}"
  pairs_read=$(number_in "$room/said" 'Input Read Pairs')
}

# run_ours_blocked [OPTION]..: one output is a pipe that nobody reads for ten seconds
run_ours_blocked() {
  # shellcheck disable=SC2016  # the parameters are those of the inner shell
  timed sh -c 'mkfifo rp; { sleep 10; exec cat; } < rp > /dev/null & exec "$@"' blocked \
    "$program" PE "$@" --trimlog log "$forward" "$reverse" fp fu rp ru "${steps[@]}"
  pairs_read=$(number_in "$room/said" 'Input Read Pairs')
}

# run_ours_log THREADS [OPTION]..
run_ours_log() {
  timed "$program" PE --threads "$@" --trimlog log "$forward" "$reverse" fp fu rp ru "${steps[@]}"
  pairs_read=$(number_in "$room/said" 'Input Read Pairs')
}

run_ours_alone() {
  timed "${alone[@]}" "$program" PE --threads "$1" --trimlog log "$forward" "$reverse" fp fu rp ru "${steps[@]}"
  pairs_read=$(number_in "$room/said" 'Input Read Pairs')
}

# As run_ours_log, with the times of its threads in the file `threads`.
run_ours_traced() {
  timed "$built/thread_times" "$room/threads" "$program" PE --threads "$1" --trimlog log "$forward" "$reverse" fp fu rp ru "${steps[@]}"
  pairs_read=$(number_in "$room/said" 'Input Read Pairs')
}

run_ours_serial() {
  timed "$serial" "$forward" "$reverse" fp fu rp ru log "${steps[@]}"
  pairs_read=$(number_in "$room/said" 'Input Read Pairs')
}

run_trimmomatic() {
  timed TrimmomaticPE -threads "$1" -phred33 "$forward" "$reverse" fp fu rp ru "${steps[@]}"
  pairs_read=$(number_in "$room/told" 'Input Read Pairs')
}

run_trimmomatic_log() {
  timed TrimmomaticPE -threads "$1" -phred33 -trimlog log "$forward" "$reverse" fp fu rp ru "${steps[@]}"
  pairs_read=$(number_in "$room/told" 'Input Read Pairs')
}

run_fastp() {
  timed fastp --thread "$1" -i "$forward" -I "$reverse" -o fp -O rp --unpaired1 fu --unpaired2 ru --json json --html html \
    --cut_front --cut_front_window_size 1 --cut_front_mean_quality 3 --cut_tail --cut_tail_window_size 1 --cut_tail_mean_quality 3 \
    --cut_right --cut_right_window_size 4 --cut_right_mean_quality 15 --length_required 36 \
    --disable_adapter_trimming --disable_trim_poly_g --disable_quality_filtering --dont_eval_duplication
  pairs_read=$(($(number_in "$out/json" '"total_reads"') / 2))
}

run_cutadapt() {
  timed cutadapt --cores "$1" --quality-cutoff 3,15 --minimum-length 36 -o fp -p rp "$forward" "$reverse"
  pairs_read=$(number_in "$room/said" 'Total read pairs processed')
}

run_sickle() {
  timed sickle pe -t sanger -q 15 -l 36 -f "$forward" -r "$reverse" -o fp -p rp -s single
  pairs_read=$(number_in "$room/said" 'Total input FastQ records')
  pairs_read=$((pairs_read / 2))
}

run_bbduk() {
  timed bbduk.sh threads="$1" in="$forward" in2="$reverse" out=fp out2=rp outs=single qtrim=window,4 trimq=15 minlen=36 ordered=t
  pairs_read=$(($(number_in "$room/told" 'Input') / 2))
}

run_adapterremoval() {
  timed AdapterRemoval --threads "$1" --file1 "$forward" --file2 "$reverse" --output1 fp --output2 rp --singleton single \
    --discarded discarded --settings settings --trimqualities --trimwindows 4 --minquality 15 --minlength 36
  pairs_read=$(number_in "$out/settings" 'Total number of read pairs')
}

# From .gz to .gz. Each gz_* function takes the threads and then words: `fast`, the fastest level of
# compression; `adapters`, which are given to it and removed. All reads that are kept are written
# into files that end in .gz.

# pack_inputs [OPTION]: the inputs as gzip files of one member, and the adapters in a file
pack_inputs() {
  gzip -n "$@" < "$forward" > "$forward.gz" &
  gzip -n "$@" < "$reverse" > "$reverse.gz"
  wait "$!"
  printf '>adapter/1\n%s\n>adapter/2\n%s\n' "${adapters[@]}" > "$room/adapters.fa"
}

# given WORD WORDS..: whether it is among them
given() { [[ " ${*:2} " == *" $1 "* ]]; }

# make_stages: programs in the place of those that tibzharuk runs, which run them under GNU time
make_stages() {
  local tool path stage
  mkdir "$built/stages"
  for tool in bgzip gzip igzip cutadapt cat fq_prog; do
    path=$(type -P "$tool") || true
    [ "$tool" != fq_prog ] || path=$program
    stage=$tool
    # shellcheck disable=SC2016  # the inner shell's
    case $tool in *gzip) stage='$([ "$1" = -dc ] && echo decompressing || echo compressing)' ;; esac
    [ -z "$path" ] || printf '#!/bin/sh\nexec %s -q -a -o %q -f "%s %%U %%S" %q "$@"\n' "$clock" "$room/stages" "$stage" "$path" > "$built/stages/$tool"
  done
  chmod +x "$built/stages"/*
}

# gz_ours THREADS [fast | levelN | report] [adapters]
gz_ours() {
  local more=(--threads "$1")
  ! given fast "$@" || more+=(--level 1)
  [[ ${2-} != level* ]] || more+=(--level "${2#level}")
  ! given report "$@" || more+=(--report json --html html)
  ! given adapters "$@" || more+=(--adapters "${adapters[0]},${adapters[1]}")
  timed "$python" -IS "$here/../../python/tibzharuk/__main__.py" trim --program "$program" "${more[@]}" -1 "$forward.gz" -2 "$reverse.gz" \
    --paired1 fp.gz --unpaired1 fu.gz --paired2 rp.gz --unpaired2 ru.gz -- "${steps[@]}"
  pairs_read=$(number_in "$room/said" 'Input Read Pairs')
}

# gz_stream THREADS [adapters]: into a reader of a pipe, such as a mapper, that takes no time
# shellcheck disable=SC2016  # the inner bash gets the words
gz_stream() {
  local more=(--threads "$1")
  ! given adapters "$@" || more+=(--adapters "${adapters[0]},${adapters[1]}")
  timed bash -c 'set -o pipefail; "$@" | cat > /dev/null' bash "$python" -IS "$here/../../python/tibzharuk/__main__.py" trim --program "$program" "${more[@]}" \
    -1 "$forward.gz" -2 "$reverse.gz" --interleaved - --no-unpaired -- "${steps[@]}"
  pairs_read=$(number_in "$room/told" 'Input Read Pairs')
  number_in "$room/told" 'Both Surviving' > "$out/kept"
}

gz_fastp() {
  local more=(--disable_adapter_trimming)
  ! given adapters "$@" || more=(--adapter_sequence "${adapters[0]}" --adapter_sequence_r2 "${adapters[1]}")
  ! given fast "$@" || more+=(--compression 1)
  timed fastp --thread "$1" -i "$forward.gz" -I "$reverse.gz" -o fp.gz -O rp.gz --unpaired1 fu.gz --unpaired2 ru.gz --json json --html html \
    --cut_front --cut_front_window_size 1 --cut_front_mean_quality 3 --cut_tail --cut_tail_window_size 1 --cut_tail_mean_quality 3 \
    --cut_right --cut_right_window_size 4 --cut_right_mean_quality 15 --length_required 36 \
    --disable_trim_poly_g --disable_quality_filtering --dont_eval_duplication "${more[@]}"
  pairs_read=$(($(number_in "$out/json" '"total_reads"') / 2))
}

# As laboratories call it: it also finds adapters by the overlap of mates, filters reads by their
# scores and counts duplicates.
gz_fastp_usual() {
  timed fastp --thread "$1" -i "$forward.gz" -I "$reverse.gz" -o fp.gz -O rp.gz --unpaired1 fu.gz --unpaired2 ru.gz --json json --html html
  pairs_read=$(($(number_in "$out/json" '"total_reads"') / 2))
}

gz_cutadapt() {
  local more=()
  ! given adapters "$@" || more+=(-a "${adapters[0]}" -A "${adapters[1]}")
  ! given fast "$@" || more+=(-Z)
  timed cutadapt --cores "$1" --quality-cutoff 3,15 --minimum-length 36 "${more[@]}" -o fp.gz -p rp.gz "$forward.gz" "$reverse.gz"
  pairs_read=$(number_in "$room/said" 'Total read pairs processed')
}

# gz_two_passes THREADS [fast] adapters: what a lab does that stores the reads in between, outside
# the directory of outputs
gz_two_passes() {
  local level=3
  ! given fast "$@" || level=1
  # shellcheck disable=SC2016  # they are the shell's that is started
  timed sh -c 'cutadapt --cores "$1" -a "$2" -A "$3" -Z -o "$4.1.fq.gz" -p "$4.2.fq.gz" "$5" "$6" >/dev/null && shift 3 &&
        script=$4 program=$5 threads=$6 level=$7 between=$1 && shift 7 &&
        exec "$python" -IS "$script" trim --program "$program" --threads "$threads" --level "$level" -1 "$between.1.fq.gz" -2 "$between.2.fq.gz" \
            --paired1 fp.gz --unpaired1 fu.gz --paired2 rp.gz --unpaired2 ru.gz -- "$@"' two_passes \
    "$1" "${adapters[@]}" "$room/between" "$forward.gz" "$reverse.gz" "$here/../../python/tibzharuk/__main__.py" "$program" "$1" "$level" "${steps[@]}"
  pairs_read=$(number_in "$room/said" 'Input Read Pairs')
}

gz_trimmomatic() {
  local more=()
  ! given adapters "$@" || more=("ILLUMINACLIP:$room/adapters.fa:2:30:10")
  timed TrimmomaticPE -threads "$1" -phred33 "$forward.gz" "$reverse.gz" fp.gz fu.gz rp.gz ru.gz "${more[@]}" "${steps[@]}"
  pairs_read=$(number_in "$room/told" 'Input Read Pairs')
}

gz_bbduk() {
  local more=()
  ! given adapters "$@" || more+=(ref="$room/adapters.fa" ktrim=r k=23 mink=11 hdist=1 tpe tbo)
  ! given fast "$@" || more+=(ziplevel=1)
  timed bbduk.sh threads="$1" in="$forward.gz" in2="$reverse.gz" out=fp.gz out2=rp.gz outs=single.gz qtrim=window,4 trimq=15 minlen=36 ordered=t "${more[@]}"
  pairs_read=$(($(number_in "$room/told" 'Input') / 2))
}

gz_adapterremoval() {
  local more=()
  ! given adapters "$@" || more+=(--adapter1 "${adapters[0]}" --adapter2 "${adapters[1]}")
  ! given fast "$@" || more+=(--gzip-level 1)
  timed AdapterRemoval --threads "$1" --file1 "$forward.gz" --file2 "$reverse.gz" --gzip --output1 fp.gz --output2 rp.gz --singleton single.gz \
    --discarded /dev/null --settings settings --trimqualities --trimwindows 4 --minquality 15 --minlength 36 "${more[@]}"
  pairs_read=$(number_in "$out/settings" 'Total number of read pairs')
}
