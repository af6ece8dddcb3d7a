# shellcheck shell=bash disable=SC2034,SC2154  # tests read what is set here, and set what is read
# What the scripts about tibzharuk trim share, which read it right after tests/common.bash and
# `find_program`: simulated pairs in the directory `data` of a new one, what the program makes of
# them as plain files in `plain`, and how a run is made and judged.
trim=("$tibzharuk" trim)
work=$(mktemp -d)
trap 'umount "$work/small" 2> /dev/null; rm -rf "$work"' EXIT
mkdir "$work/data" "$work/tmp" "$work/out" "$work/plain" "$work/bin"
cd "$work/data" || exit 1
export TMPDIR=$work/tmp
tools=$PATH # where the script finds its tools
steps=(LEADING:3 TRAILING:3 SLIDINGWINDOW:4:15 MINLEN:36)
last=(-- "${steps[@]}")

# draw FIRST LAST SIDE: records, always the same for the same arguments
draw() {
  awk -v first="$1" -v last="$2" -v side="$3" 'BEGIN {
    for (k = first; k <= last; k++) {
      x = (k * 7919 + side * 104729) % 1000003
      bases = ""; scores = ""
      for (i = 0; i < 100; i++) {
        x = (x * 16807 + i) % 2147483647
        bases = bases substr("ACGT", x % 4 + 1, 1)
        scores = scores substr("!#5?IIIIIIII", int(x / 7) % (k % 5 == side ? 4 : 12) + 1, 1)
      }
      printf "@r%d/%d lane\n%s\n+\n%s\n", k, side, bases, scores
    }
  }'
}

both=(-1 data/f.gz -2 data/r.gz)
outputs=(--paired1 out/p1.fq.gz --unpaired1 out/u1.fq.gz --paired2 out/p2.fq.gz --unpaired2 out/u2.fq.gz)
rest=("${outputs[@]}" "${last[@]}")

# Outputs of an earlier run, which a failing run leaves unchanged.
earlier() {
  rm -rf "$work/out"
  mkdir "$work/out"
  echo earlier > "$work/out/p1.fq.gz"
  echo earlier > "$work/out/u2.fq.gz"
}

# no_rest: no temporary file, no hidden file and no process is left
no_rest() {
  [ -z "$(ls -A "$TMPDIR")" ] || fail "left in the temporary directory: $(ls -A "$TMPDIR")"
  rm -rf "${TMPDIR:?}"/*
  [ -z "$(find "$work" -name '.*tibzharuk*')" ] || fail 'a hidden file is left'
  [ -z "$(find /proc/[0-9]*/fd -lname "$work/out/*" 2> /dev/null)" ] || fail 'a process is left'
}

# Outputs as before the run.
untouched() {
  [ "$(cd "$work/out" && ls -A)" = "$(printf 'p1.fq.gz\nu2.fq.gz')" ] || fail "outputs: $(cd "$work/out" && echo ./*)"
  [ "$(cat "$work/out/p1.fq.gz" "$work/out/u2.fq.gz" 2>&1)" = "$(printf 'earlier\nearlier')" ] || fail 'an earlier output was touched'
  no_rest
}

# trimmed WORDS..: the script, with this program
trimmed() {
  PATH=$tools "${trim[@]}" --program "$program" "$@"
}

# refused STATUS LINE WORDS..: nothing is made, and one line says why
refused() {
  local status=$1 line=$2 got
  shift 2
  earlier
  (cd "$work" && trimmed "$@") > "$work/printed" 2> "$work/told"
  got=$?
  [ "$got" -eq "$status" ] || fail "status $got, not $status"
  [ "$(cat "$work/told")" = "$line" ] || fail "it says '$(cat "$work/told")', not '$line'"
  [ ! -s "$work/printed" ] || fail 'a summary was printed'
  untouched
}

# made WORDS..: all outputs are made, and nothing is reported
made() {
  local got
  rm -rf "$work/out"
  mkdir "$work/out"
  (cd "$work" && trimmed "$@") > "$work/printed" 2> "$work/told"
  got=$?
  [ "$got" -eq 0 ] || fail "status $got: $(cat "$work/told")"
  [ ! -s "$work/told" ] || fail "it says $(cat "$work/told")"
  no_rest
}

# warned LINES WORDS..: all outputs are made, and these lines are on standard error
warned() {
  local lines=$1 got
  shift
  rm -rf "$work/out"
  mkdir "$work/out"
  (cd "$work" && trimmed "$@") > "$work/printed" 2> "$work/told"
  got=$?
  [ "$got" -eq 0 ] || fail "status $got: $(cat "$work/told")"
  [ "$(cat "$work/told")" = "$lines" ] || fail "it says '$(cat "$work/told")', not '$lines'"
  [ -s "$work/printed" ] || fail 'no summary was printed'
  no_rest
}

# as_plain NAME..: these outputs are those of the program on plain files
plain=$work/plain
as_plain() {
  local name
  for name; do
    if [ -e "$work/out/$name.gz" ]; then
      gzip -dc "$work/out/$name.gz" 2>&1 | cmp -s - "$plain/$name" || fail "$name.gz is not as over plain files"
    else
      cmp -s "$work/out/$name" "$plain/$name" || fail "$name is not as over plain files"
    fi
  done
  cmp -s "$work/printed" "$plain/summary" || fail 'the summary is not as over plain files'
}

# in_turn FILE FILE: both mates of each pair in turn
in_turn() { paste -d '\n' <(paste - - - - < "$1") <(paste - - - - < "$2") | tr '\t' '\n'; }

# same_report FILE: it is that of the program on plain files, except for the names of the files
same_report() {
  diff <(nameless "$1") <(nameless "$work/plain/report") > /dev/null || fail 'the report is not as over plain files'
}

# nameless FILE: a report without the names of its files and how it was made, without cutadapt if it
# wasn't used, and without warnings if there were none
nameless() { sed 's/"adapters":null,//; s/,"provenance":\[{.*}\],"reads"/,"reads"/; s/,"warnings":\[\]//; s/"inputs":{[^}]*}//; s/"outputs":{[^}]*}//' "$1"; }

draw 1 1500 1 > a1
draw 1 1500 2 > a2
draw 1501 4000 1 > b1
draw 1501 4000 2 > b2
cat a1 b1 > f
cat a2 b2 > r
in_turn f r > i
for name in a1 a2 b1 b2 f r i; do gzip -1 < "$name" > "$name.gz"; done
"$program" PE --trimlog "$work/plain/log" --report "$work/plain/report" f r "$work/plain/p1.fq" "$work/plain/u1.fq" "$work/plain/p2.fq" "$work/plain/u2.fq" \
  "${steps[@]}" > "$work/plain/summary"
for name in p1.fq u1.fq p2.fq u2.fq log report; do
  row='the simulated pairs'
  [ -s "$work/plain/$name" ] || fail "$name is empty"
done

# has TOOL PACKAGE: whether it is installed; otherwise the row is skipped
has() {
  command -v "$1" > /dev/null && return
  echo "$this: skipped: $row: $1 is not installed (apt-get install $2)"
  return 1
}
decompressors=(gzip)
row='files that bgzip decompresses'
if has bgzip tabix; then decompressors+=(bgzip); fi

# damaged FILE WHY WORDS..: each decompressor refuses the input, with status 3 and one line
damaged() {
  local file=$1 why=$2 by was=$row
  shift 2
  for by in "${decompressors[@]}"; do
    row="$was, $by"
    refused 3 "tibzharuk: cannot read $file: $why" --decompressor "$by" "$@"
  done
  row=$was
}

# endless TEXT: an input that doesn't end after this text
endless() {
  rm -f endless
  mkfifo endless
  {
    cat "$1"
    exec sleep 600
  } > endless &
  fed=$!
}

# late NAME FILE [SECONDS]: a named pipe whose writer opens it a second later, or after this many
writers=()
late() {
  rm -f "$1"
  mkfifo "$1"
  { sleep "${3-1}" && cat "$2" > "$1"; } &
  writers+=("$!")
}

# all_late: the writers have ended
all_late() {
  kill "${writers[@]}" 2> /dev/null && fail 'a pipe was not read'
  wait "${writers[@]}" 2> /dev/null
  writers=()
}

# named REPORT JSON: its inputs and outputs
named() {
  python3 "$tree/tests/trim/check.py" names "$1" "$2" || fail "it names others: $(cut -c 1-600 "$1")"
}
