# shellcheck shell=bash disable=SC2034  # what is set here is for the script that reads this file
# What the scripts of this directory share. Each begins with `. "$(dirname "$0")/common.bash"`,
# which goes to the root of the repository. With `--help` as the first argument, it then prints the
# comment at the head of the script.
if [ -n "${FQ_PROG-}" ]; then FQ_PROG=$(realpath -- "$FQ_PROG"); fi
cd "$(dirname "${BASH_SOURCE[0]}")/.." || exit 1
tree=$PWD
tibzharuk=$tree/python/tibzharuk/__main__.py # the command, as it is installed
this=$(basename "$0" .sh)
failed=0 # 1 after the first `fail`
row=''   # what is being tried, for the lines of `fail`

if [ "${1:-}" = --help ]; then
  awk 'FNR > 1 && !/^#/ { exit } FNR > 1 { sub(/^# ?/, ""); print }' "tests/$this.sh"
  exit 0
fi

# fail TEXT: prints what is wrong, and goes on.
fail() {
  echo "$this: ${row:+$row: }$1"
  failed=1
}

# skip WHY: ends the script as skipped.
skip() {
  echo "$this: skipped: $1"
  exit 77
}

# need COMMAND[:PACKAGE]..: ends the script as skipped if a command is missing, and names Debian's
# packages.
need() {
  local each missing=''
  for each in "$@"; do
    if ! command -v "${each%%:*}" > /dev/null; then missing+="${each#*:}"$'\n'; fi
  done
  [ -z "$missing" ] || skip "needs $(printf '%s' "$missing" | sort -u | paste -sd' ')"
}

# find_program: sets `program` to the one of FQ_PROG, or to the one of this tree, which is built
# unless it is up to date.
find_program() {
  program=${FQ_PROG:-$tree/crates/fq_prog/out/fq_prog}
  if [ -n "${FQ_PROG-}" ] || make -q build > /dev/null 2>&1; then return; fi
  echo "$this: builds the program first, as make build does, unless FQ_PROG names one" >&2
  make -s build > /dev/null || exit 1
}

# need_proved PROGRAM..: ends the script as skipped unless these programs, which only a gate leaves,
# exist and are up to date. In a gate (GATE=1) their lack is a failure.
need_proved() {
  make -q "$@" > /dev/null 2>&1 && return
  if [ -z "${GATE-}" ]; then skip "needs $(printf '%s ' "${@##*/}")as a gate leaves it: make gate"; fi
  fail "the gate didn't leave $(printf '%s ' "${@##*/}")"
  exit 1
}

# compile_library SOURCE LIBRARY: compiles a library for LD_PRELOAD, with cc or otherwise the kit's
# compiler.
compile_library() {
  local compiler=${CC:-cc}
  command -v "$compiler" > /dev/null || compiler=$(dirname "$(rt doc)")/toolchain/bin/clang
  if ! "$compiler" -O2 -fPIC -shared -nostdlib -o "$2" "$1"; then
    echo "$this: FAILED: $1 is not compiled"
    exit 1
  fi
}

# draw_lane LANE SEED PAIRS: the reads of a lane in LANE_1.fq and LANE_2.fq, with 40 to 99 bases
# each, the last of them poor.
draw_lane() {
  awk -v lane="$1" -v seed="$2" -v pairs="$3" 'BEGIN { srand(seed)
    for (k = 1; k <= pairs; k++) for (side = 1; side <= 2; side++) { s = ""; q = ""
      n = 40 + int(rand() * 60); good = n - int(rand() * rand() * n)
      for (i = 0; i < n; i++) { s = s substr("ACGT", 1 + int(rand() * 4), 1); q = q (i < good ? "I" : "#") }
      printf "@%s:%d/%d\n%s\n+\n%s\n", lane, k, side, s, q > lane "_" side ".fq" } }'
}

# finish TEXT: ends the script, with this line if nothing failed.
finish() {
  if [ "$failed" -ne 0 ]; then
    echo "$this: FAILED"
    exit 1
  fi
  echo "$this: $1"
  exit 0
}
