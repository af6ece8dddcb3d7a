# shellcheck shell=bash disable=SC2034,SC2154  # tests read what is set here, and set what is read
# How tests/adapters.sh and tests/trim_wishes.sh make a run in a directory of their own, and judge it.
trim=("$tibzharuk" trim)
work=$(mktemp -d) || exit 1
trap 'rm -rf "$work"' EXIT
cd "$work" || exit 1
truseq=(AGATCGGAAGAGCACACGTCTGAACTCCAGTCA AGATCGGAAGAGCGTCGTGTAGGGAAAGAGTGT)

# trimmed WORDS..: a run in a new directory `out`; its status and what it prints are kept
trimmed() {
  rm -rf out
  mkdir out
  "${trim[@]}" --program "$program" "$@" > printed 2> told
  echo "$?" > status
}

# made LINES WORDS..: all outputs are made, and these are all lines on standard error
made() {
  local lines=$1
  shift
  trimmed "$@"
  [ "$(cat status)" -eq 0 ] || fail "status $(cat status): $(cat told)"
  [ "$(cat told)" = "$lines" ] || fail "it says '$(cat told)', not '$lines'"
}

# refused STATUS LINE WORDS..: nothing is made, and one line says why
refused() {
  local status=$1 line=$2
  shift 2
  trimmed "$@"
  [ "$(cat status)" -eq "$status" ] || fail "status $(cat status), not $status"
  [ "$(cat told)" = "tibzharuk: $line" ] || fail "it says '$(cat told)', not '$line'"
  [ -z "$(ls -A out)" ] || fail "outputs: $(ls -A out)"
}
