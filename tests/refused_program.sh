#!/usr/bin/env bash
# Refuses each memory growth of the built program in turn, until a run meets no refusal: of PE, also
# with a report, and with a report and reasons, of IL, of EXAMPLE, of --help, and of an argument that
# is not UTF-8. A run that met a refusal must report that memory was refused (status 5) or that a
# thread was refused for lack of memory (status 6), and print nothing. At most one growth in each
# call may be refused without any effect: one that the program can do without. With a report there
# are more, and the report is the one of a run in which nothing was refused.
#
# Then it counts how often a run over many pairs asks for memory. Once its buffers have grown, no
# pair does, whether its reads are lent as they lie in the buffer or their lines are joined. There
# are 500 blocks, and a new block asks about twenty times, so the test also notices buffers that are
# dropped now and then.
set -uo pipefail
. "$(dirname "$0")/common.bash"

find_program
room=$(mktemp -d)
trap 'rm -rf "$room"' EXIT

compile_library tests/refused_growths/refuse.c "$room/refuse.so"
cd "$room" || exit 2
printf '@p1/1\nACGT\n+\n#!II\n@p2/1\nGGCC\n+\nIIII\n' > f
printf '@p1/2\nTTTT\n+\nIIII\n@p2/2\nAAAA\n+\n!!!"\n' > r
printf '@p1/1\nACGT\n+\n#!II\n@p1/2\nTTTT\n+\nIIII\n' > i

# sweep WORDS..: refuses each growth of this call in turn. At most one refusal may go unseen: the
# call then ends as ENDING says, or with status 0 and no line if ENDING is not set. REASONS is a
# pattern for lines with reasons.
sweep() {
  local number said status unseen=0 ending=${ENDING:-0 }
  for number in $(seq 10000); do
    said=$(timeout 60 env REFUSED_GROWTH="$number" LD_PRELOAD="$room/refuse.so" "$program" "$@" 9> refused 2> err)
    status=$?
    [ -s refused ] || break
    # shellcheck disable=SC2254  # REASONS is a pattern
    case "$status $(cat err)" in
      '5 out of memory' | '6 cannot start a thread' | ${REASONS:-without reasons})
        [ -z "$said" ] || wrong "$number" "$1" "printed '$said'"
        cat err >> lines
        ;;
      "$ending")
        unseen=$((unseen + 1))
        [ -z "${WANTED-}" ] || cmp "$WANTED" report || wrong "$number" "$1" 'another report'
        ;;
      *) wrong "$number" "$1" "status $status, '$(cat err)'" ;;
    esac
  done
  if [ "$number" -le 1 ] || [ "$number" -ge 10000 ]; then wrong "$number" "$1" "not every growth was refused"; fi
  [ "$unseen" -le 1 ] || [ -n "${WANTED-}" ] || wrong "$number" "$1" "$unseen refusals were not seen"
  echo "$1: $((number - 1)) growths refused, $unseen unseen"
}

wrong() {
  echo "WRONG: growth $1 of $2: $3"
  failed=1
}

# draw LINES..: these lines, 50,000 times.
draw() {
  local record
  record=$(printf '%s\n' "$@")
  yes "$record" | head -n "$((50000 * $#))"
}

# grow_seldom WORDS..: this call, over 50,000 pairs, asks for memory fewer than 2,000 times.
grow_seldom() {
  local status
  timeout 60 env REFUSED_GROWTH=2000 LD_PRELOAD="$room/refuse.so" "$program" "$@" 9> refused > summary 2> err
  status=$?
  if [ "$status" -ne 0 ] || [ -s refused ] || ! grep -q 50000 summary; then
    wrong 2000 "$1" "status $status, '$(cat err)', $(cat refused)"
  fi
}

sweep PE --threads 2 --block 1 --trimlog log f r fp fu rp ru LEADING:3
# A counter that is refused room for a few reads counts them in its totals, so that refusal goes
# unseen, and the report is the same.
"$program" PE --threads 2 --block 1 --report wanted f r fp fu rp ru LEADING:3 MINLEN:2 > summary || wrong 0 PE 'the run without a refusal'
WANTED=wanted sweep PE --threads 2 --block 1 --report report f r fp fu rp ru LEADING:3 MINLEN:2
# With reasons, each of these lines is printed, and no other.
cat > reasons << 'END'
out of memory
out of memory: it was refused before a pair was trimmed
out of memory: it was refused while pairs were trimmed; smaller --threads, --block or --depth take less
out of memory: it was refused for the report; the outputs are written
cannot start a thread: --threads is 2, and one more thread reads
END
: > lines
REASONS='[56] *: *' WANTED=wanted sweep PE --explain --threads 2 --block 1 --report report f r fp fu rp ru LEADING:3 MINLEN:2
diff <(sort -u reasons) <(sort -u lines) || wrong any PE 'other lines with reasons'
sweep IL --threads 2 --block 1 --trimlog log i fp fu rp ru LEADING:3
sweep EXAMPLE
sweep --help
ENDING=$(printf '1 error: word 2 is not UTF-8\n\nFor more information, try %s.' "'--help'") sweep PE $'\xff' r fp fu rp ru LEADING:3

for side in 1 2; do
  draw "@p/$side" ACGT + IIII > "plain$side"
  draw "@p/$side" AC GT + IIII > "joined$side"
done
draw @p/1 ACGT + IIII @p/2 ACGT + IIII > interleaved
draw @p/1 AC GT + IIII @p/2 AC GT + IIII > interleaved_joined
steps=(LEADING:3 MINLEN:2)
grow_seldom PE --threads 1 --block 100 --depth 1 --trimlog log plain1 plain2 fp fu rp ru "${steps[@]}"
grow_seldom PE --threads 1 --block 100 --depth 1 --trimlog log joined1 joined2 fp fu rp ru "${steps[@]}"
grow_seldom PE --threads 1 --block 100 --depth 1 --report report plain1 plain2 fp fu rp ru "${steps[@]}"
grow_seldom IL --threads 1 --block 100 --depth 1 --trimlog log interleaved fp fu rp ru "${steps[@]}"
grow_seldom IL --threads 1 --block 100 --depth 1 --trimlog log interleaved_joined fp fu rp ru "${steps[@]}"
echo "50,000 pairs: fewer than 2,000 growths"
finish ok
