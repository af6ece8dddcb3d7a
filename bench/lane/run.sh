#!/usr/bin/env bash
# Times a lane (an ordered queue between two threads) beside the bounded channel of Rust's std. Needs rt
# and rustc on the path, and builds both programs in a directory of its own outside the tree.
#
#     bench/lane/run.sh [RUNS]      RUNS, 5 if not given: each figure is the median of this many runs, taken in turn
#
# An item: numbers go from one thread to the other by put and take_wait (send and recv), at several
# depths. A turn: one number goes there and back through two lanes of depth 1, so each end waits. At last
# the sender of a full lane, and then the receiver of an empty one, waits for a second while the other
# thread sleeps: the processor time of the whole process.
#
# lane.rt.txt is no crate of the repository, so that the gate needn't prove a benchmark. Its name ends in
# .txt because the gate reports a .rt file outside a crate. It is proved before it is built.
set -euo pipefail

here=$(cd "$(dirname "$0")" && pwd)
root=$(cd "$here/../.." && pwd)
runs=${1:-5}
room=$(mktemp -d)
trap 'rm -rf "$room"' EXIT

mkdir -p "$room/crates/lane_bench/src" "$room/crates/fq_lane"
cp "$root/HANDLES" "$room/"
cp -r "$root"/crates/fq_lane/{src,specs,proofs} "$room/crates/fq_lane/"
cp "$here/lane.rt.txt" "$room/crates/lane_bench/src/main.rt"
grep -E '^fq_lane[ :]' "$root/crates.txt" > "$room/crates.txt"
echo "lane_bench: anyhow fq_lane" >> "$room/crates.txt"
if ! (cd "$room/crates/lane_bench" && rt run -- items 10 1) > "$room/log" 2>&1; then
  tail -n 40 "$room/log"
  exit 1
fi
lane="$room/crates/lane_bench/out/lane_bench"
channel="$room/channel"
rustc -O --edition 2024 -o "$channel" "$here/channel.rs"

median() {
  sort -n | awk '{ x[NR] = $1 } END { print x[int((NR + 1) / 2)] }'
}

# compare LABEL COUNT WORD..: nanoseconds for one of COUNT, by each program, and their ratio.
compare() {
  local label=$1 count=$2
  shift 2
  : > "$room/lane.txt"
  : > "$room/channel.txt"
  for _ in $(seq "$runs"); do
    "$lane" "$@" >> "$room/lane.txt"
    "$channel" "$@" >> "$room/channel.txt"
  done
  awk -v label="$label" -v count="$count" -v lane="$(median < "$room/lane.txt")" -v channel="$(median < "$room/channel.txt")" \
    'BEGIN { printf "%-34s %10.1f %10.1f %8.2f\n", label, lane / count, channel / count, lane / channel }'
}

printf '%-34s %10s %10s %8s\n' "nanoseconds" lane channel ratio
compare "an item, depth 64" 3000000 items 3000000 64
compare "an item, depth 4" 1000000 items 1000000 4
compare "an item, depth 1" 200000 items 200000 1
compare "a turn, there and back" 100000 turns 100000

echo
printf '%-34s %10s %10s\n' "processor time, microseconds" lane channel
"$lane" wait 1000 > "$room/lane.txt"
"$channel" wait 1000 > "$room/channel.txt"
read -r lane_sender lane_receiver < "$room/lane.txt"
read -r channel_sender channel_receiver < "$room/channel.txt"
printf '%-34s %10s %10s\n' "a sender that waits for a second" "$lane_sender" "$channel_sender"
printf '%-34s %10s %10s\n' "a receiver that waits for a second" "$lane_receiver" "$channel_receiver"
