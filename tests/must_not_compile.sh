#!/usr/bin/env bash
# What the types of a lane, and of the witness of refused memory, rule out must not compile.
#
# In its callers: an offer after the lane was closed, and one end that confirms twice. Each must be
# refused by exactly one error, the borrow error E0382: a use of a value that was moved (the check
# writes it error[borrow-e0382]). Beside each is the same function with correct use, in which there
# must be no error.
#
# In the lane itself: a move of one end after which the other is not woken, or is woken only under a
# condition, or was woken before. Each must be refused by exactly one error: the witness of the move
# is dropped (error[linear-value-let-go]), or is forgotten without being `Drop`
# (error[unsatisfied-bound]). The unchanged lane must have no error.
#
# In the lanes of a run that lead back: a dealer that waits for a used block, and a collector that
# waits for room for used texts. Each must be refused by exactly one error (error[unknown-method]),
# and what they do without waiting by none.
#
# Of the witness: one that is made of nothing. It must be refused by exactly one error
# (error[private-field]), and one that is made of the error of std by none. That error itself is
# written as a value only in the files that are named below, where something else stands for it. So
# a worker that ends at some block as if memory had been refused has nothing to end with. The faults
# and errors that stand for it in a run are written as values only where they arise.
#
# It works in a directory of its own, outside the tree, and needs rt on the path.
set -uo pipefail
. "$(dirname "$0")/common.bash"

room=$(mktemp -d)
trap 'rm -rf "$room"' EXIT

mkdir -p "$room/crates/misuse/src" "$room/crates/fq_lane"
cp "$tree/HANDLES" "$room/"
cp -r "$tree"/crates/fq_lane/{src,specs,proofs} "$room/crates/fq_lane/"
grep -E '^fq_lane[ :]' "$tree/crates.txt" > "$room/crates.txt"
echo "misuse: fq_lane" >> "$room/crates.txt"

# judge NAME WANTED STATUS: compares the errors that were found ("none", or one code, which may come
# several times).
judge() {
  local found
  found=$(grep -oE '\berror(\[[^]]+\])?:' "$room/log" | sed -E 's/^error(\[(.*)\])?:$/\2/' | sort -u | tr '\n' ' ')
  found=${found% }
  if [ "$2" = none ] && [ "$3" -eq 0 ] && [ -z "$found" ]; then
    echo "compiles, as it must: $1"
  elif [ "$2" != none ] && [ "$3" -ne 0 ] && [ "$found" = "$2" ]; then
    echo "refused by $2, as it must be: $1"
  else
    echo "WRONG: $1: wanted $2, found '${found:-none}' with status $3; the first lines were:"
    head -n 20 "$room/log"
    failed=1
  fi
}

# try NAME WANTED: checks the source on standard input.
try() {
  cat > "$room/crates/misuse/src/lib.rt"
  (cd "$room/crates/misuse" && rt check) > "$room/log" 2>&1
  judge "$1" "$2" $?
}

# try_in_lane NAME WANTED FILE OLD NEW: checks the lane with one text in one of its files replaced
# by another.
try_in_lane() {
  local file="$room/crates/fq_lane/src/$3" text
  text=$(cat "$tree/crates/fq_lane/src/$3")
  if [ "${text/"$4"/}" = "$text" ]; then
    echo "WRONG: $1: $3 has no '$4'"
    failed=1
    return
  fi
  printf '%s\n' "${text/"$4"/"$5"}" > "$file"
  (cd "$room/crates/fq_lane" && rt check) > "$room/log" 2>&1
  judge "$1" "$2" $?
  printf '%s\n' "$text" > "$file"
}

try "an offer before the lane is closed" none << 'RT'
//! A lane that is used as it is meant to be.
#![tactic(auto)]

use fq_lane::Tx;

pub fn offer_then_close(tx: Tx<u64>) -> bool {
    let mut tx = tx;
    let offered = tx.offer(1).is_ok();
    let closed = tx.close().is_ok();
    offered && closed
}
RT

try "an offer after the lane was closed" borrow-e0382 << 'RT'
//! A lane that is used after it was closed.
#![tactic(auto)]

use fq_lane::Tx;

pub fn close_then_offer(tx: Tx<u64>) -> bool {
    let mut tx = tx;
    let closed = tx.close().is_ok();
    let offered = tx.offer(1).is_ok();
    offered && closed
}
RT

try "an end that confirms once" none << 'RT'
//! A lane that is confirmed as it is meant to be.
#![tactic(auto)]

ghost use Rattle.std.specs.Prelude.{◌≡◌, true};

use fq_lane::{End, Rx};

pub fn confirm_once(rx: &mut Rx<u64>, end: End<u64>)
    requires closed { rx.old.marked ≡ true }
    requires one_lane { end.name ≡ rx.old.name }
{
    rx.confirm(end);
}
RT

try "one end that confirms twice" borrow-e0382 << 'RT'
//! A lane that is confirmed twice with one end.
#![tactic(auto)]

ghost use Rattle.std.specs.Prelude.{◌≡◌, true};

use fq_lane::{End, Rx};

pub fn confirm_twice(rx: &mut Rx<u64>, end: End<u64>)
    requires closed { rx.old.marked ≡ true }
    requires one_lane { end.name ≡ rx.old.name }
{
    rx.confirm(end);
    rx.confirm(end);
}
RT

try_in_lane "an offer that wakes nobody" linear-value-let-go tx.rt \
  'ring::push_item(&mut self.producer, item).wake_receiver(&self.parkers);' \
  'let _ = ring::push_item(&mut self.producer, item);'

try_in_lane "an offer that wakes only the receiver of a lane that was empty" linear-value-let-go tx.rt \
  'ring::push_item(&mut self.producer, item).wake_receiver(&self.parkers);' \
  'let was_empty = self.producer.slots() + 1 > self.producer.capacity();
            let pushed = ring::push_item(&mut self.producer, item);
            if was_empty {
                pushed.wake_receiver(&self.parkers);
            }'

try_in_lane "an offer that wakes before it pushes" linear-value-let-go tx.rt \
  'ring::push_item(&mut self.producer, item).wake_receiver(&self.parkers);' \
  'self.parkers.wake_receiver();
            let _ = ring::push_item(&mut self.producer, item);'

try_in_lane "a mark that wakes nobody" linear-value-let-go tx.rt \
  'pushed.wake_receiver(&parkers);' \
  'drop(parkers);'

try_in_lane "a take that wakes before it pops" linear-value-let-go rx.rt \
  'match ring::pop(&mut self.consumer) {
            Popped::Item(item, freed) => {
                freed.wake_sender(&self.parkers);' \
  'self.parkers.wake_sender();
        match ring::pop(&mut self.consumer) {
            Popped::Item(item, _) => {'

try_in_lane "a witness that is kept for later" linear-value-let-go rx.rt \
  'freed.wake_sender(&self.parkers);' \
  'let _later = freed;'

try_in_lane "a witness that is forgotten" unsatisfied-bound rx.rt \
  'freed.wake_sender(&self.parkers);' \
  'std::mem::forget(freed);'

# The lanes that lead back are tried in a crate that has their file, with blocks and texts of its own.
mkdir -p "$room/crates/back/src"
sed -E 's/^use fq_(block|work)::/use crate::/' "$tree/crates/fq_run/src/lanes/used.rt" \
  > "$room/crates/back/src/used.rt"
echo 'back: fq_lane' >> "$room/crates.txt"

# try_back NAME WANTED CALL: checks a call on the lane of used blocks, or on that of used texts.
try_back() {
  cat > "$room/crates/back/src/lib.rt" << RT
//! The lanes of a run that lead back.
#![tactic(auto)]

mod used;

use fq_lane::{Rx, Tx};
use std::sync::Wait;
use used::{UsedBlocks, UsedTexts};

#[derive(Drop)]
pub struct Block;

#[derive(Drop)]
pub struct Done;

pub fn use_both<R: Wait>(rt: &R, blocks: Rx<Block>, texts: Tx<Done>) {
    let mut blocks = UsedBlocks::over(blocks);
    let mut texts = UsedTexts::over(texts);
    let _ = blocks.take();
    texts.give_back(Done);
    $3
}
RT
  (cd "$room/crates/back" && rt check) > "$room/log" 2>&1
  judge "$1" "$2" $?
}

try_back "a block that is taken if it came back" none 'let _ = rt;'
try_back "a wait for a used block" unknown-method 'let _ = blocks.take_wait(rt);'
try_back "a wait for room for used texts" unknown-method 'texts.put(rt, Done);'

# The witness is tried in a crate that has its file alone.
mkdir -p "$room/crates/witness/src"
cp "$tree/crates/fq_text/src/memory.rt" "$room/crates/witness/src/"
cat > "$room/crates/witness/src/lib.rt" << 'RT'
//! The witness of refused memory.
#![tactic(auto)]

mod memory;

pub use memory::{MemoryRefused, OutOfMemory};
RT
printf 'witness:\nmisuse: witness\n' > "$room/crates.txt"

try "a witness that is made of an error" none << 'RT'
//! Refused memory that is reported.
#![tactic(auto)]

use std::alloc::Global;
use witness::MemoryRefused;

pub fn eight_zeros(alloc: Global) -> Result<Vec<u8>, MemoryRefused> {
    let zeros = vec![in alloc; 0; 8]?;
    Ok(zeros)
}
RT

try "a witness that is made of nothing" private-field << 'RT'
//! Refused memory that is reported though none was asked for.
#![tactic(auto)]

use witness::MemoryRefused;

pub fn no_zeros() -> Result<Vec<u8>, MemoryRefused> {
    Err(MemoryRefused {
        made_of_an_error: (),
    })
}
RT

# Where the program's crates write an error of std as a value: once in each of these files. The disk
# in memory isn't a part of the program.
error='([a-z_]+::)*(AllocError|OutOfMemory)'
value="(\\(|= |=> |\\| |\\{ |return )$error([^:A-Za-z_]|\$)|^ +$error\$"
written=$(grep -rcE "$value" --include='*.rt' crates/*/src |
  grep -vE ':0$|^crates/fq_test_[a-z_]+/' | sort)
wanted='crates/fq_app/src/answering.rt:1
crates/fq_app/src/example.rt:1
crates/fq_app_files/src/reporting.rt:1
crates/fq_prog/src/main.rt:1
crates/fq_run_core/src/refused.rt:1'
[ "$written" = "$wanted" ] || fail "errors of std are written as values in: $written"

# Above fq_text its fault for refused memory stands in patterns alone.
made=$(grep -rnE 'TextFault::OutOfMemory|NoSource \{|SpawnError \{' --include='*.rt' crates/*/src |
  grep -vE '^crates/fq_t(ext|est_[a-z_]+)/|TextFault::OutOfMemory\)* (=>|\|)')
[ -z "$made" ] || fail "a fault or an error that stands for refused memory is made in: $made"

finish 'ok, 12 misuses refused and 4 uses accepted'
