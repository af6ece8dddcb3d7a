#!/usr/bin/env python3
"""Gzip files of several members, good and damaged, as tibzharuk trim decompresses them.

    members.py RUNS [--seed N]

Each file has one to four members by compressors that are installed; most end as BGZF does. Then
some bytes are changed, cut off, put in or taken out, or none. A file that is left as it is must
end with status 0. With status 0 the text must be that of the members by RFC 1952, or, if these are
damaged, the whole text: a changed byte may be one that doesn't count.

The status is 0 if nothing was wrong.
"""

import argparse
import os
import random
import shutil
import subprocess
import sys
import tempfile
import time

TESTS = os.path.dirname(os.path.dirname(os.path.abspath(__file__)))
sys.path[:0] = [TESTS, os.path.join(os.path.dirname(TESTS), "python")]

from trim_faults import run, unpack
from tibzharuk.trim.checks import END_BLOCK
from tibzharuk.trim.files import Input
from tibzharuk.trim.tools import Tools

COMPRESSORS = ["bgzip", "-c"], ["bgzip", "-c", "-l", "1"], ["gzip", "-1"], ["pigz"], ["igzip", "-c"]
SIZES = 1, 50, 3000, 70000, 200000
BETWEEN = b"x", b"\n", bytes(1), bytes(28), bytes(600), b"\x1f\x8b\x08", b"garbage" * 100


def draw_members(chance):
    """Members of many sizes by each compressor, those of BGZF with the end block and without."""
    text = "".join(chance.choices("ACGT!#5?I\n", k=2 * max(SIZES))).encode()
    members, ending = [], []
    for words in COMPRESSORS:
        for _ in range(30 if shutil.which(words[0]) else 0):
            place = chance.randrange(max(SIZES))
            member = run(words, text[place:place + chance.choice(SIZES)])
            members.append(member)
            if words[0] == "bgzip":
                ending.append(member)
                members.append(member[:-len(END_BLOCK)])
    return members, ending or members


def damage(file, starts, chance):
    """The file with a random fault, most of them near the start of a member, or without one."""
    place = chance.choice(starts) + chance.randrange(-40, 20)
    place = chance.choice([chance.randrange(len(file)), min(max(place, 0), len(file) - 1)])
    kind = chance.choice(["good", "changed", "cut", "cut and ended", "between", "taken"])
    if kind == "changed":
        size = chance.choice([1, 1, 4])
        rest = bytes(byte ^ chance.randrange(1, 256) for byte in file[place:place + size])
        return kind, file[:place] + rest + file[place + size:]
    if kind == "cut":
        return kind, file[:place]
    if kind == "cut and ended":
        return kind, file[:place] + END_BLOCK
    if kind == "between":
        place = chance.choice(starts)
        return kind, file[:place] + chance.choice(BETWEEN) + file[place:]
    if kind == "taken":
        return kind, file[:place] + file[place + chance.randrange(1, 3000):]
    return kind, file


def decompress(name):
    """Who decompresses this file, its status, and the text."""
    each = Input(name)
    words = each.command(Tools.choose_decompressor("auto"))
    each.open()
    done = subprocess.run(words, stdin=each.fd, stdout=subprocess.PIPE, stderr=subprocess.DEVNULL)
    each.close()
    return words[0], done.returncode, done.stdout


def main():
    parser = argparse.ArgumentParser(
        description=__doc__, formatter_class=argparse.RawDescriptionHelpFormatter)
    parser.add_argument("runs", type=int)
    parser.add_argument("--seed", type=int, default=int(time.time()))
    asked = parser.parse_args()
    chance = random.Random(asked.seed)
    members, ending = draw_members(chance)
    wrong = 0
    with tempfile.TemporaryDirectory() as folder:
        name = os.path.join(folder, "x.gz")
        for number in range(asked.runs):
            parts = chance.choices(members, k=chance.choice([0, 1, 1, 2, 3]))
            parts.append(chance.choice(ending if chance.random() < 0.75 else members))
            starts = [sum(map(len, parts[:count])) for count in range(len(parts) + 1)]
            whole = b"".join(parts)
            kind, data = damage(whole, starts, chance)
            with open(name, "wb") as file:
                file.write(data)
            tool, status, text = decompress(name)
            wanted = unpack(data)
            if wanted is None:
                wanted = unpack(whole)
            if text != wanted if status == 0 else kind == "good":
                wrong += 1
                print(f"WRONG in file {number} of seed {asked.seed}: {kind}, {tool}: status {status}")
    print(f"{asked.runs} files of seed {asked.seed}, {wrong} wrong")
    return 1 if wrong else 0


if __name__ == "__main__":
    sys.exit(main())
