#!/usr/bin/env python3
"""Simulates the reads of this directory: reads_1.fq and reads_2.fq, 1,000 pairs, and the same compressed.

usage: draw.py DIRECTORY

No sequencer made them. All bases are equally likely, with an N now and then. Scores fall towards a read's end, as those of
Illumina reads do, and some reads are bad from a place on. The same seed gives the same reads with every Python from 3.6 on.
"""
import gzip
import os
import sys

PAIRS = 1000
MULTIPLIER, MODULUS = 48271, 2**31 - 1  # the minimal standard generator of Park and Miller (1988, 1993)


class Draws:
    """Numbers that look random, the same ones on every machine."""

    def __init__(self, seed):
        self.state = seed

    def below(self, limit):
        self.state = self.state * MULTIPLIER % MODULUS
        return self.state * limit // MODULUS


def draw_read(draws):
    """The bases of a read and its quality bytes (score + 33), 60 to 100 of each."""
    length = 100 if draws.below(10) < 8 else 60 + draws.below(41)
    bad_from = draws.below(length) if draws.below(8) == 0 else length
    bases, quality = [], []
    for place in range(length):
        score = 37 - draws.below(4) - draws.below(2 + place // 6)
        if place >= bad_from or draws.below(60) == 0:
            score = 2 + draws.below(12)
        unknown = score < 6 and draws.below(3) == 0
        bases.append("N" if unknown else "ACGT"[draws.below(4)])
        quality.append(chr(33 + (2 if unknown else max(score, 2))))
    return "".join(bases), "".join(quality)


def draw(directory):
    draws = Draws(20261126)
    texts = {1: [], 2: []}
    for number in range(1, PAIRS + 1):
        name = "EXAMPLE:1:DRAWN:1:{}:{}:{}".format(1101 + number // 250, 1000 + draws.below(20000), 1000 + draws.below(20000))
        for side in (1, 2):
            bases, quality = draw_read(draws)
            texts[side].append("@{} {}:N:0:ACGTACGT\n{}\n+\n{}\n".format(name, side, bases, quality))
    for side, records in texts.items():
        text = "".join(records).encode("ascii")
        path = os.path.join(directory, "reads_{}.fq".format(side))
        with open(path, "wb") as plain:
            plain.write(text)
        with open(path + ".gz", "wb") as target, gzip.GzipFile("", "wb", 9, target, mtime=0) as packed:
            packed.write(text)


if __name__ == "__main__":
    if len(sys.argv) != 2:
        sys.exit(__doc__)
    draw(sys.argv[1])
