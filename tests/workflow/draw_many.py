"""Simulates the reads of 24 samples with one or two lanes, named as Illumina's programs do, in a
directory. All have nearly the same reads, so that none is marked by chance, but those of the sample
`bad` have short good parts.

    draw_many.py DIRECTORY
"""

import gzip
import os
import random
import sys

sys.dont_write_bytecode = True
sys.path.insert(0, os.path.dirname(os.path.dirname(os.path.abspath(__file__))))

import count  # noqa: E402

LENGTH, PAIRS = 100, 60
LEFT_OUT = 2    # of the pairs, in each lane
NAMES = [f"{tissue}{number}" for tissue in ("brain", "liver", "tumor") for number in range(1, 9)]


def record(name, side, sample, read):
    """A record of a sample."""
    letters, scores = read
    if sample == "bad":
        good = random.randrange(5, 90)
        scores = scores[:good] + [2] * (LENGTH - good)
    return f"@{name} {side}:N:0:ACGT\n{letters}\n+\n{''.join(chr(score + 33) for score in scores)}\n"


def main(folder):
    random.seed(24)
    pairs = [[count.drawn(LENGTH, 12) for side in (1, 2)] for _ in range(PAIRS)]
    for place, name in enumerate(NAMES, 1):
        sample = "bad" if name == "liver6" else name
        for lane in range(1, 2 + place % 2):
            kept = random.sample(pairs, PAIRS - LEFT_OUT)
            for side in (1, 2):
                text = "".join(record(f"{sample}:{lane}:{at}", side, sample, pair[side - 1]) for at, pair in enumerate(kept))
                with open(f"{folder}/{sample}_S{place}_L00{lane}_R{side}_001.fastq.gz", "wb") as file:
                    file.write(gzip.compress(text.encode()))


main(*sys.argv[1:])
