"""Writes simulated pairs of 2 x 100 bases into NAME_1.fq.gz and NAME_2.fq.gz. In a quarter of those
of `truseq` and `nextera` the insert has 0 to 100 bases, and its reads go on with an adapter. Bases
are wrong as often as their scores say, and one in 200 more. None is an N, which Trimmomatic scores
in its own way.

usage: draw.py [PAIRS [SEED]]
"""

import gzip
import random
import sys

TRUSEQ = ("AGATCGGAAGAGCACACGTCTGAACTCCAGTCACACGTACGTATCTCGTATGCCGTCTTCTGCTTG",
          "AGATCGGAAGAGCGTCGTGTAGGGAAAGAGTGTAGATCTCGGTGGTCGCCGTATCATT")
NEXTERA = ("CTGTCTCTTATACACATCTCCGAGCCCACGAGACACGTACGTATCTCGTATGCCGTCTTCTGCTTG",
           "CTGTCTCTTATACACATCTGACGCTGCCGACGAACGTACGTGTGTAGATCTCGGTGGTCGCCGTATCATT")
BASES = 100
OTHER_STRAND = str.maketrans("ACGT", "TGCA")


class Scores:
    """Those of one read, which fall towards its end. Some reads are bad from a place on."""

    def __init__(self):
        bad_from = random.randrange(BASES) if random.random() < 0.15 else BASES
        self.values = [min(40, 38 - place // 8 + random.randint(-4, 4)) if place < bad_from
                       else random.randint(2, 12) for place in range(BASES)]
        self.wrong = [0.005 + 10 ** (-score / 10) for score in self.values]

    def called(self, bases):
        """The bases as a sequencer calls them."""
        called = list(bases)
        count = int(sum(self.wrong) + random.random())
        for place in random.choices(range(BASES), self.wrong, k=count):
            called[place] = random.choice("ACGT")
        return "".join(called)


def letters(number):
    return "".join(random.choices("ACGT", k=number))


def write(name, adapters, pairs, title, offset):
    """Pairs, with the titles of both sides."""
    kinds = [Scores() for _ in range(200)]
    with gzip.open(f"{name}_1.fq.gz", "wt", 1) as one, gzip.open(f"{name}_2.fq.gz", "wt", 1) as two:
        for number in range(1, pairs + 1):
            is_short = adapters and random.random() < 0.25
            insert = letters(random.randint(0, BASES) if is_short else random.randint(BASES, 250))
            strands = insert, insert.translate(OTHER_STRAND)[::-1]
            for side, (file, bases) in enumerate(zip((one, two), strands)):
                if adapters:
                    bases += adapters[side] + letters(BASES)
                scores = random.choice(kinds)
                quality = "".join(chr(offset + score) for score in scores.values)
                file.write(f"@{title.format(number, side + 1)}\n{scores.called(bases[:BASES])}\n"
                           f"+\n{quality}\n")


def main():
    pairs = int(sys.argv[1]) if sys.argv[1:] else 2000
    random.seed(int(sys.argv[2]) if sys.argv[2:] else 39)
    illumina = "SIM:1:FLOW:1:1101:{0}:1000 {1}:N:0:ACGT"
    write("plain", None, pairs, illumina, 33)
    write("truseq", TRUSEQ, pairs, illumina, 33)
    write("nextera", NEXTERA, pairs, "SIM:1:FLOW:1:1101:{0}:1000/{1}", 33)
    write("old", None, pairs, "HWUSI-SIM:1:1:{0}:1000#0/{1}", 64)


if __name__ == "__main__":
    main()
