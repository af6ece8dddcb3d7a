"""Simulates pairs whose scores fall towards the end: r1.fq, r2.fq, and both.fq, interleaved.

    draw.py SEED PAIRS LONGEST [ENCODING [FIRST]]

A read has 1 to LONGEST bases. The first forward read has FIRST bases.
"""

import random
import sys

# The byte of the score 0, and the lowest score.
ENCODINGS = {"sanger": (33, 0), "illumina13": (64, 0), "solexa": (64, -5)}
WEIGHTS = [9, 9, 9, 9, 1, 3, 3, 3, 3, 1]


def record(draw, title, count, encoding):
    offset, least = ENCODINGS[encoding]
    bases = "".join(draw.choices("ACGTNacgtn", weights=WEIGHTS, k=count))
    bottom = draw.choice((20, 20, 20, least))
    scores = [max(least, draw.randint(bottom, 42) - draw.randint(0, 1 + 30 * place // count))
              for place in range(count)]
    return f"@{title}\n{bases}\n+\n{''.join(chr(offset + score) for score in scores)}\n"


def main(seed, pairs, longest, encoding="sanger", first=None):
    draw = random.Random(int(seed))
    with open("r1.fq", "w") as forward, open("r2.fq", "w") as reverse, open("both.fq", "w") as both:
        for number in range(int(pairs)):
            for side, file in (1, forward), (2, reverse):
                is_given = first and (number, side) == (0, 1)
                count = int(first) if is_given else draw.randint(1, int(longest))
                text = record(draw, f"p{number}/{side}", count, encoding)
                file.write(text)
                both.write(text)


main(*sys.argv[1:])
