"""Simulates the reads of four samples, gzipped, in a directory: less than half of the pairs of s3
are kept, and the second file of s4 is truncated, beside a whole one that ends in .whole.

    draw.py DIRECTORY
"""

import gzip
import random
import sys

LANES = {"s1_L001": 300, "s1_L002": 200, "s2_L001": 400, "s3_L001": 250, "s4_L001": 300}


def read(count, bad):
    """The bases and the scores of a read. If it has a bad end, that has `bad` bases on average."""
    front = random.choice([0, 0, 0, 0, 1, 2, 3])
    behind = int(random.expovariate(1 / bad)) if random.random() < 0.6 else 0
    behind = min(behind, count - front)
    low = "".join(random.choices("#$%&+", k=behind))
    scores = "#" * front + "".join(random.choices("?AFI", k=count - front - behind)) + low
    return "".join(random.choices("ACGT", k=count)), scores


def put(path, data):
    with open(path, "wb") as file:
        file.write(data)


def write(folder, lane, pairs):
    bad = 300 if lane == "s3_L001" else 30
    texts = ["", ""]
    for number in range(pairs):
        for side in (0, 1):
            texts[side] += "@{}:{}/{}\n{}\n+\n{}\n".format(lane, number, side + 1, *read(100, bad))
    for side, text in enumerate(texts, 1):
        path, data = f"{folder}/{lane}_R{side}.fq.gz", gzip.compress(text.encode())
        if (lane, side) == ("s4_L001", 2):
            put(f"{path}.whole", data)
            data = data[:len(data) // 2]
        put(path, data)


def main(folder):
    random.seed(20)
    for lane, pairs in LANES.items():
        write(folder, lane, pairs)


main(*sys.argv[1:])
