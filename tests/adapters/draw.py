"""Writes simulated pairs of 2 x 100 bases into NAME_1.fq and NAME_2.fq. Some inserts are shorter
than their reads, which go on with an adapter."""

import random

KITS = {
    "truseq": ("AGATCGGAAGAGCACACGTCTGAACTCCAGTCA", "AGATCGGAAGAGCGTCGTGTAGGGAAAGAGTGT"),
    "nextera": ("CTGTCTCTTATACACATCT", "CTGTCTCTTATACACATCT"),
    "smallrna": ("TGGAATTCTCGGGTGCCAAGG", "GATCGTCGGACTGTAGAACTCTGAAC"),
    "polyg": (100 * "G", 100 * "G"),
}
BASES = 100
OTHER_STRAND = str.maketrans("ACGT", "TGCA")


def letters(number):
    return "".join(random.choices("ACGT", k=number))


def scores():
    bad = random.choice((0, 0, 0, 10, 40))
    return (BASES - bad) * "I" + bad * "#"


def write(name, kit, pairs, is_short):
    """Pairs whose inserts are short if `is_short` says so of their number."""
    with open(f"{name}_1.fq", "w") as forward, open(f"{name}_2.fq", "w") as reverse:
        for number in range(1, pairs + 1):
            insert = letters(random.randint(20, 80) if is_short(number) else 150)
            other = insert.translate(OTHER_STRAND)[::-1]
            for side, (file, bases) in enumerate(((forward, insert), (reverse, other))):
                bases = (bases + KITS[kit][side] + letters(BASES))[:BASES]
                file.write(f"@r{number}/{side + 1}\n{bases}\n+\n{scores()}\n")


def interleave(name):
    mates = [open(f"{name}_{side}.fq") for side in (1, 2)]
    with open(f"{name}_both.fq", "w") as both:
        for lines in zip(*[mates[0]] * 4, *[mates[1]] * 4):
            both.writelines(lines)
    for file in mates:
        file.close()


def main():
    random.seed(45)
    for kit in KITS:
        write(kit, kit, 2000, lambda number: number % 4 == 0)
    write("no", "truseq", 1000, lambda number: False)
    write("two", "truseq", 1000, lambda number: number % 50 == 0)
    write("one", "truseq", 1000, lambda number: number % 100 == 0)
    write("late", "truseq", 11000, lambda number: number > 10000)
    interleave("two")


if __name__ == "__main__":
    main()
