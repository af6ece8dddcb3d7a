"""Simulates 200 pairs, r1.fq and r2.fq, and 40 pairs of four bases with a score that is too high,
high1.fq and high2.fq, or the highest that isn't, even1.fq and even2.fq."""

import random


def write_pairs():
    with open("r1.fq", "w") as forward, open("r2.fq", "w") as reverse:
        for number in range(200):
            for side, file in (1, forward), (2, reverse):
                count, bad = random.randint(60, 101), random.choice((0, 0, 0, 5, 20, 70))
                scores = ("?" * max(count - bad, 0) + "#" * count)[:count]
                bases = "".join(random.choices("ACGTN", k=count))
                file.write(f"@p{number}/{side}\n{bases}\n+\n{scores}\n")


def write_alike(name, score):
    for side in 1, 2:
        with open(f"{name}{side}.fq", "w") as file:
            file.write(f"@p\nACGT\n+\n{4 * score}\n" * 40)


def main():
    random.seed(7)
    write_pairs()
    write_alike("high", "T")
    write_alike("even", "S")


main()
