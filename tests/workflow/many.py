"""Simulates what the workflow leaves of many samples, for its page: reports, summaries and settings
in DIRECTORY/results. They differ as samples do. The sample `bad` has many short good parts.

    many.py DIRECTORY NUMBER
"""

import json
import os
import random
import sys

sys.dont_write_bytecode = True
TREE = os.path.dirname(os.path.dirname(os.path.dirname(os.path.abspath(__file__))))
sys.path[:0] = [os.path.join(TREE, "tests"), os.path.join(TREE, "python")]

import count  # noqa: E402
from tibzharuk.sum import added  # noqa: E402

LENGTH, PAIRS, PARTS = 150, 40, 8
SETTINGS = "program: fq_prog 2.0.0\nsteps: LEADING:3 TRAILING:6 MINLEN:36\noptions: \nadapters: \n"


def cut(letters, scores):
    """A read whose good part is short."""
    good = random.randrange(5, 90)
    return letters, scores[:good] + [2] * (len(scores) - good)


def report(fall, bad=0.0):
    """The report of some pairs whose scores fall along them."""
    pairs = [[count.drawn(LENGTH, fall), count.drawn(LENGTH, fall + 8)] for _ in range(PAIRS)]
    pairs = [[cut(*read) if random.random() < bad else read for read in pair] for pair in pairs]
    return {"adapters": None, **count.report(pairs, 36)}


def summed(parts):
    """The report of one run over all parts."""
    whole = parts[0]
    for part in parts[1:]:
        whole = added(whole, part)
    return dict(whole, inputs=parts[0]["inputs"], outputs=parts[0]["outputs"])


def main(folder, number):
    random.seed(77)
    good, bad = [report(fall) for fall in (8, 10, 12)], report(20, 0.4)
    for kind in "reports", "summaries", "logs":
        os.makedirs(os.path.join(folder, "results", kind), exist_ok=True)
    for place in range(int(number)):
        name = "bad" if place == int(number) * 3 // 4 else f"s{place + 1}"
        parts = [bad if name == "bad" else random.choice(good) for _ in range(PARTS)]
        whole = summed(parts + random.choices(good, k=random.randrange(2, 5)) * (name != "bad"))
        start = os.path.join(folder, "results")
        with open(f"{start}/reports/{name}.json", "w", encoding="utf-8") as file:
            json.dump(whole, file, sort_keys=True, separators=(",", ":"))
            file.write("\n")
        for ending, text in ("summary", ""), ("settings", SETTINGS):
            with open(f"{start}/summaries/{name}.{ending}", "w", encoding="utf-8") as file:
                file.write(text)
        with open(f"{start}/reports/{name}.html", "w", encoding="utf-8") as file:
            file.write("a page of the sample\n")
        print(name)


main(*sys.argv[1:])
