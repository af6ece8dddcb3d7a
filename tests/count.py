"""A slow count of reads, base after base: the numbers that a report has of them.

    count.py KIND FILE

writes the report of a simulated run into FILE, with all fields that the page draws: its pairs are
simulated, trimmed and counted without the program. KIND is `plain` (500 pairs of 150 bases), `long`
(a pair of 10,250 and 12,000 bases among 50 pairs), `longest` (12 pairs of 12,345 and 23,456 bases),
`small` (20 pairs of 40 bases), `lane` (the same pairs), `one` (20 pairs of one base), `alike` (20
pairs of 40 times C with the score 35), `other` (20 pairs of 40 bases, of which some are R or Y) or
`none` (no pair). cutadapt removed adapters before `plain`, `lane` and `small`, in another way before
`small`. These runs warned of something.
"""

import collections
import json
import random
import sys

MOST = 10_001
PARTS = ("before", "paired", "unpaired")
SIDES = ("forward", "reverse")
POSITIONS = ("bases", "score_sum", "q30_bases", "a", "c", "g", "t", "n")


def rows(counts):
    """Numbers and how often each occurs, as a report lists them. Those above 10,000 are one row."""
    found = collections.Counter()
    for number, reads in counts.items():
        found[min(number, MOST)] += reads
    return [list(row) for row in sorted(found.items())]


class Reads:
    """Counts over reads, one base after the other."""

    def __init__(self):
        self.lengths, self.means, self.gcs = (collections.Counter() for _ in range(3))
        self.places = {name: collections.Counter() for name in POSITIONS}
        self.q20 = 0

    def add(self, letters, scores):
        self.lengths[len(letters)] += 1
        for place, (letter, score) in enumerate(zip(letters.lower(), scores), 1):
            place = min(place, MOST)
            self.places["bases"][place] += 1
            self.places["score_sum"][place] += score
            self.places["q30_bases"][place] += score >= 30
            if letter in self.places:
                self.places[letter][place] += 1
            self.q20 += score >= 20
        if letters:
            gc = sum(letter in "GCgc" for letter in letters)
            self.means[sum(scores) // len(scores)] += 1
            self.gcs[(200 * gc + len(letters)) // (2 * len(letters))] += 1

    def fields(self):
        longest = max(self.places["bases"], default=0)
        sums = {name: sum(places.values()) for name, places in self.places.items()}
        return {
            "reads": sum(self.lengths.values()),
            "bases": sums["bases"],
            "q20_bases": self.q20,
            "q30_bases": sums["q30_bases"],
            "score_sum": sums["score_sum"],
            "gc_bases": sums["g"] + sums["c"],
            "n_bases": sums["n"],
            "shortest": min(self.lengths, default=None),
            "longest": max(self.lengths, default=None),
            "lengths": rows(self.lengths),
            "positions": {name: [places[place] for place in range(1, longest + 1)]
                          for name, places in self.places.items()},
            "mean_scores": rows(self.means),
            "gc_percents": rows(self.gcs),
        }


def reads_of(path, score=lambda byte: byte - 33):
    """The letters and the scores of each read of a FASTQ file whose records have four lines."""
    with open(path, "rb") as file:
        lines = file.read().split(b"\n")
    for first in range(0, len(lines) - 3, 4):
        yield lines[first + 1].decode(), [score(byte) for byte in lines[first + 3]]


def counted(reads):
    """What a report says of these reads."""
    counts = Reads()
    for letters, scores in reads:
        counts.add(letters, scores)
    return counts.fields()


# Simulated runs.


def drawn(bases, fall):
    """A read whose scores fall along it; some reads have a bad end."""
    front = random.choice([0] * 8 + [1, 2, 3])
    bad = int(random.expovariate(1 / 25)) if random.random() < 0.5 else 0
    bad = min(bad, max(bases - front - 20, 0))
    good = bases - front - bad
    scores = [2] * front
    scores += [max(min(int(random.gauss(38 - fall * place / bases, 3)), 41), 3)
               for place in range(good)]
    scores += [random.choice((2, 2, 2, 5)) for _ in range(bad)]
    gc = min(max(random.gauss(0.45, 0.06), 0.1), 0.9)
    weights = [(1 - gc) / 2, gc / 2, gc / 2, (1 - gc) / 2, 0.002]
    letters = random.choices("ACGTN", weights, k=bases)
    return "".join(letters).replace("T", "t", 1), scores


def trimmed(read, least):
    """What LEADING:3, TRAILING:6 and MINLEN:`least` leave: the first place, the place after the
    last one, and what each step did."""
    letters, scores = read
    first, last, did = 0, len(scores), []
    while first < last and scores[first] < 3:
        first += 1
    did.append((first > 0, first == last))
    size = last - first
    while first < last and scores[last - 1] < 6:
        last -= 1
    did.append((last - first < size, size > 0 and first == last))
    did.append((False, 0 < last - first < least))
    if last - first < least:
        last = first
    return first, last, did


class Side:
    """Counts over one side."""

    def __init__(self):
        self.parts = {part: Reads() for part in PARTS}
        self.removed = {"front": collections.Counter(), "behind": collections.Counter()}
        self.did = [[0, 0] for _ in range(3)]

    def add(self, read, left, mate_left):
        letters, scores = read
        first, last, did = left
        self.parts["before"].add(letters, scores)
        for step, counts in zip(did, self.did):
            counts[0] += step[0] and not step[1]
            counts[1] += step[1]
        if first < last:
            part = self.parts["paired" if mate_left else "unpaired"]
            part.add(letters[first:last], scores[first:last])
            self.removed["front"][first] += 1
            self.removed["behind"][len(letters) - last] += 1

    def fields(self):
        fields = {part: self.parts[part].fields() for part in PARTS}
        fields["removed_bases"] = {place: sum(number * reads for number, reads in found.items())
                                   for place, found in self.removed.items()}
        fields.update((f"removed_{place}", rows(found)) for place, found in self.removed.items())
        return fields


def report(pairs, least):
    sides = {side: Side() for side in SIDES}
    kept = collections.Counter()
    for pair in pairs:
        left = [trimmed(read, least) for read in pair]
        alive = [first < last for first, last, _ in left]
        kept[tuple(alive)] += 1
        for number, side in enumerate(SIDES):
            sides[side].add(pair[number], left[number], alive[1 - number])
    steps = ("LEADING:3", "TRAILING:6", f"MINLEN:{least}")
    return {
        "schema": 2,
        "program": "fq_prog",
        "version": "1.1.0",
        "command": "PE",
        "encoding": "sanger",
        "name_check": True,
        "outcome": "finished",
        "fault": None,
        "inputs": {
            "forward": ["s1_L001_R1.fq.gz", "s1_L002_R1.fq.gz"],
            "reverse": ["s1_L001_R2.fq.gz", "s1_L002_R2.fq.gz"],
        },
        "outputs": {
            "forward_paired": "fp.fq.gz",
            "forward_unpaired": "fu.fq.gz",
            "reverse_paired": "rp.fq.gz",
            "reverse_unpaired": "ru.fq.gz",
            "trim_log": None,
        },
        "pairs": {
            "input": sum(kept.values()),
            "both_surviving": kept[True, True],
            "forward_only_surviving": kept[True, False],
            "reverse_only_surviving": kept[False, True],
            "dropped": kept[False, False],
        },
        "reads": {side: sides[side].fields() for side in SIDES},
        "steps": [
            {"step": step, **{side: dict(zip(("shortened", "dropped"), sides[side].did[place]))
                              for side in SIDES}}
            for place, step in enumerate(steps)
        ],
    }


def pairs_of(kind):
    random.seed(34)
    if kind == "none":
        return []
    if kind == "one":
        return [(("ACGTN"[place % 5], [30 + place % 9]), ("C", [38])) for place in range(20)]
    if kind == "alike":
        return [((40 * "C", 40 * [35]), (40 * "C", 40 * [35]))] * 20
    if kind == "other":
        return [((19 * "A" + "RY" + 19 * "C", 40 * [33]), (20 * "GT", 40 * [36]))] * 20
    lengths = {
        "plain": [(150, 150)] * 500,
        "small": [(40, 38)] * 20,
        "lane": [(40, 38)] * 20,
        "long": [(100, 90)] * 49 + [(10_250, 12_000)],
        "longest": [(12_345, 23_456)] * 12,
    }
    return [(drawn(forward, 12), drawn(reverse, 22)) for forward, reverse in lengths[kind]]


def adapters(kind, pairs):
    """What tibzharuk trim says of cutadapt in its report."""
    forward = {"bases_removed": 1234, "pairs_with_adapter": 17}
    options, removed = ["-a", "ACGT"], 0
    reverse = {"bases_removed": 0, "pairs_with_adapter": None}
    if kind in ("plain", "lane"):
        options, removed = options + ["-A", "A{10}", "-m", "20"], 25
        reverse = {"bases_removed": 1, "pairs_with_adapter": 0}
    return {
        "program": "cutadapt",
        "version": "4.2",
        "options": options,
        "pairs_read": pairs + removed,
        "pairs_removed": removed,
        "forward": forward,
        "reverse": reverse,
    }


WARNINGS = {
    "plain": ["s1_L001_R1.fq.gz may be cut: the end block of BGZF is missing"],
    "small": ["all pairs were dropped"],
    "lane": ["a<b>.gz & c.gz: the first reads of both sides have the number 1",
             "s1_L001_R1.fq.gz may be cut: the end block of BGZF is missing"],
}


def main(kind, path):
    made = report(pairs_of(kind), 1 if kind == "one" else 36)
    if kind in ("plain", "lane", "small"):
        made["adapters"] = adapters(kind, made["pairs"]["input"])
        made["warnings"] = WARNINGS[kind]
    elif kind == "none":
        made.update(adapters=None, adapters_auto="none")
    with open(path, "w", encoding="utf-8") as file:
        json.dump(made, file, sort_keys=True, separators=(",", ":"))
        file.write("\n")


if __name__ == "__main__":
    main(*sys.argv[1:])
