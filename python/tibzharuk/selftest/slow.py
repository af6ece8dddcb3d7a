"""Trims pairs as docs/FORMAT.md says, slowly and in plain Python, to compare with the command. It
shares no code with the command or with fq_prog: it imports nothing of this package.

usage: slow.py FORWARD REVERSE DIRECTORY STEP..

Reads two files of Sanger's encoding, plain or compressed by gzip. Writes p1.fq, u1.fq, p2.fq,
u2.fq, trim.log and summary.txt into DIRECTORY.
"""

import gzip
import itertools
import os
import sys
from typing import (IO, Any, Callable, Dict, Iterable, Iterator, List, Mapping, NamedTuple,
                    Optional, Tuple)

SIDES = ("forward", "reverse")
READS = {"forward": ("p1.fq", "u1.fq"), "reverse": ("p2.fq", "u2.fq")}
LOG, SUMMARY = "trim.log", "summary.txt"
PAIRS = {
    "input": "Input Read Pairs",
    "both_surviving": "Both Surviving",
    "forward_only_surviving": "Forward Only Surviving",
    "reverse_only_surviving": "Reverse Only Surviving",
    "dropped": "Dropped",
}
# By whether each mate survives.
OF_PAIR = {(True, True): "both_surviving", (True, False): "forward_only_surviving",
           (False, True): "reverse_only_surviving", (False, False): "dropped"}
PRINTABLE = bytes(range(33, 127))
# The Phred score of each quality byte, by the encoding.
SOLEXA = (1, 1, 2, 2, 3, 3, 4, 4, 5, 5, 6, 7, 8, 9, 10)
SCORES = {
    "sanger": {byte: byte - 33 for byte in range(33, 127)},
    "illumina13": {byte: byte - 64 for byte in range(64, 127)},
    "solexa": {byte: SOLEXA[byte - 59] if byte < 74 else byte - 64 for byte in range(59, 127)},
}
Steps = List[Tuple[str, List[int]]]
Kept = Tuple[int, int]      # from which place on bases remain, and up to which


class Broken(Exception):
    """A rule of the format that a text breaks, and where."""


class Record(NamedTuple):
    title: bytes
    bases: bytes
    quality: bytes


# Reading

def lines_of(path: str) -> Iterator[bytes]:
    """The lines of a text without their ends."""
    with open(path, "rb") as file:
        is_packed = file.read(2) == b"\x1f\x8b"
    with gzip.open(path) if is_packed else open(path, "rb") as lines:
        for line in lines:
            line = line[:-1] if line.endswith(b"\n") else line
            yield line[:-1] if line.endswith(b"\r") else line


def records(lines: Iterator[bytes], side: str, allowed: bytes) -> Iterator[Record]:
    """The records of a text, whose quality bytes are among those that are allowed."""
    number = 0
    for title in lines:
        if not title:
            continue
        number += 1

        def need(good: bool, kind: str) -> None:
            if not good:
                raise Broken(f"{side} record {number}: {kind}")
        need(title.startswith(b"@"), "NoTitle")
        bases = quality = plus = b""
        for line in lines:
            if line.startswith(b"+"):
                plus = line
                break
            need(not line.startswith(b"@") and not line.translate(None, PRINTABLE), "BadSequence")
            bases += line
        need(plus != b"", "NoPlus")
        need(plus[1:] in (b"", title[1:]), "PlusDiffers")
        while len(quality) < len(bases):
            part = next(lines, None)
            need(part is not None, "QualityShort")
            quality += part or b""
            need(len(quality) <= len(bases), "QualityLong")
            need(not quality.translate(None, allowed), "BadQuality")
        yield Record(title[1:], bases, quality)


def name_of(title: bytes, ending: bytes) -> bytes:
    """The title up to the first space or tab, without /1 or /2."""
    name = title.partition(b" ")[0].partition(b"\t")[0]
    return name[:-2] if name.endswith(ending) else name


# Steps

def leading(scores: bytes, t: int) -> Kept:
    return next((at for at, score in enumerate(scores) if score >= t), len(scores)), len(scores)


def trailing(scores: bytes, t: int) -> Kept:
    return 0, next((end for end in range(len(scores), 0, -1) if scores[end - 1] >= t), 0)


def sliding_window(scores: bytes, w: int, t: int) -> Kept:
    """The first window that is too poor ends the read: what remains ends with the last base of a
    good score before that window's last base."""
    poor = [at for at in range(len(scores) - w + 1) if sum(scores[at:at + w]) < w * t][:1]
    if len(scores) < w or poor == [0]:
        return 0, 0
    return trailing(scores[:poor[0] + w - 1] if poor else scores, t)


RULES: Dict[str, Callable[..., Kept]] = {
    "LEADING": leading,
    "TRAILING": trailing,
    "SLIDINGWINDOW": sliding_window,
    "CROP": lambda scores, m: (0, min(m, len(scores))),
    "HEADCROP": lambda scores, m: (m, len(scores)),
    "AVGQUAL": lambda scores, t: (0, len(scores) if sum(scores) >= t * len(scores) else 0),
    "MINLEN": lambda scores, m: (0, len(scores) if len(scores) >= m else 0),
    "TOPHRED33": lambda scores: (0, len(scores)),
}


def steps_of(words: Iterable[str]) -> Steps:
    """The steps with their numbers. A word that is none raises ValueError or KeyError."""
    steps = [(word.split(":")[0], [int(each) for each in word.split(":")[1:]]) for word in words]
    for name, numbers in steps:
        RULES[name](b"", *numbers)
    return steps


def kept(scores: bytes, steps: Steps, did: List[Dict[str, int]]) -> Kept:
    """What remains of a read after all steps, which is noted of each step."""
    start, end = 0, len(scores)
    for (name, numbers), noted in zip(steps, did):
        first, last = RULES[name](scores[start:end], *numbers)
        if first >= last:
            noted["dropped"] += 1
            return 0, 0
        noted["shortened"] += last - first < end - start
        start, end = start + first, start + last
    return start, end


# Counting and writing

def counts_of(bases: bytes = b"", scores: bytes = b"") -> Dict[str, int]:
    """What is counted of a read."""
    def good(t: int) -> int:
        return len(scores.translate(None, bytes(range(t))))

    def letters(some: bytes) -> int:
        return len(bases) - len(bases.translate(None, some))
    return {"reads": int(bases != b""), "bases": len(bases), "q20_bases": good(20),
            "q30_bases": good(30), "score_sum": sum(scores), "gc_bases": letters(b"GCgc"),
            "n_bases": letters(b"Nn")}


def add(total: Dict[str, int], more: Dict[str, int]) -> None:
    for name, number in more.items():
        total[name] += number


class Side:
    """One side of the pairs: what is counted, and how a read is trimmed."""

    def __init__(self, side: str, steps: Steps, encoding: str) -> None:
        self.number = SIDES.index(side) + 1
        self.steps = steps
        self.scores = bytes(SCORES[encoding].get(byte, 0) for byte in range(256))
        self.recodes = any(name == "TOPHRED33" for name, _ in steps)
        self.counts = {part: counts_of() for part in ("before", "paired", "unpaired")}
        self.did = [{"shortened": 0, "dropped": 0} for _ in steps]

    def trim(self, record: Record) -> Tuple[bytes, bytes, Dict[str, int]]:
        """The text of what remains, which is empty if the read is dropped, its line of the log, and
        its counts."""
        scores = record.quality.translate(self.scores)
        add(self.counts["before"], {**counts_of(record.bases, scores), "reads": 1})
        start, end = kept(scores, self.steps, self.did)
        numbers = (end - start, start, end, len(scores) - end) if start < end else (0, 0, 0, 0)
        line = b"%s %d %d %d %d\n" % (name_of(record.title, b"/%d" % self.number), *numbers)
        if start == end:
            return b"", line, counts_of()
        quality = bytes(33 + each for each in scores) if self.recodes else record.quality
        text = b"@%s\n%s\n+\n%s\n" % (record.title, record.bases[start:end], quality[start:end])
        return text, line, counts_of(record.bases[start:end], scores[start:end])


def pairs_of(paths: Iterable[str], encoding: str, most: Optional[int]
             ) -> Iterator[Tuple[Record, Record]]:
    """The pairs of two texts, or the first of them."""
    allowed = bytes(SCORES[encoding])
    both = [records(lines_of(path), side, allowed) for path, side in zip(paths, SIDES)]
    for number, pair in enumerate(itertools.islice(itertools.zip_longest(*both), most), 1):
        forward, reverse = pair
        if forward is None or reverse is None:
            raise Broken(f"{SIDES[reverse is None]} record {number}: MateMissing")
        if name_of(forward.title, b"/1") != name_of(reverse.title, b"/2"):
            raise Broken(f"record {number}: NamesDiffer")
        yield forward, reverse


def trim(pairs: Iterable[Tuple[Record, Record]], words: List[str], encoding: str,
         files: Mapping[str, IO[bytes]]) -> Dict[str, Any]:
    """Writes the texts of the outputs into these files, by their names, and returns what a report
    counts, with its names."""
    sides = [Side(side, steps_of(words), encoding) for side in SIDES]
    counts = dict.fromkeys(PAIRS, 0)
    for pair in pairs:
        done = [side.trim(record) for side, record in zip(sides, pair)]
        survive = [text != b"" for text, _, _ in done]
        for side, name, (text, line, counted) in zip(sides, SIDES, done):
            files[LOG].write(line)
            files[READS[name][not all(survive)]].write(text)
            add(side.counts["paired" if all(survive) else "unpaired"], counted)
        counts["input"] += 1
        counts[OF_PAIR[survive[0], survive[1]]] += 1
    files[SUMMARY].write("".join(f"{PAIRS[name]}: {counts[name]}\n" for name in PAIRS).encode())
    return {
        "pairs": counts,
        "reads": {name: side.counts for name, side in zip(SIDES, sides)},
        "steps": [{"step": word, "forward": sides[0].did[at], "reverse": sides[1].did[at]}
                  for at, word in enumerate(words)],
    }


def trim_into(folder: str, paths: Iterable[str], words: List[str], encoding: str = "sanger",
              most: Optional[int] = None) -> Dict[str, Any]:
    """Trims two files, or their first pairs, into a directory. Returns the counts."""
    names = [*READS["forward"], *READS["reverse"], LOG, SUMMARY]
    files = {name: open(os.path.join(folder, name), "wb") for name in names}
    try:
        return trim(pairs_of(paths, encoding, most), words, encoding, files)
    finally:
        for file in files.values():
            file.close()


if __name__ == "__main__":
    if len(sys.argv) < 5:
        sys.exit(__doc__)
    trim_into(sys.argv[3], sys.argv[1:3], sys.argv[4:])
