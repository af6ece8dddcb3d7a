"""The first pairs of a laboratory's own reads, by the command and by the slow program, which shares
no code with it."""

import gzip
import itertools
import json
import os
import subprocess
from typing import IO, Any, Dict, Iterator, List, NamedTuple, Sequence, Tuple, cast

from . import slow
from .cases import RIGHT, named
from .checks import Check, last_line, line_fact, status_fact
from .runs import command_words, sum_of_file

GROUP = "The laboratory's own reads"
REPORT = "report.json"
READ, EQUAL = "the slow program reads them", "all are equal"


class Asked(NamedTuple):
    """Which reads are compared, and how they are trimmed."""

    forward: str
    reverse: str
    pairs: int
    encoding: str
    steps: Sequence[str]

    def paths(self) -> List[str]:
        return [os.path.abspath(path) for path in (self.forward, self.reverse)]


def words_of(asked: Asked) -> List[str]:
    """The words that trim them by the command."""
    forward, reverse = asked.paths()
    return ["trim", "-1", forward, "-2", reverse, "--pairs", str(asked.pairs),
            "--encoding", asked.encoding, *named(".gz"), "--trimlog", slow.LOG,
            "--summary", slow.SUMMARY, "--report", REPORT, "--", *asked.steps]


def differences(wanted: Any, found: Any, place: str = "") -> Iterator[Tuple[str, Any, Any]]:
    """The counts of the slow program that a report doesn't have: where, what must be, and what
    is."""
    if isinstance(wanted, dict):
        for name, each in wanted.items():
            inner = found.get(name) if isinstance(found, dict) else None
            yield from differences(each, inner, f"{place}.{name}" if place else name)
    elif isinstance(wanted, list):
        others = found if isinstance(found, list) else []
        for number, (each, other) in enumerate(itertools.zip_longest(wanted, others)):
            yield from differences(each, other, f"{place}[{number}]")
    elif wanted != found:
        yield place, wanted, found


def first_difference(one: IO[bytes], other: IO[bytes]) -> int:
    """The number of the first line that differs."""
    pairs = itertools.zip_longest(one, other)
    return next((number for number, (line, given) in enumerate(pairs, 1) if line != given), 0)


def opened(path: str) -> IO[bytes]:
    """A file, decompressed if its name says that it is compressed."""
    return cast(IO[bytes], gzip.open(path) if path.endswith(".gz") else open(path, "rb"))


def compared(name: str, wanted: str, found: str) -> Check:
    """The check of an output, by the files of both programs."""
    must, given = ([f"SHA-256 {sum_of_file(path)}"] for path in (wanted, found))
    if must != given:
        with open(wanted, "rb") as one, opened(found) as other:
            given.append(f"line {first_difference(one, other)} is the first that differs")
    return Check(GROUP, f"{os.path.basename(found)}, as the slow program makes it",
                 RIGHT, must, given)


def counts_check(wanted: Dict[str, Any], report: str) -> Check:
    with open(report, "rb") as file:
        found = list(differences(wanted, json.load(file)))
    return Check(GROUP, "the counts of the report, as the slow program counts", RIGHT,
                 [f"{place} is {count}" for place, count, _ in found] or [EQUAL],
                 [f"{place} is {count}" for place, _, count in found] or [EQUAL])


def checks(asked: Asked, folder: str) -> Iterator[Check]:
    """Trims by both programs in two directories below this one, and compares."""
    ours, theirs = os.path.join(folder, "command"), os.path.join(folder, "slow")
    for room in ours, theirs:
        os.mkdir(room)
    done = subprocess.run(command_words(words_of(asked)), cwd=ours, stdin=subprocess.DEVNULL,
                          stdout=subprocess.DEVNULL, stderr=subprocess.PIPE)
    said = last_line(done.stderr.decode("utf-8", "replace"))
    found = [status_fact(done.returncode)] + ([line_fact(said)] if done.returncode else [])
    counts: Dict[str, Any] = {}
    try:
        counts = slow.trim_into(theirs, asked.paths(), list(asked.steps), asked.encoding,
                                asked.pairs)
        found.append(READ)
    except (slow.Broken, OSError, EOFError) as why:
        found.append(f"the slow program stops: {why}")
    yield Check(GROUP, "both programs read them to the end", RIGHT, [status_fact(0), READ], found)
    if done.returncode or not counts:
        return
    for names in slow.READS.values():
        for name in names:
            yield compared(name, os.path.join(theirs, name), os.path.join(ours, f"{name}.gz"))
    for name in slow.LOG, slow.SUMMARY:
        yield compared(name, os.path.join(theirs, name), os.path.join(ours, name))
    yield counts_check(counts, os.path.join(ours, REPORT))


def facts(asked: Asked) -> Dict[str, str]:
    """What the record says of the reads."""
    sizes = [f"{path} ({os.path.getsize(path):,} bytes)" for path in (asked.forward, asked.reverse)]
    return {"forward reads": sizes[0], "reverse reads": sizes[1],
            "pairs compared": f"the first {asked.pairs:,}, or all if there are fewer",
            "encoding": asked.encoding, "steps": " ".join(asked.steps)}
