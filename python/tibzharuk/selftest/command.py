"""Checks this installation, and makes a record of it to be signed.

    tibzharuk selftest --html check.html --json check.json
    tibzharuk selftest --html check.html --reads s_R1.fq.gz s_R2.fq.gz

Runs the installed command, as a user does, over reads that are installed with
it, in a new directory that it removes. It needs no network and no rights. It
compares the program's SHA-256 with that of the release, results of plain,
compressed and interleaved files with known ones, by one and by four threads,
and each step with its worked examples. It gives the command reads with
adapters, broken inputs, a full disk and a signal. Each check says what must be,
what is, and which promise of the documents it is about. A check that needs
cutadapt isn't tried without it, and the record says so.

With --reads it also trims the first pairs of your own reads, by the command and
by a slow program, which is written in plain Python from docs/FORMAT.md alone
and shares no code with the command. It compares all outputs, the log, the
summary and the counts of the report. 100,000 pairs take about a minute.

The record is printed while it is made. --html writes it as a page to sign, and
--json for an inventory. docs/GUIDE.md has a chapter for quality managers.

The status is 0 if all checks passed, and 1 if one failed or the record can't be
written. Unknown arguments end with status 2.
"""

import argparse
import os
import signal
import sys
import tempfile
from typing import Any, Dict, Iterator, List, NoReturn, Optional, Sequence

from ..trim.files import holds_reads
from ..trim.tools import which
from . import own_reads, recorded, slow
from .cases import STEPS, all_cases, worked_inputs, worked_results
from .checks import Check, judged, not_tried, status_of
from .inputs import in_turn, inputs_of
from .machine import Installed, machine
from .matrix import claims, matrix_text
from .record import Record, json_of, last_text, lines_of, page_of
from .runs import PACKAGE, Lab, sum_of

ROOT = os.path.dirname(os.path.dirname(PACKAGE))
EXAMPLES = os.path.join(ROOT, "examples")
RESULTS = ("p1.fq", "u1.fq", "p2.fq", "u2.fq", "trim.log", "summary.txt")
MOST_PAIRS = 10 ** 9


class Refused(Exception):
    """One line that says why there is no record."""


class Stopped(Exception):
    """A signal ends the check."""


def arguments() -> argparse.ArgumentParser:
    parser = argparse.ArgumentParser(
        prog="tibzharuk selftest", description=__doc__,
        formatter_class=argparse.RawDescriptionHelpFormatter
    )
    parser.add_argument("--html", metavar="FILE", help="write the record as a page to sign")
    parser.add_argument("--json", metavar="FILE", help="write the record as JSON")
    parser.add_argument("--reads", metavar="FILE", nargs=2,
                        help="compare the trimming of these reads, forward and reverse, too")
    parser.add_argument("--pairs", metavar="N", type=int, default=100_000,
                        help="how many of their first pairs are compared (100000)")
    parser.add_argument("--encoding", metavar="NAME", choices=list(slow.SCORES), default="sanger",
                        help="what their quality bytes are: sanger, illumina13 or solexa (sanger)")
    parser.add_argument("--matrix", action="store_true",
                        help="only print which promise of the documents rests on what")
    parser.add_argument("steps", metavar="STEPS", nargs="*",
                        help=f"how they are trimmed ({' '.join(STEPS)})")
    return parser


def asked_for(given: argparse.Namespace) -> Optional[own_reads.Asked]:
    """The reads to be compared, if any."""
    if not given.reads:
        if given.steps:
            raise Refused("steps are for --reads")
        return None
    if not 1 <= given.pairs <= MOST_PAIRS:
        raise Refused(f"--pairs must be a number from 1 to {MOST_PAIRS}")
    for path in given.reads:
        if not os.path.isfile(path) or not os.access(path, os.R_OK):
            raise Refused(f"cannot read {path}")
    steps = given.steps or list(STEPS)
    try:
        slow.steps_of(steps)
    except (KeyError, ValueError, TypeError):
        raise Refused(f"not steps: {' '.join(steps)}")
    forward, reverse = given.reads
    return own_reads.Asked(forward, reverse, given.pairs, given.encoding, steps)


def example(name: str) -> bytes:
    try:
        with open(os.path.join(EXAMPLES, name), "rb") as file:
            return file.read()
    except OSError as error:
        raise Refused(f"the reads of the check aren't installed: {error.filename}")


def all_inputs() -> Dict[str, bytes]:
    import gzip
    reads = [gzip.decompress(example(f"reads_{number}.fq.gz")) for number in (1, 2)]
    return {**inputs_of(*reads), **worked_inputs()}


def all_sums() -> Dict[str, str]:
    """The SHA-256 of each known result."""
    texts = {name: example(os.path.join("trimmed", name)) for name in RESULTS}
    texts["i.fq"] = in_turn(texts["p1.fq"], texts["p2.fq"])
    texts["nothing"] = b""
    return {name: sum_of(text) for name, text in {**texts, **worked_results()}.items()}


def all_checks(installed: Installed, asked: Optional[own_reads.Asked],
               folder: str) -> Iterator[Check]:
    """Makes each check when it is asked for."""
    yield from installed.checks()
    lab, sums = Lab(folder, all_inputs()), all_sums()
    for case in all_cases(sums):
        if case.needs and not which(case.needs):
            yield not_tried(case)
        else:
            yield judged(case, lab.run(case))
    yield recorded.check(lab, sums, installed.sum)
    if asked:
        yield from own_reads.checks(asked, folder)


def printed(checks: Iterator[Check]) -> List[Check]:
    """All checks, each printed when it was made."""
    made: List[Check] = []
    for check in checks:
        if not made or made[-1].group != check.group:
            print(check.group)
        for line in lines_of(check):
            print(line)
        sys.stdout.flush()
        made.append(check)
    sys.stdout.write(last_text(made))
    sys.stdout.flush()
    return made


def write(path: Optional[str], data: bytes) -> None:
    if path:
        with open(path, "wb") as file:
            file.write(data)


def print_matrix() -> int:
    found = claims()
    if not found:
        raise Refused("the table of promises (claims.tsv) isn't installed")
    sys.stdout.write(matrix_text(found))
    return 0


def check(given: argparse.Namespace) -> int:
    """Makes the record, or prints the matrix. Returns the status."""
    if given.matrix:
        return print_matrix()
    asked = asked_for(given)
    for path in given.html, given.json:
        if path and holds_reads(path):
            raise Refused(f"{path} holds reads, or is compressed")
    facts, installed = machine(), Installed()
    with tempfile.TemporaryDirectory(prefix="tibzharuk.") as folder:
        checks = printed(all_checks(installed, asked, folder))
    reads = own_reads.facts(asked) if asked else {}
    record = Record(facts, installed.programs(), reads, checks, claims())
    write(given.html, page_of(record))
    write(given.json, json_of(record))
    return status_of(checks)


def stop(number: int, _: Any) -> NoReturn:
    raise Stopped(number)


def main(words: Sequence[str]) -> int:
    """Returns the status."""
    parser = arguments()
    given = parser.parse_args(words)
    for number in (signal.SIGINT, signal.SIGTERM, signal.SIGHUP):
        signal.signal(number, stop)
    try:
        return check(given)
    except Refused as why:
        print(f"{parser.prog}: {why}", file=sys.stderr)
    except OSError as error:
        name = error.filename or "the record"
        print(f"{parser.prog}: cannot write {name}: {error.strerror}", file=sys.stderr)
        os.dup2(os.open(os.devnull, os.O_WRONLY), sys.stdout.fileno())
    except Stopped as stopped:
        signal.signal(stopped.args[0], signal.SIG_DFL)
        os.kill(os.getpid(), stopped.args[0])
    return 1
