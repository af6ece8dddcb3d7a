"""The report of a run and its checksums: whether they are those of the program and of the files."""

import json
import os
from typing import Any, Dict, List, Tuple

from ..trim.arguments import ENDINGS
from ..trim.checksums import sha256_of
from .cases import KEPT, TWO, Sums, call
from .checks import Case, Check, judged
from .runs import Lab, sum_of

SERVES = "checksums: a run names its program, its inputs and its outputs by checksums"
REPORT, CHECKSUMS = "s.json", "s.sha256"
RESULTS = {"paired1": "p1.fq", "unpaired1": "u1.fq", "paired2": "p2.fq", "unpaired2": "u2.fq"}


def case_of(sums: Sums) -> Case:
    """A run that keeps all that can be kept of it."""
    made = {f"s{ENDINGS[role]}": sums[name] for role, name in RESULTS.items()}
    return Case(KEPT, "the report of a run, and its checksums", SERVES,
                call("1.fq.gz", "2.fq.gz", "--checksums"), TWO, made=made,
                others=(REPORT, "s.html", CHECKSUMS))


def named_by(report: Dict[str, Any]) -> List[str]:
    """The checksums of the program and of the inputs, as a report names them."""
    made = report["provenance"][0]
    inputs = [f"{each['name']} has SHA-256 {each['sha256']}" for each in made["inputs"]]
    return [f"fq_prog has SHA-256 {made['fq_prog_sha256']}", *inputs]


def wrong_lines(folder: str) -> List[str]:
    """The lines of the checksums that aren't those of their files, and files that have none."""
    with open(os.path.join(folder, CHECKSUMS), encoding="utf-8") as file:
        lines = [line.rstrip("\n").split("  ", 1) for line in file]
    wrong = [name for checksum, name in lines if sha256_of(os.path.join(folder, name)) != checksum]
    there = {name for name in os.listdir(folder) if name.startswith("s.")} - {CHECKSUMS}
    return wrong + sorted(there - {name for _, name in lines})


def facts(folder: str) -> Tuple[List[str], str]:
    """What the report names, and whether the checksums fit."""
    try:
        with open(os.path.join(folder, REPORT), encoding="utf-8") as file:
            named = named_by(json.load(file))
        return named, fit(wrong_lines(folder))
    except (OSError, ValueError, LookupError, TypeError) as error:
        return [f"no record: {error}"], fit([CHECKSUMS])


def fit(wrong: List[str]) -> str:
    return f"{CHECKSUMS} isn't right about {', '.join(wrong)}" if wrong else f"{CHECKSUMS} is right"


def check(lab: Lab, sums: Sums, program: str) -> Check:
    """The check of such a run by the program of this checksum."""
    case = case_of(sums)
    done = judged(case, lab.run(case))
    named, fits = facts(lab.last_room)
    wanted = [f"fq_prog has SHA-256 {program}"]
    wanted += [f"{name} has SHA-256 {sum_of(lab.inputs[key])}" for name, key in TWO.items()]
    return done._replace(must=[*done.must, *wanted, fit([])], found=[*done.found, *named, fits])
