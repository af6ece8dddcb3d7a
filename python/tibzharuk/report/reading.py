"""Reads the reports that fq_prog writes with --report, and refuses whatever else a file holds.

`read_report` gives a report as json.load does, after all fields that the scripts of this directory
show were checked; docs/FORMAT.md lists them. Other fields are kept as they are. `both` adds up the
counts of two sets of reads, such as those that survive with their mate and those that survive
alone.
"""

import itertools
import json
from typing import Any, Callable, Dict, Iterable, List, Mapping, Optional, Sequence, Tuple

Report = Dict[str, Any]
Reads = Dict[str, Any]  # what a report counts of one set of reads
Rows = Sequence[Tuple[int, int]]  # a number, and how many reads have it
Form = Callable[[Any, str], None]  # takes a value and the name of its place, and may refuse it

SIDES = ("forward", "reverse")
PAIRS = ("both_surviving", "forward_only_surviving", "reverse_only_surviving", "dropped")
COUNTS = ("reads", "bases", "q20_bases", "q30_bases", "score_sum", "gc_bases", "n_bases")
# (made by packaging/made.py: names-of-positions)
POSITIONS = ("bases", "score_sum", "q30_bases", "a", "c", "g", "t", "n")
# (end of names-of-positions)
LAST = 10_001  # means this many or more, in lengths, positions and removed bases
ROWS = {"lengths": LAST, "mean_scores": 255, "gc_percents": 100}
NEWEST_SCHEMA = 2
MOST_BYTES = 64 * 1024 * 1024
MOST_COUNT = 2**64 - 1


class Refused(Exception):
    """One line that says why a file is refused."""


class TooNew(Refused):
    """The form of the report is newer than this module."""


def plain(text: str) -> str:
    """Text on one line: characters that can't be printed become escapes."""
    escaped = (c.encode("unicode_escape").decode("ascii") for c in text)
    return "".join(c if c.isprintable() else other for c, other in zip(text, escaped))


# What a report must be, as far as it is used.


def need(good: bool, place: str, what: str) -> None:
    if not good:
        raise Refused(f"{place or 'it'} {what}")


def is_count(value: Any) -> bool:
    return type(value) is int and 0 <= value <= MOST_COUNT


def count(value: Any, place: str) -> None:
    need(is_count(value), place, "is not a count")


def text(value: Any, place: str) -> None:
    need(isinstance(value, str), place, "is not text")


def truth(value: Any, place: str) -> None:
    need(isinstance(value, bool), place, "is neither true nor false")


def or_null(form: Form) -> Form:
    def check(value: Any, place: str) -> None:
        if value is not None:
            form(value, place)

    return check


def names(value: Any, place: str) -> None:
    need(isinstance(value, dict), place, "is not an object")
    for name, given in value.items():
        listed = given if isinstance(given, list) else [given]
        good = given is None or all(isinstance(one, str) for one in listed)
        need(good, f"{place}.{name}", "is neither a name nor a list of names")


def texts(value: Any, place: str) -> None:
    need(isinstance(value, dict), place, "is not an object")
    for name, given in value.items():
        text(given, f"{place}.{name}")


def rows(most: int) -> Form:
    """[number, count] for numbers up to `most`, in rising order."""

    def check(value: Any, place: str) -> None:
        need(isinstance(value, list), place, "is not a list")
        before = -1
        for row in value:
            good = isinstance(row, list) and len(row) == 2 and all(map(is_count, row))
            need(good, place, "has a row that isn't two counts")
            good = before < row[0] <= most
            need(good, place, f"has numbers that don't rise, or one above {most}")
            before = row[0]

    return check


def each(form: Form) -> Form:
    """A list whose items have this form."""

    def check(value: Any, place: str) -> None:
        need(isinstance(value, list), place, "is not a list")
        for number, item in enumerate(value):
            form(item, f"{place}[{number}]")

    return check


def fields(required: Mapping[str, Form], optional: Optional[Mapping[str, Form]] = None) -> Form:
    """An object with these fields. Unknown fields are ignored."""
    forms = dict(required, **dict(optional or {}))

    def check(value: Any, place: str) -> None:
        need(isinstance(value, dict), place, "is not an object")
        for name in required:
            need(name in value, place, f"has no {name}")
        for name, form in forms.items():
            if name in value:
                form(value[name], f"{place}.{name}" if place else name)

    return check


def positions(value: Any, place: str) -> None:
    fields({name: each(count) for name in POSITIONS})(value, place)
    longest = len(value["bases"])
    same = all(len(value[name]) == longest for name in POSITIONS)
    need(longest <= LAST and same, place, "has lists of other lengths")


READS = fields(
    {
        **{name: count for name in COUNTS},
        "shortest": or_null(count),
        "longest": or_null(count),
        "lengths": rows(ROWS["lengths"]),
    },
    {
        "positions": positions,
        "mean_scores": rows(ROWS["mean_scores"]),
        "gc_percents": rows(ROWS["gc_percents"]),
    },
)
SIDE = fields(
    {
        "before": READS,
        "paired": READS,
        "unpaired": READS,
        "removed_bases": fields({"front": count, "behind": count}),
    },
    {"removed_front": rows(LAST), "removed_behind": rows(LAST)},
)
DONE = fields({"shortened": count, "dropped": count})
ADAPTERS_SIDE = fields({"pairs_with_adapter": or_null(count), "bases_removed": count})
ADAPTERS = fields(
    {
        "program": text,
        "version": text,
        "options": each(text),
        "pairs_read": count,
        "pairs_removed": count,
        **{side: ADAPTERS_SIDE for side in SIDES},
    }
)
MADE = fields(
    {
        "call": each(text),
        "fq_prog_sha256": or_null(text),
        "inputs": each(fields({"name": text, "bytes": or_null(count), "sha256": or_null(text)})),
        "programs": texts,
    }
)
REPORT = fields(
    {
        "program": text,
        "version": text,
        "command": text,
        "encoding": text,
        "name_check": truth,
        "outcome": text,
        "fault": or_null(text),
        "inputs": names,
        "outputs": names,
        "pairs": fields({name: count for name in ("input",) + PAIRS}),
        "reads": fields({side: SIDE for side in SIDES}),
        "steps": each(fields({"step": text, "forward": DONE, "reverse": DONE})),
    },
    {
        "schema": count,
        "adapters": or_null(ADAPTERS),
        "adapters_auto": text,
        "first_pairs": count,
        "provenance": each(MADE),
        "through": each(text),
        "warnings": each(text),
    },
)


def add_up(parts: Iterable[int], whole: int, place: str) -> None:
    """A sum that is larger than a count can be is written as the largest count."""
    need(min(sum(parts), MOST_COUNT) == whole, place, "don't add up")


def reads_add_up(reads: Reads, place: str) -> None:
    add_up((row[1] for row in reads["lengths"]), reads["reads"], f"{place}.lengths")
    if "positions" in reads:
        add_up(reads["positions"]["bases"], reads["bases"], f"{place}.positions")
    for name in ("mean_scores", "gc_percents"):
        some = sum(row[1] for row in reads.get(name, []))
        need(some <= reads["reads"], f"{place}.{name}", "have more reads than there are")


def check(report: Any) -> None:
    """Raises Refused, with the place and what is wrong there, unless this is a report."""
    schema: Any = report.get("schema") if isinstance(report, dict) else None
    if is_count(schema) and schema > NEWEST_SCHEMA:
        raise TooNew(
            f"a report of a later version (its schema is {schema}, and this program reads "
            f"{NEWEST_SCHEMA} and older)"
        )
    REPORT(report, "")
    add_up((report["pairs"][name] for name in PAIRS), report["pairs"]["input"], "pairs")
    for side in SIDES:
        for part in ("before", "paired", "unpaired"):
            reads_add_up(report["reads"][side][part], f"reads.{side}.{part}")


def read_report(path: str) -> Report:
    """The report in a file. Whatever else the file holds is refused."""
    try:
        with open(path, "rb") as file:
            content = file.read(MOST_BYTES + 1)
    except OSError as error:
        raise Refused(f"cannot read {plain(path)}: {error.strerror}") from error
    try:
        need(len(content) <= MOST_BYTES, "", "is too large")
        report: Report = json.loads(content.decode("utf-8"))
        check(report)
    except TooNew as why:
        raise TooNew(f"{plain(path)}: {why}") from why
    except Refused as why:
        raise Refused(f"{plain(path)}: not a report of fq_prog: {plain(str(why))}") from why
    except (ValueError, RecursionError) as error:
        wrong = "it is not JSON, or it is truncated"
        raise Refused(f"{plain(path)}: not a report of fq_prog: {wrong}") from error
    return report


def sums(a: List[int], b: List[int]) -> List[int]:
    return [x + y for x, y in itertools.zip_longest(a, b, fillvalue=0)]


def added_rows(a: Rows, b: Rows) -> Rows:
    """The rows [number, reads] of two sets of reads as those of one set, in rising order."""
    found = dict(a)
    for number, reads in b:
        found[number] = found.get(number, 0) + reads
    return sorted(found.items())


def both(a: Reads, b: Reads) -> Reads:
    """The counts of two sets of reads as those of one set.

    A field that one of them lacks is left out."""
    whole: Reads = {name: a[name] + b[name] for name in COUNTS}
    for name, pick in (("shortest", min), ("longest", max)):
        known = [reads[name] for reads in (a, b) if reads[name] is not None]
        whole[name] = pick(known) if known else None
    for name in ROWS:
        if name in a and name in b:
            whole[name] = added_rows(a[name], b[name])
    if "positions" in a and "positions" in b:
        whole["positions"] = {
            name: sums(a["positions"][name], b["positions"][name]) for name in POSITIONS
        }
    return whole
