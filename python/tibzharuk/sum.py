"""Adds up reports, such as those of the lanes of a sample.

    tibzharuk sum --paired1 s1.1.fq.gz .. s1_L001.json s1_L002.json > s1.json

If each lane of a sample is trimmed by itself, and the outputs of the lanes are
joined in order, they have the reads of one run over all lanes. The sum has the
counts that the report of that run would have. It names the inputs of all
REPORTs, in their order, and has the warnings of all, each once, and how each
run was made. It names the outputs that are given here, or otherwise those of
all REPORTs.

The REPORTs must be of the same version, steps and settings, and of runs that
read their inputs to the end, without --pairs, each of another lane. Otherwise
nothing is printed, and one line on standard error says why, with status 1.
Unknown arguments end with status 2.
"""

import argparse
import json
import os
import sys
from typing import Any, Dict, List, Optional, Sequence

from .report.reading import (
    MOST_COUNT,
    SIDES,
    Refused,
    Report,
    added_rows,
    both,
    plain,
    read_report,
)

# The names of the outputs in a report, by the options that give them.
OUTPUTS = {
    "paired1": "forward_paired",
    "unpaired1": "forward_unpaired",
    "paired2": "reverse_paired",
    "unpaired2": "reverse_unpaired",
    "trimlog": "trim_log",
}
# What must be the same in all reports. Some have no `schema`, and some no `adapters_auto`.
SAME = ("schema", "program", "version", "command", "encoding", "name_check", "adapters_auto")
ADDED = (
    "adapters", "inputs", "outputs", "outcome", "fault", "pairs", "provenance", "reads", "steps",
    "through", "warnings")
SUMMARY = {
    "input": "Input Read Pairs",
    "both_surviving": "Both Surviving",
    "forward_only_surviving": "Forward Only Surviving",
    "reverse_only_surviving": "Reverse Only Surviving",
    "dropped": "Dropped",
}


def must_match(path: str, report: Report, first: Report) -> None:
    """Refuses a report that isn't of a whole run with the settings of the first."""
    if report["outcome"] != "finished":
        raise Refused(f"{path}: its run stopped at a fault: {report['fault']}")
    if "first_pairs" in report:
        raise Refused(f"{path}: its run took only the first pairs (--pairs)")
    for name in SAME:
        found, wanted = (each.get(name, "missing") for each in (report, first))
        if found != wanted:
            raise Refused(f"{path}: {name} is {found}, not {wanted}")
    steps = [[step["step"] for step in each["steps"]] for each in (report, first)]
    if steps[0] != steps[1]:
        raise Refused(f"{path}: its steps are {' '.join(steps[0])}, not {' '.join(steps[1])}")
    if without_counts(report.get("adapters")) != without_counts(first.get("adapters")):
        raise Refused(f"{path}: its adapters were removed in another way")
    for name in sorted(set(report) | set(first)):
        if name not in SAME + ADDED and report.get(name) != first.get(name):
            raise Refused(f"{path}: {name} can't be added up")


def is_same_lane(report: Report, other: Report) -> bool:
    """Whether two reports are of the same inputs, with the same counts of some pairs: the outputs
    may have other names, and another call may have made them."""
    names = (set(report) | set(other)) - {"outputs", "provenance"}
    same = all(report.get(name) == other.get(name) for name in names)
    return same and report["pairs"]["input"] > 0


def must_be_another(path: str, report: Report, earlier: Dict[str, Report]) -> None:
    """Refuses a lane that is among earlier ones, by their paths."""
    for name, other in earlier.items():
        if os.path.realpath(path) == os.path.realpath(name) or is_same_lane(report, other):
            raise Refused(f"{plain(path)}: it is of the same lane as {plain(name)}")


def without_counts(adapters: Any) -> Any:
    """What a report says of adapters, with null for each count."""
    if isinstance(adapters, dict):
        return {name: without_counts(part) for name, part in adapters.items()}
    return None if type(adapters) is int else adapters


def added_adapters(first: Any, second: Any) -> Any:
    """What two reports count of adapters. Null is a count of what wasn't looked for."""
    if isinstance(first, dict):
        return {name: added_adapters(first[name], second[name]) for name in first}
    return first + second if type(first) is int and type(second) is int else first


def all_names(first: Any, second: Any) -> List[str]:
    """The names of two reports, each of which has one or a list."""
    lists = [names if isinstance(names, list) else [names] for names in (first, second)]
    return lists[0] + lists[1]


def each_once(items: List[Any]) -> List[Any]:
    return [item for place, item in enumerate(items) if item not in items[:place]]


def added_names(first: Dict[str, Any], second: Dict[str, Any]) -> Dict[str, Any]:
    """The names of files, and null if one of the reports has none."""
    found = {}
    for part in first:
        names = first[part], second.get(part)
        found[part] = None if None in names else all_names(*names)
    return found


def added_counts(first: Dict[str, int], second: Dict[str, int]) -> Dict[str, int]:
    return {name: first[name] + second[name] for name in first}


def added_side(first: Dict[str, Any], second: Dict[str, Any]) -> Dict[str, Any]:
    """What was counted of one side."""
    found: Dict[str, Any] = {
        part: both(first[part], second[part]) for part in ("before", "paired", "unpaired")
    }
    found["removed_bases"] = added_counts(first["removed_bases"], second["removed_bases"])
    for part in ("removed_front", "removed_behind"):
        if part in first and part in second:
            found[part] = added_rows(first[part], second[part])
    return found


def added(first: Report, second: Report) -> Report:
    """The report of one run over the inputs of both."""
    steps = [
        dict(one, **{side: added_counts(one[side], two[side]) for side in SIDES})
        for one, two in zip(first["steps"], second["steps"])
    ]
    of_trim: Dict[str, Any] = {}    # what only reports of tibzharuk trim have
    if "adapters" in first or "adapters" in second:
        both_of = (report.get("adapters") for report in (first, second))
        of_trim["adapters"] = added_adapters(*both_of)
    for name in "warnings", "through", "provenance":
        if name in first or name in second:
            of_trim[name] = each_once(first.get(name, []) + second.get(name, []))
    return dict(
        first,
        **of_trim,
        inputs=added_names(first["inputs"], second["inputs"]),
        outputs=added_names(first["outputs"], second["outputs"]),
        pairs=added_counts(first["pairs"], second["pairs"]),
        reads={side: added_side(first["reads"][side], second["reads"][side]) for side in SIDES},
        steps=steps,
    )


def limited(value: Any) -> Any:
    """A report in which no count is larger than a report can have."""
    if isinstance(value, dict):
        return {name: limited(part) for name, part in value.items()}
    if isinstance(value, (list, tuple)):
        return [limited(part) for part in value]
    return min(value, MOST_COUNT) if type(value) is int else value


def report_of_all(paths: List[str]) -> Report:
    """The sum of the reports in these files."""
    whole: Optional[Report] = None
    read: Dict[str, Report] = {}
    for path in paths:
        report = read_report(path)
        must_match(plain(path), report, whole or report)
        must_be_another(path, report, read)
        read[path] = report
        whole = added(whole, report) if whole else report
    found: Report = limited(whole)
    return found


def arguments() -> argparse.ArgumentParser:
    parser = argparse.ArgumentParser(
        prog="tibzharuk sum", description=__doc__,
        formatter_class=argparse.RawDescriptionHelpFormatter
    )
    for option, name in OUTPUTS.items():
        what = f"the name of the joined {name.replace('_', ' ')}"
        parser.add_argument(f"--{option}", metavar="OUT", help=what)
    parser.add_argument("--summary", metavar="OUT", help="write the summary of all to this file")
    said = "what was written with --report"
    parser.add_argument("reports", metavar="REPORT", nargs="+", help=said)
    return parser


def main(words: Sequence[str]) -> int:
    """Returns the status."""
    parser = arguments()
    given = parser.parse_args(words)
    try:
        whole = report_of_all(given.reports)
        for option, name in OUTPUTS.items():
            if getattr(given, option) is not None:
                whole["outputs"][name] = getattr(given, option)
        text = json.dumps(whole, ensure_ascii=False, sort_keys=True, separators=(",", ":"))
        if given.summary:
            lines = (f"{label}: {whole['pairs'][name]}\n" for name, label in SUMMARY.items())
            with open(given.summary, "w", encoding="utf-8") as out:
                out.writelines(lines)
        sys.stdout.buffer.write(text.encode("utf-8", "replace") + b"\n")
        sys.stdout.buffer.flush()
    except Refused as why:
        print(f"{parser.prog}: {why}", file=sys.stderr)
        return 1
    except OSError as error:
        name = error.filename or "the sum"
        print(f"{parser.prog}: cannot write {name}: {error.strerror}", file=sys.stderr)
        os.dup2(os.open(os.devnull, os.O_WRONLY), sys.stdout.fileno())
        return 1
    return 0
