"""The numbers that MultiQC's page shows of a report that was read and checked."""

from typing import Any, Dict, Iterable, List, Mapping, Optional, Tuple

from ..report.outliers import share_with_adapter
from ..report.reading import LAST, PAIRS, ROWS, SIDES, Reads, Report, both
from ..report.sections import raw_bases

Line = Dict[Any, float]  # y by x
MOST_POINTS = 500
MOST_NAMED = 15  # lines that MultiQC names in a picture
NO_READS = {1: 0.0, 2: 0.0}  # since a line must have two points


def are_named(lines: int, are_pictures: bool) -> bool:
    """Whether a graph of so many lines says which is whose: others have names under the mouse."""
    return 0 < lines <= (MOST_NAMED if are_pictures else lines)


def before(report: Report) -> List[Reads]:
    """What was counted of the reads of each side, as they were read."""
    return [report["reads"][side]["before"] for side in SIDES]


def after(report: Report) -> List[Reads]:
    """What was counted of the reads of each side that survive, with their mate or alone."""
    sides = [report["reads"][side] for side in SIDES]
    return [both(side["paired"], side["unpaired"]) for side in sides]


def percent(part: int, whole: int) -> Optional[float]:
    return round(100 * part / whole, 4) if whole else None


def adapter_columns(report: Report) -> Dict[str, Optional[float]]:
    """The megabases before cutadapt, and the % of reads in which it found an adapter, of those that
    it looked at. Nothing if the report, as one of fq_prog, doesn't know of cutadapt."""
    if "adapters" not in report:
        return {}
    found = share_with_adapter(report)
    return {
        "megabases_raw": raw_bases(report) / 1_000_000,
        "percent_with_adapter": None if found is None else round(found, 4),
    }


def table_row(report: Report) -> Dict[str, float]:
    """The columns of the general statistics. No percentage if the whole is zero."""
    old, new = both(*before(report)), both(*after(report))
    pairs = report["pairs"]
    values: Dict[str, Optional[float]] = {
        "pairs": pairs["input"],
        **adapter_columns(report),
        "megabases_before": old["bases"] / 1_000_000,
        "megabases_after": new["bases"] / 1_000_000,
        "percent_q30_before": percent(old["q30_bases"], old["bases"]),
        "percent_q30_after": percent(new["q30_bases"], new["bases"]),
        "percent_pairs_kept": percent(pairs["both_surviving"], pairs["input"]),
    }
    return {name: value for name, value in values.items() if value is not None}


def table_rows(reports: Mapping[str, Report]) -> Dict[str, Dict[str, float]]:
    """The rows of the general statistics. If cutadapt was used for none, raw is as before."""
    rows = {name: table_row(report) for name, report in reports.items()}
    if not any(report.get("adapters") for report in reports.values()):
        for row in rows.values():
            row.pop("megabases_raw", None)
    return rows


def pairs_bar(report: Report) -> List[int]:
    """The pairs of which both mates survive, the forward one, the reverse one, and none."""
    return [report["pairs"][name] for name in PAIRS]


def dropped_bars(report: Report) -> List[Dict[str, int]]:
    """The reads that each step dropped, for each side."""
    steps = [(f"{place}. {step['step']}", step) for place, step in enumerate(report["steps"], 1)]
    return [{name: step[side]["dropped"] for name, step in steps} for side in SIDES]


def shares(rows: Iterable[Tuple[int, int]], most: int) -> Line:
    """The % of reads at each number that occurs, with a zero on both sides."""
    numbers = dict(rows)
    reads = sum(numbers.values())
    near = {place for number in numbers for place in (number - 1, number, number + 1)}
    places = [place for place in sorted(near) if 0 <= place <= most]
    found = {place: round(100 * numbers.get(place, 0) / reads, 4) for place in places}
    return found or dict(NO_READS)


def length_line(reads: Reads) -> Line:
    """Reads by length."""
    return shares(reads["lengths"], ROWS["lengths"])


def mean_line(reads: Reads) -> Line:
    """Reads by mean score."""
    return shares(reads["mean_scores"], ROWS["mean_scores"])


def score_line(reads: Reads) -> Line:
    """The mean score by position, or by the middle of neighbours if there are many positions."""
    places = list(zip(reads["positions"]["bases"], reads["positions"]["score_sum"]))[: LAST - 1]
    size = max(-(-len(places) // MOST_POINTS), 1)
    found = {}  # type: Line
    for first in range(0, len(places), size):
        bases, scores = (sum(each) for each in zip(*places[first : first + size]))
        if bases:
            middle = (first + 1 + min(first + size, len(places))) / 2
            found[int(middle) if middle.is_integer() else middle] = round(scores / bases, 4)
    return found or dict(NO_READS)


def removed_line(side: Dict[str, Any], end: str) -> Line:
    """The reads that survive by the bases that they lost at one end. Those that lost none aren't
    drawn, but count."""
    line = shares(side[f"removed_{end}"], LAST)
    return {place: share for place, share in line.items() if place} or dict(NO_READS)
