"""What is said of all samples of a run of the workflow: a row a sample, worst first, with small
drawings. It is a part of MultiQC's page, so it has names and a style of its own; no script."""

from typing import Callable, Dict, List, Mapping, Optional, Sequence

from .drawings import at_least, means, points, stairs
from .graph import Point, spans
from .outliers import MEASURES, Measure, Outside, after_of, outside, values_of, worst_first
from .reading import LAST, SIDES, Reads, Report

from .texts import mean, share, shown

WARNING = "tibzharuk: warning: "
MOST_NAMES, MOST_REASONS = 20, 3
WIDE, HIGH, MOST_POINTS = 240, 72, 40
HIGHEST_SCORE = 42
STYLE = """<style>
.tz{background:#fff;padding:8px 12px}
.tz p{font-size:14px;margin:0 0 8px}
.tz table{border-collapse:collapse;font-size:13px;line-height:1.3;font-variant-numeric:tabular-nums}
.tz th,.tz td{padding:3px 0 3px 14px;text-align:right;border-bottom:1px solid #dfe5eb;
white-space:nowrap}
.tz thead th{color:#596673;font-weight:600;vertical-align:bottom;white-space:normal}
.tz tbody th{font-weight:600;text-align:left;padding-left:0;white-space:normal;
overflow-wrap:anywhere}
.tz thead th:first-child{text-align:left;padding-left:0}
.tz svg{width:120px;height:36px;vertical-align:middle}
.tz .bar{width:80px;height:12px}
.tz .out{color:#a61b14;font-weight:700;background:#fdecea}
.tz .tzb{fill:none;stroke:#66727e;stroke-width:3;stroke-dasharray:8 6}
.tz .tza{fill:none;stroke:#0072b2;stroke-width:3}
.tz .tzr{fill:none;stroke:#b26000;stroke-width:3}
.tz .tzg{stroke:#dfe5eb;stroke-width:2;fill:none}
.tz .tzk{display:inline-block;margin-right:18px;color:#596673}
.tz .tzk svg{width:24px;height:12px;margin-right:6px}
.tz>div{overflow-x:auto}
@media print{.tz tr{break-inside:avoid}}
</style>"""
COLOURS = ("#0072b2", "#56b4e9", "#e69f00", "#66727e")
ENDS = ("both_surviving", "forward_only_surviving", "reverse_only_surviving", "dropped")


def listed(names: Sequence[str]) -> str:
    """The names, or the first ones of many."""
    more = f" and {len(names) - MOST_NAMES} more" if len(names) > MOST_NAMES else ""
    return ", ".join(names[:MOST_NAMES]) + more


def last_line(trimmed: int, failed: Mapping[str, str], not_started: Sequence[str]) -> str:
    """How many samples are good, and which aren't: with the reasons, by their names, if they are
    few."""
    said = [f"{trimmed} of {trimmed + len(failed) + len(not_started)} samples are good"]
    if failed:
        names: List[str] = list(failed)
        if len(failed) <= MOST_REASONS:
            names = [f"{name} ({why})" for name, why in failed.items()]
        said.append(f"failed: {listed(names)}")
    if not_started:
        said.append(f"not started: {listed(not_started)}")
    return "; ".join(said)


def warnings_of(report: Report, log: str) -> List[str]:
    """What the run warned of, by its report, or by its log if the report, as that of an earlier
    version, has no such field."""
    if "warnings" in report:
        return list(report["warnings"])
    lines = log.splitlines()
    return [line[len(WARNING):] for line in lines if line.startswith(WARNING)]


# Small drawings. All samples have the same axes.


def path(drawn: Sequence[Point], form: str, last: float, most: float) -> str:
    """A line through points from 0 to `last` and from 0 to `most`."""
    if not drawn:
        return ""
    places = (
        f"{round(WIDE * x / last)} {round(HIGH - HIGH * min(y, most) / most)}" for x, y in drawn
    )
    return f'<path class="{form}" d="M{"L".join(places)}"/>'


def small(name: str, parts: Sequence[str]) -> str:
    box = f'viewBox="-2 -2 {WIDE + 4} {HIGH + 4}" preserveAspectRatio="none"'
    floor = f'<path class="tzg" d="M0 {HIGH}H{WIDE}"/>'
    title = f"<title>{name}</title>"
    return f'<svg {box} role="img" aria-label="{name}">{title}{floor}{"".join(parts)}</svg>'


def scores(side: str, before: Reads, after: Reads, last: int) -> str:
    """The mean score by position of one side, before and after."""
    told = (mean(reads["score_sum"], reads["bases"]) for reads in (before, after))
    name = "{}: mean score {} before, {} after".format(side, *told)
    over = spans(last, MOST_POINTS)
    lines = [
        path(points(means(reads, "score_sum", over, 1)), form, last, HIGHEST_SCORE)
        for reads, form in ((before, "tzb"), (after, "tza"))
        if "positions" in reads
    ]
    level = round(HIGH - HIGH * 30 / HIGHEST_SCORE)
    return small(name, [f'<path class="tzg" d="M0 {level}H{WIDE}"/>', *lines])


def lengths(before: Mapping[str, Reads], after: Mapping[str, Reads], last: int) -> str:
    """The reads of each side that have this many bases or more, after trimming."""
    over = spans(last, MOST_POINTS)
    told = ", ".join(f"{side} {mean(after[side]['bases'], after[side]['reads'])}" for side in SIDES)
    lines = [
        path(
            stairs(at_least(after[side]["lengths"], over), over, before[side]["reads"]),
            form, last, 100,
        )
        for side, form in zip(SIDES, ("tza", "tzr"))
    ]
    return small(f"mean length after: {told}", lines)


def pairs_bar(pairs: Mapping[str, int]) -> str:
    """What became of the pairs."""
    at, parts = 0.0, []
    for field, colour in zip(ENDS, COLOURS):
        wide = 100 * pairs[field] / max(pairs["input"], 1)
        if wide:
            parts.append(f'<rect fill="{colour}" x="{at:.1f}" width="{wide:.1f}" height="10"/>')
        at += wide
    name = ", ".join(f"{field.replace('_', ' ')} {pairs[field]:,}" for field in ENDS)
    return (
        '<svg class="bar" viewBox="0 0 100 10" preserveAspectRatio="none" role="img" '
        f'aria-label="{name}"><title>{name}</title>{"".join(parts)}</svg>'
    )


# The table.


def cell(value: Optional[float], measure: Measure, far: Optional[float], low: bool = False) -> str:
    """A number, marked if it lies outside the others or is too low by itself."""
    if value is None:
        return "<td>–</td>"
    text = f"{value:,.{measure.digits}f}"
    if measure.unit and 100 - 10**-measure.digits < value < 100:
        text = share(value, 100)[:-2]
    if far is None and not low:
        return f"<td>{text}{measure.unit}</td>"
    sign = "&#9650;" if far is not None and far > 0 else "&#9660;"
    return f'<td class="out">{sign}&nbsp;{text}{measure.unit}</td>'


def row(name: str, report: Report, marks: Mapping[str, float], columns: Sequence[str], last: int
        ) -> str:
    """A sample: its name as HTML, its numbers and its drawings."""
    before = {side: report["reads"][side]["before"] for side in SIDES}
    after, values, pairs = after_of(report), values_of(report), report["pairs"]
    is_low = 2 * pairs["both_surviving"] < pairs["input"]
    cells = [
        cell(values[each], MEASURES[each], marks.get(each), each == "kept" and is_low)
        for each in columns
    ]
    drawings = [pairs_bar(pairs)]
    drawings += [scores(side, before[side], after[side], last) for side in SIDES]
    drawings.append(lengths(before, after, last))
    drawn = "".join(f"<td>{drawing}</td>" for drawing in drawings)
    return f'<tr><th scope="row">{name}</th>{"".join(cells)}{drawn}</tr>'


def longest(reports: Mapping[str, Report]) -> int:
    """The length of the longest read, up to which all samples are drawn."""
    found = [
        report["reads"][side]["before"]["longest"] or 1
        for report in reports.values() for side in SIDES
    ]
    return min(max(found, default=1), LAST - 1)


def key() -> str:
    """What the lines and the bar mean."""
    frame = '<svg viewBox="0 0 48 24" aria-hidden="true">{}</svg>'
    line = frame.format('<path class="{}" d="M0 12H48"/>')
    box = frame.format('<rect fill="{}" width="48" height="24"/>')
    names = ("both mates survive", "forward only", "reverse only", "none")
    entries = [
        (line.format("tzb"), "before trimming"),
        (line.format("tza"), "after it; in lengths: forward"),
        (line.format("tzr"), "in lengths: reverse"),
    ]
    entries += [(box.format(colour), name) for colour, name in zip(COLOURS, names)]
    said = "".join(f'<span class="tzk">{drawn}{name}</span>' for drawn, name in entries)
    return f"<p>{said}</p>"


def said_of(found: Outside) -> str:
    """The sentence above the table."""
    marked = sum(1 for marks in found.values() if marks)
    outside_of = (
        f"Samples with a marked number: {marked} of {len(found)}. It is more than 3 median "
        "absolute deviations (times 1.4826) from the median of all samples. "
    )
    return (
        f"<p>The worst samples are first. {outside_of if len(found) > 3 else ''}"
        "The drawings have the same axes in all rows: mean score by position with a line at 30, "
        "and the share of reads that have this many bases or more after trimming.</p>"
    )


def overview(reports: Mapping[str, Report], name_of: Callable[[str], str] = shown) -> List[str]:
    """The section, of checked reports by their samples; `name_of` gives the name of a sample as
    HTML, such as a link. Nothing if there are no samples."""
    if not reports:
        return []
    values = {sample: values_of(report) for sample, report in reports.items()}
    found, last = outside(values), longest(reports)
    columns = [
        name for name in MEASURES if any(each[name] is not None for each in values.values())
    ]
    heads = ["Sample", *(MEASURES[name].title for name in columns), "Mates", "Score, forward",
             "Score, reverse", "Lengths"]
    head = "".join(f'<th scope="col">{title}</th>' for title in heads)
    rows: Dict[str, str] = {
        sample: row(name_of(sample), report, found[sample], columns, last)
        for sample, report in reports.items()
    }
    body = "\n".join(rows[sample] for sample in worst_first(values, found))
    return [
        STYLE, '<div class="tz">', said_of(found), key(),
        f"<div><table><thead><tr>{head}</tr></thead><tbody>\n{body}\n</tbody></table></div></div>",
    ]
