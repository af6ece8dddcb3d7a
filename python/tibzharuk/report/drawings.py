"""The sections with graphs."""

import itertools
from typing import Callable, Dict, Iterable, Iterator, List, Sequence

from .reading import LAST, ROWS, SIDES, Reads, Report

from .graph import LETTERS, Axes, Graph, Point, Span, key, span_name, spans
from .texts import mean, section, share

Sides = Dict[str, Reads]
Row = Sequence[int]  # a number, and how many reads have it
Means = Dict[Span, float]
Make = Callable[[str], Iterable[Graph]]

WHEN = ("before", "after")
BEFORE_AFTER = key(
    [
        ("line dashed", "grey", "before trimming"),
        ("line", "blue", "after: what is left of reads that survive"),
    ]
)


def graphs(title: str, said: str, names_of_lines: str, make: Make) -> str:
    """A section with the graphs that `make` gives for each side."""
    drawn = "".join(graph.html() for side in SIDES for graph in make(side))
    return section(title, said, names_of_lines, f'<div class="two">{drawn}</div>')


# By position.

OTHER = "other"  # what is none of LETTERS, such as R and Y
SCORES = Axes("mean score", "position in the read", "position {}", WHEN)
HIGH_SCORES = Axes("% of bases with Q30", "position in the read", "position {}", WHEN, " %")


def means(reads: Reads, field: str, over: Iterable[Span], factor: int) -> Means:
    """Mean of a field over the bases at positions. Spans without bases are left out."""
    found = {}
    values = others(reads) if field == OTHER else reads["positions"][field]
    for start, end in over:
        bases = sum(reads["positions"]["bases"][start:end])
        if bases:
            found[start, end] = factor * sum(values[start:end]) / bases
    return found


def others(reads: Reads) -> List[int]:
    """The bases at each position that have none of the five letters."""
    found = reads["positions"]
    letters = zip(*(found[name.lower()] for name in LETTERS))
    return [max(bases - sum(each), 0) for bases, each in zip(found["bases"], letters)]


def points(found: Means) -> List[Point]:
    return [((start + 1 + end) / 2, value) for (start, end), value in found.items()]


def position_spans(*sets: Reads) -> List[Span]:
    return spans(min(max(len(reads["positions"]["bases"]) for reads in sets), LAST - 1))


def not_drawn(*sets: Sides) -> str:
    every = [reads for sides in sets for reads in sides.values()]
    more = any(len(reads["positions"]["bases"]) == LAST for reads in every)
    return f" Positions above {LAST - 1:,} are not drawn." if more else ""


def means_by_position(title: str, said: str, axes: Axes, field: str, factor: int, least: float,
                      before: Sides, after: Sides, marks: Sequence[int] = ()) -> str:
    """A section of the means of a field before trimming and after it, with marks at these scores.
    Its graphs go up to `least` or higher."""
    def make(side: str) -> Iterator[Graph]:
        over = position_spans(before[side], after[side])
        lines = [means(reads[side], field, over, factor) for reads in (before, after)]
        high = max(itertools.chain([least], *(found.values() for found in lines)))
        graph = Graph(side, axes, 1, over[-1][1] if over else 1, high)
        for score in marks:
            graph.mark(score, f"Q{score}")
        graph.line(points(lines[0]), "grey", dashed=True)
        graph.line(points(lines[1]), "blue")
        for span in over:
            values = [f"{found[span]:.1f}" if span in found else None for found in lines]
            if any(values):
                graph.tip(span[0] + 0.5, span[1] + 0.5, span_name(span), values)
        yield graph

    return graphs(title, said + not_drawn(before, after), BEFORE_AFTER, make)


def scores_by_position(before: Sides, after: Sides) -> str:
    said = (
        "Mean Phred score of the bases at each position. Position 1 is the first base of the read "
        "(before), and the first base that is left of it (after)."
    )
    return means_by_position("Mean score by position", said, SCORES, "score_sum", 1, 40, before,
                             after, (20, 30))


def high_scores_by_position(before: Sides, after: Sides) -> str:
    said = (
        "Share of the bases at each position that have a score of 30 or more. It says more than "
        "the mean if the machine writes only a few scores."
    )
    return means_by_position("Bases with Q30 or more by position", said, HIGH_SCORES, "q30_bases",
                             100, 100, before, after)


def letters_graph(side: str, when: str, reads: Reads, names: Sequence[str]) -> Graph:
    over = position_spans(reads)
    found = {name: means(reads, name.lower(), over, 100) for name in names}
    high = max((value for each in found.values() for value in each.values()), default=0)
    axes = Axes("% of bases", "position in the read", "position {}", names, " %")
    graph = Graph(f"{side}, {when}", axes, 1, over[-1][1] if over else 1, max(high, 40))
    for name in names:
        graph.line(points(found[name]), LETTERS.get(name, "purple"), dashed=name == OTHER)
    graph.letters({name: points(found[name]) for name in LETTERS})
    for span in found["A"]:
        values = [f"{found[name][span]:.1f}" for name in names]
        graph.tip(span[0] + 0.5, span[1] + 0.5, span_name(span), values)
    return graph


def letters_by_position(before: Sides, after: Sides) -> str:
    every = [reads[side] for reads in (before, after) for side in SIDES]
    names = [*LETTERS, OTHER] if any(any(others(reads)) for reads in every) else list(LETTERS)

    def make(side: str) -> Iterator[Graph]:
        for when, reads in zip(WHEN, (before, after)):
            yield letters_graph(side, when, reads[side], names)

    said = (
        "Share of each letter among the bases at each position. Lines that differ at the first "
        "positions are usual for RNA and for libraries that were cut by enzymes."
    )
    said += not_drawn(before, after)
    entries = [("line", colour, name) for name, colour in LETTERS.items()]
    if OTHER in names:
        entries.append(("line dashed", "purple", "other letters"))
    return graphs("Letters by position", said, key(entries), make)


# By length and by the number of removed bases: how many reads have this many or more.

LENGTHS = Axes("% of reads", "this many bases or more", "at least {} bases", WHEN)
PLACES = (("front", "at the start of the read", "brown"), ("behind", "at its end", "blue"))
REMOVED = Axes(
    "% of reads that survive",
    "this many bases removed or more",
    "at least {} bases removed",
    [name for _, name, _ in PLACES],
)


def at_least(found: Sequence[Row], over: Iterable[Span]) -> List[int]:
    """How many of [number, reads] have at least the last number of each span."""
    left, place, counts = sum(reads for _, reads in found), 0, []
    for _, end in over:
        while place < len(found) and found[place][0] < end:
            left -= found[place][1]
            place += 1
        counts.append(left)
    return counts


def stairs(counts: Iterable[int], over: Iterable[Span], whole: int) -> List[Point]:
    """Points of a line that is level over each span, in per cent of a whole."""
    if not whole:
        return []
    steps: List[Point] = []
    for count, span in zip(counts, over):
        steps += [(x, 100 * count / whole) for x in span]
    return steps + [(steps[-1][0], 0)] if steps else []


def reads_by_length(before: Sides, after: Sides) -> str:
    def make(side: str) -> Iterator[Graph]:
        old, new = before[side]["lengths"], after[side]["lengths"]
        whole = sum(reads for _, reads in old)
        over = spans(max([length for length, _ in old + new] + [1]))
        counts = [at_least(each, over) for each in (old, new)]
        graph = Graph(side, LENGTHS, 0, over[-1][1], 100)
        graph.line(stairs(counts[0], over, whole), "grey", dashed=True)
        graph.line(stairs(counts[1], over, whole), "blue", filled=True)
        for (start, end), *reads in zip(over, *counts):
            graph.tip(start, end, f"{end:,}", [share(each, whole) for each in reads])
        yield graph

    said = (
        "Share of reads that have this many bases or more, of all reads of the side before "
        "trimming."
    )
    if any(length == LAST for side in SIDES for length, _ in before[side]["lengths"]):
        said += f" Reads of more than {LAST:,} bases are counted as {LAST:,}."
    return graphs("Reads by length", said, BEFORE_AFTER, make)


def removed_graph(side: str, counts_of: Reads) -> Graph:
    found = [counts_of[f"removed_{place}"] for place, _, _ in PLACES]
    over = spans(max([number for each in found for number, _ in each] + [1]))
    wholes = [sum(reads for _, reads in each) for each in found]
    counts = [at_least(each, over) for each in found]
    lines = [stairs(each, over, whole) for each, whole in zip(counts, wholes)]
    high = max((y for line in lines for _, y in line), default=1)
    graph = Graph(side, REMOVED, 0, over[-1][1], high)
    for line, (_, _, colour) in zip(lines, PLACES):
        graph.line(line, colour)
    for (start, end), *reads in zip(over, *counts):
        values = [share(part, whole) for part, whole in zip(reads, wholes)]
        if any(wholes):
            graph.tip(start, end, f"{end:,}", values)
    return graph


def removed_text(side: str, removed: Dict[str, int], survive: int) -> str:
    front, behind = (f"{removed[place]:,}" for place, _, _ in PLACES)
    total = sum(removed.values()) if survive else 0
    return (
        f"<p>{side.capitalize()}: {front} bases at the start of reads and {behind} at their end, "
        f"{mean(total, survive)} for each read that survives.</p>"
    )


def removed_bases(sides: Sides, after: Sides) -> str:
    """The bases that were removed from reads that survive.

    Their number, and their graph if the report has the reads."""
    lines = [
        removed_text(side, sides[side]["removed_bases"], after[side]["reads"]) for side in SIDES
    ]
    said = (
        "Bases that were removed from reads that survive. "
        "Bases of dropped reads are not counted."
    )
    if not all(f"removed_{place}" in sides[side] for side in SIDES for place, _, _ in PLACES):
        return section("Removed bases", said, *lines)
    said += " The graphs show the share of reads that lost this many bases or more."
    entries = "".join(lines) + key([("line", colour, name) for _, name, colour in PLACES])
    return graphs("Removed bases", said, entries, lambda side: [removed_graph(side, sides[side])])


# By a whole number.


class Histogram:
    """Reads by a whole number: the field of the report, and how the page names it.

    A smooth line is the mean of three neighbours, of which the middle one counts twice."""

    def __init__(
        self, field: str, title: str, said: str, across: str, told: str, smooth: bool = False
    ) -> None:
        self.field, self.title, self.said, self.smooth = field, title, said, smooth
        self.axes = Axes("reads", across, told, WHEN)
        self.most = ROWS[field]

    def height(self, found: Dict[int, int], x: int) -> float:
        if not self.smooth:
            return found.get(x, 0)
        near = [(y, 1 + (x == y)) for y in (x - 1, x, x + 1) if 0 <= y <= self.most]
        return sum(found.get(y, 0) * weight for y, weight in near) / sum(w for _, w in near)

    def graph(self, side: str, old: Dict[int, int], new: Dict[int, int]) -> Graph:
        among = [*old, *new]
        if not among:
            return Graph(side, self.axes, 0, 1, 1)
        numbers = range(max(min(among) - 1, 0), min(max(among) + 1, self.most) + 1)
        lines = [
            [(x + d, self.height(each, x)) for x in numbers for d in (-0.5, 0.5)]
            for each in (old, new)
        ]
        most = max(max(y for line in lines for _, y in line), 1)
        graph = Graph(side, self.axes, numbers[0] - 0.5, numbers[-1] + 0.5, most)
        graph.line(lines[0], "grey", filled=True, dashed=True)
        graph.line(lines[1], "blue", filled=True)
        for x in numbers:
            graph.tip(x - 0.5, x + 0.5, f"{x}", [f"{each.get(x, 0):,}" for each in (old, new)])
        return graph

    def html(self, before: Sides, after: Sides) -> str:
        def make(side: str) -> List[Graph]:
            return [self.graph(side, dict(before[side][self.field]), dict(after[side][self.field]))]

        return graphs(self.title, self.said, BEFORE_AFTER, make)


HISTOGRAMS = (
    Histogram(
        "mean_scores",
        "Reads by mean score",
        "Reads by the whole part of their mean Phred score.",
        "mean score",
        "reads with mean score {}",
    ),
    Histogram(
        "gc_percents",
        "Reads by G and C",
        "Reads by their share of G and C. One peak is usual; a second one can come from another "
        "organism. The line is smoothed: it is the mean of neighbours.",
        "% G and C",
        "reads with {} % G and C",
        smooth=True,
    ),
)


def drawings(report: Report, before: Sides, after: Sides) -> List[str]:
    """The sections for which the report has counts; none if there are no reads."""
    every = [reads[side] for reads in (before, after) for side in SIDES]
    if not any(reads["reads"] for reads in every):
        return []
    found = []
    if all("positions" in reads for reads in every):
        by_position = (scores_by_position, high_scores_by_position, letters_by_position)
        found += [section_of(before, after) for section_of in by_position]
    found.append(reads_by_length(before, after))
    for histogram in HISTOGRAMS:
        if all(histogram.field in reads for reads in every):
            found.append(histogram.html(before, after))
    found.append(removed_bases(report["reads"], after))
    return found
