"""The tables of the lanes of a sample, if each of them has a report of its own."""

from typing import List, Sequence, Tuple

from .reading import SIDES, Report, both

from .sections import table
from .texts import mean, section, share, shown

Lanes = Sequence[Tuple[str, Report]]  # their names and their reports, in order


def side_cells(report: Report, side: str) -> List[str]:
    """What is shown of one side: all but the length is of the reads before trimming."""
    counts = report["reads"][side]
    before, after = counts["before"], both(counts["paired"], counts["unpaired"])
    return [
        mean(before["score_sum"], before["bases"]),
        share(before["q30_bases"], before["bases"]),
        share(before["gc_bases"], before["bases"]),
        mean(after["bases"], after["reads"]),
    ]


def pair_row(name: str, report: Report, pairs: int) -> str:
    """What is shown of the pairs of a lane, whose sample has so many."""
    read, kept = report["pairs"]["input"], report["pairs"]["both_surviving"]
    part = share(kept, read)
    if 2 * kept < read:
        part = f'<span class="low"><b>{part}</b></span>'
    cells = "".join(f"<td>{cell}</td>" for cell in (f"{read:,}", share(read, pairs), part))
    return f'<tr><th scope="row">{shown(name)}</th>{cells}</tr>'


def lane_tables(lanes: Lanes) -> str:
    """The lanes of a sample beside each other; nothing if it has none."""
    if not lanes:
        return ""
    pairs = sum(report["pairs"]["input"] for _, report in lanes)
    names = ("lane", "pairs", "share", "kept")
    head = "".join(f'<th scope="col">{name}</th>' for name in names)
    rows = "".join(pair_row(name, report, pairs) for name, report in lanes)
    of_pairs = (
        f'<div class="wide"><table><caption>Pairs</caption><thead><tr>{head}</tr></thead>'
        f"<tbody>{rows}</tbody></table></div>"
    )
    cells = [
        (shown(name), [cell for side in SIDES for cell in side_cells(report, side)])
        for name, report in lanes
    ]
    of_sides = table(("lane", "score", "Q30", "G and C", "length"), cells)
    said = (
        "Each lane was trimmed by itself. Kept: its pairs in which both mates survive. "
        "Before trimming: the mean score, the bases with Q30 or more, and G and C. "
        "After it: the mean length."
    )
    return section("Lanes", said, of_pairs, of_sides)
