"""Compares what MultiQC shows of reports of fq_prog with the reports, and with nothing else.

    check.py data DATA REPORT..   the tables in the directory DATA
    check.py page DOM REPORT..    the first table of a page, as the browser has it (its DOM)

The name of a sample is that of its report, without .json.
"""

import collections
import html.parser
import json
import pathlib
import sys
from typing import Any, Dict, List

SIDES = ("forward", "reverse")
TABLE = "tibzharuk_{}_plot"
RAW = {"Mb raw": "{:,.2f}", "% adapter": "{:,.1f}%"}  # if adapters were removed of a sample
FORMS = {
    "Pairs": "{:,.0f}",
    **RAW,
    "Mb before": "{:,.2f}",
    "Mb after": "{:,.2f}",
    "% Q30 before": "{:,.1f}%",
    "% Q30 after": "{:,.1f}%",
    "% pairs kept": "{:,.1f}%",
}


def samples(paths: List[str]) -> Dict[str, Any]:
    return {pathlib.Path(path).stem: json.loads(pathlib.Path(path).read_text("utf-8")) for path in paths}


def parts(report: Any, side: str, when: str) -> List[Any]:
    names = ["before"] if when == "before" else ["paired", "unpaired"]
    return [report["reads"][side][name] for name in names]


def total(report: Any, when: str, field: str) -> int:
    return sum(part[field] for side in SIDES for part in parts(report, side, when))


def columns(reports: Dict[str, Any]) -> List[str]:
    """The columns of the first table."""
    with_raw = any(report.get("adapters") for report in reports.values())
    return [name for name in FORMS if with_raw or name not in RAW]


def numbers(report: Any, wanted: List[str]) -> Dict[str, float]:
    """What these columns of the first table must be; a percentage of nothing is missing."""
    pairs, kept = report["pairs"]["input"], report["pairs"]["both_surviving"]
    found = {"Pairs": pairs}
    shares = {"% pairs kept": (kept, pairs)}
    if "adapters" in report:
        sides = [report["adapters"][side] for side in SIDES] if report["adapters"] else []
        removed = sum(side["bases_removed"] for side in sides)
        found["Mb raw"] = (total(report, "before", "bases") + removed) / 1e6
        looked = [side["pairs_with_adapter"] for side in sides if side["pairs_with_adapter"] is not None]
        shares["% adapter"] = sum(looked), len(looked) * (report["adapters"] or {}).get("pairs_read", 0)
    for when in ("before", "after"):
        found[f"Mb {when}"] = total(report, when, "bases") / 1e6
        shares[f"% Q30 {when}"] = total(report, when, "q30_bases"), total(report, when, "bases")
    found.update({name: 100 * part / whole for name, (part, whole) in shares.items() if whole})
    return {name: found[name] for name in wanted if name in found}


# The tables.


def rows_of(data: str, name: str) -> Dict[str, Dict[str, float]]:
    """A table by its rows and columns, without empty cells."""
    lines = pathlib.Path(data, f"multiqc_{name}.txt").read_text("utf-8").splitlines()
    header = lines[0].split("\t")[1:]
    assert len(set(header)) == len(header), (name, header)
    cells = [line.split("\t") for line in lines[1:]]
    return {row[0]: {column: float(cell) for column, cell in zip(header, row[1:]) if cell} for row in cells}


def counted(reads: List[Any], field: str) -> Dict[str, float]:
    """Which percentage of the reads each number has."""
    found = collections.Counter()
    for part in reads:
        for number, count in part[field]:
            found[str(number)] += count
    return {number: round(100 * count / sum(found.values()), 4) for number, count in found.items()}


def scores(reads: List[Any]) -> Dict[str, float]:
    """The mean score at each position up to 10,000, or of neighbours."""
    longest = min(max(len(part["positions"]["bases"]) for part in reads), 10_000)
    size = -(-longest // 500) or 1
    found = {}
    for start in range(0, longest, size):
        ends = start, min(start + size, longest)
        sums = [sum(sum(part["positions"][field][slice(*ends)]) for part in reads) for field in ("score_sum", "bases")]
        if sums[1]:
            found[f"{(ends[0] + 1 + ends[1]) / 2:g}"] = round(sums[0] / sums[1], 4)
    return found


def lines_of(report: Any, side: str) -> Dict[str, Dict[str, float]]:
    """What each line graph must show of one side, without zeros."""
    found = {}
    for when in ("before", "after"):
        reads = parts(report, side, when)
        found[f"lengths_{when}"] = counted(reads, "lengths")
        if all("mean_scores" in part for part in reads):
            found[f"means_{when}"] = counted(reads, "mean_scores")
        if all("positions" in part for part in reads):
            found[f"scores_{when}"] = scores(reads)
    for end in ("front", "behind"):
        if f"removed_{end}" in report["reads"][side]:
            found[end] = counted([report["reads"][side]], f"removed_{end}")
            found[end].pop("0", None)
    return found


def check_data(data: str, reports: Dict[str, Any]) -> None:
    first = rows_of(data, "tibzharuk")
    assert list(first) == sorted(reports), first
    pairs, dropped = (rows_of(data, TABLE.format(name)) for name in ("pairs", "dropped"))
    kinds = ("both_surviving", "forward_only_surviving", "reverse_only_surviving", "dropped")
    drawn = {}
    for name, report in reports.items():
        wanted = sorted(round(number, 4) for number in numbers(report, columns(reports)).values())
        assert sorted(round(number, 4) for number in first[name].values()) == wanted, (name, first[name], wanted)
        assert list(pairs[name].values()) == [report["pairs"][kind] for kind in kinds], name
        for side in SIDES:
            steps = {f"{place}. {step['step']}": step[side]["dropped"] for place, step in enumerate(report["steps"], 1)}
            assert dropped[f"{name} {side}"] == steps, (name, side)
            for graph, line in lines_of(report, side).items():
                drawn.setdefault(graph, {})[f"{name} {side}"] = line
    for graph, lines in drawn.items():
        rows = rows_of(data, TABLE.format(graph))
        assert sorted(rows) == sorted(lines), (graph, sorted(rows))
        for name, line in lines.items():
            found = {column: y for column, y in rows[name].items() if y}
            assert found == {x: y for x, y in line.items() if y}, (graph, name, found, line)
    files = {path.name for path in pathlib.Path(data).glob("multiqc_tibzharuk_*_plot.txt")}
    assert files == {f"multiqc_{TABLE.format(graph)}.txt" for graph in (*drawn, "pairs", "dropped")}, files


# The page.


class Table(html.parser.HTMLParser):
    """The cells of the table of general statistics, and the page's text before and after it."""

    def __init__(self, content: str) -> None:
        super().__init__(convert_charrefs=True)
        self.rows, self.cells, self.texts = [], None, {"before": "", "after": ""}
        self.inside, self.where = False, "before"
        self.feed(content)

    def handle_starttag(self, tag: str, attributes: Any) -> None:
        if tag == "table" and dict(attributes).get("id") == "general_stats_table":
            self.inside, self.where = True, "after"
        if self.inside and tag == "tr":
            self.rows.append([])
        self.cells = self.rows[-1] if self.inside and tag in ("td", "th") else self.cells
        if self.inside and tag in ("td", "th"):
            self.cells.append("")

    def handle_endtag(self, tag: str) -> None:
        if tag == "table":
            self.inside = False
        if tag in ("td", "th"):
            self.cells = None

    def handle_data(self, data: str) -> None:
        if self.inside and self.cells:
            self.cells[-1] += data
        elif not self.inside:
            self.texts[self.where] += data


def check_page(dom: str, reports: Dict[str, Any]) -> None:
    table = Table(pathlib.Path(dom).read_text("utf-8"))
    header, *rows = [[" ".join(cell.split()) for cell in row] for row in table.rows]
    shown = columns(reports)
    assert header == ["Sample Name", *shown], header
    assert [row[0] for row in rows] == sorted(reports), rows
    for name, *cells in rows:
        found = numbers(reports[name], shown)
        wanted = [FORMS[column].format(found[column]) if column in found else "" for column in shown]
        assert [cell.replace(" ", "").replace("\u00a0", "") for cell in cells] == wanted, (name, cells, wanted)


def main(what: str, place: str, *paths: str) -> None:
    {"data": check_data, "page": check_page}[what](place, samples(list(paths)))


main(*sys.argv[1:])
