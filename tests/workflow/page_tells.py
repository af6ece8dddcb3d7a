"""Compares the workflow's page with direct calls of the program, for exactly the named samples.

    page_tells.py DIRECT DATA SAMPLE..            the table, the dropped reads and the lengths
    page_tells.py DIRECT DATA --removed SAMPLE..  the lines of removed bases
    page_tells.py DIRECT PAGE --lanes LANE..      the table of lanes on a page of a sample

DIRECT has the texts that were read and written, the logs and the reports of the direct calls. DATA
is the directory of the page's data.
"""

import collections
import json
import os
import re
import sys

sys.dont_write_bytecode = True
sys.path.insert(0, os.path.dirname(os.path.dirname(os.path.abspath(__file__))))

import count

SIDES = {"forward": 1, "reverse": 2}


class Page:
    """The page's data, and the data to compare them with."""

    def __init__(self, direct, data, samples):
        self.direct, self.data, self.samples = direct, data, samples
        self.bars = [(sample, side) for sample in samples for side in SIDES]

    def rows(self, name):
        """The heads of the columns of a table, and the cells of its rows by their names."""
        with open(f"{self.data}/multiqc_{name}.txt", encoding="utf-8") as file:
            header, *rows = [line.rstrip("\n").split("\t") for line in file]
        return header[1:], {row[0]: row[1:] for row in rows}

    def plot(self, graph):
        """What the page draws for each side of each sample, without zeros."""
        columns, rows = self.rows(f"tibzharuk_{graph}_plot")
        names = sorted(f"{sample} {side}" for sample, side in self.bars)
        assert sorted(rows) == names, (graph, rows)
        cells = {name: zip(columns, row) for name, row in rows.items()}
        return {name: {column: float(cell) for column, cell in row if cell and float(cell)}
                for name, row in cells.items()}

    def counted(self, sample, *parts):
        """What is counted of the reads of some of a sample's texts."""
        reads = [count.reads_of(f"{self.direct}/{sample}.{part}") for part in parts]
        return count.counted(read for some in reads for read in some)

    def before(self, sample, side):
        return self.counted(sample, f"in{SIDES[side]}")

    def after(self, sample, side):
        return self.counted(sample, f"r{SIDES[side]}.paired", f"r{SIDES[side]}.unpaired")


def check_table(page):
    columns, rows = page.rows("general_stats")
    assert list(rows) == page.samples and len(columns) == 6, (columns, rows)
    for sample in page.samples:
        both = [[counts(sample, side) for side in SIDES] for counts in (page.before, page.after)]
        bases, high = ([sum(side[field] for side in sides) for sides in both]
                       for field in ("bases", "q30_bases"))
        pairs, kept = both[0][0]["reads"], page.counted(sample, "r1.paired")["reads"]
        shares = [*zip(high, bases), (kept, pairs)]
        percents = [round(100 * part / whole, 4) for part, whole in shares]
        wanted = [pairs, bases[0] / 1e6, bases[1] / 1e6, *percents]
        assert [float(cell) for cell in rows[sample]] == wanted, (sample, rows[sample], wanted)


def check_dropped(page):
    drawn = page.plot("dropped")
    for sample, side in page.bars:
        with open(f"{page.direct}/{sample}.json", encoding="utf-8") as file:
            steps = json.load(file)["steps"]
        wanted = {f"{place}. {step['step']}": step[side]["dropped"]
                  for place, step in enumerate(steps, 1) if step[side]["dropped"]}
        assert drawn[f"{sample} {side}"] == wanted, (sample, side, drawn, wanted)
        before, after = (counts(sample, side)["reads"] for counts in (page.before, page.after))
        assert sum(wanted.values()) == before - after, (sample, side)


def check_line(drawn, numbers, among, where):
    """The line shows which percentage of the `among` reads has each of these numbers of bases."""
    wanted = {number: round(100 * reads / among, 4) for number, reads in numbers}
    found = {int(float(place)): percent for place, percent in drawn.items()}
    assert found == wanted, (where, drawn, wanted)


def check_lengths(page):
    for graph, counts in ("lengths_before", page.before), ("lengths_after", page.after):
        drawn = page.plot(graph)
        for sample, side in page.bars:
            found, where = counts(sample, side), (graph, sample, side)
            check_line(drawn[f"{sample} {side}"], found["lengths"], found["reads"], where)


def check_removed(page):
    for graph, field in ("front", 1), ("behind", 3):
        drawn = page.plot(graph)
        for sample, side in page.bars:
            with open(f"{page.direct}/{sample}.log", encoding="utf-8") as file:
                lines = [[int(word) for word in line.split()[1:]] for line in file]
            kept = [line for line in lines[SIDES[side] - 1::2] if line[0]]
            numbers = collections.Counter(line[field] for line in kept if line[field])
            line, where = drawn[f"{sample} {side}"], (graph, sample, side)
            check_line(line, numbers.items(), len(kept), where)


def check_lanes(page):
    """The tables of lanes: pairs, their share of all and the share that was kept; and for each side
    the mean score, the bases with a score of at least 30 and G and C before trimming, and the mean
    length after it."""
    with open(page.data, encoding="utf-8") as file:
        section = file.read().split("<h2>Lanes</h2>")[1].split("</section>")[0]
    rows = [re.findall(r">([^<]+)<", row.split("</tr>")[0])
            for row in section.split("<tr>") if 'scope="row"' in row]
    pairs = {lane: page.before(lane, "forward")["reads"] for lane in page.samples}
    wanted = []
    for lane, read in pairs.items():
        shares = (read, sum(pairs.values())), (page.counted(lane, "r1.paired")["reads"], read)
        cells = [f"{100 * part / whole:.1f} %" for part, whole in shares]
        wanted.append([lane.split("_")[1], f"{read:,}", *cells])
    for side in SIDES:
        for lane in page.samples:
            before, after = page.before(lane, side), page.after(lane, side)
            cells = [f"{before['score_sum'] / before['bases']:.1f}"]
            cells += [f"{100 * before[field] / before['bases']:.1f} %"
                      for field in ("q30_bases", "gc_bases")]
            wanted.append([lane.split("_")[1], *cells, f"{after['bases'] / after['reads']:.1f}"])
    assert rows == wanted, (rows, wanted)


def main(direct, data, *samples):
    for option, check in (("--removed", check_removed), ("--lanes", check_lanes)):
        if samples[0] == option:
            check(Page(direct, data, list(samples[1:])))
            return
    page = Page(direct, data, list(samples))
    check_table(page)
    check_dropped(page)
    check_lengths(page)


main(*sys.argv[1:])
