"""Reads pages of tibzharuk page as HTML, and compares them with their reports.

    check.py page REPORT PAGE   the page has the numbers of its report, and loads and runs nothing
    check.py hostile SCRIPT REPORT   no text of a report becomes markup
    check.py changed SCRIPT REPORT   each change at one place gives a page or a refusal
    check.py positions REPORT   the report counts 10,001 positions, the most that are counted
    check.py syntax FILE..   the files are programs of Python 3.8
"""

import ast
import copy
import html.parser
import importlib
import json
import os
import re
import shlex
import sys

SIDES = ("forward", "reverse")
VOID = {"meta", "link"}
HOSTILE = "</code></title><script src=http://x>'\"&amp;<img onerror=x>\x1b\u202e\ud800\nü"
LAST = 10_001


class Table:
    """A table of a page: its caption, and the texts of its cells in rows, of which the first is its
    head."""

    def __init__(self):
        self.caption, self.rows = "", []

    def values(self):
        """The name of each row, and its values as they are shown under the mouse."""
        for name, *cells in self.rows[1:]:
            told = (f"{column} {cell}" for column, cell in zip(self.rows[0][1:], cells) if cell != "–")
            yield name, ", ".join(told)


class Page(html.parser.HTMLParser):
    """The tags of a page with their attributes, its text, its parts with a class, its tables, and
    the titles that its graphs show under the mouse."""

    def __init__(self, content):
        super().__init__(convert_charrefs=True)
        self.open, self.tags, self.texts, self.classes = [], [], [], []
        self.figures, self.titles, self.tables = {}, [], []
        self.feed(content)
        self.close()
        assert not self.open, f"not closed: {self.open}"

    def handle_starttag(self, tag, attributes):
        self.tags.append((tag, attributes))
        self.classes += dict(attributes).get("class", "").split()
        if tag == "figure":
            self.titles = []
        elif tag == "svg" and "figure" in self.open:
            self.figures[dict(attributes)["aria-label"]] = self.titles
        elif tag == "table":
            self.tables.append(Table())
        elif tag == "tr":
            self.tables[-1].rows.append([])
        elif tag in ("th", "td"):
            self.tables[-1].rows[-1].append("")
        if tag not in VOID:
            self.open.append(tag)

    def handle_startendtag(self, tag, attributes):
        assert "svg" in self.open, f"closes itself outside of a graph: {tag}"
        self.tags.append((tag, attributes))

    def handle_endtag(self, tag):
        assert self.open and self.open[-1] == tag, f"{tag} ends where {self.open} are open"
        self.open.pop()

    def handle_data(self, data):
        if self.open and self.open[-1] == "title":
            self.titles.append(data)
        elif self.open and self.open[-1] != "style":
            self.texts.append(data)
        if "caption" in self.open:
            self.tables[-1].caption += data
        elif "th" in self.open or "td" in self.open:
            self.tables[-1].rows[-1][-1] += data

    def text(self):
        return " ".join(" ".join(self.texts).split())

    def structure(self):
        return [(tag, [name for name, _ in attributes]) for tag, attributes in self.tags]


def parsed(content):
    page = Page(content)
    names = {tag for tag, _ in page.tags}
    assert content.startswith("<!DOCTYPE html>\n<html lang="), content[:50]
    assert not names & {"script", "img", "iframe", "object", "embed", "a", "form", "base", "audio", "video", "use", "image"}
    for tag, attributes in page.tags:
        for name, value in attributes:
            assert not name.startswith("on") and name not in ("src", "style", "xlink:href", "action"), (tag, name)
            assert name != "href" or (tag, value) == ("link", "data:,"), (tag, value)
    style = content.split("<style>")[1].split("</style>")[0]
    assert "url(" not in style and "@import" not in style and "<" not in style
    assert "prefers-color-scheme:dark" in style and "size:A4" in style
    check_without_eyes(page)
    return page


def check_without_eyes(page):
    """What a screen reader needs: each graph has a name and a table of its numbers, and each cell of
    a table a row and a column that have names."""
    for tag, attributes in page.tags:
        given = dict(attributes)
        assert tag != "th" or given.get("scope") in ("col", "row"), given
        assert tag != "svg" or given.get("aria-hidden") == "true" or given.get("role") == "img" and given["aria-label"], given
    tables = {table.caption: table for table in page.tables}
    assert all(tables)
    for figure, titles in page.figures.items():
        assert (figure in tables) == bool(titles), figure
        rows = list(tables[figure].values()) if titles else []
        assert len(rows) == len(titles), figure
        for (name, values), title in zip(rows, titles):
            place, told = title.replace(" %", "").split(": ", 1)
            assert f" {name} " in f" {place} " and told == values.replace(" %", ""), (figure, name, values, title)


# The numbers of a page, computed a second time from the report.


def after(report, side):
    return [report["reads"][side][part] for part in ("paired", "unpaired")]


def at(parts, field, place):
    return sum(part["positions"][field][place] for part in parts if place < len(part["positions"][field]))


def reads_with(parts, field, number):
    return sum(reads for part in parts for found, reads in part[field] if found == number)


def at_least(parts, number):
    return sum(reads for part in parts for found, reads in part["lengths"] if found >= number)


def per_cent(text):
    """The bounds of a percentage as the page writes it."""
    if text == "–":
        return 0, 0
    word, number = re.fullmatch(r"(under |over )?([0-9.]+) %", text).groups()
    number = float(number)
    return {None: (number - 0.0501, number + 0.0501), "under ": (1e-12, number), "over ": (number, 100 - 1e-12)}[word]


def near(text, part, whole):
    low, high = per_cent(text)
    assert low <= (100 * part / whole if whole else 0) <= high, (text, part, whole)


def check_by_position(page, report, side, figure, field, factor):
    """The values of a field at each position, before and after."""
    before, left = [report["reads"][side]["before"]], after(report, side)
    told = page.figures[f"{side}: {figure} by position in the read"]
    longest = len(before[0]["positions"]["bases"])
    if longest <= 320:
        assert len(told) == longest, (len(told), longest)
    for line in told:
        name, *numbers = re.fullmatch(r"position ([0-9, to]+): (?:before ([0-9.]+))(?:, after ([0-9.]+))?", line.replace(" %", "")).groups()
        first, *last = (int(each.replace(",", "")) for each in name.split(" to "))
        places = range(first - 1, (last or [first])[0])
        assert places[-1] < LAST - 1, line
        for number, parts in zip(numbers, (before, left)):
            bases = sum(at(parts, "bases", place) for place in places)
            assert (number is None) == (bases == 0), line
            found = factor * sum(at(parts, field, place) for place in places)
            assert not bases or abs(float(number) - found / bases) <= 0.0501, (line, found, bases)


def check_letters(page, report, side):
    for when, parts in ("before", [report["reads"][side]["before"]]), ("after", after(report, side)):
        told = page.figures[f"{side}, {when}: % of bases by position in the read"]
        for line in told:
            name, letters = re.fullmatch(r"position ([0-9, to]+): (.*)", line).groups()
            first, *last = (int(each.replace(",", "")) for each in name.split(" to "))
            places = range(first - 1, (last or [first])[0])
            assert places[-1] < LAST - 1, line
            bases = sum(at(parts, "bases", place) for place in places)
            found = dict(re.findall(r"([ACGTN]|other) ([0-9.]+) %", letters))
            counts = {letter: sum(at(parts, letter.lower(), place) for place in places) for letter in "ACGTN"}
            counts["other"] = bases - sum(counts.values())
            assert list(found) == list(counts)[: len(found)] and len(found) >= 5, line
            assert "other" in found or not counts["other"], (line, counts)
            for letter, number in found.items():
                assert abs(float(number) - 100 * counts[letter] / bases) <= 0.0501, (line, letter, counts, bases)


def check_lengths(page, report, side):
    before, left = [report["reads"][side]["before"]], after(report, side)
    told = page.figures[f"{side}: % of reads by this many bases or more"]
    assert told, side
    for line in told:
        number, old, new = re.fullmatch(r"at least ([0-9,]+) bases: before (.*), after (.*)", line).groups()
        number = int(number.replace(",", ""))
        near(old, at_least(before, number), before[0]["reads"])
        near(new, at_least(left, number), before[0]["reads"])


def check_histogram(page, report, side, across, name, field):
    before, left = [report["reads"][side]["before"]], after(report, side)
    told = page.figures[f"{side}: reads by {across}"]
    found = {}
    for line in told:
        number, *counts = re.fullmatch(name.replace("{}", r"(\d+)") + r": before ([0-9,]+), after ([0-9,]+)", line).groups()
        found[int(number)] = [int(count.replace(",", "")) for count in counts]
    occur = {number for part in before + left for number, _ in part[field]}
    assert occur <= set(found), (occur, found)
    assert field != "gc_percents" or max(found) <= 100, "more than 100 %"
    for number, counts in found.items():
        assert counts == [reads_with(parts, field, number) for parts in (before, left)], (number, counts)


def check_removed(page, report, side):
    told = page.figures[f"{side}: % of reads that survive by this many bases removed or more"]
    reads = sum(part["reads"] for part in after(report, side))
    for line in told:
        words = r"at least ([0-9,]+) bases removed: at the start of the read (.*), at its end (.*)"
        number, *parts = re.fullmatch(words, line).groups()
        for part, place in zip(parts, ("front", "behind")):
            lost = sum(n for bases, n in report["reads"][side][f"removed_{place}"] if bases >= int(number.replace(",", "")))
            near(part, lost, reads)


SHARES = {
    "bases with Q20 or more": ("q20_bases", "bases"),
    "bases with Q30 or more": ("q30_bases", "bases"),
    "G and C": ("gc_bases", "bases"),
    "N": ("n_bases", "bases"),
}
MEANS = {"mean length": ("bases", "reads"), "mean score": ("score_sum", "bases")}


def check_cell(name, cell, parts):
    """A cell of the table of a side: the counts of one set of reads, or of two."""
    total = {field: sum(part[field] for part in parts) for field in ("reads", "bases", "score_sum", *(field for field, _ in SHARES.values()))}
    if name in ("reads", "bases"):
        assert cell == f"{total[name]:,}", (name, cell)
    elif name in SHARES:
        near(cell, *(total[field] for field in SHARES[name]))
    elif name in MEANS:
        part, whole = (total[field] for field in MEANS[name])
        assert re.fullmatch(r"–|\d{1,3}(,\d{3})*\.\d", cell) and (cell == "–") == (whole == 0), (name, cell)
        assert not whole or abs(float(cell.replace(",", "")) - part / whole) <= 0.0501, (name, cell)
    else:
        assert name == "shortest to longest", name
        some = [part for part in parts if part["reads"]]
        ends = (min(part["shortest"] for part in some), max(part["longest"] for part in some)) if some else None
        assert cell == (f"{ends[0]:,} to {ends[1]:,}" if ends else "–"), (name, cell)


def check_tables(page, report):
    """The tables of the sides, and those of the steps."""
    for side in SIDES:
        # A page of adapters or of lanes has tables of them first.
        *more, sides, steps = (table for table in page.tables if table.caption == side.capitalize())
        assert more or report.get("adapters") is None
        assert sides.rows[0] == ["", "before", "after"] and len(sides.rows) == 10, sides.rows
        for name, *cells in sides.rows[1:]:
            for cell, parts in zip(cells, ([report["reads"][side]["before"]], after(report, side))):
                check_cell(name, cell, parts)
        assert steps.rows[0] == ["step", "shortened", "dropped"]
        assert len(steps.rows) == 1 + len(report["steps"])
        for place, (step, row) in enumerate(zip(report["steps"], steps.rows[1:]), 1):
            assert row[0].split() == [f"{place}.", *step["step"].split()] or not step["step"].isprintable(), row
            for cell, did in zip(row[1:], ("shortened", "dropped")):
                count, *share = cell.split(" ", 1)
                assert count == f"{step[side][did]:,}", (row, step)
                if step[side][did]:
                    near(share[0], step[side][did], report["reads"][side]["before"]["reads"])


def check_numbers(page, report):
    pairs, text = report["pairs"], page.text()
    for name, field in ("both mates survive", "both_surviving"), ("no mate: dropped", "dropped"):
        assert f"{name}: {pairs[field]:,} (" in text, name
    assert f"What became of the {pairs['input']:,} pairs." in text
    for side in SIDES:
        for part in [report["reads"][side]["before"]]:
            assert f"{part['bases']:,}" in text and f"{part['reads']:,}" in text, side
        assert f"{sum(part['bases'] for part in after(report, side)):,}" in text, side
        removed = report["reads"][side]["removed_bases"]
        if pairs["input"]:
            said = f"{side.capitalize()}: {removed['front']:,} bases at the start of reads and {removed['behind']:,} at their end"
            assert said in text, side
    for step in report["steps"]:
        assert step["step"] in text, step


def check_adapters(page, report):
    adapters, text = report.get("adapters"), page.text()
    taken = report.get("adapters_auto")
    assert ("adapter" in text) == (adapters is not None or taken is not None), "adapters"
    assert taken is None or f"taken by --adapters auto {taken}" in text, taken
    if adapters is None:
        return
    how = f"cutadapt {adapters['version']} ({shlex.join(adapters['options'])})"
    if adapters["pairs_removed"]:
        how += f", which removed {adapters['pairs_removed']:,} of {adapters['pairs_read']:,} pairs"
    assert f"For the methods section: Adapters were removed with {how}. Read pairs were" in text, how
    assert f"adapters {how}" in text, how
    tables = [each for each in page.tables if each.rows[1:] and each.rows[1][0] == "reads with an adapter"]
    assert len(tables) == len(SIDES), tables
    for side, table in zip(SIDES, tables):
        found, removed = adapters[side]["pairs_with_adapter"], adapters[side]["bases_removed"]
        head, (name, *cells), (other, bases, share) = table.rows
        assert (table.caption, head, name, other) == (side.capitalize(), ["", "number", "share"], "reads with an adapter", "bases removed")
        if found is None:
            assert cells == ["–", "not looked for"], cells
        else:
            assert cells[0] == f"{found:,}", cells
            near(cells[1], found, adapters["pairs_read"])
        assert bases == f"{removed:,}", bases
        near(share, removed, removed + report["reads"][side]["before"]["bases"])


def check_warnings(page, report):
    """All that the run warned of is shown, and before everything but the title and the steps."""
    warnings, text = report.get("warnings", []), page.text()
    assert ("Warnings" in text) == bool(warnings)
    assert not warnings or page.classes.index("note") < page.classes.index("cards")
    for one in warnings:
        assert one in text, one


def check_page(report_path, page_path):
    with open(report_path, encoding="utf-8") as file:
        report = json.load(file)
    with open(page_path, encoding="utf-8", newline="") as file:
        content = file.read()
    page = parsed(content)
    assert "http" not in content and "<script" not in content
    check_numbers(page, report)
    check_tables(page, report)
    check_adapters(page, report)
    reads = report["reads"]["forward"]["before"]
    known = {
        "mean score by position": "positions" in reads,
        "Q30 by position": "positions" in reads,
        "reads by mean score": "mean_scores" in reads,
        "removed": "removed_front" in report["reads"]["forward"],
    }
    for name in known:
        assert any(name in figure for figure in page.figures) == (known[name] and reads["reads"] > 0), name
    for side in SIDES if reads["reads"] else ():
        check_lengths(page, report, side)
        if "positions" in reads:
            check_by_position(page, report, side, "mean score", "score_sum", 1)
            check_by_position(page, report, side, "% of bases with Q30", "q30_bases", 100)
            check_letters(page, report, side)
        if "mean_scores" in reads:
            check_histogram(page, report, side, "mean score", "reads with mean score {}", "mean_scores")
        if "gc_percents" in reads:
            check_histogram(page, report, side, "% G and C", "reads with {} % G and C", "gc_percents")
        if "removed_front" in report["reads"][side]:
            check_removed(page, report, side)
    check_warnings(page, report)
    high = any(report["reads"][side]["before"]["score_sum"] > 50 * report["reads"][side]["before"]["bases"] for side in SIDES)
    wanted = report["fault"] is not None or high
    assert ("fault" in page.classes) == wanted, "the warning at the top"
    if wanted:
        assert page.classes.index("fault") < page.classes.index("cards"), "the warning is not at the top"
    assert report["fault"] is None or report["fault"] in page.text(), "the fault is not named"
    assert ("The scores are too high" in page.text()) == high
    assert ("There are no pairs" in page.text()) == (report["fault"] is None and not report["pairs"]["input"])
    assert ("Read pairs were trimmed with Tibzharuk" in page.text()) == (report["fault"] is None)
    for names in [*report["inputs"].values(), *report["outputs"].values()]:
        for name in names if isinstance(names, list) else [names]:
            assert name is None or name in page.text() or not name.isprintable(), name


# Reports that are changed.


def loaded(package):
    """The function that makes a page, and the module that checks reports, of the package."""
    sys.dont_write_bytecode = True
    sys.path.insert(0, os.path.dirname(package))
    return importlib.import_module("tibzharuk.report.page").page, importlib.import_module("tibzharuk.report.reading")


def places(value, before=()):
    """The path to each value within a report; in a long list only to its first items."""
    for key in list(value) if isinstance(value, dict) else range(min(len(value), 3)):
        yield (*before, key)
        if isinstance(value[key], (dict, list)):
            yield from places(value[key], (*before, key))


def copied(report, way):
    """A copy of a report, and what holds the value at a place of the copy."""
    one = holder = copy.deepcopy(report)
    for key in way[:-1]:
        holder = holder[key]
    return one, holder


def check_hostile(package, report):
    page, checks = loaded(package)
    plain = parsed(page(report, "x")).structure()
    changed = 0
    for way in places(report):
        one, holder = copied(report, way)
        key = way[-1]
        if isinstance(holder[key], str) and key != "outcome":
            holder[key] = HOSTILE
            changed += 1
            checks.check(one)
            content = page(one, HOSTILE)
            parsed(page(one, "x", HOSTILE))
            assert parsed(content).structure() == plain, f"{key}: {HOSTILE!r} changes the page"
            content.encode("utf-8", "replace")
            assert "\x1b" not in content and "\u202e" not in content and "\ud800" not in content, key
    for part in "inputs", "outputs":
        one = copy.deepcopy(report)
        one[part] = {HOSTILE: HOSTILE, **one[part]}
        checks.check(one)
        parsed(page(one, "x"))
    assert changed >= 10, changed


def check_changed(package, report):
    """Makes some of the changes at each place, others at the next one: all would take too long."""
    page, checks = loaded(package)
    refused = drawn = 0
    changes = [
        lambda holder, key: holder.pop(key),
        lambda holder, key: holder.insert(key, 1) if isinstance(holder, list) else None,
        *[
            lambda holder, key, value=value: holder.__setitem__(key, value)
            for value in (-1, 0, 1, 0.5, 2**64, 2**64 - 1, float("nan"), 10**400, True, None, "x", "", [], [[1, 2]], {}, {"x": 1})
        ],
    ]
    for number, way in enumerate(places(report)):
        for change in changes[number % 7 :: 7]:
            one, holder = copied(report, way)
            change(holder, way[-1])
            try:
                checks.check(one)
            except checks.Refused:
                refused += 1
                continue
            drawn += 1
            parsed(page(one, "x"))
    assert refused > 400 and drawn > 100, (refused, drawn)


def check_positions(report):
    for name, side in report["reads"].items():
        assert len(side["before"]["positions"]["bases"]) == LAST, name


def check_syntax(*paths):
    for path in paths:
        with open(path, encoding="utf-8") as file:
            ast.parse(file.read(), path, feature_version=(3, 8))


def main(what, *words):
    if what in ("hostile", "changed", "positions"):
        with open(words[-1], encoding="utf-8") as file:
            words = [*words[:-1], json.load(file)]
    {
        "page": check_page,
        "hostile": check_hostile,
        "changed": check_changed,
        "positions": check_positions,
        "syntax": check_syntax,
    }[what](*words)


if __name__ == "__main__":
    main(*sys.argv[1:])
