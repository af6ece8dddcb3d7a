"""What is said of all samples of a run of the workflow."""

import re
import xml.etree.ElementTree

import pytest

from reports import adapters, report
from tibzharuk.report import outliers, overview

WHY = "cannot read x"


@pytest.mark.parametrize("trimmed, failed, not_started, wanted", (
    (5, {}, [], "5 of 5 samples are good"),
    (4, {"a": WHY}, [], "4 of 5 samples are good; failed: a (cannot read x)"),
    (0, {"a": WHY, "b": "y"}, ["c", "d"],
     "0 of 4 samples are good; failed: a (cannot read x), b (y); not started: c, d"),
    (1, dict.fromkeys("abcd", WHY), [], "1 of 5 samples are good; failed: a, b, c, d"),
    (2, {}, [f"s{number}" for number in range(96)],
     "2 of 98 samples are good; not started: "
     + ", ".join(f"s{number}" for number in range(20)) + " and 76 more"),
))
def test_last_line(trimmed, failed, not_started, wanted):
    assert overview.last_line(trimmed, failed, not_started) == wanted


LOG = "tibzharuk: warning: a\nother\ntibzharuk: warning: b: c\n"


@pytest.mark.parametrize("more, log, wanted", (
    ({}, LOG, ["a", "b: c"]),
    ({}, "", []),
    ({"warnings": []}, LOG, []),
    ({"warnings": ["x", "y"]}, LOG, ["x", "y"]),
))
def test_warnings(more, log, wanted):
    assert overview.warnings_of(report(**more), log) == wanted


def run(**bad):
    """Reports of eight samples that are nearly alike, and of one more."""
    kept = (98, 97, 99, 98, 98, 97, 98, 99)
    found = {f"s{n}": report(1000, 10 * share) for n, share in enumerate(kept, 1)}
    return {**found, "bad": report(**{"pairs": 1000, "kept": 980, **bad})}


def marks(reports):
    values = {name: outliers.values_of(each) for name, each in reports.items()}
    found = outliers.outside(values)
    return outliers.worst_first(values, found), {name: set(each) for name, each in found.items()
                                                 if each}


@pytest.mark.parametrize("bad, wanted", (
    ({}, None),
    ({"kept": 970}, None),
    ({"kept": 730}, {"kept", "bases"}),
    ({"kept": 400}, {"kept", "bases"}),
    ({"scores": (29, 36)}, {"q30"}),
    ({"left": 60}, {"length", "bases"}),
    ({"pairs": 500, "kept": 490}, {"pairs"}),
    ({"pairs": 2000, "kept": 1960}, {"pairs"}),
    ({"pairs": 0, "kept": 0}, {"pairs"}),
    ({"length": 120, "left": 90}, {"bases"}),
))
def test_what_lies_outside(bad, wanted):
    order, found = marks(run(**bad))
    assert found == ({"bad": wanted} if wanted else {})
    assert order[0] == "bad" or not wanted


@pytest.mark.parametrize("shares, wanted", (
    ((10, 10, 10, 11, 48), {"s4"}),
    ((10, 10, 10, 11, 0), set()),
    ((10, 10, 10), set()),
    ((48, 10, 10), set()),
))
def test_adapters(shares, wanted):
    reports = {f"s{n}": report(adapters=adapters(share)) for n, share in enumerate(shares)}
    assert set(marks(reports)[1]) == wanted


def test_few_samples_are_sorted_by_pairs_kept():
    reports = {name: report(kept=kept) for name, kept in (("a", 95), ("b", 40), ("c", 73))}
    assert marks(reports) == (["b", "c", "a"], {})


def test_the_section():
    reports = run(kept=730, adapters=adapters())
    made = "\n".join(overview.overview(reports, lambda name: f'<a href="{name}">{name}</a>'))
    head, *rows = re.findall("<tr>.*?</tr>", made)
    assert len(rows) == 9 and rows[0].startswith('<tr><th scope="row"><a href="bad">bad</a></th>')
    assert '<td class="out">&#9660;&nbsp;73.0 %</td>' in rows[0]
    assert [row.count('class="out"') for row in rows] == [2] + [0] * 8
    assert all(row.count("<svg") == 4 == row.count("<title>") for row in rows)
    assert "Adapter" in head and all(row.count("<td") == head.count("<th") - 1 for row in rows)
    assert "<script" not in made and "Samples with a marked number: 1 of 9." in made
    xml.etree.ElementTree.fromstring(
        f"<div>{made.replace('&nbsp;', '')}</div>")   # each tag is closed


@pytest.mark.parametrize("more", (
    {"pairs": 0, "kept": 0}, {"kept": 0}, {"places": False}, {"length": 10001, "left": 10000},
    {"length": 1, "left": 1},
))
def test_any_report_can_be_drawn(more):
    assert "<svg" in "".join(overview.overview({"a<b": report(**more)}))


def test_no_samples():
    assert overview.overview({}) == []
