"""The sum of reports."""

import json

import pytest

from reports import adapters, report
from tibzharuk import sum as summing
from tibzharuk.report.reading import Refused


def added(tmp_path, *reports):
    """The sum of reports, each in a file of its own."""
    paths = []
    for number, each in enumerate(reports):
        paths.append(str(tmp_path / f"{number}.json"))
        (tmp_path / paths[-1]).write_text(json.dumps(each), encoding="utf-8")
    return summing.report_of_all(paths)


NULL = {"adapters": None}
CUT = {"adapters": adapters(10, 50)}
OTHER_OPTIONS = {"adapters": dict(adapters(), options=["-q", "20"])}
UNKNOWN = {"adapters": adapters(None, 7)}


@pytest.mark.parametrize("first, second, wanted", (
    ({}, {}, {}),
    ({}, NULL, NULL),
    (NULL, {}, NULL),
    (NULL, NULL, NULL),
    (CUT, CUT, {"adapters": adapters(20, 100, 200)}),
    (UNKNOWN, UNKNOWN, {"adapters": adapters(None, 14, 200)}),
))
def test_adapters(first, second, wanted, tmp_path):
    whole = added(tmp_path, report(name="a", **first), report(name="b", **second))
    assert {name: whole[name] for name in whole if name == "adapters"} == wanted
    assert whole["pairs"]["input"] == 200
    assert whole["inputs"]["forward"] == ["a_1.fq", "b_1.fq"]


SAME = "{0}/1.json: it is of the same lane as {0}/0.json"
OTHER = "{0}/1.json: its adapters were removed in another way"


@pytest.mark.parametrize("first, second, line", (
    (report(name="a"), report(name="a"), SAME),
    (report(name="a"), report(name="a", outputs={"forward_paired": "z"}), SAME),
    (report(name="a", **CUT), report(name="b"), OTHER),
    (report(name="a"), report(name="b", **CUT), OTHER),
    (report(name="a", **CUT), report(name="b", **OTHER_OPTIONS), OTHER),
))
def test_what_is_refused(first, second, line, tmp_path):
    with pytest.raises(Refused) as why:
        added(tmp_path, first, second)
    assert str(why.value) == line.format(tmp_path)


def test_one_file_twice(tmp_path):
    (tmp_path / "a.json").write_text(json.dumps(report(0, 0)), encoding="utf-8")
    (tmp_path / "b.json").symlink_to("a.json")
    with pytest.raises(Refused, match="b.json: it is of the same lane as .*a.json"):
        summing.report_of_all([str(tmp_path / "a.json"), str(tmp_path / "b.json")])


@pytest.mark.parametrize("first, second", (
    (report(0, 0, name="a"), report(0, 0, name="a")),   # two empty lanes
    (report(name="a"), report(99, name="a")),
    (report(name="a"), report(name="b")),
))
def test_lanes_that_are_not_the_same(first, second, tmp_path):
    added(tmp_path, first, second)
