"""The first records of a text, without any other program."""

import io

import pytest

from tibzharuk.trim import first_records, plan
from tibzharuk.trim.files import FIRST_RECORDS, WHOLE_LINES, Side

READ = b"@r\nACGT\n+\nIIII\n"
WRAPPED = b"@r\nAC\nGT\n+r\n@I\n+I\n"
EMPTY = b"@e\n\n+\n"


@pytest.mark.parametrize("text, number, first, found", (
    (3 * READ, 2, 2 * READ, 2),
    (3 * READ, 3, 3 * READ, 3),
    (3 * READ, 4, 3 * READ, 3),
    (b"", 1, b"", 0),
    (2 * WRAPPED + READ, 1, WRAPPED, 1),
    (2 * WRAPPED + READ, 2, 2 * WRAPPED, 2),
    (b"\n\r\n" + READ + b"\n" + READ, 1, b"\n\r\n" + READ, 1),
    (b"@r\r\nA\r\n\r\nC\r\n+\r\nII\r\n" + READ, 1, b"@r\r\nA\r\n\r\nC\r\n+\r\nII\r\n", 1),
    (EMPTY + b"\n" + READ, 1, EMPTY, 1),
    (EMPTY + b"\n" + 2 * READ, 2, EMPTY + b"\n" + READ, 2),
    (EMPTY + READ, 2, EMPTY + READ, 2),
    (READ + READ[:-1], 2, READ + READ[:-1], 2),
    (READ[:-1] + b"\r", 1, READ[:-1] + b"\r", 1),
))
def test_first_records(text, number, first, found):
    out = io.BytesIO()
    assert first_records.copy_records(io.BytesIO(text), out, number) == found
    assert out.getvalue() == first


@pytest.mark.parametrize("broken, found", (
    (b"x\n" + READ, 0),
    (READ + b"@r\nAC\n@x\n+\nII\n" + READ, 1),
    (READ + b"@r\nAC", 1),
    (READ + b"@r\nAC\n+\nI", 1),
    (READ + b"@" + (3 << 20) * b"x" + b"\n" + READ, 1),
    (READ + b"@r\n" + (3 << 20) * b"A" + b"\n+\nI\n", 1),
    (bytes(5 << 20), 0),
))
def test_a_text_that_breaks_a_rule_is_copied_as_it_is(broken, found):
    out = io.BytesIO()
    assert first_records.copy_records(io.BytesIO(broken), out, 9) == found
    assert out.getvalue() == broken


@pytest.mark.parametrize("said, found", (
    (b"copied 12 records\n", 12), (b"[W::bgzf] x\ncopied 3 records\n", 3), (b"", 0), (b"not copied 3 records", 0)))
def test_what_it_says(said, found):
    assert first_records.copied(said) == found


@pytest.mark.parametrize("left, is_for_cutadapt, words", (
    (None, False, ["cat"]), (9, False, [*FIRST_RECORDS, "9", "cat"]), (9, True, [*WHOLE_LINES, *FIRST_RECORDS, "9", "cat"])))
def test_what_is_started(left, is_for_cutadapt, words, tmp_path, monkeypatch):
    monkeypatch.chdir(tmp_path)
    (tmp_path / "c").write_bytes(READ)
    side = Side("forward", ["c"])
    side.left = left
    assert list(plan.lane(side, 0, "gzip", is_for_cutadapt).words) == words


@pytest.mark.parametrize("files, place, left, wanted", (
    (["a"], 0, None, False), (["a", "b"], 0, None, True), (["a", "b"], 0, 5, True), (["a", "b"], 0, 0, False), (["a", "b"], 1, 5, False)))
def test_whether_another_lane_is_read(files, place, left, wanted):
    side = Side("forward", files)
    side.place, side.left = place, left
    assert side.has_more() == wanted
