"""How a run was made: what the report says, and what reads it."""

import copy
import json
import re
import sys

import pytest

from reports import report
from tibzharuk import VERSION
from tibzharuk import sum as summing
from tibzharuk.report import page, reading
from tibzharuk.trim import arguments, files, provenance, tools

PYTHON = {"python": ".".join(map(str, sys.version_info[:3])), "tibzharuk": VERSION}


@pytest.mark.parametrize("text, version", (
    ("bgzip (htslib) 1.16\nCopyright (C) 2022\n", "1.16"), ("gzip 1.12\nCopyright\n", "1.12"),
    ("pigz 2.6\n", "2.6"), ("igzip command line interface 2.30.0\n", "2.30.0"), ("4.2\n", "4.2"),
    ("4.10.dev3\n", "4.10.dev3"), ("fq_prog 2.0.0\n", "2.0.0"), ("", ""), ("sh: not found", ""),
))
def test_versions_in_texts(text, version):
    assert tools.version_in(text) == version


@pytest.mark.parametrize("said, cutadapt, wanted", (
    ({}, None, {}),
    ({"bgzip": "bgzip (htslib) 1.16\n"}, "4.2", {"bgzip": "1.16", "cutadapt": "4.2"}),
    ({"gzip": "else"}, None, {"gzip": "unknown"}),
))
def test_versions(said, cutadapt, wanted):
    assert provenance.versions(said, cutadapt) == {**wanted, **PYTHON}


def plan_of(words, folder, monkeypatch):
    """The sides, the outputs and the tools of a call."""
    monkeypatch.chdir(folder)
    packed = b"\x1f\x8b\x08"
    for name, data in ("a.fq", b"@"), ("b.fq.gz", packed), ("c.gz", packed + bytes(9)):
        (folder / name).write_bytes(data)
    given = arguments.Arguments(words)
    outputs = {role: files.Output(role, name) for role, name in given.outputs_in_order()}
    return files.sides_of(given), outputs, tools.Tools(given)


OTHERS = ["--paired2", "q", "--no-unpaired", "--report", "r.gz"]
PLAIN = ["--paired1", "p", *OTHERS]


@pytest.mark.parametrize("words, wanted", (
    (["-i", "a.fq", *PLAIN], []),
    (["-i", "a.fq", "--paired1", "p.gz", *OTHERS], ["gzip"]),
    (["-i", "b.fq.gz", *PLAIN], ["gzip"]),
    (["-i", "a.fq", "c.gz", *PLAIN], ["gzip"]),
    (["-i", "a.fq", *PLAIN, "--trimlog", "l.gz"], ["gzip"]),
))
def test_programs_beside(words, wanted, tmp_path, monkeypatch):
    tail = ["--compressor", "gzip", "--decompressor", "gzip"]
    assert provenance.programs_beside(*plan_of(words + tail, tmp_path, monkeypatch)) == wanted


def test_provenance(tmp_path, monkeypatch):
    words = ["-1", "a.fq", "-2", "/dev/null", *PLAIN, "MINLEN:3"]
    sides, _, _ = plan_of(words, tmp_path, monkeypatch)
    inputs = [each for side in sides for each in side.inputs]
    call = arguments.Arguments(words).call
    made = provenance.provenance(call, "00", PYTHON, inputs, {"a.fq": "11"})
    assert made["call"] == ["trim", *words]
    assert made["inputs"] == [{"bytes": 1, "name": "a.fq", "sha256": "11"},
                              {"bytes": None, "name": "/dev/null", "sha256": None}]
    assert provenance.sum_of_program("/nothing") is None


MADE = {"call": ["trim", "-1", "a b", "<x>"], "fq_prog_sha256": 64 * "0", "programs": PYTHON,
        "inputs": [{"bytes": 5000, "name": "a b", "sha256": None},
                   {"bytes": None, "name": "-", "sha256": 64 * "1"}]}


def changed(*path, value):
    """The same with another value there."""
    made = copy.deepcopy(MADE)
    holder = made
    for part in path[:-1]:
        holder = holder[part]
    holder[path[-1]] = value
    return made


@pytest.mark.parametrize("made, line", (
    (MADE, None), (changed("fq_prog_sha256", value=None), None),
    (changed("call", value="trim"), "provenance[0].call is not a list"),
    (changed("call", value=[1]), "provenance[0].call[0] is not text"),
    (changed("inputs", 0, "bytes", value=-1), "provenance[0].inputs[0].bytes is not a count"),
    (changed("inputs", 0, "sha256", value=1), "provenance[0].inputs[0].sha256 is not text"),
    (changed("programs", value=[]), "provenance[0].programs is not an object"),
    (changed("programs", "python", value=3), "provenance[0].programs.python is not text"),
    ({}, "provenance[0] has no call"),
))
def test_forms(made, line):
    given = {**report(), "provenance": [made]}
    if line is None:
        return reading.check(given)
    with pytest.raises(reading.Refused, match="^" + re.escape(line) + "$"):
        reading.check(given)


def test_page():
    """It is the last section, if the report has it."""
    with_it = page.page(report(provenance=[MADE, MADE]), "s")
    last = with_it.split("<section>")[-1]
    assert last.startswith("<h2>Provenance</h2>") and last.count("<dl>") == 2
    for text in ("tibzharuk trim -1 &#x27;a b&#x27; &#x27;&lt;x&gt;&#x27;",
                 "a b, 5,000 bytes</code>", f"-, a pipe or a device, SHA-256 {64 * '1'}",
                 f"tibzharuk {VERSION}"):
        assert text in last
    assert "Provenance" not in page.page(report(), "s")


def test_sum(tmp_path):
    """It joins those of the runs, and a lane is the same whatever call trimmed it."""
    other = {**MADE, "call": ["PE"]}
    lanes = (report(name="a", provenance=[MADE]), report(name="b", provenance=[other]),
             report(name="c"))
    paths = [str(tmp_path / f"{number}.json") for number in range(3)]
    for path, lane in zip(paths, lanes):
        with open(path, "w", encoding="utf-8") as file:
            json.dump(lane, file)
    assert summing.report_of_all(paths)["provenance"] == [MADE, other]
    assert "provenance" not in summing.report_of_all(paths[2:])
    with open(paths[1], "w", encoding="utf-8") as file:
        json.dump(report(name="a", provenance=[other]), file)
    with pytest.raises(reading.Refused, match="same lane"):
        summing.report_of_all(paths)


def test_checksums_of_many_files(tmp_path):
    from tibzharuk.trim.checksums import sums_of
    for name in "ab":
        (tmp_path / name).write_text(name)
    found = sums_of([str(tmp_path / name) for name in "ba"])
    assert [each[:8] for each in found] == ["3e23e816", "ca978112"]
    with pytest.raises(OSError):
        sums_of([str(tmp_path / "c")])
