"""Which words begin the steps."""

import pytest

from tibzharuk.trim.arguments import Arguments
from tibzharuk.trim.faults import Fault
from tibzharuk.trim.steps import is_step, meant


@pytest.mark.parametrize("word, wanted", (
    ("LEADING:3", True), ("SLIDINGWINDOW:4:15", True), ("TOPHRED33", True), ("CROP", True), ("MAXINFO:40:0.5", True),
    ("ILLUMINACLIP:a.fa:2:30:10", True), ("LEADNG:3", True), ("MINLEN:", True),
    ("./MINLEN:36", False), ("minlen:36", False), ("MINLEN36", False), ("MINLENS", False), ("CROP.fq.gz", False), ("ABC:3", False),
    ("LANE:1.fq", False), ("S1_L001:3", False), ("-", False), ("--", False), ("ACGTACGT", False), ("ACGT,ACGT", False), ("", False),
))
def test_is_step(word, wanted):
    assert is_step(word) == wanted


@pytest.mark.parametrize("words, forward, steps", (
    ("-1 a b LEADING:3 MINLEN:36", ["a", "b"], ["LEADING:3", "MINLEN:36"]),
    ("-1 ./MINLEN:36 a -- MINLEN:36", ["./MINLEN:36", "a"], ["MINLEN:36"]),
    ("-1 a -- LEADING:3 -- x", ["a"], ["LEADING:3", "--", "x"]),
    ("-1 a -t 4 --sync TOPHRED33", ["a"], ["TOPHRED33"]),
    ("-1 a --adapters=ACGT MINLEN:3 x", ["a"], ["MINLEN:3", "x"]),
    ("-1 a", ["a"], None),
))
def test_where_steps_begin(words, forward, steps):
    got = Arguments(words.split())
    assert (got.forward, got.steps) == (forward, steps)


@pytest.mark.parametrize("words, status", (
    ("-1 a MINLEN:3 -2 b", 1), ("-1 a MINLEN:3 --", 1), ("-1 a MAXINFO:40:0.5", 2), ("-1 a ILLUMINACLIP:a.fa:2:30:10", 2), ("-1 a minlen:3 --sync", None)))
def test_what_is_refused_among_steps(words, status):
    if status is None:
        assert Arguments(words.split()).forward == ["a", "minlen:3"]
        return
    with pytest.raises(Fault) as caught:
        Arguments(words.split())
    assert caught.value.status == status


@pytest.mark.parametrize("word, wanted", (
    ("leading:3", "LEADING:3"), ("LEADNG:3", "LEADING:3"), ("MinLen:36", "MINLEN:36"), ("MINLENGTH:36", "MINLEN:36"),
    ("SLIDINGWINDOWS:4:15", "SLIDINGWINDOW:4:15"), ("topphred33", "TOPHRED33"), ("minlen", "MINLEN"),
    ("LEADING:3", None), ("CROP", None), ("CROP:x", None), ("FOO:1", None), ("TRIM:3", None), ("x.fq", None), ("", None),
))
def test_what_was_meant(word, wanted):
    assert meant(word) == wanted


NO_FILE = " is neither a file nor a step; did you mean {}?"


@pytest.mark.parametrize("words, status, line", (
    ("LEADNG:3 MINLEN:36", 2, "LEADNG:3 is no step; did you mean LEADING:3?"),
    ("-- leading:3", 2, "leading:3 is no step; did you mean LEADING:3?"),
    ("-- MINLEN:3 MAXLEN:3", 2, "MAXLEN:3 is not among the steps here: --cutadapt '-M 300' drops pairs with reads of more than 300 bases"),
    ("-- ILLUMINACLIP:a.fa:2:30:10", 2,
     "ILLUMINACLIP:a.fa:2:30:10 is not among the steps here: --adapters removes adapters, and tibzharuk PE takes this step"),
    ("-- FOO:1 CROP:x", None, None),     # the program says what is wrong with these
))
def test_steps_that_are_none(words, status, line):
    call = "-1 a -2 b --out s".split() + words.split()
    if status is None:
        Arguments(call).check()
        return
    with pytest.raises(Fault) as caught:
        Arguments(call).check()
    assert (caught.value.status, caught.value.line) == (status, line)


@pytest.mark.parametrize("words, name, wanted", (
    ("-1 a -2 b leading:3 --out s MINLEN:3", "leading:3", "LEADING:3"), ("-i a minlen:36 --out s", "minlen:36", "MINLEN:36"),
    ("-1 a -2 b:3 --out s MINLEN:3", None, None), ("-1 a -2 crops --out s MINLEN:3", None, None),
))
def test_steps_among_inputs(words, name, wanted, tmp_path, monkeypatch):
    monkeypatch.chdir(tmp_path)
    if name is None:
        Arguments(words.split()).check()
        return
    with pytest.raises(Fault) as caught:
        Arguments(words.split()).check()
    assert (caught.value.status, caught.value.line) == (2, name + NO_FILE.format(wanted))
    (tmp_path / name).touch()
    with pytest.raises(Fault) as caught:
        Arguments(words.split()).check()
    assert caught.value.status == 1


def test_files_without_an_option(tmp_path, monkeypatch):
    monkeypatch.chdir(tmp_path)
    (tmp_path / "r1.fq.gz").touch()
    with pytest.raises(Fault) as caught:
        Arguments(["r1.fq.gz", "r2.fq.gz", "MINLEN:36"])
    assert (caught.value.status, caught.value.line) == (1, "r1.fq.gz: a file comes after -1, -2 or -i (tibzharuk trim --help)")
