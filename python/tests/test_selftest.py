"""The check of an installation: what is run, the verdict on it, and the record."""

import ast
import json
import os
import re

import pytest

from tibzharuk.selftest import cases, checks, inputs, matrix, own_reads, record, recorded, slow
from tibzharuk.selftest.checks import Case, Check, Outcome

TREE = os.path.dirname(os.path.dirname(os.path.dirname(os.path.abspath(__file__))))
READS = [open(os.path.join(TREE, "examples", f"reads_{side}.fq"), "rb").read() for side in "12"]
INPUTS = {**inputs.inputs_of(*READS), **cases.worked_inputs()}


class Sums(dict):
    """A checksum for each name."""

    def __missing__(self, name):
        return f"sum of {name}"


CASES = cases.all_cases(Sums())
CASE = Case("group", "what", "serves", ("trim",), {"1.fq": "forward"}, 3, "cannot read 1.fq",
            {"a.gz": "00"}, earlier=("s.json",))


def as_it_must_be(case):
    return Outcome(case.status, f"tibzharuk: {case.line}: a reason\n" if case.line else "",
                   dict(case.made), [])


@pytest.mark.parametrize("change", (
    {"status": 0}, {"status": 4}, {"status": -15}, {"said": ""}, {"said": "tibzharuk: else\n"},
    {"said": "tibzharuk: cannot read 1.fq\nmore\n"}, {"made": {}}, {"made": {"a.gz": "01"}},
    {"made": {"a.gz": "00", "b": "00"}}, {"made": {"b": "00"}}, {"changed": ["1.fq"]},
    {"left": ["process 7"]},
))
def test_what_fails(change):
    outcome = as_it_must_be(CASE)
    assert checks.judged(CASE, outcome).passed
    assert not checks.judged(CASE, outcome._replace(**change)).passed


@pytest.mark.parametrize("case", CASES, ids=lambda case: case.what)
def test_each_case_can_fail(case):
    right = as_it_must_be(case)
    assert checks.judged(case, right).passed
    others = [right._replace(status=case.status + 1), right._replace(said="tibzharuk: other\n"),
              right._replace(made={**case.made, "x": "00"}), right._replace(changed=["1.fq"]),
              right._replace(left=["process 7"])]
    others += [right._replace(made={**case.made, name: "00"}) for name in case.made]
    others += [right._replace(made={key: case.made[key] for key in case.made if key != name})
               for name in case.made]
    assert not any(checks.judged(case, other).passed for other in others)


def test_what_is_run():
    assert len({case.what for case in CASES}) == len(CASES)
    assert {key for case in CASES for key in case.inputs.values()} <= set(INPUTS)
    assert len({bytes(data) for data in inputs.inputs_of(*READS).values()}) == 20
    assert sum(case.group == cases.BROKEN for case in CASES) == 11
    assert all(case.status and not case.made for case in CASES if case.group == cases.BROKEN)
    assert {row.step.split(":")[0] for row in cases.ROWS} == set(slow.RULES)
    threads = [case.words[case.words.index("--threads") + 1] for case in CASES
               if "--threads" in case.words]
    assert threads.count("1") == threads.count("4") == 4


@pytest.mark.parametrize("row", cases.ROWS, ids=lambda row: f"{row.step} {row.quality}")
def test_worked_examples(row):
    """Each is in the document, and the slow program agrees."""
    with open(os.path.join(TREE, "docs", "FORMAT.md"), encoding="utf-8") as file:
        steps = file.read().split("\n## Steps\n")[1].split("\n## ")[0]
    assert f"`{row.step}`" in steps
    shown = {"III": "three bases", 36 * "I": "35 bases", 35 * "I": "35 bases"}
    assert shown.get(row.quality, f"`{row.quality}`") in steps
    record_ = slow.Record(b"r", b"A" * len(row.quality), row.quality.encode())
    text = slow.Side("forward", slow.steps_of([row.step]), row.encoding).trim(record_)[0]
    assert (text.split(b"\n")[3] if text else b"") == row.kept.encode()


def test_requirements():
    """Each names a promise of the table of promises."""
    serves = {case.serves for case in CASES} | {cases.RIGHT}
    assert all(re.match("[a-z0-9-]+: [a-z]", each) for each in serves)
    found = matrix.claims()
    if found:
        assert {each.split(":")[0] for each in serves} <= {claim.name for claim in found}


NAMED = ["fq_prog has SHA-256 00", "1.fq has SHA-256 11"]


@pytest.mark.parametrize("changed, text, named, wrong", (
    ("", "", NAMED, []), ("s.json", "{}", None, ["s.sha256"]), ("s.json", "", None, ["s.sha256"]),
    ("s.sha256", "", NAMED, ["s.json"]), ("s.sha256", "{}", None, ["s.sha256"]),
    ("s.sha256", "00  s.json\n", NAMED, ["s.json"]), ("s.html", "", NAMED, ["s.html"]),
))
def test_what_a_run_keeps(changed, text, named, wrong, tmp_path):
    made = {"fq_prog_sha256": "00", "inputs": [{"name": "1.fq", "sha256": "11"}]}
    (tmp_path / "s.json").write_text(json.dumps({"provenance": [made]}))
    checksum = recorded.sha256_of(str(tmp_path / "s.json"))
    (tmp_path / "s.sha256").write_text(f"{checksum}  s.json\n")
    if changed:
        (tmp_path / changed).write_text(text)
    found, fits = recorded.facts(str(tmp_path))
    assert fits == recorded.fit(wrong)
    assert found == named if named else found[0].startswith("no record: ")


def check(passed=True, lacks=""):
    return Check("group", "what", "serves", ["a"], ["a" if passed else "b"], lacks)


@pytest.mark.parametrize("made, status, line", (
    ([], 1, "passed 0 of 0"),
    ([check()], 0, "passed 1 of 1"),
    ([check(), check(False)], 1, "passed 1 of 2"),
    ([check(), check(lacks="x")], 0, "passed 1 of 1, 1 not tried"),
    ([check(lacks="x")], 1, "passed 0 of 0, 1 not tried"),
))
def test_verdict(made, status, line):
    assert (checks.status_of(made), checks.verdict(made)) == (status, line)


def test_slow_program_shares_no_code():
    with open(slow.__file__, encoding="utf-8") as file:
        nodes = list(ast.walk(ast.parse(file.read())))
    assert not any(isinstance(node, ast.ImportFrom) and node.level for node in nodes)
    names = [name.name for node in nodes if isinstance(node, ast.Import) for name in node.names]
    names += [node.module for node in nodes if isinstance(node, ast.ImportFrom)]
    assert set(names) == {"gzip", "itertools", "os", "sys", "typing"}


@pytest.mark.parametrize("lines, kind", (
    (["x"], "NoTitle"), (["@a", "AC"], "NoPlus"), (["@a", "@C"], "BadSequence"),
    (["@a", "A C"], "BadSequence"), (["@a", "AC", "+b"], "PlusDiffers"),
    (["@a", "AC", "+", "I"], "QualityShort"), (["@a", "AC", "+", "III"], "QualityLong"),
    (["@a", "AC", "+", "I "], "BadQuality"),
))
def test_texts_that_the_slow_program_refuses(lines, kind):
    given = (line.encode() for line in ["@r", "A", "+", "I", "", *lines])
    with pytest.raises(slow.Broken, match=f"^reverse record 2: {kind}$"):
        list(slow.records(given, "reverse", bytes(slow.SCORES["sanger"])))


def test_wrapped_records():
    lines = (line.encode() for line in ["@a b", "AC", "", "G", "+a b", "@", "+I", "@e", "+"])
    found = list(slow.records(lines, "forward", bytes(slow.SCORES["sanger"])))
    assert found == [(b"a b", b"ACG", b"@+I"), (b"e", b"", b"")]


@pytest.mark.parametrize("title, name", (
    (b"/1", b""), (b"a/2", b"a/2"), (b"a/1/1\tx", b"a/1"), (b" x", b""), (b"a/1 /1", b"a")))
def test_names(title, name):
    assert slow.name_of(title, b"/1") == name


@pytest.mark.parametrize("wanted, found, different", (
    ({"a": 1}, {"a": 1, "b": 2}, []),
    ({"a": 1}, {"a": 2}, [("a", 1, 2)]),
    ({"a": {"b": 1}}, {"a": None}, [("a.b", 1, None)]),
    ([{"s": 1}, {"s": 2}], [{"s": 1}], [("[1].s", 2, None)]),
    ({"a": [1]}, {"a": [1, 2]}, [("a[1]", None, 2)]),
))
def test_differences_of_counts(wanted, found, different):
    assert list(own_reads.differences(wanted, found)) == different


def test_record():
    given = record.Record({"date": "now", "machine": "<m>"}, {"fq_prog": "1"}, {},
                          [check(), check(False), check(lacks="c isn't installed")],
                          [matrix.Claim("n", "p & q", "d", "tested", "t")])
    page = record.page_of(given).decode()
    assert "<script" not in page and "&lt;m&gt;" in page and "p &amp; q" in page
    assert page.count('class="verdict failed"') == 1 and "Not tried: c isn" in page
    told = json.loads(record.json_of(given))
    assert [each["verdict"] for each in told["checks"]] == ["passed", "failed", "not tried"]
    assert (told["passed"], told["failed"], told["not_tried"]) == (1, 1, 1)


def test_matrix():
    lines = ["# a comment\n", "claim\tdocument\tpromise\tstate\tproof\ttrial\n",
             "a\td\tP|q\tproved\tc\tt\n", "b\td\tr\ttrusted\n"]
    found = matrix.claims_in(lines)
    assert [claim.evidence for claim in found] == ["c; t", ""]
    assert "| a: P\\|q | d | proved | c; t |" in matrix.matrix_text(found)
