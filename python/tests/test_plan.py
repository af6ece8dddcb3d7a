"""What a run starts, as --dry-run prints it."""

import gzip

import pytest

from tibzharuk.trim import plan
from tibzharuk.trim.arguments import Arguments
from tibzharuk.trim.files import WHOLE_LINES, Output, Side
from tibzharuk.trim.tools import Tools

OUT = "--paired1 p1.gz --unpaired1 /dev/null --paired2 p2 --unpaired2 /dev/null"


@pytest.fixture(autouse=True)
def reads(tmp_path, monkeypatch):
    """A folder with a.gz, b.gz, c and d, and no compressor but gzip."""
    monkeypatch.chdir(tmp_path)
    for name in "a.gz", "b.gz":
        (tmp_path / name).write_bytes(gzip.compress(b"@r\nA\n+\nI\n"))
    for name in "c", "d":
        (tmp_path / name).write_bytes(b"@r\nA\n+\nI\n")


def planned(line, cutadapt=None, compressor="gzip", direct=False):
    """The lines of a plan, by their roles."""
    given = Arguments(f"{line} --threads 4 --decompressor gzip --compressor gzip MINLEN:3".split())
    tools = Tools(given)
    tools.compressor = compressor
    sides = [Side("forward", given.both or given.forward)]
    sides += [] if given.both else [Side("reverse", given.reverse)]
    for side in sides if direct else ():
        side.hand_over()
    outputs = {role: Output(role, name) for role, name in given.outputs_in_order()}
    return [plan.shown(start, outputs) for start in
            plan.plan(given, tools, sides, outputs, cutadapt)]


@pytest.mark.parametrize("line, wanted", (
    (f"-1 a.gz -2 c {OUT}", [
        "paired1: gzip -n -6 < <(paired1) > p1.gz",
        "forward: gzip -dc < a.gz > >(forward)",
        "reverse: cat < c > >(reverse)",
        "program: fq_prog PE --explain --threads=4 -- <(forward) <(reverse) >(paired1) /dev/null "
        "p2 /dev/null MINLEN:3 > >(summary)"]),
    ("-i d --interleaved - --no-unpaired", [
        "interleaved: cat < <(interleaved) > -",
        "forward: cat < d > >(forward)",
        "program: fq_prog IL --explain --threads=4 --block=1 -- <(forward) >(interleaved) "
        "/dev/null >(interleaved) /dev/null MINLEN:3 > >(summary)"]),
    (f"-1 /dev/stdin c -2 a.gz b.gz {OUT} --html x", [
        "paired1: gzip -n -6 < <(paired1) > p1.gz",
        "forward: sh -c 'exec \"$@\" < \"$0\"' /dev/stdin gzip -dcf > >(forward)",
        "reverse: gzip -dc < a.gz > >(reverse)",
        "program: fq_prog PE --explain --threads=4 --report >(report) -- <(forward) <(reverse) "
        ">(paired1) /dev/null p2 /dev/null MINLEN:3 > >(summary)"]),
))
def test_what_is_started(line, wanted, monkeypatch):
    monkeypatch.setattr("os.path.isfile", lambda name: name not in ("/dev/stdin", "/dev/null"))
    assert planned(line) == wanted


def test_a_plain_file_is_opened_by_the_program():
    assert planned(f"-1 a.gz -2 c {OUT}", direct=True)[1:] == [
        "forward: gzip -dc < a.gz > >(forward)",
        "program: fq_prog PE --explain --threads=4 -- <(forward) c >(paired1) /dev/null p2 "
        "/dev/null MINLEN:3 > >(summary)"]


@pytest.mark.parametrize("files, left, wanted", (
    (["c"], None, True), (["c"], 9, False), (["c", "d"], None, False), (["a.gz"], None, False),
    (["/dev/null"], None, False)))
def test_which_sides_the_program_opens(files, left, wanted):
    side = Side("forward", files)
    side.left = left
    side.hand_over()
    assert (side.is_direct, side.is_whole) == (wanted, wanted)


def test_a_tool_whose_last_write_is_not_checked():
    assert planned(f"-1 a.gz -2 c {OUT}", compressor="igzip")[:2] == [
        "paired1: cat < <(paired1.gz) > p1.gz",
        "paired1: igzip -c -n -3 -T 2 < <(paired1) > >(paired1.gz)"]


def test_cutadapt_is_between():
    got = planned(f"-1 a.gz -2 c {OUT}", ["-a", "ACGT"])
    whole = " ".join(WHOLE_LINES)
    assert got[1:] == [
        f"forward: {whole} gzip -dc < a.gz > >(forward)",
        f"reverse: {whole} cat < c > >(reverse)",
        "cutadapt: cutadapt -a ACGT -j 4 --interleaved --json >(cutadapt-report) -o >(trimmed) "
        "<(forward) <(reverse) > >(cutadapt-log)",
        "program: fq_prog IL --explain --threads=4 -- <(trimmed) >(paired1) /dev/null p2 /dev/null "
        "MINLEN:3 > >(summary)"]


def test_a_mapper():
    line = "-i d --interleaved s.sam --no-unpaired --through mapper"
    assert planned(line)[0] == (
        "interleaved: bash -o pipefail -c mapper < <(interleaved) > s.sam")


def test_what_counts_its_records():
    got = plan.counter(4, "interleaved")
    assert got.words == ("samtools", "flagstat", "-@", "4", plan.Made("interleaved"))


@pytest.mark.parametrize("place, words", (
    (0, ["cat"]), (1, ["sh", "-c", 'echo; exec "$@"', "sh", "cat"])))
def test_lanes(place, words):
    got = plan.lane(Side("forward", ["c", "d"]), place, "gzip", False)
    assert list(got.words) == words
    assert (got.stdin, got.stdout) == (plan.Lane("cd"[place]), plan.End("forward", True))
