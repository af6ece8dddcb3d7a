"""What a run looks at before it starts."""

import pytest

from tibzharuk.trim import cutadapt, look
from tibzharuk.trim.arguments import Arguments
from tibzharuk.trim.faults import Fault

INPUT = "-i a --no-unpaired"


@pytest.fixture(autouse=True)
def folder(tmp_path, monkeypatch):
    monkeypatch.chdir(tmp_path)
    (tmp_path / "a").write_text("@r\nA\n+\nI\n")


@pytest.mark.parametrize("words, status, line", (
    ("--interleaved a", 2, "a is an input and an output"),
    ("--interleaved x --report ./x", 2, "./x is given for two outputs"),
    ("--interleaved - --summary -", 2, "- is given for two outputs"),
    ("--interleaved x --summary a", 2, "a is an input and an output"),
    ("--interleaved - --out s --no-report --checksums", 1, "--checksums: no output is a file"),
))
def test_outputs_that_are_refused(words, status, line):
    with pytest.raises(Fault) as caught:
        look.outputs_of(Arguments(f"{INPUT} {words}".split()))
    assert (caught.value.status, caught.value.line) == (status, line)


def test_outputs():
    outputs = look.outputs_of(Arguments(f"{INPUT} --interleaved - --out s --checksums".split()))
    assert list(outputs) == [
        "unpaired1", "unpaired2", "interleaved", "report", "html", "checksums"]
    assert [each.role for each in look.files_with_checksums(outputs)] == ["report", "html"]


def test_a_command_without_what_runs_it(monkeypatch):
    monkeypatch.setattr(look, "which", lambda name: None if name == "samtools" else name)
    given = Arguments(f"{INPUT} --interleaved s.bam --through mapper --expect-pairs".split())
    output = look.outputs_of(given)["interleaved"]
    with pytest.raises(Fault) as caught:
        look.check_command(given, output)
    assert caught.value.line == "no program samtools (--expect-pairs)"


def test_without_cutadapt(monkeypatch):
    monkeypatch.setattr(cutadapt, "which", lambda name: None)
    with pytest.raises(Fault) as caught:
        cutadapt.Cutadapt(Arguments(f"{INPUT} --interleaved x --poly-g".split()), "x")
    wanted = "no program cutadapt (--adapters, --poly-g, --cutadapt, ILLUMINACLIP)"
    assert (caught.value.status, caught.value.line) == (1, wanted)
