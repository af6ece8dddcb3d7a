"""The file of checksums, as `sha256sum -c` reads it."""

import pytest

from tibzharuk.trim import arguments, checksums
from tibzharuk.trim.faults import Fault
from tibzharuk.trim.files import Output

OF_ABC = "ba7816bf8f01cfea414140de5dae2223b00361a396177a9cb410ff61f20015ad"     # FIPS 180-2


@pytest.mark.parametrize("name, line", (
    ("s.fq.gz", b"0a  s.fq.gz\n"), (" a  b", b"0a   a  b\n"), ("a\\b", b"\\0a  a\\\\b\n"), ("a\nb\r", b"\\0a  a\\nb\\r\n"),
    ("\udcff", b"0a  \xff\n"), ("-x", b"0a  -x\n"),
))
def test_a_line(name, line):
    assert checksums.line_of("0a", name) == line


@pytest.mark.parametrize("folder, name, wanted", (
    ("", "s.json", "s.json"), ("out", "out/s.json", "s.json"), ("out/", "s.json", "../s.json"), ("", "out/s.json", "out/s.json"),
    ("link", "out/s.json", "../../out/s.json"), ("link", "link/s.json", "s.json"), ("link", "s.json", "../../s.json"),
    ("link", "far/away/s.json", "s.json"), (".", "./-", "./-"), ("out", "out/./a b", "a b"),
))
def test_a_name_from_a_directory(folder, name, wanted, tmp_path, monkeypatch):
    monkeypatch.chdir(tmp_path)
    (tmp_path / "out").mkdir()
    (tmp_path / "far" / "away").mkdir(parents=True)
    (tmp_path / "link").symlink_to("far/away")
    assert checksums.name_from(folder, name) == wanted


def test_a_file(tmp_path):
    (tmp_path / "hidden").write_bytes(b"abc")
    output = Output("paired1", str(tmp_path / "p.fq"))
    output.hidden = str(tmp_path / "hidden")
    found = checksums.checksums([output, output], str(tmp_path / "s.sha256"))
    assert found == 2 * f"{OF_ABC}  p.fq\n".encode()
    assert checksums.checksums([], "s.sha256") == b""


def test_no_thread_can_be_started(tmp_path, monkeypatch):
    def refuse(thread):
        raise RuntimeError("can't start new thread")     # as Python does
    monkeypatch.setattr("threading.Thread.start", refuse)
    with pytest.raises(Fault) as caught:
        checksums.checksums([Output("paired1", str(tmp_path / "p.fq"))], "s.sha256")
    assert caught.value.status == 6


def test_the_last_output():
    got = arguments.Arguments("--out d/s --checksums --summary x".split())
    assert got.outputs_in_order()[-1] == ("checksums", "d/s.sha256")
    assert "checksums" not in arguments.Arguments(["--out", "s"]).outputs


@pytest.mark.parametrize("words, line", (
    ("--paired1 a", "--checksums writes PREFIX.sha256, so it needs --out PREFIX"),
    ("--out d/", "--out d/ is a directory; the names need a beginning, too"),
))
def test_what_is_refused(words, line):
    with pytest.raises(Fault) as caught:
        arguments.Arguments([*words.split(), "--checksums"])
    assert (caught.value.status, caught.value.line) == (1, line)
