"""The parts of `tibzharuk trim`, without any other program."""

import ast
import gzip
import json
import os
import pty
import re
import signal
import zlib

import pytest

from tibzharuk.trim import arguments, checks, cutadapt, files, progress, report, tools
from tibzharuk.trim.children import Ended
from tibzharuk.trim.faults import SIGNALS, Fault


class Pieces:
    def refused(self, call, *words):
        """The status and the line of the fault."""
        with pytest.raises(Fault) as caught:
            call(*words)
        return caught.value.status, caught.value.line


IS_OPTION = " is an option; a file of that name is ./"
IS_STEP = " is a step; a file of that name is ./"
ASTRAY = " is not an option; steps are words such as MINLEN:36 (tibzharuk trim --help)"
NEAR = " is not an option; did you mean {}? (tibzharuk trim --help)"
REFUSED = (
    ("--level 0", "--level must be a number from 1 to 9, not 0"),
    ("--level=10", "--level must be a number from 1 to 9, not 10"),
    ("--pairs 0", "--pairs must be a number from 1 to 1000000000000, not 0"),
    ("--pairs 1k", "--pairs must be a number from 1 to 1000000000000, not 1k"),
    ("--compress-threads 65", "--compress-threads must be a number from 1 to 64, not 65"),
    ("-1", "-1 has no value (tibzharuk trim --help)"),
    ("--report=", "--report has no value (tibzharuk trim --help)"),
    ("-1 -2 x", f"-1 has no value, as -2{IS_OPTION}-2"),
    ("--cutadapt --level 3", f"--cutadapt has no value, as --level{IS_OPTION}--level"),
    ("x", f"x{ASTRAY}"),
    ("--sync x", f"x{ASTRAY}"),
    ("-x", f"-x{ASTRAY}"),
    ("--block 7 x", f"x{ASTRAY}"),
    ("--strange x", f"--strange{ASTRAY}"),
    ("-i a -I b", "-I is not an option; reverse reads come after -2, and forward reads after -1 "
     "(tibzharuk trim --help)"),
    ("-o a", "-o is not an option; --out PREFIX names the outputs (tibzharuk trim --help)"),
    ("-1=x", f"-1=x{NEAR.format('-1')}"),
    ("--sync=x", f"--sync=x{NEAR.format('--sync')}"),
    ("-threads 4", f"-threads{NEAR.format('--threads')}"),
    ("--adapter x", f"--adapter{NEAR.format('--adapters')}"),
    ("--no-namecheck", f"--no-namecheck{NEAR.format('--no-name-check')}"),
    ("--report a --report b", "--report is given twice"),
    ("--cutadapt -N --cutadapt -O5", "--cutadapt is given twice"),
    ("--level 3 --level 3", "--level is given twice"),
    ("--threads 3 -t 4", "--threads is given twice"),
    ("--progress --no-progress", "either --progress or --no-progress"),
    ("--threads x", "--threads must be a number from 1 to 64, not x"),
    ("--block 1k", "--block must be a number from 1 to 65536, not 1k"),
    ("--compressor xz",
     "--compressor must be one of auto, bgzip, igzip, pigz, gzip, not xz"),
    ("--decompressor pigz", "--decompressor must be one of auto, bgzip, gzip, not pigz"),
    ("-1 LEADING:3", f"-1 has no value, as LEADING:3{IS_STEP}LEADING:3"),
    ("--out MINLEN:36", f"--out has no value, as MINLEN:36{IS_STEP}MINLEN:36"),
    ("MINLEN:3 --sync",
     "--sync comes after the steps; options come before them (tibzharuk trim --help)"),
)
FOUR = [word for role in arguments.READS for word in (f"--{role}", role)]
NEEDED = (
    (["-i", "a", "-1", "b"], "either -i, or -1 and -2"),
    (FOUR, "no input: -1 and -2, or -i (tibzharuk trim --help)"),
    (["-1", "a"], "1 forward files (-1), but 0 reverse files (-2)"),
    (["-i", "a"] + FOUR[2:], "no --paired1; --out PREFIX names it (tibzharuk trim --help)"),
    (["-i", "a", "--report", "r", "MINLEN:3"], "no names for the outputs: --out PREFIX names all (tibzharuk trim --help)"),
    (["-i", "a"] + FOUR, "no steps, such as MINLEN:36 (tibzharuk trim --help)"),
    (["-i", "a", "--cutadapt-log", "x"] + FOUR + ["--"],
     "--cutadapt-log without --adapters or --cutadapt"),
    (["-i", "a", "--interleaved", "x"] + FOUR + ["--"],
     "either --interleaved, or --paired1 and --paired2"),
    (["-i", "a", "--interleaved", "x", "--no-unpaired", "--block", "9", "--"],
     "--interleaved sets --block itself"),
    (["-i", "a", "--interleaved", "x", "--unpaired1", "y", "--"],
     "no --unpaired2; --out PREFIX names it, --no-unpaired leaves it out (tibzharuk trim --help)"),
    (["-i", "a", "--interleaved", "x.gz", "--no-unpaired", "--through", "cat", "--"],
     "--through needs --interleaved, whose name doesn't end in .gz"),
    (["-i", "a", "--through", "cat"] + FOUR + ["--"],
     "--through needs --interleaved, whose name doesn't end in .gz"),
    (["-i", "a", "--interleaved", "x", "--no-unpaired", "--expect-pairs", "--"],
     "--expect-pairs without --through"),
)


class TestArguments(Pieces):
    def test_what_is_known(self):
        got = arguments.Arguments([
            "-1", "a", "-1", "b", "--level=3", "--encoding", "solexa", "--sync", "--block=7",
            "--threads", "2", "--html", "x", "--cutadapt", "-e 0.2", "--no-progress",
            "--", "MINLEN:3", "--", "x"])
        assert (got.forward, got.level, got.progress) == (["a", "b"], 3, False)
        assert got.outputs == {"html": "x"}
        assert got.passed == ["--encoding=solexa", "--sync", "--threads=2", "--block=7"]
        assert (got.cutadapt, got.steps) == (["-e", "0.2"], ["MINLEN:3", "--", "x"])
        assert arguments.Arguments(["-1", "-"]).steps is None

    def test_several_files_and_what_adds_up(self):
        got = arguments.Arguments(
            "-1 a b -2 c -1 d -2 e f -t 3 --adapters A --adapters B,C --poly-g --".split())
        assert (got.forward, got.reverse) == (["a", "b", "d"], ["c", "e", "f"])
        assert (got.adapters, got.threads) == (["A", "B,C"], "3")
        assert got.poly_g and got.uses_cutadapt() and got.checks_names
        assert arguments.Arguments(["-t4"]).passed == ["--threads=4"]
        assert not arguments.Arguments(["--no-name-check"]).checks_names

    def test_names_of_outputs(self):
        four = {role: f"d/s.r{role[-1]}.{role[:-1]}.fastq.gz" for role in arguments.READS}
        paired = {role: four[role] for role in ("paired1", "paired2")}
        page = {"report": "d/s.json", "html": "d/s.html"}
        nowhere = {"unpaired1": "/dev/null", "unpaired2": "/dev/null"}
        for words, outputs in (
            ("", {**four, **page}),
            ("--no-report", four),
            ("--no-unpaired", {**paired, **nowhere, **page}),
            ("--no-unpaired --unpaired2 x --no-report --html y",
             {**paired, **nowhere, "unpaired2": "x", "html": "y"}),
            ("--interleaved - --no-unpaired --no-report", {"interleaved": "-", **nowhere}),
            ("--trimlog z --paired1 x --no-report", {**four, "paired1": "x", "trimlog": "z"}),
        ):
            got = arguments.Arguments(["-i", "a", "--out", "d/s", *words.split(), "--"])
            got.check()
            assert got.outputs == outputs, words
        assert arguments.Arguments(["--no-unpaired"]).outputs == nowhere
        assert self.refused(arguments.Arguments, ["--out", "d/"])[0] == 1

    @pytest.mark.parametrize("words, name", (
        (["--adapters", __file__], __file__), (["--cutadapt", f"-a file:{__file__}"], __file__),
        (["--cutadapt", f"-g '^file:{__file__};e=0'"], __file__), (["--adapters", "A"], None),
    ))
    def test_files_that_are_read(self, words, name):
        got = arguments.Arguments(["-i", "a", *words]).files_that_are_read()
        assert got == ["a"] + ([name] if name else [])

    @pytest.mark.parametrize("words", (["--help"], ["-1", "a", "-h"]))
    def test_help(self, words):
        with pytest.raises(arguments.HelpAsked):
            arguments.Arguments(words)

    def test_help_too(self):
        assert arguments.Arguments(["--", "--help"]).steps == ["--help"]

    @pytest.mark.parametrize("words, line", REFUSED)
    def test_what_is_refused(self, words, line):
        assert self.refused(arguments.Arguments, words.split()) == (1, line)

    @pytest.mark.parametrize("words", (["", "-i", "a"], ["-i", "a", "", "b"], ["-i", "a", "--sync", ""]))
    def test_empty_arguments(self, words):      # as of variables that aren't set
        line = "an argument is empty: is a variable not set? (tibzharuk trim --help)"
        assert self.refused(arguments.Arguments, words) == (1, line)

    @pytest.mark.parametrize("step, start", (
        ("MAXINFO:40:0.5", "MAXINFO:40:0.5 is not among the steps here: SLIDINGWINDOW"),
        ("ILLUMINACLIP:x.fa:2:30:10", "ILLUMINACLIP:x.fa:2:30:10 is not among the steps here"),
    ))
    def test_steps_of_trimmomatic(self, step, start):
        status, line = self.refused(arguments.Arguments, ["-i", "a", step])
        assert status == 2 and line.startswith(start)

    def test_steps_without_dashes(self):
        got = arguments.Arguments("-1 a -2 b --out s LEADING:3 MINLEN:36".split())
        assert got.steps == ["LEADING:3", "MINLEN:36"]
        assert (got.forward, got.reverse) == (["a"], ["b"])
        assert arguments.Arguments(["-1", "./LEADING:3", "-2", "b"]).forward == ["./LEADING:3"]
        assert arguments.Arguments(["-i", "-", "--", "x"]).both == ["/dev/stdin"]

    @pytest.mark.parametrize("words, line", NEEDED)
    def test_what_a_run_needs(self, words, line):
        assert self.refused(arguments.Arguments(words).check) == (1, line)

    def test_what_a_run_needs_is_enough(self):
        words = ["-i", "a", "--cutadapt-log", "x", "--adapters", "A"] + FOUR + ["--"]
        arguments.Arguments(words).check()

    def test_options_for_cutadapt(self):
        got = arguments.cutadapt_options("-e 0.2 -a 'x y' -Nz -u -3 -")
        assert got == ["-e", "0.2", "-a", "x y", "-Nz", "-u", "-3", "-"]

    @pytest.mark.parametrize("text", (
        "-o x", "-ox", "--out x", "--info", "--untrimmed-o=x", "-j 3", "--json=x", "'", "-Zpx",
        "-NZzo x", "-Zh"))
    def test_refused_options_for_cutadapt(self, text):
        assert self.refused(arguments.cutadapt_options, text)[0] == 1


PACKAGE = os.path.dirname(os.path.dirname(arguments.__file__))
SOURCES = sorted(os.path.join(place, name) for place, _, names in os.walk(PACKAGE)
                 for name in names if name.endswith(".py"))


@pytest.mark.parametrize("name", SOURCES)
def test_annotations_and_width(name):
    with open(name, encoding="utf-8") as file:
        text = file.read()
    assert [line for line in text.splitlines() if len(line) > 100] == []
    for node in ast.walk(ast.parse(text)):
        if isinstance(node, ast.FunctionDef):
            given = [each for each in node.args.args if each.arg != "self"]
            bare = [each.arg for each in given if each.annotation is None]
            assert node.returns and not bare, f"{node.name} {bare}"


class TestTools(Pieces):
    @pytest.mark.parametrize("text, reason", (
        ("[E::bgzf_read_block] Failed to read BGZF block data at offset 5 expected 3 bytes; "
         "hread returned 0\n", "unexpected end of file"),
        ("[E::bgzf_uncompress] CRC32 checksum mismatch\n",
         "invalid compressed data--crc error"),
        ("[E::something] else\n", "else"),
        ("\ngzip: stdin: not in gzip format\n", "not in gzip format"),
        ("pigz: abort: write error on <stdout> (No space left on device)\n",
         "write error on <stdout> (No space left on device)"),
        ('Traceback (most recent call last):\n  File "x", line 1\nMemoryError\n', "MemoryError"),
        ("", ""),
    ))
    def test_reasons(self, text, reason):
        assert tools.reason_of(text) == reason

    def test_reasons_too(self):
        assert tools.reason_of("a.gz: broken", "a.gz") == "broken"

    @pytest.mark.parametrize("threads, paired, unpaired", (
        ("1", 1, 1), ("4", 2, 1), ("16", 8, 4), (None, 2, 1)))
    def test_threads(self, threads, paired, unpaired):
        each = tools.Tools.__new__(tools.Tools)
        each.compressor, each.level, each.compress_threads = "pigz", 6, None
        each.threads = int(threads or 4)
        got = [int(each.compress(role)[-1]) for role in ("paired2", "unpaired1", "interleaved")]
        assert got == [paired, unpaired, each.threads]

    @pytest.mark.parametrize("name, level, installed, chosen", (
        ("auto", None, "igzip bgzip pigz", ("bgzip", 3)),
        ("auto", 1, "igzip bgzip pigz", ("igzip", 2)),
        ("auto", 1, "bgzip pigz", ("bgzip", 1)),
        ("auto", 2, "igzip bgzip pigz", ("bgzip", 2)),
        ("auto", 9, "pigz", ("pigz", 9)),
        ("auto", None, "pigz", ("pigz", 6)),
        ("auto", None, "igzip", ("gzip", 6)),
        ("auto", 1, "", ("gzip", 1)),
        ("igzip", 1, "igzip", ("igzip", 1)),
        ("igzip", None, "igzip", ("igzip", 2)),
        ("bgzip", 1, "igzip bgzip", ("bgzip", 1)),
    ))
    def test_compressors(self, name, level, installed, chosen, monkeypatch):
        monkeypatch.setattr(tools, "which", lambda name: name if name in installed else None)
        assert tools.Tools.choose_compressor(name, level) == chosen


@pytest.mark.parametrize("text, count", (
    ("max 100000\n", 8), ("200000 100000\n", 2), ("150000 100000\n", 2), ("1000 100000\n", 1),
    ("9900000 100000\n", 8), ("", 8), (None, 8)))
def test_processors(text, count, tmp_path, monkeypatch):
    if text is not None:
        (tmp_path / "cpu.max").write_text(text)
    monkeypatch.setattr(tools, "CPU_MAX", str(tmp_path / "cpu.max"))
    monkeypatch.setattr("os.sched_getaffinity", lambda _: range(8))
    assert tools.processors() == count


NAMES = "Read name 'r1' and 'x1' do not match"


class TestCutadapt(Pieces):
    def test_nobody_was_killed(self):
        assert (cutadapt.killed_below(os.getpid()), cutadapt.killed_below(0)) == (0, 0)

    @pytest.mark.parametrize("said, words, wanted, is_stricter", (
        ("Error in FASTQ file at line 5: no @", [],
         f"Error in FASTQ file at line 5: no @ (a, b): {cutadapt.FOUR_LINES}", False),
        ("Could not determine whether file '<x>' is FASTA or FASTQ", [],
         f"a record isn't FASTQ (a, b): {cutadapt.FOUR_LINES}", False),
        ("Error in FASTQ file at unknown line: Non-ASCII characters", [],
         "Error in FASTQ file at unknown line: Non-ASCII characters (a, b): "
         f"{cutadapt.ASCII_TITLES}", True),
        (NAMES, [], f"{NAMES} (a, b)", False),
        (NAMES, ["--no-name-check"], f"{NAMES} (a, b): {cutadapt.SAME_NAMES}", True),
        ("no space", [], "no space (a, b)", False),
    ))
    def test_what_to_do(self, said, words, wanted, is_stricter, monkeypatch):
        monkeypatch.setattr(cutadapt, "which", lambda _: "/bin/cutadapt")
        given = arguments.Arguments(["-1", "a", "-2", "b", "--adapters", "A", *words])
        one = cutadapt.Cutadapt(given, "s")
        one.hear({"/dev/fd/9": "a"}, ["a", "b"], b"", f"ERROR: {said}\n".encode())
        fault = one.fault(Ended(1))
        assert (fault.status, fault.line) == (3, f"cutadapt: {wanted}")
        assert one.is_stricter(said) == is_stricter


def test_the_same_inputs_into_nowhere():
    given = arguments.Arguments(
        ["-1", "a", "-2", "b", "--adapters", "A", "--poly-g", "--cutadapt=-m 9", "--out", "s",
         "--html", "x", "--pairs", "7", "--no-name-check", "MINLEN:3"])
    got = given.into_nowhere()
    assert (got.uses_cutadapt(), given.uses_cutadapt()) == (False, True)
    assert got.outputs == dict.fromkeys(arguments.READS, "/dev/null") != given.outputs
    assert (got.forward, got.steps, got.pairs) == (["a"], ["MINLEN:3"], 7)
    assert got.passed == given.passed


@pytest.mark.parametrize("words, wanted", (
    ([], None), (["--progress"], True), (["--no-progress"], False),
    (["--through", "cat"], False), (["--through", "cat", "--progress"], True),
))
def test_progress_beside_a_command(words, wanted):
    assert arguments.Arguments(words).progress is wanted


def test_signals_that_end_a_process():
    heard = {signal.Signals(number).name if number < 34 else number for number in SIGNALS}
    assert {"SIGINT", "SIGTERM", "SIGABRT", "SIGPWR", "SIGIO", "SIGUSR1", 34, 64} <= heard
    assert not heard & {"SIGKILL", "SIGSTOP", "SIGTSTP", "SIGCHLD", "SIGPIPE", "SIGSEGV", "SIGCONT"}


class TestProgress(Pieces):
    def test_lines(self):
        assert progress.describe(25000000, 100000000, 10) == " 25 %, 2 MB/s, 0:30 left"
        assert progress.describe(1, 7200, 1) == "  0 %, 0 MB/s, 1:59 h left"
        assert progress.describe(0, 0, 0) == "0 MB/s"

    def printed(self, writing, reading, is_wanted):
        """What is printed on this descriptor in place of standard error: two ticks and the end."""
        class Half:
            size = 2000000

            def bytes_read(self):
                return 1000000
        kept = os.dup(2)
        os.dup2(writing, 2)
        try:
            each = progress.Progress(is_wanted, [Half()])
            for _ in range(2):
                each.next = each.begun
                each.tick()
            each.tick()
            each.wipe()
            each.wipe()
            os.write(2, b".")
        finally:
            os.dup2(kept, 2)
            os.close(kept)
        got = b""
        while not got.endswith(b"."):
            got += os.read(reading, 10000)
        return got.decode()

    def test_where_it_is_printed(self):
        wipe, line = re.escape("\r\033[K"), r"tibzharuk:  50 %, \d+ MB/s, 0:\d\d left"
        for open_ends, is_wanted, wanted in (
            (os.pipe, None, r"\."), (os.pipe, False, r"\."), (os.pipe, True, rf"({line}\n){{2}}\."),
            (pty.openpty, None, rf"({wipe}{line}){{2}}{wipe}\."), (pty.openpty, False, r"\."),
        ):
            reading, writing = open_ends()
            got = self.printed(writing, reading, is_wanted)
            assert re.match(wanted + "$", got.replace("\r\n", "\n")), (is_wanted, got)
            os.close(reading)
            os.close(writing)


class TestReport(Pieces):
    def names(self, words):
        outputs = {field: f"/dev/fd/{number}" for number, field in enumerate(report.OUTPUTS)}
        inputs = {"interleaved": "/dev/fd/5"}
        said = {"command": "IL", "inputs": inputs, "outputs": outputs, "pairs": 1}
        text = report.of_call(said, arguments.Arguments(words), None, {})
        return json.loads(text.decode())

    def test_names(self):
        unpaired = ["--unpaired1", "u1", "--unpaired2", "u2"]
        four = ["--paired1", "p1", "--paired2", "p2"] + unpaired
        got = self.names(["-1", "a", "-1", "b", "-2", "c", "-2", "d", "--adapters", "A"] + four)
        assert got["command"] == "PE"
        assert got["inputs"] == {"forward": ["a", "b"], "reverse": ["c", "d"]}
        wanted = dict(zip(report.OUTPUTS, ("p1", "u1", "p2", "u2", None)))
        assert got["outputs"] == wanted
        assert list(got) == [
            "adapters", "command", "inputs", "outputs", "pairs", "provenance", "warnings"]
        assert (got["adapters"], got["warnings"]) == (None, [])
        assert "first_pairs" not in got
        got = self.names(["-i", "\udcff.gz", "--trimlog", "log", "--interleaved", "-"] + unpaired)
        assert (got["command"], got["inputs"]) == ("IL", {"interleaved": "\ufffd.gz"})
        assert "through" not in got
        got = self.names(["-i", "a", "--interleaved", "s", "--through", "bwa \udcff"] + unpaired)
        assert got["through"] == ["bwa \ufffd"]
        got = self.names(["-i", "\udcff.gz", "--trimlog", "log", "--interleaved", "-"] + unpaired)
        wanted = dict(zip(report.OUTPUTS, ("-", "u1", "-", "u2", "log")))
        assert got["outputs"] == wanted


    @pytest.mark.parametrize("pairs, read, removed, wanted", (
        ("9", 9, None, 9), ("10", 9, None, None), ("9", 9, 1, 9), ("9", 8, None, None)))
    def test_first_pairs(self, pairs, read, removed, wanted):
        counts = {"pairs": {"input": read - (removed or 0)}, "outputs": {}}
        adapters = None if removed is None else {"pairs_read": read}
        given = arguments.Arguments(["-i", "a", "--pairs", pairs])
        assert json.loads(report.of_call(counts, given, adapters, {})).get("first_pairs") == wanted


class TestFiles(Pieces):
    @pytest.fixture(autouse=True)
    def in_a_folder(self, tmp_path):
        self.folder = str(tmp_path)

    def put(self, name, data=b""):
        name = os.path.join(self.folder, name)
        with open(name, "wb") as file:
            file.write(data)
        return name

    def command(self, name, data):
        return files.Input(self.put(name, data)).command("bgzip")

    def test_who_decompresses(self):
        magic = b"\x1f\x8b\x08"
        assert self.command("a.gz", magic + b"x" * 30) == ["bgzip", "-dc"]
        assert self.command("b.gz", magic + bytes(30)) == ["gzip", "-dc"]
        # The empty block at the end of BGZF, by the specification of SAM/BAM.
        end = bytes.fromhex("1f8b08040000000000ff0600424302001b0003000000000000000000")
        assert self.command("g.gz", magic + b"x" * 30 + end) == ["bgzip", "-dc"]
        assert self.command("h.gz", magic + end + bytes(1)) == ["gzip", "-dc"]
        assert self.command("c.gz", b"") == ["gzip", "-dc"]
        assert self.command("d.gz", b"@r") == ["gzip", "-dc"]
        assert self.command("e", magic + b"x" * 30) == ["bgzip", "-dc"]
        assert self.command("f", b"@r") == ["cat"]
        assert files.Input("/dev/null").command("bgzip") == ["gzip", "-dcf"]

    def test_how_far_it_was_read(self):
        each = files.Input(self.put("f", b"@read"))
        assert each.bytes_read() == 0
        each.open()
        each.reader = os.getpid()
        with open(each.name, "rb", buffering=0) as again:
            again.read(3)
            assert sorted(files.places_in(os.getpid(), each.fd)) == [0, 3]
            assert each.bytes_read() == 3
        os.lseek(each.fd, 4, os.SEEK_SET)
        assert each.bytes_read() == 4
        each.reader = -1    # it has ended
        assert each.bytes_read() == 4
        each.close()
        assert each.bytes_read() == 5

    @pytest.mark.parametrize("line, wanted", (
        ("read failed: forward: /dev/fd/1: why", "read failed: forward: a.gz b.gz: why"),
        ("/dev/fd/1, /dev/fd/12 and /dev/fd/1", "a.gz b.gz, - and a.gz b.gz"),
        ("cannot write /d/.x+.tibzharuk.0a", "cannot write /dev/fd/1"),
        ("/dev/fd/13 /dev/fd/1a /d/.xx.tibzharuk.0a", "/dev/fd/13 /dev/fd/1a /d/.xx.tibzharuk.0a"),
    ))
    def test_names_in_lines(self, line, wanted):
        names = {"/dev/fd/1": "a.gz b.gz", "/dev/fd/12": "-", "/d/.x+.tibzharuk.0a": "/dev/fd/1"}
        assert files.with_names(line, names) == wanted

    def test_same_files(self):
        a, b = self.put("a"), os.path.join(self.folder, "b")
        os.link(a, b)
        assert self.refused(files.check_inputs, [a, b]) == (2, f"{b} is given twice")
        assert self.refused(files.check_inputs, [a, self.folder]) == (4, f"cannot read {self.folder}: Is a directory")
        output = files.Output("trimlog", b)
        assert self.refused(output.check, [a], []) == (2, f"{b} is an input and an output")
        assert self.refused(output.check, [], [files.Output("report", a)]) == (2, f"{b} is given for two outputs")

    def test_outputs_that_are_refused(self):
        long = "x" * 256
        for name, status, why in (
            (self.folder, 4, ": Is a directory"),
            (os.path.join(self.folder, long), 4, ": File name too long"),
            (os.path.join(self.put("plain"), "below"), 4, ": Not a directory"),
            *((f"x{ending}", 2, None) for ending in (".bz2", ".xz", ".zst", ".XZ", ".bgz", ".zip")),
        ):
            line = f"cannot write {name}{why}"
            if why is None:
                line = f"{name}: outputs are compressed only under names that end in .gz"
            output = files.Output("trimlog", name)
            assert self.refused(output.check, [], []) == (status, line)
        assert self.refused(files.Output("trimlog", os.path.join(self.folder, "no", "x")).hide) == (4, f"cannot write {self.folder}/no/x: No such file or directory")
        assert files.Output("trimlog", "x.GZ").is_compressed

    def test_standard_error(self):
        for name in files.STDERR_NAMES:
            assert self.refused(files.Output("trimlog", name).check, [], []) == (4, f"cannot write {name}: it is stderr too")

    def test_standard_output_for_two(self):
        first, second = files.Output("interleaved", "-"), files.Output("trimlog", "/dev/stdout")
        assert first.is_stdout and first.is_device and second.is_stdout
        assert self.refused(second.check, [], [first]) == (2, "/dev/stdout is given for two outputs")

    @pytest.mark.parametrize("length, name", ((255, "n" * 255), (254, "\u00e4" * 127)))
    def test_long_names(self, length, name):
        assert len(os.fsencode(name)) == length
        self.put(name, b"old")
        output = files.Output("trimlog", os.path.join(self.folder, name))
        output.check([], [])
        output.hide()
        assert len(os.fsencode(os.path.basename(output.hidden + files.OLD))) <= 255
        output.hidden.encode("utf-8")
        output.write(b"new", 6)
        files.give_names([output])
        output.forget()
        assert os.listdir(self.folder) == [name]
        os.unlink(output.target)

    @pytest.mark.parametrize("head, why", (
        (b"BZh91AY&SY", "it is compressed by bzip2, not by gzip; bzip2 -d decompresses it"),
        (b"\xfd7zXZ\0\0", "it is compressed by xz, not by gzip; xz -d decompresses it"),
        (b"\x28\xb5\x2f\xfd$", "it is compressed by zstd, not by gzip; zstd -d decompresses it"),
        (b"PK\3\4\x14", "it is compressed by zip, not by gzip; unzip decompresses it"),
        (b"@HD\tVN:1.6\n", "it is SAM; samtools fastq makes FASTQ of it"),
        (gzip.compress(b"@SQ\tSN:chr1\n"), "it is SAM; samtools fastq makes FASTQ of it"),
        (gzip.compress(b"BAM\1\0\0"), "it is BAM; samtools fastq makes FASTQ of it"),
        (b"CRAM\3", "it is CRAM; samtools fastq makes FASTQ of it"),
        (b"\n<!DOCTYPE HTML><title>404", "it is a web page, so its download failed"),
        (gzip.compress(b"<html>"), "it is a web page, so its download failed"),
        (b"\x1f\x8b\x08", None), (b"\x1f\x8b\x08\0\0\0\0\0\0\3\xff\xff", None), (gzip.compress(b"@HD\n"), None),
        (b"@HD VN:1", None), (b">r1", None), (b"@r1", None), (b"", None),
        (b"@r1\rA\r+\rI\r", r"its lines end in CR alone; tr '\r' '\n' makes lines of it"),
        (b"@r1\r" + 5000 * b"A" + b"\n", None), (b"@r1\r\nA\r\n", None), (b"r\r", None),
    ))
    def test_formats(self, head, why):
        each = files.Input(self.put("f.gz", head))
        if why:
            assert self.refused(each.look) == (3, f"cannot read {each.name}: {why}")
        else:
            assert not each.look()

    def test_ends_of_blocks(self):
        text = gzip.compress(b"text")
        end = block(b"")
        for data, lacks in (
            (b"", False), (text, False), (b"@r1", False), (block(b"a"), True),
            (block(b"a") + end, False), (block(b"a") + block(b"b"), True), (end, False),
            (block(b"a") + text, False), (text + block(b"a"), True),
            (block(os.urandom(65000)), True), (block(b"a") * 3000, True),
            (block(b"a")[:-1], False),
        ):
            assert files.Input(self.put("f.gz", data)).look() == lacks, data[:40]

    def test_first_records(self):
        record = b"@r1 1:N:0:A\nACGT\n+\nIIII\n"
        lines = record.split(b"\n")[:4]
        for data, wanted in (
            (record * 3, [lines, lines]), (b"\n" + record.replace(b"\n", b"\r\n"), [lines]),
            (gzip.compress(record[:9]) + gzip.compress(record[9:] + record), [lines, lines]),
            (block(b"") + block(record), [lines]), (gzip.compress(record * 9)[:-9], [lines, lines]),
            (record[:-1], []), (b"", []), (b"\x1f\x8b none", []),
        ):
            assert checks.first_records(self.put("f", data), 2) == wanted, data[:40]

    def test_mates(self):
        def record(title, bases=b"A"):
            return [[title, bases, b"+", b"I"]]
        for forward, reverse, start in (
            (b"@a 2:N:0:A", b"@a 1:N:0:A", "the sides seem to be exchanged: the first read numbers "
                                           "are 2 and 1: f, r (--no-name-check passes them)"),
            (b"@a 3:Y:0:A", b"@a 1:Y:0:A", "the sides seem to be exchanged: the first read numbers "
                                           "are 3 and 1: f, r (--no-name-check passes them)"),
            (b"@a", b"@a", "both sides begin with the same records: f, r "
                           "(--no-name-check passes them)"),
        ):
            assert self.refused(checks.check_mates, record(forward), record(reverse), "f, r") == (3, start)
        for forward, reverse in (
            (b"@a 1:N:0:A", b"@a 2:N:0:A"), (b"@a 1:N:0:A", b"@a 3:N:0:A"), (b"@a/1", b"@a/2"),
            (b"@a/1 1:N:0:A", b"@a/2 1:N:0:A"),
            (b"@a 2:N:0:A", b"@a 3:N:0:A"), (b"@a", b"@a 1:N:0:A"), (b"@a 2:x", b"@a 1:x"),
        ):
            checks.check_mates(record(forward), record(reverse), "f, r")
        checks.check_mates(record(b"@a"), record(b"@a", b"C"), "f, r")
        # As at the edge of a tile in files of the SRA: no base was read of either mate.
        checks.check_mates(record(b"@a", b"N"), record(b"@a", b"N"), "f, r")
        none = record(b"@a", b"N")
        checks.check_mates(none + record(b"@b"), none + record(b"@b", b"C"), "f, r")
        both = none + record(b"@b")
        assert self.refused(checks.check_mates, both, both, "f, r")[0] == 3

    def test_one_side_as_interleaved(self, capfd):
        name = self.put("f", b"@a 1:N:0:A\nA\n+\nI\n@b 1:N:0:A\nC\n+\nI\n")
        checks.check_interleaved([name])
        assert capfd.readouterr().err == (
            "tibzharuk: warning: the first reads of both sides have the number 1: "
            f"{name}; is it one of two files (-1 and -2)?\n")

    def output(self, old):
        """An output with new text in its hidden file, and an older output if its text is given."""
        for name in os.listdir(self.folder):
            os.unlink(os.path.join(self.folder, name))
        if old:
            self.put("o", old)
        output = files.Output("trimlog", os.path.join(self.folder, "o"))
        mask = os.umask(0o026)
        try:
            output.hide()
        finally:
            os.umask(mask)
        output.write(b"new", 6)
        return output

    def text(self):
        with open(os.path.join(self.folder, "o"), "rb") as file:
            return file.read()

    @pytest.mark.parametrize("old", (None, b"old"))
    def test_final_names(self, old):
        output = self.output(old)
        assert len(os.listdir(self.folder)) == 2 if old else 1
        files.give_names([output])
        output.forget()
        assert (os.listdir(self.folder), self.text()) == (["o"], b"new")
        assert os.stat(output.target).st_mode & 0o777 == 0o640

    @pytest.mark.parametrize("old", (None, b"old"))
    def test_names_are_taken_back(self, old):
        output = self.output(old)
        output.place()
        output.take_back()
        output.forget()
        assert os.listdir(self.folder) == (["o"] if old else [])
        assert not old or self.text() == old

    @pytest.mark.parametrize("old", (None, b"old"))
    def test_the_last_step_fails(self, old):
        output = self.output(old)
        hidden, output.hidden = output.hidden, os.path.join(self.folder, "gone")
        with pytest.raises(Fault):
            files.give_names([output])
        output.hidden = hidden
        output.forget()
        assert os.listdir(self.folder) == (["o"] if old else [])

    def test_compressed(self):
        assert gzip.decompress(files.compressed(b"text", 1)) == b"text"
        assert files.compressed(b"text", 9)[4:8] == bytes(4)


def block(text):
    """A block of BGZF, as the SAM specification says."""
    packed = zlib.compressobj(6, zlib.DEFLATED, -15)
    data = packed.compress(text) + packed.flush()
    head = b"\x1f\x8b\x08\x04" + bytes(5) + b"\xff\x06\0BC\x02\0"
    size = (len(head) + 2 + len(data) + 8 - 1).to_bytes(2, "little")
    tail = zlib.crc32(text).to_bytes(4, "little") + len(text).to_bytes(4, "little")
    return head + size + data + tail
