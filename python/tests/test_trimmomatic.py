"""Lines of Trimmomatic in the words of `tibzharuk trim`."""

import gzip

import pytest

from tibzharuk import trimmomatic
from tibzharuk.pe import arguments_of
from tibzharuk.trim.faults import Fault
from tibzharuk.trim.files import holds_reads
from tibzharuk.trimmomatic import offset_of, translated

X, Y1, Y2 = "ACGTACGTACGTACGTACGT", "AAAAACCCCCAAAAACCCCC", "GGGGGTTTTTGGGGGTTTTT"
FILES = "a.gz b.gz p1 u1 p2 u2"
OUT = ["--paired1=p1", "--unpaired1=u1", "--paired2=p2", "--unpaired2=u2"]
IN = ["-1", "a.gz", "-2", "b.gz"]


@pytest.fixture(autouse=True)
def folder(tmp_path, monkeypatch):
    monkeypatch.chdir(tmp_path)
    monkeypatch.setattr(trimmomatic, "PLACES", (str(tmp_path / "package"), "$NOWHERE_/x"))
    (tmp_path / "package").mkdir()
    (tmp_path / "package" / "known.fa").write_text(
        f">PrefixPE/1\n{3 * 'AACC'}\n>PrefixPE/2\n{3 * 'GTTT'}\n")
    (tmp_path / "own.fa").write_text(f">x\n{X}\n>y/1\n{Y1}\n>y/2\n{Y2}\n")
    (tmp_path / "half.fa").write_text(f">PrefixPE/2\n{Y2}\n")
    (tmp_path / "short.fa").write_text(f">a\n{X[:16]}\n>b\n{X[:17]}\n")
    (tmp_path / "shorter.fa").write_text(f">\n{X[:16]}\n>PrefixQ/1\n{X[:16]}\n")
    (tmp_path / "empty.fa").write_text(">x\n")
    (tmp_path / "star.fa").write_text(">x\nACGT*\n")
    (tmp_path / "list.fa").write_text("ACGT\n")
    (tmp_path / "none.fa").write_text("")
    (tmp_path / "reads").write_text("@r\nA\n+\nI\n")
    (tmp_path / "later").write_bytes(b"\r\n\n@r\nA\n+\nI\n")
    (tmp_path / "log").write_text("r 1 0 1 0\n")
    (tmp_path / "log.gz").write_bytes(gzip.compress(b"r 1 0 1 0\n"))
    (tmp_path / "packed").write_bytes(gzip.compress(b"r 1 0 1 0\n"))
    (tmp_path / "reads.gz").write_bytes(gzip.compress(b"@r\nA\n+\nI\n"))
    for name, quality in ("low", "#I"), ("high", "hB"), ("middle", "IJ"):
        (tmp_path / f"{name}.fq").write_text(f"@r\nAC\n+\n{quality}\n" * 2)
    for name in ("s_1.fq", "s_2.fq", "a_f_1.fq", "a_f_2.fq", "t_R1_1.fq.gz", "t_R2_1.fq.gz",
                 "x.r.fq"):
        (tmp_path / name).touch()


@pytest.mark.parametrize("line, words", (
    (f"{FILES} MINLEN:36", [*IN, *OUT, "--", "MINLEN:36"]),
    (f"-threads 4 -phred33 -validatePairs -quiet {FILES} LEADING:3 MINLEN:36",
     ["--threads=4", *IN, *OUT, "--", "LEADING:3", "MINLEN:36"]),
    (f"{FILES} LEADING:3 -threads 4 MINLEN:36 -phred33",
     ["--threads=4", *IN, *OUT, "--", "LEADING:3", "MINLEN:36"]),
    (f"-threads 0 {FILES} CROP:9", [*IN, *OUT, "--", "CROP:9"]),
    (f"-threads 96 {FILES} CROP:9", ["--threads=64", *IN, *OUT, "--", "CROP:9"]),
    (f"-phred33 {FILES} CROP:9 -phred33", [*IN, *OUT, "--", "CROP:9"]),
    (f"-phred64 -trimlog log -summary s {FILES} TOPHRED33",
     ["--trimlog=log", "--summary=s", "--encoding=illumina13", *IN, *OUT, "--", "TOPHRED33"]),
    (f"--threads 2 --sync --explain --report=r.json {FILES} CROP:9",
     ["--threads=2", "--sync", "--report=r.json", *IN, *OUT, "--", "CROP:9"]),
    (f"{FILES} CROP:9 --trimlog log.gz --explain",
     ["--trimlog=log.gz", *IN, *OUT, "--", "CROP:9"]),
    (f"--sync -- {FILES} CROP:9", ["--sync", *IN, *OUT, "--", "CROP:9"]),
    ("-- -a.gz b.gz p1 u1 p2 u2 CROP:9", ["-1", "./-a.gz", *IN[2:], *OUT, "--", "CROP:9"]),
    ("-basein s_1.fq p1 u1 p2 u2 CROP:9", ["-1", "s_1.fq", "-2", "s_2.fq", *OUT, "--", "CROP:9"]),
    ("a.gz b.gz -baseout s.gz CROP:9",
     [*IN, "--paired1=s_1P.gz", "--unpaired1=s_1U.gz", "--paired2=s_2P.gz", "--unpaired2=s_2U.gz",
      "--", "CROP:9"]),
    ("a.gz b.gz ./LEADING:3 u1 p2 u2 CROP:9",
     [*IN, "--paired1=./LEADING:3", *OUT[1:], "--", "CROP:9"]),
    (f"{FILES} LEADNG:3", [*IN, *OUT, "--", "LEADNG:3"]),     # fq_prog says what is wrong with it
    ("low.fq low.fq p1 u1 p2 u2 CROP:9", ["-1", "low.fq", "-2", "low.fq", *OUT, "--", "CROP:9"]),
    ("high.fq high.fq p1 u1 p2 u2 CROP:9",
     ["--encoding=illumina13", "-1", "high.fq", "-2", "high.fq", *OUT, "--", "CROP:9"]),
    ("-phred33 high.fq high.fq p1 u1 p2 u2 CROP:9",
     ["-1", "high.fq", "-2", "high.fq", *OUT, "--", "CROP:9"]),
    ("--encoding=solexa high.fq high.fq p1 u1 p2 u2 CROP:9",
     ["--encoding=solexa", "-1", "high.fq", "-2", "high.fq", *OUT, "--", "CROP:9"]),
))
def test_lines(line, words):
    assert translated(line.split()).words == words


ALONE = (f"-a {X};min_overlap=18 -a {Y1};min_overlap=18 -A {X};min_overlap=18 "
         f"-A {Y2};min_overlap=18 -e 0.1")
HALF = f"-A {Y2};min_overlap=18 "
SHORT = f"-a {X[:17]};min_overlap=17 -A {X[:17]};min_overlap=17 -e 0.1"
PAIR = f"-a {3 * 'AAAC'};min_overlap={{0}} -A {3 * 'GGTT'};min_overlap={{0}} -e 0.1"


@pytest.mark.parametrize("steps, cutadapt, others", (
    ("ILLUMINACLIP:own.fa:2:30:10 CROP:9", ALONE, ["CROP:9"]),
    ("ILLUMINACLIP:own.fa:2:30:9: CROP:9", ALONE.replace("18", "16"), ["CROP:9"]),
    ("ILLUMINACLIP:known.fa:2:30:10 CROP:9", PAIR.format(8), ["CROP:9"]),
    ("ILLUMINACLIP:known.fa:2:30:10:12:true CROP:9", PAIR.format(12), ["CROP:9"]),
    ("ILLUMINACLIP:known.fa:2:30:10:13:true CROP:9", PAIR.format(12), ["CROP:9"]),
    ("ILLUMINACLIP:short.fa:2:30:10", SHORT, ["MINLEN:1"]),
    ("ILLUMINACLIP:known.fa:2:30:10:1:true CROP:9", PAIR.format(5), ["CROP:9"]),
    ("CROP:9 MINLEN:25 ILLUMINACLIP:known.fa:2:40:15", PAIR.format(8), ["CROP:9", "MINLEN:25"]),
    ("ILLUMINACLIP:known.fa:2:40:15", PAIR.format(8), ["MINLEN:1"]),
    ("ILLUMINACLIP:half.fa:2:30:10", HALF + "-e 0.1", ["MINLEN:1"]),
    ("ILLUMINACLIP:half.fa:2:30:10 ILLUMINACLIP:known.fa:2:30:10",
     HALF + PAIR.format(8), ["MINLEN:1"]),
    ("--poly-g ILLUMINACLIP:half.fa:2:30:10 --cutadapt=-u4",
     HALF + "-e 0.1 -u4", ["MINLEN:1"]),
    ("CROP:9 --cutadapt -u4", "-u4", ["CROP:9"]),
))
def test_adapters(steps, cutadapt, others):
    words = translated(f"{FILES} {steps}".split()).words
    assert [word for word in words if word.startswith("--cutadapt=")] == [f"--cutadapt={cutadapt}"]
    assert words[words.index("--") + 1:] == others


@pytest.mark.parametrize("line, status, start", (
    (f"{FILES} MAXINFO:40:0.5", 2, "MAXINFO:40:0.5 is not among the steps here: SLIDINGWINDOW"),
    (f"{FILES} BASECOUNT:N:0:5", 2, "BASECOUNT:N:0:5 is not among the steps here: --cutadapt"),
    (f"{FILES} MAXLEN:300", 2, "MAXLEN:300 is not among the steps here: --cutadapt '-M 300'"),
    (f"{FILES} TAILCROP:5", 2, "TAILCROP:5 is not among the steps here: --cutadapt '-u -5 -U -5'"),
    (f"{FILES} TOPHRED64", 2, "TOPHRED64 is not among the steps here: TOPHRED33"),
    (f"{FILES} ILLUMINACLIP:other.fa:2:30:10", 4,
     "ILLUMINACLIP: cannot read other.fa: it isn't there, nor where packages of Trimmomatic"),
    (f"{FILES} ILLUMINACLIP:d/other.fa:2:30:10", 4,
     "ILLUMINACLIP: cannot read d/other.fa: it isn't there"),
    (f"{FILES} ILLUMINACLIP:d/TruSeq3-PE.fa:2:30:10", 4,
     "ILLUMINACLIP: cannot read d/TruSeq3-PE.fa: it isn't there; in place of the step, "
     "--adapters truseq"),
    (f"{FILES} ILLUMINACLIP:own.fa", 2, "ILLUMINACLIP:own.fa: its form is"),
    (f"{FILES} ILLUMINACLIP::2:30:10", 2, "ILLUMINACLIP::2:30:10: its form is"),
    (f"{FILES} ILLUMINACLIP:own.fa:2:30:10:true", 2, "ILLUMINACLIP:own.fa:2:30:10:true: its form"),
    (f"{FILES} ILLUMINACLIP:empty.fa:2:30:10", 2, "ILLUMINACLIP: empty.fa has no sequence for x"),
    (f"{FILES} ILLUMINACLIP:star.fa:2:30:10", 2,
     "ILLUMINACLIP: star.fa has a letter that is no base in x"),
    (f"{FILES} ILLUMINACLIP:list.fa:2:30:10", 2, "ILLUMINACLIP: list.fa isn't FASTA: its first"),
    (f"{FILES} ILLUMINACLIP:none.fa:2:30:10", 2, "ILLUMINACLIP: none.fa has no adapters"),
    (f"{FILES}", 1, "no steps, such as MINLEN:36"),
    (f"{FILES} more CROP:9", 2, "more is not a step: LEADING, TRAILING"),
    (f"{FILES} crop:9", 2, "crop:9 is not a step; did you mean CROP:9?"),
    (f"{FILES} foo:9", 2, "foo:9 is not a step: LEADING, TRAILING"),
    (f"{FILES} -baseout s.fq CROP:9", 2, "p1 is not a step"),
    ("a b p1 u1 p2 CROP:9 MINLEN:3", 1, "CROP:9 is in the place of RU: F R FP FU RP RU come"),
    ("a b p1 u1 p2", 1, "no RU: F R FP FU RP RU come before the steps"),
    ("-baseout s.fq a MINLEN:3", 1, "MINLEN:3 is in the place of R: F R come before the steps"),
    (f"-strange {FILES} CROP:9", 1, "-strange is not an option"),
    (f"--strange {FILES} CROP:9", 1, "--strange is not an option"),
    (f"-threads 2 -threads 3 {FILES} CROP:9", 1, "-threads is given twice"),
    (f"-threads two {FILES} CROP:9", 1, "-threads must be a number, not two"),
    (f"-phred33 -phred64 {FILES} CROP:9", 1, "either -phred33 or -phred64"),
    ("-threads CROP:9", 1, "-threads has no value"),
    (f"{FILES} CROP:9 --report", 1, "--report has no value"),
    ("-trimlog reads b p1 u1 p2 u2 CROP:9", 2, "-trimlog reads: this file holds reads"),
    ("-summary reads.gz b p1 u1 p2 u2 CROP:9", 2, "-summary reads.gz: this file holds reads"),
    ("--report packed b p1 u1 p2 u2 CROP:9", 2, "--report packed: this file holds reads"),
    ("a b -baseout out/ CROP:9", 1, "-baseout out/ is a directory; the names need a beginning"),
    ("-basein x.fq p1 u1 p2 u2 CROP:9", 4, "-basein x.fq: no reverse file beside it"),
))
def test_what_is_refused(line, status, start):
    with pytest.raises(Fault) as caught:
        translated(line.split())
    assert caught.value.status == status
    assert caught.value.line.startswith(start)


@pytest.mark.parametrize("words, start", (
    (["", *FILES.split(), "CROP:9"], "an argument is empty"),
    ([*FILES.split(), "", "CROP:9"], "an argument is empty"),
    (["a", "b", "-baseout", "", "CROP:9"], "-baseout has no value"),
    (["--report", "", *FILES.split(), "CROP:9"], "--report has no value"),
))
def test_empty_arguments(words, start):     # as of variables that aren't set
    with pytest.raises(Fault) as caught:
        translated(words)
    assert (caught.value.status, caught.value.line[:len(start)]) == (1, start)


@pytest.mark.parametrize("name, is_refused", (
    ("reads", True), ("later", True), ("reads.gz", True), ("packed", True), ("log", False),
    ("log.gz", False), ("nowhere", False), ("/dev/null", False)))
def test_files_that_hold_reads(name, is_refused):
    assert holds_reads(name) == is_refused


@pytest.mark.parametrize("qualities, offset", (
    (b"", None), (b"!I", 33), (b":", 33), (b";", None), (b"IO", None), (b"P", 64), (b";h", 64),
    (b"h", 64), (b"i", None), (b"~", None), (b"#h", None)))
def test_encoding(qualities, offset):   # as Trimmomatic 0.39 tells it
    assert offset_of(qualities) == offset


@pytest.mark.parametrize("reads, line, notes", (
    ("low.fq low.fq", "Quality encoding detected as phred33", 0),
    ("high.fq high.fq", "Quality encoding detected as phred64", 0),
    ("middle.fq low.fq", "", 1), ("low.fq high.fq", "", 1), ("middle.fq middle.fq", "", 1),
    ("nowhere low.fq", "", 0), ("/dev/null low.fq", "", 1), ("- low.fq", "", 1),
    ("-phred33 middle.fq low.fq", "", 0),
    ("-phred64 low.fq low.fq", "", 0), ("--encoding sanger high.fq low.fq", "", 0),
))
def test_what_is_said_of_the_encoding(reads, line, notes):
    found = translated(f"{reads} p1 u1 p2 u2 CROP:9".split())
    assert (found.encoding, len(found.notes)) == (line, notes)


@pytest.mark.parametrize("forward, reverse", (
    ("s_1.fq", "s_2.fq"), ("a_f_1.fq", "a_f_2.fq"), ("t_R1_1.fq.gz", "t_R2_1.fq.gz"),
    ("x.f.fq", "x.r.fq"), ("./s_1.fq", "./s_2.fq")))
def test_base_in(forward, reverse):
    assert trimmomatic.base_in(forward) == reverse


@pytest.mark.parametrize("base, stem, ending", (     # as Trimmomatic 0.39 names them
    ("m.fq.gz", "m", ".fq.gz"), ("a.b.fq.gz", "a.b", ".fq.gz"), ("noext", "noext", ""),
    ("x.y.z", "x.y.z", ""), ("x.gz", "x", ".gz"), ("a.gz.fq", "a", ".gz.fq"),
    ("a.txt", "a", ".txt"), ("a.FQ", "a.FQ", ""), ("d.x/m.fq", "d.x/m", ".fq"), (".fq", "", ".fq"),
))
def test_base_out(base, stem, ending):
    wanted = [f"{stem}_{each}{ending}" for each in ("1P", "1U", "2P", "2U")]
    assert trimmomatic.base_out(base) == wanted


def test_adapters_that_are_too_short():      # as Trimmomatic 0.39 finds none of them
    found = translated(f"-phred33 {FILES} ILLUMINACLIP:shorter.fa:2:30:10 CROP:9".split())
    assert not [word for word in found.words if word.startswith("--cutadapt")]
    assert found.notes[1].startswith("ILLUMINACLIP: too short to reach the score of the step")
    assert found.notes[1].endswith(f": {X[:16]}, PrefixQ/1 of shorter.fa")


MATES_KEPT = "; both mates of a pair that reads through are kept"


@pytest.mark.parametrize("steps, ends", (
    ("CROP:9", []),
    ("ILLUMINACLIP:own.fa:2:30:10 CROP:9", [MATES_KEPT]),
    ("ILLUMINACLIP:own.fa:2:30:10:8:true CROP:9", ["not by Trimmomatic's rule"]),
    ("ILLUMINACLIP:own.fa:2:30:10:2:True CROP:9", ["not by Trimmomatic's rule"]),
    ("ILLUMINACLIP:own.fa:2:30:10:2:keepBothReads CROP:9", [MATES_KEPT]),
    ("ILLUMINACLIP:own.fa:2:30:10:8:true ILLUMINACLIP:half.fa:2:30:10:8", [MATES_KEPT]),
    ("CROP:9 ILLUMINACLIP:own.fa:2:30:10", [MATES_KEPT, "though it comes after CROP:9"]),
))
def test_notes(steps, ends):
    notes = translated(f"-phred33 {FILES} {steps}".split()).notes
    assert [note.endswith(end) for note, end in zip(notes, ends)] == [True] * len(notes)
    assert len(notes) == len(ends)


def test_what_out_adds():
    words = f"-phred33 {FILES} --out s --checksums CROP:9".split()
    assert arguments_of(words, translated(words)).outputs == {
        "paired1": "p1", "unpaired1": "u1", "paired2": "p2", "unpaired2": "u2",
        "report": "s.json", "html": "s.html", "checksums": "s.sha256"}


SUMMARY = ("Input Read Pairs: 8\nBoth Surviving: 5\nForward Only Surviving: 1\n"
           "Reverse Only Surviving: 0\nDropped: 2\n")


def test_counts():
    assert trimmomatic.line_of(SUMMARY) == (
        "Input Read Pairs: 8 Both Surviving: 5 (62.50%) Forward Only Surviving: 1 (12.50%) "
        "Reverse Only Surviving: 0 (0.00%) Dropped: 2 (25.00%)\n")
    assert trimmomatic.file_of(SUMMARY).splitlines() == [
        "Input Read Pairs: 8", "Both Surviving Reads: 5", "Both Surviving Read Percent: 62.50",
        "Forward Only Surviving Reads: 1", "Forward Only Surviving Read Percent: 12.50",
        "Reverse Only Surviving Reads: 0", "Reverse Only Surviving Read Percent: 0.00",
        "Dropped Reads: 2", "Dropped Read Percent: 25.00"]
    assert trimmomatic.percent(0, 0) == "0.00"
