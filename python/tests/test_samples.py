"""The table of samples, from the names of files."""

import pytest

from tibzharuk import samples

NO_PAIR = "not named as one of a pair (tibzharuk samples --help)"


@pytest.mark.parametrize("name, sample, lane, side, number", (
    # Illumina's programs
    ("a_S1_L001_R1_001.fastq.gz", "a", "L001", "1", "1"),
    ("a_S1_L004_R2_001.fastq.gz", "a", "L004", "2", "1"),
    ("b_c_S12_L001_R1_001.fastq.gz", "b_c", "L001", "1", "12"),
    ("a_S1_R1_001.fq.gz", "a", "1", "1", "1"),
    ("a_L001_R1.fastq.gz", "a", "L001", "1", ""),
    ("a_L001_R2_002.fastq", "a", "L001_002", "2", ""),
    ("a_R1_003.fq", "a", "1_003", "1", ""),
    ("a_S3_L002_R1_010.fastq.gz", "a", "L002_010", "1", "3"),
    ("a-b.c_R2.fastq.gz", "a-b.c", "1", "2", ""),
    ("10_S2_L001_R1_001.fastq.gz", "10", "L001", "1", "2"),
    ("S1_S1_L001_R1_001.fastq.gz", "S1", "L001", "1", "1"),
    ("a_R1_R1.fq", "a_R1", "1", "1", ""),
    # others' ways of writing the side
    ("a.R1.fastq.gz", "a", "1", "1", ""),
    ("a.R2.fq.gz", "a", "1", "2", ""),
    ("a_r1.fastq.gz", "a", "1", "1", ""),
    ("a.r2.fq", "a", "1", "2", ""),
    ("a_L002.R1.fastq.gz", "a", "L002", "1", ""),
    ("a_b.c.R1_001.fastq.gz", "a_b.c", "1", "1", ""),
    # the SRA
    ("SRR1_1.fastq.gz", "SRR1", "1", "1", ""),
    ("SRR1_2.fastq", "SRR1", "1", "2", ""),
    ("x_S1_1.fq", "x_S1", "1", "1", ""),
    ("x_L003_2.fq.gz", "x", "L003", "2", ""),
    ("mouse_L1_1.fq.gz", "mouse_L1", "1", "1", ""),
    ("mouse_L1_R1.fq.gz", "mouse_L1", "1", "1", ""),
    # Novogene
    ("a_FKDL23-1A_HXX_L1_1.fq.gz", "a_FKDL23-1A_HXX", "L1", "1", ""),
    ("a_FKDL202604534-1a_HTJ5YDSXY_L2_2.fq.gz", "a_FKDL202604534-1a_HTJ5YDSXY", "L2", "2", ""),
    ("a_b_CKDL230012345-1A_22CNLHLT4_L8_1.fq.gz", "a_b_CKDL230012345-1A_22CNLHLT4", "L8", "1", ""),
    # MGI
    ("V350012345_L01_12_1.fq.gz", "V350012345_L01_12", "1", "1", ""),
    ("V350012345_L02_12_2.fq.gz", "V350012345_L02_12", "1", "2", ""),
))
def test_names_of_pairs(name, sample, lane, side, number):
    assert samples.lane_of(name) == (sample, lane, side, number)


@pytest.mark.parametrize("name", (
    "a.fastq.gz", "a_R3.fastq.gz", "a_3.fastq.gz", "a_R1_01.fastq", "_R1.fastq", "R1.fastq", "1.fq",
    "a_R1_val.fq", "a R1.fq", "-a_R1.fq", "it's_1.fq", "a.1.fq.gz", "aR1.fq", "é_R1.fq",
))
def test_names_of_no_pair(name):
    with pytest.raises(ValueError) as why:
        samples.lane_of(name)
    assert str(why.value) == NO_PAIR


TWO_RUNS = ["x/run1/a_L001_R1.fq", "x/run1/a_L001_R2.fq", "x/run2/a_L001_R1.fq",
            "x/run2/a_L001_R2.fq"]
NUMBERS = "they have different numbers of samples (_S)"


@pytest.mark.parametrize("paths, folders, lanes, faults", (
    (["a_R1.fq", "a_R2.fq"], (), ["a 1"], []),
    (["a.R1.fq", "a_r2.fq.gz"], (), ["a 1"], []),
    (["a_R1.fq"], (), ["a 1"], ["a_R1.fq: there is no file of its reverse mates"]),
    (["x/a_L001_R2.fq"], (), ["a L001"], ["x/a_L001_R2.fq: there is no file of its forward mates"]),
    (["a_S1_L001_R1_001.fq", "a_S2_L001_R2_001.fq"], (), ["a L001"],
     [f"a_S1_L001_R1_001.fq and a_S2_L001_R2_001.fq: {NUMBERS}"]),
    (["a_S1_R1.fq", "a_R2.fq"], (), ["a 1"], [f"a_S1_R1.fq and a_R2.fq: {NUMBERS}"]),
    (["a_S1_R1.fq", "a_S1_R2.fq", "b_S2_R1.fq", "b_S2_R2.fq"], (), ["a 1", "b 1"], []),
    (["{a}_R1.fq", "a\t_R1.fq", "b\udcff_R1.fq"], (), [],
     [f"{shown}: it has a character that the workflow doesn't take"
      for shown in ("{a}_R1.fq", "a\\t_R1.fq", "b\\udcff_R1.fq")]),
    (["a_R1.fq", "a_R1.fq.gz", "a_R2.fq"], (), ["a 1"],
     ["a_R1.fq.gz: sample a, lane 1 is already in a_R1.fq; if they are of two runs, add --by-run"]),
    (TWO_RUNS, ["x"], ["a run1_L001", "a run2_L001"], []),
    (TWO_RUNS, ["x/run1", "x/run2"], ["a run1_L001", "a run2_L001"], []),
    (TWO_RUNS, ["x/run1/", "x/run2/"], ["a run1_L001", "a run2_L001"], []),
    (["x/run 1_b/p/a_R1.fq", "x/run 1_b/p/a_R2.fq"], ["x"], ["a run-1-b_1"], []),
    (["x/a_R1.fq", "x/a_R2.fq"], ["x"], ["a 1"], []),
    (["./r1/a_R1.fq", "./r1/a_R2.fq"], ["."], ["a r1_1"], []),
    (["x/r/a_R1.fq", "x/r/a_R2.fq", "y/r/a_R1.fq", "y/r/a_R2.fq"], ["x/r", "y/r"], ["a r_1"],
     ["y/r/a_R1.fq: sample a, lane r_1 is already in x/r/a_R1.fq",
      "y/r/a_R2.fq: sample a, lane r_1 is already in x/r/a_R2.fq"]),
))
def test_pairs(paths, folders, lanes, faults):
    found, said = samples.paired(paths, folders)
    assert [" ".join(lane) for lane in found] == lanes
    assert said == faults


def laid(folder, names):
    """Empty files of these names, and links for `NAME -> TARGET`."""
    for name in names:
        name, _, target = name.partition(" -> ")
        (folder / name).parent.mkdir(parents=True, exist_ok=True)
        if target:
            (folder / name).symlink_to(target)
        else:
            (folder / name).touch()


PAIR = ["reads/a_R1.fq", "reads/a_R2.fq"]
ROW = "a 1 reads/a_R1.fq reads/a_R2.fq"
LEFT_OUT = "left out, because these are reads of no sample:"


@pytest.mark.parametrize("names, words, rows, lines", (
    (PAIR, ["reads"], [ROW], []),
    ([*PAIR, "reads/a_I1.fq", "reads/a_S1_I2_001.fastq.gz", "reads/x.csv"], ["reads"], [ROW], []),
    (PAIR, ["reads", "reads/"], [ROW], []),
    ([*PAIR, "reads/up -> .."], ["reads"], [ROW], []),
    ([*PAIR, "far/b_R1.fq", "far/b_R2.fq", "reads/c -> ../far", "reads/d -> ../far"], ["reads"],
     [ROW, "b 1 reads/c/b_R1.fq reads/c/b_R2.fq"], []),
    ([*PAIR, "reads/.x -> gone"], ["reads"], [ROW], []),
    ([*PAIR, "reads/Undetermined_S0_L001_R1_001.fastq.gz",
      "reads/Undetermined_S0_L001_R2_001.fastq.gz"], ["reads"], [ROW],
     [f"{LEFT_OUT} reads/Undetermined_S0_L001_R1_001.fastq.gz and 1 more"]),
    ([*PAIR, "reads/V3_L01_undecoded_1.fq.gz"], ["reads"], [ROW],
     [f"{LEFT_OUT} reads/V3_L01_undecoded_1.fq.gz"]),
    (["reads/run1/a_R1.fq", "reads/run1/a_R2.fq", "reads/run2/a_R1.fq", "reads/run2/a_R2.fq"],
     ["--by-run", "reads"], ["a run1_1 reads/run1/a_R1.fq reads/run1/a_R2.fq",
                             "a run2_1 reads/run2/a_R1.fq reads/run2/a_R2.fq"], []),
))
def test_tables(names, words, rows, lines, tmp_path, monkeypatch, capfd):
    monkeypatch.chdir(tmp_path)
    laid(tmp_path, names)
    assert samples.main(words) == 0
    out, err = capfd.readouterr()
    assert out == "".join(row.replace(" ", "\t") + "\n" for row in ["sample lane r1 r2", *rows])
    assert err == "".join(f"tibzharuk samples: {line}\n" for line in lines)


@pytest.mark.parametrize("names, lines", (
    ([*PAIR, "reads/b_R1.fq -> gone", "reads/b_R2.fq -> gone"],
     ["reads/b_R1.fq: No such file or directory", "reads/b_R2.fq: No such file or directory"]),
    ([*PAIR, "reads/run7 -> gone"], ["reads/run7: No such file or directory"]),
    (["reads/notes.txt"], ["reads: there are no FASTQ files"]),
    (["reads/Undetermined_S0_R1_001.fastq.gz"],
     ["reads: there are no FASTQ files but of reads of no sample"]),
    (["other"], ["reads: No such file or directory"]),
    ([*PAIR, "reads/b.fq"], [f"reads/b.fq: {NO_PAIR}"]),
))
def test_what_is_refused(names, lines, tmp_path, monkeypatch, capfd):
    monkeypatch.chdir(tmp_path)
    laid(tmp_path, names)
    assert samples.main(["reads"]) == 1
    out, err = capfd.readouterr()
    assert out == "" and sorted(set(err.splitlines())) == [f"tibzharuk samples: {x}" for x in lines]
