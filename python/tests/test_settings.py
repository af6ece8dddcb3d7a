"""What a job of the workflow writes of its settings, and what the page of all says of them."""

import re

import pytest

from tibzharuk.report import settings

STEPS = "LEADING:3 MINLEN:36"


def cells(part):
    """The rows of a table: name and value."""
    return dict(re.findall("<tr><th>([^<]*)</th><td><samp>([^<]*)</samp></td></tr>", part))


@pytest.mark.parametrize("options, adapters, row_of_options, row_of_adapters", (
    ("", "", "none", "none"),
    ("", "truseq", "none", "truseq"),
    ("--no-name-check", "", "--no-name-check", "none"),
    ("--cutadapt '-e 0.2 -O 5'", "ACGT,GGCC", "--cutadapt &#x27;-e 0.2 -O 5&#x27;", "ACGT,GGCC"),
    ("--encoding illumina13", "a: b.fa", "--encoding illumina13", "a: b.fa"),
    ("--no-name-check\n--sync\n", "adapters.fa", "--no-name-check --sync", "adapters.fa"),
))
def test_the_table_says_what_was_set(options, adapters, row_of_options, row_of_adapters):
    lines = ["program: fq_prog 2.0.0", *settings.settings_lines(STEPS, options, adapters)]
    assert len(lines) == 4
    assert cells(*settings.how_trimmed({"s1": "\n".join(lines) + "\n"})) == {
        "Program": "fq_prog 2.0.0", "Steps": STEPS, "Options": row_of_options,
        "Adapters": row_of_adapters}


def test_a_file_that_lacks_fields():
    got = settings.read_settings("program: fq_prog 2.0.0\n")
    assert tuple(got.values()) == ("fq_prog 2.0.0", *["not recorded"] * 3)


@pytest.mark.parametrize("adapters, taken, row", (
    ("auto", "truseq", "auto, which took truseq"),
    ("Auto", "none", "auto, which took none"),
    ("auto", None, "auto"),
    ("truseq", None, "truseq"),
    ("auto.fa", "truseq", "auto.fa"),
))
def test_what_auto_took(adapters, taken, row):
    text = "\n".join(["program: a", *settings.settings_lines(STEPS, "", adapters)])
    assert settings.read_settings(settings.with_taken(text, taken))["adapters"] == row


def test_samples_that_were_trimmed_in_two_ways_are_named():
    one, two = "program: a\nsteps: S\noptions: \nadapters: \n", "program: b\nsteps: S\n"
    parts = settings.how_trimmed({"s1": one, "s2": two, "s<3": one})
    assert parts[0] == "<h4>s1, s&lt;3</h4>" and parts[2] == "<h4>s2</h4>"
    assert [cells(part)["Program"] for part in parts[1::2]] == ["a", "b"]
