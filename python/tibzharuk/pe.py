"""NAME
    tibzharuk PE - trims by a line of Trimmomatic's paired-end mode, as it is

SYNOPSIS
    tibzharuk PE [-threads N] [-phred33 | -phred64] [-trimlog FILE]
                 [-summary FILE] [-quiet] [-validatePairs]
                 [-basein FILE | F R] [-baseout FILE | FP FU RP RU] STEPS..

DESCRIPTION
    Runs a line of Trimmomatic 0.39. Files whose names end in .gz are
    compressed. All outputs are made, or none. Options may be anywhere, and
    those with two dashes are those of tibzharuk trim, so a line of fq_prog PE
    runs too. With --out PREFIX it also makes PREFIX.json (the report),
    PREFIX.html and, with --checksums, PREFIX.sha256.

    ILLUMINACLIP is done before all other steps. The adapters of its file are
    removed by cutadapt, not by Trimmomatic's rule, and both mates of a pair
    that reads through are kept. A file without a directory is also looked for
    where packages of Trimmomatic have theirs. The steps MAXINFO, BASECOUNT,
    MAXLEN, TAILCROP and TOPHRED64 are refused, and a line says what to do
    instead.

    Names of mates must match, with or without -validatePairs (--no-name-check
    passes others). Without -phred33 and -phred64 the encoding is detected from
    the first 10,000 reads of both files, by Trimmomatic's rule. A line says
    which it is. If they don't show it, or an input is a pipe, qualities are
    taken as Phred+33.

    The log of -trimlog has the numbers of Trimmomatic's. Names in it end at the
    first space, without /1 and /2; the two lines of a pair follow each other,
    forward first. What ILLUMINACLIP removes isn't counted there.

    A log, a summary or a report doesn't write over a file that holds reads, and
    no file has the name of a step, unless that is ./LEADING:3.

    The counts are printed on standard error, as Trimmomatic prints them, unless
    there is -quiet. So MultiQC finds them there, and in a log of it.

EXIT STATUS
    As of tibzharuk trim.

EXAMPLE
    tibzharuk PE -threads 4 -phred33 s_R1.fq.gz s_R2.fq.gz \\
        s_1P.fq.gz s_1U.fq.gz s_2P.fq.gz s_2U.fq.gz \\
        ILLUMINACLIP:TruSeq3-PE.fa:2:30:10 LEADING:3 MINLEN:36
"""

import sys
from typing import Sequence, Tuple

from .trim import faults
from .trim.arguments import Arguments
from .trim.faults import say
from .trim.run import run
from .trimmomatic import Line, file_of, line_of, translated

# MultiQC takes the name of the sample from the line after this one.
STARTED = "tibzharuk, in place of TrimmomaticPE: Started with arguments:\n "
COMPLETED = "tibzharuk, in place of TrimmomaticPE: Completed successfully\n"


def arguments_of(words: Sequence[str], line: Line) -> Arguments:
    """The arguments of the run, whose summary has Trimmomatic's forms."""
    arguments = Arguments(line.words)
    arguments.call = ["PE", *words]

    def forms(summary: str) -> Tuple[bytes, bytes]:
        printed = "" if line.is_quiet else line_of(summary) + COMPLETED
        return printed.encode(), file_of(summary).encode()
    arguments.forms = forms
    arguments.read_too += line.files
    return arguments


def main(words: Sequence[str]) -> int:
    """Returns the status."""
    if any(word in ("-h", "--help", "-help") for word in words) or not words:
        (sys.stdout if words else sys.stderr).write(__doc__ or "")
        return 0 if words else 1
    if any(word in ("-version", "--version", "-V") for word in words):
        from .command import show_version
        return show_version()
    faults.keep_streams()

    def by_line() -> None:
        line = translated(words)
        arguments = arguments_of(words, line)
        if not line.is_quiet:
            say(" ".join(words), STARTED)
            if line.encoding:
                say(line.encoding, "")
        for note in line.notes:
            say(note)
        run(arguments)
    return faults.status_of(by_line)
