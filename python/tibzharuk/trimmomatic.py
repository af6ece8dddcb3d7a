"""A line of Trimmomatic's paired-end mode in the words of `trim`, and the counts of a run in
Trimmomatic's form.

    [-threads N] [-phred33 | -phred64] [-trimlog FILE] [-summary FILE] [-quiet] [-validatePairs]
    [-basein FILE | F R] [-baseout FILE | FP FU RP RU] STEP..

Options may be anywhere. Those with two dashes are those of `trim`. The step ILLUMINACLIP becomes
options of cutadapt: the sequences of its file are searched for as 3' adapters. A pair of
sequences whose names begin with Prefix and end in /1 and /2 are the primers of both sides; what a
read runs into is the reverse complement of the other side's.
"""

import glob
import math
import os
import re
from typing import Dict, Iterator, List, NamedTuple, Optional, Sequence, Tuple

from .trim.adapters import LETTERS, PALINDROME
from .trim.arguments import EMPTY, Parser
from .trim.fasta import Entry, other_strand, read_fasta
from .trim.faults import Fault
from .trim.files import holds_reads
from .trim.known_adapters import first_reads
from .trim.steps import CLIP, STEPS, WITHOUT, is_step, meant, name_of
from .trim.tools import which

HELP = "(tibzharuk PE --help)"
# How cutadapt finds adapters, chosen by measuring beside Trimmomatic: so many bases of one are
# needed, of which at most 10 % are wrong.
ERRORS = "-e 0.1"
# Those of a pair of primers, of which Trimmomatic needs 8 bases unless its step says otherwise. It
# compares the mates as well; cutadapt, which doesn't, finds fewer than 5 bases mostly by chance.
OF_PAIR = 8
FEWEST = 5
MATES_OF_PAIR = ("/1", "/2")
SCORE = 0.6     # of a base that matches, in Trimmomatic's rule for a sequence alone
WITH_VALUE = ("threads", "trimlog", "summary", "basein", "baseout")
WITHOUT_VALUE = ("phred33", "phred64", "quiet", "validatePairs", "version")
NO_STEP = "MINLEN:1"    # does nothing: a read without bases is dropped in any case
DROPPED = ("--explain",)     # a reason is always given
TEXTS = ("trimlog", "summary", "report", "html", "cutadapt-report", "cutadapt-log")
MOST_THREADS = 64
INPUTS = ("F", "R")
OUTPUTS = {"FP": "paired1", "FU": "unpaired1", "RP": "paired2", "RU": "unpaired2"}
# As Trimmomatic takes them off a name, one after the other.
ENDINGS = (".gz", ".bz2", ".zip", ".fq", ".fastq", ".txt")
# How the names of both sides differ, in the order in which Trimmomatic tries them.
MATES = (("_R1_", "_R2_"), ("_f", "_r"), (".f", ".r"), ("_1", "_2"), (".1", ".2"))
# Where packages of Trimmomatic have its files of adapters: Debian, conda, EasyBuild.
PLACES = ("/usr/share/trimmomatic", "$CONDA_PREFIX/share/trimmomatic*/adapters",
          "$EBROOTTRIMMOMATIC/adapters")
# What --adapters has for files of Trimmomatic.
KNOWN = {"TruSeq3-PE.fa": "truseq", "TruSeq3-PE-2.fa": "truseq", "NexteraPE-PE.fa": "nextera"}
# Trimmomatic detects the encoding from the qualities of so many first reads of each side: each
# encoding lacks one of these kinds of bytes.
FIRST_READS = 10_000
LOW, HIGH = bytes(range(33, 59)), bytes(range(80, 105))


class Line(NamedTuple):
    """A line of Trimmomatic as it is run here."""

    words: List[str]            # those of `trim`
    is_quiet: bool
    files: List[str]            # those of ILLUMINACLIP
    encoding: str               # what Trimmomatic says of it, if anything
    notes: List[str]            # what differs from what Trimmomatic does


# The words.


class Words:
    """The words of a line: options, which may be anywhere, and the others by their places."""

    def __init__(self, line: Sequence[str]) -> None:
        self.given: Dict[str, str] = {}     # Trimmomatic's options
        self.long: List[str] = []           # options with two dashes
        self.cutadapt: List[str] = []       # the value of one of them
        self.others: List[str] = []
        self.parser = Parser()
        left = list(line)
        while left:
            word = left.pop(0)
            if word == "--":
                self.others += left
                break
            if not word:
                raise Fault(1, f"{EMPTY} {HELP}")
            if word.startswith("--"):
                self.read_long(word, left)
            elif word.startswith("-") and word != "-":
                self.read_option(word[1:], left)
            else:
                self.others.append(word)

    def read_long(self, word: str, left: List[str]) -> None:
        name, is_joined, value = word.partition("=")
        if word in DROPPED:
            return
        if name not in self.parser.takes_value:
            raise self.parser.astray(word)
        if name == "--cutadapt":            # its value may begin with a dash
            self.cutadapt.append(value if is_joined or not left else left.pop(0))
            return
        if self.parser.takes_value[name] and not is_joined:
            value = value_of(name, left)
            word = f"{name}={value}"
        if name[2:] in TEXTS:
            check_place(name, value)
        self.long.append(word)

    def read_option(self, name: str, left: List[str]) -> None:
        if name in WITH_VALUE:
            value = value_of(f"-{name}", left)
        elif name in WITHOUT_VALUE:
            value = ""
        else:
            raise Fault(1, f"-{name} is not an option {HELP}")
        if self.given.setdefault(name, value) != value:
            raise Fault(1, f"-{name} is given twice")
        if name in TEXTS:
            check_place(f"-{name}", value)

    def split(self) -> Tuple[List[str], List[str], List[str]]:
        """The inputs, the outputs and the steps."""
        places = [] if "basein" in self.given else list(INPUTS)
        places += [] if "baseout" in self.given else list(OUTPUTS)
        files, steps = self.others[:len(places)], self.others[len(places):]
        check_files(places, files)
        check_steps(places, steps)
        if "basein" in self.given:
            inputs = [self.given["basein"], base_in(self.given["basein"])]
        else:
            inputs, files = files[:2], files[2:]
        return inputs, base_out(self.given["baseout"]) if "baseout" in self.given else files, steps


def value_of(option: str, left: List[str]) -> str:
    if not left or not left[0] or left[0].startswith("-") and left[0] != "-" or is_step(left[0]):
        raise Fault(1, f"{option} has no value {HELP}")
    return left.pop(0)


def check_files(places: Sequence[str], files: Sequence[str]) -> None:
    """Refuses a line that lacks a file, also if a step is in its place."""
    needed = f"{' '.join(places)} come before the steps"
    for place, name in zip(places, files):
        if is_step(name):
            raise Fault(1, f"{name} is in the place of {place}: {needed}; a file of that name is "
                           f"./{name} {HELP}")
    if len(files) < len(places):
        raise Fault(1, f"no {places[len(files)]}: {needed} {HELP}")


def check_steps(places: Sequence[str], steps: Sequence[str]) -> None:
    """Refuses steps that can't be done here."""
    if not steps:
        raise Fault(1, f"no steps, such as MINLEN:36 {HELP}")
    for step in steps:
        if name_of(step) in WITHOUT:
            raise Fault(2, f"{step} is not among the steps here: {WITHOUT[name_of(step)]}")
        if not is_step(step):
            if meant(step):
                raise Fault(2, f"{step} is not a step; did you mean {meant(step)}? {HELP}")
            before = f"; before the steps are {' '.join(places)}" if places else ""
            raise Fault(2, f"{step} is not a step: {', '.join(STEPS)}{before} {HELP}")


def check_place(option: str, name: str) -> None:
    """Refuses reads as the place of a text: a log without its name would write over the input."""
    if holds_reads(name):
        raise Fault(2, f"{option} {name}: this file holds reads, or is compressed; is the name of "
                       f"{option} missing?")


def threads_of(text: str) -> List[str]:
    """The option for -threads. With 0 Trimmomatic chooses, and so does `trim` without the
    option."""
    if not re.match("[0-9]{1,9}$", text):
        raise Fault(1, f"-threads must be a number, not {text}")
    return [f"--threads={min(int(text), MOST_THREADS)}"] if int(text) else []


def stem_of(name: str) -> str:
    """A name without the endings of files of reads."""
    while True:
        ending = next((each for each in ENDINGS if name.endswith(each)), None)
        if ending is None:
            return name
        name = name[:-len(ending)]


def base_in(forward: str) -> str:
    """The reverse file of -basein."""
    folder, name = os.path.split(forward)
    stem = stem_of(name)
    for one, two in MATES:
        start, is_found, end = stem.rpartition(one)
        other = os.path.join(folder, start + two + end + name[len(stem):])
        if is_found and os.path.exists(other):
            return other
    raise Fault(4, f"-basein {forward}: no reverse file beside it")


def base_out(base: str) -> List[str]:
    """The four outputs of -baseout: d/a.b.fq.gz gives d/a.b_1P.fq.gz and so on."""
    folder, name = os.path.split(base)
    if name in ("", ".", ".."):
        raise Fault(1, f"-baseout {base} is a directory; the names need a beginning, too")
    stem = stem_of(name)
    return [os.path.join(folder, f"{stem}_{each}{name[len(stem):]}")
            for each in ("1P", "1U", "2P", "2U")]


def with_place(name: str) -> str:
    """A file whose name isn't that of an option."""
    return f"./{name}" if name.startswith("-") and name != "-" else name


# The encoding.


def offset_of(qualities: bytes) -> Optional[int]:
    """33 or 64, as Trimmomatic detects it, or None if it can't."""
    has_low, has_high = (len(qualities.translate(None, kind)) < len(qualities)
                         for kind in (LOW, HIGH))
    return None if has_low == has_high else 33 if has_low else 64


def offset_in(files: Sequence[str]) -> Optional[int]:
    """That of the first reads of both sides, if these are files, and agree."""
    if not all(os.path.isfile(name) for name in files):
        return None
    found = {offset_of(b"".join(first_reads(name, FIRST_READS, 3))) for name in files}
    return found.pop() if len(found) == 1 else None


class Encoding(NamedTuple):
    """The encoding of a run."""

    options: List[str]
    line: str               # Trimmomatic's own
    notes: List[str]


def encoding_of(words: Words, inputs: Sequence[str]) -> Encoding:
    """As it is given, or as Trimmomatic would detect it, or Phred+33."""
    if "phred33" in words.given and "phred64" in words.given:
        raise Fault(1, "either -phred33 or -phred64")
    if "phred33" in words.given or any(word.startswith("--encoding=") for word in words.long):
        return Encoding([], "", [])
    offset = 64 if "phred64" in words.given else offset_in(inputs)
    line = "" if "phred64" in words.given else f"Quality encoding detected as phred{offset}"
    if offset is None:
        is_missing = not all(name == "-" or os.path.exists(name) for name in inputs)
        note = ("no encoding was detected, so qualities are taken as Phred+33 (-phred33 or "
                "-phred64 says which)")
        return Encoding([], "", [] if is_missing else [note])
    return Encoding(["--encoding=illumina13"] if offset == 64 else [], line, [])


# Adapters.


def places(name: str) -> Iterator[str]:
    """Where a file of adapters may be: at its place, and beside Trimmomatic."""
    yield name
    if os.path.basename(name) != name:
        return
    for place in PLACES:
        folder = os.path.expandvars(place)
        if "$" not in folder:
            yield from sorted(glob.glob(os.path.join(folder, name)))
    program = which("trimmomatic")
    if program:
        yield os.path.join(os.path.dirname(os.path.realpath(program)), "adapters", name)


def found_file(name: str) -> str:
    for path in places(name):
        if os.path.exists(path):
            return path
    known = KNOWN.get(os.path.basename(name))
    instead = f"; in place of the step, --adapters {known} removes these" if known else ""
    where = "" if os.path.dirname(name) else ", nor where packages of Trimmomatic have such files"
    raise Fault(4, f"{CLIP}: cannot read {name}: it isn't there{where}{instead}")


class Found(NamedTuple):
    """The adapters of a file, as Trimmomatic reads it."""

    options: List[str]      # of cutadapt
    short: List[str]        # names of sequences that are too short to reach the score


def adapters_of(name: str, fewest: int, of_pair: int) -> Found:
    """Those of this file. So many bases of a sequence alone reach the score, of which cutadapt
    needs one more, and so many of the primers of a pair are needed."""
    found: Dict[str, Dict[str, int]] = {"-a": {}, "-A": {}}
    primers: Dict[str, Dict[str, str]] = {}
    alone: List[Entry] = []
    for each in read_fasta(name, CLIP):
        start, end = each.name[:-2], each.name[-2:]
        if not re.match(f"{LETTERS}+$", each.sequence, re.I):
            what = "a letter that is no base in" if each.sequence else "no sequence for"
            raise Fault(2, f"{CLIP}: {name} has {what} {each.name or 'an adapter'}")
        if each.name.startswith(PALINDROME) and end in MATES_OF_PAIR:
            primers.setdefault(start, {})[end] = each.sequence
        else:
            alone.append(each)
    for start, both in primers.items():
        if len(both) == 2:
            found["-a"][other_strand(both["/2"])] = found["-A"][other_strand(both["/1"])] = of_pair
        else:               # Trimmomatic takes one without its mate as a sequence alone
            alone += [Entry(start + end, sequence) for end, sequence in both.items()]
    short = [each for each in alone if len(each.sequence) < fewest]
    for each in alone:
        for option, other in ("-a", "/2"), ("-A", "/1"):
            if each not in short and not each.name.endswith(other):
                found[option].setdefault(each.sequence, fewest + 1)
    options = [word for option, sequences in found.items() for sequence, bases in sequences.items()
               for word in (option, f"{sequence};min_overlap={min(bases, len(sequence))}")]
    return Found(options, [each.name or each.sequence for each in short])


class Clip(NamedTuple):
    """A step ILLUMINACLIP as it is done here."""

    file: str
    adapters: Found
    keeps_both: bool        # whether the step asks for both mates of a pair that reads through


def clipped(step: str) -> Clip:
    given = step.rstrip(":").split(":")
    has_numbers = all(re.match("[0-9]+$", each) for each in given[2:6])
    if not 5 <= len(given) <= 7 or not given[1] or not has_numbers:
        raise Fault(2, f"{step}: its form is {CLIP}:FILE:2:30:10 (and :8:true)")
    name = found_file(given[1])
    of_pair = int(given[5]) if given[5:] else OF_PAIR
    adapters = adapters_of(name, math.ceil(int(given[4]) / SCORE), max(of_pair, FEWEST))
    if not adapters.options and not adapters.short:
        raise Fault(2, f"{CLIP}: {name} has no adapters")
    return Clip(name, adapters, given[6:] != [] and given[6].lower() == "true")


def notes_on(clips: Sequence[Clip], first: str) -> List[str]:
    """What is said of these steps, in a line whose first step is this one."""
    if not clips:
        return []
    files = " and ".join(each.file for each in clips)
    note = f"{CLIP}: the adapters of {files} are removed by cutadapt, not by Trimmomatic's rule"
    if not all(each.keeps_both for each in clips):
        note += "; both mates of a pair that reads through are kept"
    notes = [note] + [
        f"{CLIP}: too short to reach the score of the step, so never found, as by Trimmomatic: "
        f"{', '.join(each.adapters.short)} of {each.file}"
        for each in clips if each.adapters.short]
    if name_of(first) != CLIP:
        notes.append(f"{CLIP} is done before all other steps, though it comes after {first}")
    return notes


# The line.


def translated(line: Sequence[str]) -> Line:
    """The words of `trim` for the words of Trimmomatic after PE."""
    words = Words(line)
    inputs, outputs, steps = words.split()
    encoding = encoding_of(words, inputs)
    said = words.long + threads_of(words.given.get("threads", "0"))
    said += [f"--{name}={words.given[name]}" for name in TEXTS if name in words.given]
    said += encoding.options
    clips = [clipped(step) for step in steps if name_of(step) == CLIP]
    others = [step for step in steps if name_of(step) != CLIP]
    cutadapt = [word for each in clips for word in each.adapters.options]
    cutadapt += [ERRORS] if cutadapt else []
    cutadapt += words.cutadapt
    said += [f"--cutadapt={' '.join(cutadapt)}"] if cutadapt else []
    notes = encoding.notes + notes_on(clips, steps[0])
    said += ["-1", with_place(inputs[0]), "-2", with_place(inputs[1])]
    said += [f"--{role}={name}" for role, name in zip(OUTPUTS.values(), outputs)]
    files = [each.file for each in clips]
    said += ["--"] + (others or [NO_STEP])
    return Line(said, "quiet" in words.given, files, encoding.line, notes)


# Counts, in Trimmomatic's form.

NAMES = ("Input Read Pairs", "Both Surviving", "Forward Only Surviving", "Reverse Only Surviving",
         "Dropped")


def counts(summary: str) -> List[int]:
    """The counts of the program's summary, in the order of NAMES."""
    found = dict(re.findall(r"^(.*): (\d+)$", summary, re.MULTILINE))
    return [int(found[name]) for name in NAMES]


def percent(part: int, whole: int) -> str:
    return f"{100.0 * part / whole:.2f}" if whole else "0.00"


def line_of(summary: str) -> str:
    """The line of counts on standard error."""
    whole, *parts = counts(summary)
    shares = [f"{name}: {part} ({percent(part, whole)}%)" for name, part in zip(NAMES[1:], parts)]
    return " ".join([f"{NAMES[0]}: {whole}"] + shares) + "\n"


def file_of(summary: str) -> str:
    """The text of -summary."""
    whole, *parts = counts(summary)
    lines = [f"{NAMES[0]}: {whole}"]
    for name, part in zip(NAMES[1:], parts):
        lines += [f"{name} Reads: {part}", f"{name} Read Percent: {percent(part, whole)}"]
    return "\n".join(lines) + "\n"
