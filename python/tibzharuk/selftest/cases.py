"""What is run, and what must come of it. A row is a run of the installed command over inputs that
`inputs` makes."""

from typing import Dict, List, Mapping, NamedTuple, Sequence, Tuple

from .checks import LIMITED, STOPPED, Case

STEPS = ("LEADING:3", "TRAILING:3", "SLIDINGWINDOW:4:15", "MINLEN:36")
KNOWN, RULES = "Known results", "Worked examples of the steps"
BROKEN, KEPT = "Broken inputs", "Files and signals"

# The requirements: each a promise of the documents by its name in docs/claims.tsv, in plain words.
RIGHT = "status-0-is-right: the reads are trimmed as the rules say"
THREADS = "same-each-time: the result doesn't depend on the number of threads"
COMPRESSED = "status-0-is-right: a compressed file gives the reads of the plain one"
IN_TURN = "interleaved: mates may take turns in one file"
LANES = "lanes: the lanes of a sample give the reads of one file"
LINES = "trimmomatic: a line of Trimmomatic gives the reads that its steps ask for"
ADAPTERS = "adapters: adapters are removed before the steps, and nothing else is"
AUTO = "auto: the command finds out which adapters the reads hold"
STEP = "what remains of a read"
CUT = "cut-gz: a file that was cut is noticed, and nothing is made of it"
DAMAGED = "damaged-gz: a damaged file is noticed, and nothing is made of it"
FAULT = "fault-named: a fault in the reads is noticed, and one line names its place"
NAMES = "names-equal: mates that don't belong together are noticed"
COPIED = "copied-side: a file that is given for both sides is noticed"
EXCHANGED = "exchanged-sides: sides that were exchanged are noticed"
STAYS = "output-is-input: an input is never written over"
OLDER = "older-files-stay: outputs of an earlier run stay until new ones are complete"
FULL = "all-bytes-taken: an output that isn't whole is an error"
NONE = "no-output-of-a-failed-run: all outputs are made, or none"
SIGNALS = "signals: a run that is stopped leaves nothing"

FOUR = ("p1.fq", "u1.fq", "p2.fq", "u2.fq")
TWO = {"1.fq.gz": "forward.gz", "2.fq.gz": "reverse.gz"}
PLAIN = {"1.fq": "forward", "2.fq": "reverse"}
Sums = Mapping[str, str]    # the SHA-256 of each known result


def named(ending: str) -> List[str]:
    """The options that name the four outputs."""
    options = ("--paired1", "--unpaired1", "--paired2", "--unpaired2")
    return [word for option, name in zip(options, FOUR) for word in (option, name + ending)]


def results(sums: Sums, ending: str, *more: str) -> Dict[str, str]:
    """The four outputs, and others, as they must be."""
    made = {name + ending: sums[name] for name in FOUR}
    return {**made, **{name: sums[name] for name in more}}


def known(sums: Sums) -> List[Case]:
    """The reads that are installed, whose results another program made."""
    texts = ("--trimlog", "trim.log", "--summary", "summary.txt")
    two = ("-1", "1.fq.gz", "-2", "2.fq.gz")
    gz = results(sums, ".gz")
    lanes = {f"{side[0]}{lane}.gz": f"{side} lane {lane}"
             for side in ("forward", "reverse") for lane in "12"}
    adapters = {"1.fq.gz": "forward with adapters", "2.fq.gz": "reverse with adapters"}

    def trim(what: str, serves: str, inputs: Mapping[str, str], words: Sequence[str],
             made: Mapping[str, str]) -> Case:
        return Case(KNOWN, what, serves, ("trim", *words, *STEPS), inputs, made=made)
    rows = []
    for threads in "14":
        by = f"{threads} thread{'s' * (threads != '1')}"
        number = ("--threads", threads)
        rows += [
            trim(f"plain files, {by}", RIGHT if threads == "1" else THREADS, PLAIN,
                 ["-1", "1.fq", "-2", "2.fq", *number, *named(""), *texts],
                 results(sums, "", "trim.log", "summary.txt")),
            trim(f"compressed files, {by}", COMPRESSED, TWO,
                 [*two, *number, *named(".gz")], gz),
            trim(f"an interleaved file, {by}", IN_TURN, {"i.fq.gz": "both.gz"},
                 ["-i", "i.fq.gz", *number, *named(".gz")], gz),
            trim(f"reads with adapters, {by}", ADAPTERS, adapters,
                 [*two, *number, "--adapters", "truseq", *named(".gz")],
                 gz)._replace(needs="cutadapt"),
        ]
    auto = trim("reads with adapters, which the command looks for", AUTO, adapters,
                [*two, "--adapters", "auto", *named(".gz")], gz)
    rows.append(auto._replace(line="--adapters auto takes truseq", needs="cutadapt"))
    rows.append(trim("two lanes", LANES, lanes,
                     ["-1", "f1.gz", "f2.gz", "-2", "r1.gz", "r2.gz", *named(".gz")], gz))
    rows.append(trim("mates in turn, for a mapper", IN_TURN, TWO,
                     [*two, "--interleaved", "i.fq", "--no-unpaired"], {"i.fq": sums["i.fq"]}))
    line = ("PE", "-quiet", "-phred33", "-trimlog", "trim.log", "1.fq", "2.fq", *FOUR, *STEPS)
    rows.append(Case(KNOWN, "a line of Trimmomatic", LINES, line, PLAIN,
                     made=results(sums, "", "trim.log")))
    return rows


class Row(NamedTuple):
    """A worked example of FORMAT: what remains of a read with these scores."""

    step: str
    quality: str
    kept: str
    encoding: str = "sanger"


ROWS = (
    Row("LEADING:3", "#!II", "II"),
    Row("TRAILING:3", "II#I##", "II#I"),
    Row("CROP:6", "IIIIIIII", "IIIIII"),
    Row("HEADCROP:2", "IIIIIIII", "IIIIII"),
    Row("SLIDINGWINDOW:4:15", "????####", "????"),
    Row("SLIDINGWINDOW:4:15", "III", ""),
    Row("SLIDINGWINDOW:4:30", "IIII#III", "IIII#III"),
    Row("SLIDINGWINDOW:4:31", "IIII#III", "IIII"),
    Row("AVGQUAL:20", "555", "555"),
    Row("AVGQUAL:20", "554", ""),
    Row("MINLEN:36", 35 * "I", ""),
    Row("MINLEN:36", 36 * "I", 36 * "I"),
    Row("TOPHRED33", "h@", "I!", "illumina13"),
    Row("TOPHRED33", ";@JI", "\"$++", "solexa"),
)
SIDES = (("1.fq", "ACGT"), ("2.fq", "TGCA"))


def grouped(rows: Sequence[Row]) -> Dict[Tuple[str, str], List[Row]]:
    """The rows of each step and encoding, which are one run."""
    found: Dict[Tuple[str, str], List[Row]] = {}
    for row in rows:
        found.setdefault((row.step, row.encoding), []).append(row)
    return found


def worked_text(rows: Sequence[Row], letters: str, is_trimmed: bool) -> bytes:
    """A read for each row, or what remains of them. The bases repeat these letters, and the steps
    that have rows cut at the start only what is shown."""
    text = ""
    for number, row in enumerate(rows):
        bases = (letters * len(row.quality))[:len(row.quality)]
        start = len(row.quality) - len(row.kept) if row.step[:4] in ("LEAD", "HEAD") else 0
        quality = row.kept if is_trimmed else row.quality
        bases = bases[start:start + len(row.kept)] if is_trimmed else bases
        text += f"@r{number}\n{bases}\n+\n{quality}\n" if quality else ""
    return text.encode()


def worked_inputs() -> Dict[str, bytes]:
    """The inputs of the worked examples by their names."""
    return {f"{step} {encoding} {name}": worked_text(rows, letters, False)
            for (step, encoding), rows in grouped(ROWS).items() for name, letters in SIDES}


def worked_results() -> Dict[str, bytes]:
    """What remains of them."""
    return {f"{step} {encoding} {name}": worked_text(rows, letters, True)
            for (step, encoding), rows in grouped(ROWS).items() for name, letters in SIDES}


def worked(sums: Sums) -> List[Case]:
    cases = []
    for (step, encoding), rows in grouped(ROWS).items():
        shown = "; ".join(f"{row.quality}, of which {row.kept or 'nothing'} remains"
                          for row in rows)
        made = {f"p{number}.fq": sums[f"{step} {encoding} {number}.fq"] for number in "12"}
        empty = {f"u{number}.fq": sums["nothing"] for number in "12"}
        words = ("trim", "-1", "1.fq", "-2", "2.fq", "--encoding", encoding, *named(""), step)
        cases.append(Case(
            RULES, f"{step} ({encoding}): {shown}", f"{step.split(':')[0].lower()}: {STEP}", words,
            {name: f"{step} {encoding} {name}" for name, _ in SIDES}, made={**made, **empty}))
    return cases


# What is wrong with the reverse reads, the input, how the line begins, and the requirement.
FAULTS = (
    ("half of a .gz file", "half", "cannot read 2.fq.gz: unexpected end of file", CUT),
    ("one byte of a .gz file changed", "changed", "cannot read 2.fq.gz: invalid compressed data",
     DAMAGED),
    ("another compression", "bzip2",
     "cannot read 2.fq.gz: it is compressed by bzip2, not by gzip", DAMAGED),
    ("the last 100 mates missing", "fewer", "input: reverse record 901: MateMissing: 2.fq.gz",
     FAULT),
    ("no reads", "empty", "input: reverse record 1: MateMissing: 2.fq.gz", FAULT),
    ("mates shifted by one", "shifted", "input: record 1: NamesDiffer: 1.fq.gz", NAMES),
    ("the end within a record", "within", "input: reverse record 901: NoPlus: 2.fq.gz", FAULT),
    ("a byte that is no score", "score", "input: reverse record 2: BadQuality: 2.fq.gz", FAULT),
    ("FASTA in place of FASTQ", "fasta", "input: reverse record 1: NoTitle: 2.fq.gz", FAULT),
)


def call(forward: str, reverse: str, *more: str) -> Sequence[str]:
    return ("trim", "-1", forward, "-2", reverse, "--out", "s", *more, *STEPS)


def broken() -> List[Case]:
    usual = call("1.fq.gz", "2.fq.gz")
    rows = [Case(BROKEN, what, serves, usual, {**TWO, "2.fq.gz": name}, 3, line)
            for what, name, line, serves in FAULTS]
    rows.append(Case(BROKEN, "one file twice", COPIED, call("1.fq.gz", "1.fq.gz"), TWO, 2,
                     "1.fq.gz is given twice"))
    rows.append(Case(BROKEN, "the sides exchanged", EXCHANGED, call("2.fq.gz", "1.fq.gz"), TWO, 3,
                     "the sides seem to be exchanged"))
    return rows


def files() -> List[Case]:
    """Files that must stay, outputs that can't be whole, and a signal."""
    usual = call("1.fq.gz", "2.fq.gz")
    return [
        Case(KEPT, "an output over an input", STAYS,
             call("1.fq.gz", "2.fq.gz", "--paired1", "1.fq.gz"), TWO, 2,
             "1.fq.gz is an input and an output"),
        Case(KEPT, "outputs of an earlier run, and a broken input", OLDER, usual,
             {**TWO, "2.fq.gz": "half"}, 3, "cannot read 2.fq.gz: unexpected end of file",
             earlier=("s.r1.paired.fastq.gz", "s.json")),
        Case(KEPT, "a full disk (/dev/full)", FULL,
             call("1.fq.gz", "2.fq.gz", "--paired1", "/dev/full"), TWO, 4,
             "write failed: forward paired: /dev/full: No space left on device"),
        Case(KEPT, "files that may not grow (ulimit -f)", NONE, usual, TWO, 4, "cannot write s.r",
             how=LIMITED),
        Case(KEPT, "a signal (SIGTERM)", SIGNALS,
             call("pipe", "2.fq.gz"), {"2.fq.gz": "reverse.gz"}, -15,
             "stopped by SIGTERM, no output was made", how=STOPPED),
    ]


def all_cases(sums: Sums) -> List[Case]:
    return [*known(sums), *worked(sums), *broken(), *files()]
