"""What a run starts: the processes, their words, and the pipes between them. A plan is made from
arguments and files alone, and nothing is started here: `run` does that, and `--dry-run` prints it.
"""

import shlex
from typing import Dict, List, NamedTuple, Optional, Sequence, Tuple, Union

from .arguments import CHECKSUMS, READS, Arguments
from .files import AFTER_LINE_FEED, FIRST_RECORDS, FROM_PIPE, WHOLE_LINES, Output, Side
from .tools import Tools

# Outputs that this process writes. The program or a compressor writes the others.
OURS = ("report", "html", "cutadapt-report", "cutadapt-log", "summary", CHECKSUMS)
# A device is opened by the child, since opening may have to wait.
TO_DEVICE = ("sh", "-c", 'exec "$@" > "$0"')
THROUGH = ("bash", "-o", "pipefail", "-c")   # runs the user's command
# Pipes whose text this process keeps.
PRINTED, COUNTED = "summary", "report"
FLAGS = "flags"         # what samtools counts of a BAM file, after it was made
CUTADAPT_COUNTED, CUTADAPT_PRINTED = "cutadapt-report", "cutadapt-log"
KEPT = (PRINTED, COUNTED, CUTADAPT_COUNTED, CUTADAPT_PRINTED)
TRIMMED = "trimmed"     # from cutadapt to the program


class End(NamedTuple):
    """One end of a pipe."""

    pipe: str
    is_writing: bool


class Made(NamedTuple):
    """What is written for the output of this role: its hidden file, or its device."""

    role: str


class Lane(NamedTuple):
    """The file of a lane, which is open."""

    name: str


Word = Union[str, End, Made, Lane]
Stream = Union[None, End, Made, Lane]


class Start(NamedTuple):
    """A process. What it prints on standard error is kept, and so is its standard output if that
    leads nowhere else."""

    role: str
    words: Tuple[Word, ...]
    stdin: Stream = None
    stdout: Stream = None
    is_users: bool = False  # a command of the user: what it prints on standard error isn't kept


def plan(arguments: Arguments, tools: Tools, sides: Sequence[Side], outputs: Dict[str, Output],
         cutadapt: Optional[Sequence[str]]) -> List[Start]:
    """All that is started, the last first: who reads a pipe is there before who writes it. Of the
    sides it starts the first lanes. `cutadapt`: its options, or None without it."""
    starts = [start for output in outputs.values() for start in writers(arguments, tools, output)]
    starts += [lane(side, 0, tools.decompressor, cutadapt is not None)
               for side in sides if not side.is_direct]
    sources: List[Word] = [Lane(side.names[0]) if side.is_direct else End(side.name, False)
                           for side in sides]
    if cutadapt is not None:
        starts.append(trimmer_of_adapters(cutadapt, tools.threads, sources))
        sources = [End(TRIMMED, False)]
    return starts + [program(arguments, outputs, sources)]


def writers(arguments: Arguments, tools: Tools, output: Output) -> List[Start]:
    """What writes an output that comes through a pipe. The program opens the pipe of an interleaved
    output twice, which no file allows. And its standard output isn't ours."""
    if output.role in OURS or not is_piped(output):
        return []
    source = End(output.role, False)
    if output.is_compressed:
        words = tools.compress(output.role)
        if not tools.needs_cat():
            return [writer(output, words, source)]
        between = f"{output.role}.gz"
        return [writer(output, ["cat"], End(between, False)),
                Start(output.role, tuple(words), source, End(between, True))]
    if output.role == "interleaved" and arguments.through:
        return [writer(output, [*THROUGH, arguments.through], source)._replace(is_users=True)]
    return [writer(output, ["cat"], source)]


def is_piped(output: Output) -> bool:
    return output.is_compressed or output.is_stdout or output.role == "interleaved"


def writer(output: Output, words: Sequence[str], source: End) -> Start:
    if output.is_device and not output.is_stdout:
        return Start(output.role, (*TO_DEVICE, output.target, *words), source)
    return Start(output.role, tuple(words), source, Made(output.role))


def lane(side: Side, place: int, decompressor: str, is_for_cutadapt: bool) -> Start:
    """What writes the text of a lane into the pipe of its side."""
    each = side.inputs[place]
    words = each.command(decompressor)
    if each.size is None:
        words = FROM_PIPE + [each.name] + words
    if side.left is not None:
        words = FIRST_RECORDS + [str(side.left)] + words
    if is_for_cutadapt:
        words = WHOLE_LINES + words
    elif place:
        words = AFTER_LINE_FEED + words
    source = None if each.size is None else Lane(each.name)
    return Start(side.name, tuple(words), source, End(side.name, True))


def trimmer_of_adapters(options: Sequence[str], threads: int, sources: Sequence[Word]) -> Start:
    words: List[Word] = ["cutadapt", *options, "-j", str(threads), "--interleaved"]
    words += ["--json", End(CUTADAPT_COUNTED, True), "-o", End(TRIMMED, True), *sources]
    return Start("cutadapt", tuple(words), None, End(CUTADAPT_PRINTED, True))


def counter(threads: int, role: str) -> Start:
    """What counts the records of a BAM file, after all is well."""
    words = ("samtools", "flagstat", "-@", str(threads), Made(role))
    return Start("samtools", words, None, End(FLAGS, True))


def program(arguments: Arguments, outputs: Dict[str, Output], sources: Sequence[Word]) -> Start:
    def written(role: str) -> Word:
        output = outputs[role]
        return End(role, True) if is_piped(output) else Made(role)
    words: List[Word] = [arguments.program, "IL" if len(sources) == 1 else "PE", "--explain"]
    words += arguments.passed
    if "interleaved" in outputs:
        words += ["--block=1"]  # a block is written side by side, so mates take turns
    if "trimlog" in outputs:
        words += ["--trimlog", written("trimlog")]
    if "report" in outputs or "html" in outputs:
        words += ["--report", End(COUNTED, True)]
    words += ["--", *sources]
    words += [written(arguments.written_as(role)) for role in READS]
    words += arguments.steps or []
    return Start("program", tuple(words), None, End(PRINTED, True))


def shown(start: Start, outputs: Dict[str, Output]) -> str:
    """A process as one line, with the names of pipes as <NAME and >NAME."""
    def text(word: Word) -> str:
        if isinstance(word, End):
            return f"{'>' if word.is_writing else '<'}({word.pipe})"
        if isinstance(word, Made):
            return shlex.quote(outputs[word.role].name)
        return shlex.quote(word.name if isinstance(word, Lane) else word)
    line = " ".join(text(word) for word in start.words)
    line += f" < {text(start.stdin)}" if start.stdin is not None else ""
    line += f" > {text(start.stdout)}" if start.stdout is not None else ""
    return f"{start.role}: {line}"
