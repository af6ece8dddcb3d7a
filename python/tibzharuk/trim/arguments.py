"""The arguments of a run."""

import argparse
import copy
import os
import re
import shlex
from typing import Any, Callable, Dict, List, NoReturn, Optional, Sequence, Tuple

from .faults import Fault
from .known_adapters import AUTO, NONE
from .steps import CLIP, WITHOUT, is_step, meant, name_of
from .tools import COMPRESSORS, DECOMPRESSORS

READS = ("paired1", "unpaired1", "paired2", "unpaired2")
CUTADAPT_ROLES = ("cutadapt-report", "cutadapt-log")
ROLES = READS + ("interleaved", "trimlog", "report", "html", *CUTADAPT_ROLES, "summary")
CHECKSUMS = "checksums"     # those of all outputs, of which it is the last
# What follows the prefix of --out. The workflow has the same names.
ENDINGS = {
    "paired1": ".r1.paired.fastq.gz",
    "unpaired1": ".r1.unpaired.fastq.gz",
    "paired2": ".r2.paired.fastq.gz",
    "unpaired2": ".r2.unpaired.fastq.gz",
    "report": ".json",
    "html": ".html",
}
NOWHERE = "/dev/null"
STDIN = "/dev/stdin"
# Options of cutadapt that name adapters, at any end of a read.
ADAPTER_LETTERS = ("a", "A", "g", "G", "b", "B")
ADAPTER_NAMES = ("--adapter", "--front", "--anywhere")
# Options of cutadapt that the command sets itself, or that write files without a hidden name.
REFUSED_LETTERS = ("o", "p", "j", "r", "h")
REFUSED_NAMES = (
    "--output", "--paired-output", "--interleaved", "--cores", "--json", "--report", "--quiet",
    "--debug", "--fasta", "--help", "--version", "--profile", "--info-file", "--rest-file",
    "--wildcard-file", "--too-short-output", "--too-short-paired-output", "--too-long-output",
    "--too-long-paired-output", "--untrimmed-output", "--untrimmed-paired-output",
)
LETTERS_WITHOUT_VALUE = "NZz"    # of cutadapt: another option may follow in the same word
PASSED_NUMBERS = {"block": 65536, "depth": 64, "chunk": 1048576}   # and the most of each
MOST_PAIRS = 10 ** 12
# What is meant by options of fastp and Cutadapt.
NAMES_OUTPUTS, NAMES_ADAPTERS = "--out PREFIX names the outputs", "--adapters names adapters"
OF_OTHERS = {
    "-I": "reverse reads come after -2, and forward reads after -1",
    "-o": NAMES_OUTPUTS, "-O": NAMES_OUTPUTS, "-p": NAMES_OUTPUTS,
    "-a": NAMES_ADAPTERS, "-A": NAMES_ADAPTERS,
    "-j": "-t N sets the threads", "-w": "-t N sets the threads", "-z": "--level N compresses",
    "-q": "TRAILING:20 is a step that cuts low bases", "-l": "MINLEN:36 is a step",
    "-m": "MINLEN:36 is a step",
}
MISPLACED = re.compile("[A-Za-z0-9]+:[0-9]")     # a word that could be a step
HELP = "(tibzharuk trim --help)"
EMPTY = "an argument is empty: is a variable not set?"


class HelpAsked(Exception):
    """The user asks for the manual."""


def number_to(option: str, most: int) -> Callable[[str], int]:
    """A reader of numbers from 1 to `most`."""
    def read(text: str) -> int:
        if not re.match("[1-9][0-9]{0,12}$", text) or int(text) > most:
            raise Fault(1, f"{option} must be a number from 1 to {most}, not {text}")
        return int(text)
    return read


def passed_number(option: str, most: int) -> Callable[[str], str]:
    """A reader of numbers from 1 to `most`. The program itself refuses those out of range."""
    def read(text: str) -> str:
        if not re.match("[0-9]{1,9}$", text):
            raise Fault(1, f"{option} must be a number from 1 to {most}, not {text}")
        return text
    return read


def one_of(option: str, names: Sequence[str]) -> Callable[[str], str]:
    """A reader of one of these names."""
    def read(text: str) -> str:
        if text not in names:
            raise Fault(1, f"{option} must be one of {', '.join(names)}, not {text}")
        return text
    return read


def is_option(word: str, letters: Sequence[str], names: Sequence[str]) -> bool:
    """Whether it is one of these options of cutadapt, even if it is shortened, or is in one word
    with others, as in -Zp."""
    if word.startswith("--"):
        given = word.partition("=")[0]
        return len(given) > 2 and any(name.startswith(given) for name in names)
    return word.startswith("-") and word[1:].lstrip(LETTERS_WITHOUT_VALUE)[:1] in letters


def cutadapt_options(text: str) -> List[str]:
    """Options for cutadapt, none of which writes a file."""
    try:
        words = shlex.split(text)
    except ValueError as error:
        raise Fault(1, f"--cutadapt: {str(error).lower()}")
    for word in words:
        if is_option(word, REFUSED_LETTERS, REFUSED_NAMES):
            raise Fault(1, f"--cutadapt: {word} can't be given here")
    return words


class Once(argparse.Action):
    """An option that is given at most once."""

    def __call__(self, parser: argparse.ArgumentParser, namespace: argparse.Namespace, values: Any,
                 option_string: Optional[str] = None) -> None:
        name = self.option_strings[0]
        earlier = namespace.given.get(self.dest)
        if earlier == name:
            raise Fault(1, f"{name} is given twice")
        if earlier:
            raise Fault(1, f"either {earlier} or {name}")
        namespace.given[self.dest] = name
        setattr(namespace, self.dest, values if self.nargs is None else self.const)


class Parser(argparse.ArgumentParser):
    """Reads the options before the steps. Each fault of them is one line."""

    def __init__(self) -> None:
        super().__init__(prog="tibzharuk trim", add_help=False, allow_abbrev=False)
        self.add_argument("--help", "-h", action="store_true")
        self.add_argument("--version", "-V", dest="asks_version", action="store_true")
        for option, name in ("-1", "forward"), ("-2", "reverse"), ("-i", "both"):
            self.add_argument(option, dest=name, action="append", nargs="+", default=[])
        for role in ROLES:
            self.add_once(f"--{role}")
        self.add_once("--out")
        self.add_once("--through")
        self.add_switches()
        self.add_settings()
        self.takes_value = {name: action.nargs != 0
                            for action in self._actions for name in action.option_strings}

    def add_once(self, *names: str, **more: Any) -> None:
        self.add_argument(*names, action=Once, **more)

    def add_switches(self) -> None:
        for name, field, value in (
            ("--progress", "progress", True),
            ("--no-progress", "progress", False),
            ("--no-unpaired", "no_unpaired", True),
            ("--no-report", "no_report", True),
            ("--checksums", CHECKSUMS, True),
            ("--need-end", "needs_end", True),
            ("--poly-g", "poly_g", True),
            ("--no-name-check", "no_name_check", True),
            ("--sync", "sync", True),
            ("--dry-run", "dry_run", True),
            ("--expect-pairs", "expect_pairs", True),
        ):
            self.add_once(name, dest=field, nargs=0, const=value)

    def add_settings(self) -> None:
        compressors, decompressors = ("auto",) + tuple(COMPRESSORS), ("auto",) + DECOMPRESSORS
        self.add_argument("--adapters", action="append", default=[])
        self.add_once("--cutadapt", type=cutadapt_options)
        self.add_once("--threads", "-t", type=passed_number("--threads", 64))
        self.add_once("--compressor", type=one_of("--compressor", compressors), default="auto")
        self.add_once("--level", type=number_to("--level", 9))
        self.add_once("--pairs", type=number_to("--pairs", MOST_PAIRS))
        self.add_once("--compress-threads", type=number_to("--compress-threads", 64))
        self.add_once(
            "--decompressor", type=one_of("--decompressor", decompressors), default="auto")
        self.add_once("--program", default="fq_prog")
        self.add_once("--encoding")
        for name, most in PASSED_NUMBERS.items():
            self.add_once(f"--{name}", type=passed_number(f"--{name}", most))

    def read(self, words: Sequence[str]) -> Tuple[argparse.Namespace, Optional[List[str]]]:
        """The options and the steps, or None in their place if there are none and no --."""
        options, steps = self.split(words)
        found, strays = self.parse_known_args(options, argparse.Namespace(given={}))
        if strays:
            raise self.astray(strays[0])
        return found, steps

    def split(self, words: Sequence[str]) -> Tuple[List[str], Optional[List[str]]]:
        """The options, each of which is known and has its value, and the steps."""
        options: List[str] = []
        left = list(words)
        while left:
            word = left.pop(0)
            name, is_joined, value = word.partition("=")
            if word == "--":
                return options, left
            if word in ("--help", "-h"):
                raise HelpAsked
            if not word:
                raise Fault(1, f"{EMPTY} {HELP}")
            if is_step(word):
                check_steps([word] + left)
                return options, [word] + left
            if self.takes_value.get(name) and (not is_joined or name.startswith("--")):
                self.check_value(name, value if is_joined else left[0] if left else "", is_joined)
                if name == "--cutadapt" and not is_joined:  # its value may begin with a dash
                    word += "=" + left.pop(0)
            elif re.match("-t[0-9]+$", word):
                word = f"--threads={word[2:]}"
            elif word.startswith("-") and word != "-" and word not in self.takes_value:
                raise self.astray(word)
            options.append(word)
        return options, None

    def check_value(self, option: str, value: str, is_joined: str) -> None:
        """Refuses an option that lacks its value."""
        if not value:
            raise Fault(1, f"{option} has no value {HELP}")
        is_own = value == "--" or value.partition("=")[0] in self.takes_value
        if is_step(value) and not is_joined and option != "--cutadapt":
            raise Fault(1, f"{option} has no value, as {value} is a step; "
                           f"a file of that name is ./{value}")
        has_dash = value.startswith("-") and value != "-" and not is_joined
        if has_dash and (is_own or option != "--cutadapt"):
            raise Fault(1, f"{option} has no value, as {value} is an option; "
                           f"a file of that name is ./{value}")

    def astray(self, word: str) -> Fault:
        """The fault of a word that is neither an option nor the value of one."""
        import difflib
        if os.path.exists(word):
            return Fault(1, f"{word}: a file comes after -1, -2 or -i {HELP}")
        name = word.partition("=")[0]
        near = difflib.get_close_matches(name, self.takes_value, 1, 0.7) if word[0] == "-" else []
        hint = OF_OTHERS.get(name, "steps are words such as MINLEN:36")
        if near or misplaced_step(word):
            hint = f"did you mean {near[0] if near else misplaced_step(word)}?"
        return Fault(1, f"{word} is not an option; {hint} {HELP}")

    def error(self, message: str) -> NoReturn:
        raise Fault(1, f"{message} {HELP}")


def check_steps(steps: Sequence[str]) -> None:
    """Refuses what comes among steps before which there is no --."""
    for step in steps:
        if step.startswith("-"):
            raise Fault(1, f"{step} comes after the steps; options come before them {HELP}")
        check_step(step)


def check_step(step: str) -> None:
    """Refuses a step that is another program's, or misspelled. The program refuses all others."""
    name = name_of(step)
    if name in WITHOUT:
        raise Fault(2, f"{step} is not among the steps here: {WITHOUT[name]}")
    if name == CLIP:
        raise Fault(2, f"{step} is not among the steps here: --adapters removes adapters, "
                       "and tibzharuk PE takes this step")
    if meant(step):
        raise Fault(2, f"{step} is no step; did you mean {meant(step)}?")


def misplaced_step(word: str) -> Optional[str]:
    """The step that a word which is no file seems to be."""
    return meant(word) if MISPLACED.match(word) and not os.path.exists(word) else None


def flat(lists: Sequence[List[str]]) -> List[str]:
    """The names of all files, where - is standard input."""
    return [STDIN if each == "-" else each for some in lists for each in some]


class Arguments:
    """The arguments of a run, as they were read."""

    def __init__(self, words: Sequence[str]) -> None:
        found, self.steps = Parser().read(words)    # None: there are none
        self.call: List[str] = ["trim", *words]     # of the command, as it was typed
        self.dry_run = bool(found.dry_run)
        self.read_too: List[str] = []       # other files that are read
        # The summary in other forms, if not in that of the program: what is printed on standard
        # error, and what gets into its file.
        self.forms: Optional[Callable[[str], Tuple[bytes, bytes]]] = None
        self.forward = flat(found.forward)
        self.reverse = flat(found.reverse)
        self.both = flat(found.both)
        self.program: str = found.program
        self.compressor: str = found.compressor
        self.decompressor: str = found.decompressor
        self.threads: Optional[str] = found.threads
        self.compress_threads: Optional[int] = found.compress_threads
        self.level: Optional[int] = found.level
        self.pairs: Optional[int] = found.pairs     # None: all
        self.adapters: List[str] = found.adapters
        self.adapters_auto: Optional[str] = None    # what --adapters auto took
        self.cutadapt: Optional[List[str]] = found.cutadapt
        self.through: Optional[str] = found.through
        self.expects_pairs = bool(found.expect_pairs)
        self.poly_g = bool(found.poly_g)
        # None: if standard error is a terminal. The user's command prints lines of its own there.
        self.progress: Optional[bool] = found.progress
        if found.through and found.progress is None:
            self.progress = False
        self.asks_version: bool = found.asks_version
        self.needs_end = bool(found.needs_end)
        self.checks_names = not found.no_name_check
        self.encoding: Optional[str] = found.encoding
        self.block: Optional[str] = found.block
        self.passed = options_of_program(found)
        self.outputs = names_of_outputs(found)  # by their roles

    def check(self) -> None:
        """Refuses arguments that lack an input, an output or the steps, or don't fit together."""
        for name in self.inputs():
            step = misplaced_step(name)
            if step:
                raise Fault(2, f"{name} is neither a file nor a step; did you mean {step}?")
        if self.both and (self.forward or self.reverse):
            raise Fault(1, "either -i, or -1 and -2")
        if not self.both and not self.forward:
            raise Fault(1, f"no input: -1 and -2, or -i {HELP}")
        if len(self.forward) != len(self.reverse):
            raise Fault(1, f"{len(self.forward)} forward files (-1), "
                           f"but {len(self.reverse)} reverse files (-2)")
        self.check_outputs()
        if self.steps is None:
            raise Fault(1, f"no steps, such as MINLEN:36 {HELP}")
        for step in self.steps:
            check_step(step)

    def check_outputs(self) -> None:
        if not any(role in self.outputs for role in (*READS, "interleaved")):
            raise Fault(1, f"no names for the outputs: --out PREFIX names all {HELP}")
        for role in READS:
            if self.written_as(role) not in self.outputs:
                left_out = ", --no-unpaired leaves it out" if role.startswith("un") else ""
                raise Fault(1, f"no --{role}; --out PREFIX names it{left_out} {HELP}")
        if "interleaved" in self.outputs:
            if "paired1" in self.outputs or "paired2" in self.outputs:
                raise Fault(1, "either --interleaved, or --paired1 and --paired2")
            if self.block:
                raise Fault(1, "--interleaved sets --block itself")
        if self.through and self.outputs.get("interleaved", ".gz").lower().endswith(".gz"):
            raise Fault(1, "--through needs --interleaved, whose name doesn't end in .gz")
        if self.expects_pairs and not self.through:
            raise Fault(1, "--expect-pairs without --through")
        for role in CUTADAPT_ROLES:
            if role in self.outputs and not self.uses_cutadapt():
                raise Fault(1, f"--{role} without --adapters or --cutadapt")

    def into_nowhere(self) -> "Arguments":
        """The same inputs and steps, without cutadapt and without outputs."""
        given = copy.copy(self)
        given.adapters, given.cutadapt, given.poly_g, given.through = [], None, False, None
        given.outputs = dict.fromkeys(READS, NOWHERE)
        return given

    def written_as(self, role: str) -> str:
        """The role of the output that gets the reads of this role."""
        is_joined = "interleaved" in self.outputs and role in ("paired1", "paired2")
        return "interleaved" if is_joined and role not in self.outputs else role

    def outputs_in_order(self) -> List[Tuple[str, str]]:
        return [(role, self.outputs[role]) for role in (*ROLES, CHECKSUMS) if role in self.outputs]

    def asks_auto(self) -> bool:
        return AUTO in map(str.lower, self.adapters)

    def take(self, name: str) -> None:
        """Puts the name of known adapters, or nothing, in the place of --adapters auto."""
        self.adapters_auto = name
        named = [name if each.lower() == AUTO else each for each in self.adapters]
        self.adapters = [each for each in dict.fromkeys(named) if each != NONE]

    def removes(self) -> bool:
        """Whether cutadapt has anything to remove."""
        return bool(self.adapters or self.cutadapt or self.poly_g)

    def uses_cutadapt(self) -> bool:
        """If `auto` took none, cutadapt runs only for what it counts and prints."""
        return self.removes() or bool(self.adapters_auto) and any(
            role in self.outputs for role in CUTADAPT_ROLES)

    def names_adapters(self) -> bool:
        """Whether adapters are named, also in options of cutadapt, or were looked for."""
        words = self.cutadapt or []
        return bool(self.adapters or self.adapters_auto) or any(
            is_option(word, ADAPTER_LETTERS, ADAPTER_NAMES) for word in words)

    def inputs(self) -> List[str]:
        return self.forward + self.reverse + self.both

    def files_that_are_read(self) -> List[str]:
        """No output may be one of these: the inputs, and files of adapters."""
        inside = [re.search(r"file\$?:([^;]+)", word) for word in self.cutadapt or []]
        named = self.adapters + [found.group(1) for found in inside if found]
        named += self.read_too
        return self.inputs() + [name for name in named if os.path.exists(name)]


def options_of_program(found: argparse.Namespace) -> List[str]:
    """What is passed on to the program."""
    passed = [f"--encoding={found.encoding}"] if found.encoding else []
    passed += ["--no-name-check"] if found.no_name_check else []
    passed += ["--sync"] if found.sync else []
    for name in ("threads", *PASSED_NUMBERS):
        value = getattr(found, name)
        passed += [] if value is None else [f"--{name}={value}"]
    return passed


def names_of_outputs(found: argparse.Namespace) -> Dict[str, str]:
    """The outputs that are named, and those that --out names, by their roles."""
    named = {role: getattr(found, role.replace("-", "_")) for role in ROLES}
    outputs = {role: name for role, name in named.items() if name is not None}
    for role, ending in ENDINGS.items():
        is_other = role.startswith("paired") and "interleaved" in outputs
        if role in outputs or is_other or found.no_report and role in ("report", "html"):
            continue
        if role.startswith("unpaired") and found.no_unpaired:
            outputs[role] = NOWHERE
        elif found.out:
            outputs[role] = prefix_of(found) + ending
    if found.checksums:
        outputs[CHECKSUMS] = prefix_of(found) + ".sha256"
    return outputs


def prefix_of(found: argparse.Namespace) -> str:
    """How the names begin that --out gives."""
    if not found.out:
        raise Fault(1, "--checksums writes PREFIX.sha256, so it needs --out PREFIX")
    if os.path.basename(found.out) in ("", ".", ".."):
        raise Fault(1, f"--out {found.out} is a directory; the names need a beginning, too")
    return str(found.out)
