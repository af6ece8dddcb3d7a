"""NAME
    tibzharuk - trims paired-end FASTQ files, and shows what was done

SYNOPSIS
    tibzharuk trim -1 FILE.. -2 FILE.. --out PREFIX [OPTIONS] STEPS..
    tibzharuk PE [OPTIONS] F R FP FU RP RU STEPS..
    tibzharuk page REPORT > PAGE
    tibzharuk sum REPORT.. > REPORT
    tibzharuk samples DIRECTORY.. > TABLE
    tibzharuk workflow DIRECTORY
    tibzharuk selftest

COMMANDS
    trim       trims plain or compressed files, removes adapters, and makes all
               outputs or none
    PE         the same by a line of Trimmomatic's paired-end mode, as it is
    page       makes a page for the browser from a report
    sum        adds up reports, such as those of the lanes of a sample
    samples    prints the table of samples that the workflow reads
    workflow   prepares a directory for the workflow, which trims many samples
    selftest   checks this installation, and makes a record of it to be signed

    tibzharuk COMMAND --help says more of each.

OPTIONS
    -h, --help       this text
    -V, --version    the versions of this command and of fq_prog, which trims,
                     and the kit that fq_prog was proved and built with
"""

import importlib
import os
import signal
import sys
from typing import Callable, List, Optional, Sequence

# The module of each command, whose `main` gets the words after it.
COMMANDS = {
    "trim": "tibzharuk.trim.command",
    "PE": "tibzharuk.pe",
    "page": "tibzharuk.page",
    "sum": "tibzharuk.sum",
    "samples": "tibzharuk.samples",
    "workflow": "tibzharuk.workflow",
    "selftest": "tibzharuk.selftest.command",
}
PROGRAM = "fq_prog"
# What helps with words that are commands of other trimmers, or of fq_prog.
INSTEAD = {
    "IL": "tibzharuk trim -i takes interleaved files",
    "SE": "single-end reads are for another trimmer",
    "EXAMPLE": "fq_prog EXAMPLE shows a run",
}


def ready_for_signals() -> None:
    """What a signal does until a run handles signals itself. The first process of a container isn't
    ended by a signal that it doesn't handle. And Ctrl-C needs no traceback."""
    if os.getpid() == 1:
        for each in (signal.SIGTERM, signal.SIGHUP, signal.SIGQUIT, signal.SIGINT):
            signal.signal(each, lambda number, _: os._exit(128 + number))
    elif signal.getsignal(signal.SIGINT) is signal.default_int_handler:
        signal.signal(signal.SIGINT, signal.SIG_DFL)


def find_program_beside() -> None:
    """A release runs where it was unpacked: its program is found beside the command, if there is
    none on the search path."""
    place = os.path.dirname(os.path.abspath(sys.argv[0]))
    if os.access(os.path.join(place, PROGRAM), os.X_OK):
        os.environ["PATH"] = os.pathsep.join([os.environ.get("PATH", os.defpath), place])


def refuse(line: str) -> int:
    sys.stderr.write(f"tibzharuk: {line} (tibzharuk --help)\n")
    return 1


def kit_of(program: str) -> str:
    """The kit that built the program, as packaging/install.sh notes it beside this package. Nothing
    if the program isn't the one that was installed with the package."""
    try:
        with open(os.path.join(os.path.dirname(__file__), "kit")) as file:
            kit = file.read()
        beside = os.path.join(os.path.dirname(sys.argv[0]), PROGRAM)
        return kit if os.path.samefile(program, beside) else ""
    except OSError:
        return ""


def show_version(name: str = PROGRAM) -> int:
    """The version of this package, that of the program, which prints it itself, and its kit."""
    from . import VERSION
    from .trim.tools import which
    sys.stdout.write(f"tibzharuk {VERSION}\n")
    sys.stdout.flush()
    program = which(name)
    if program is None:
        return refuse(f"no program {name} on the search path")
    try:
        child = os.posix_spawn(program, [PROGRAM, "--version"], os.environ)
    except OSError as error:
        return refuse(f"cannot start {program}: {error.strerror}")
    if os.waitpid(child, 0)[1] != 0:
        return refuse(f"{program} doesn't print its version")
    sys.stdout.write(kit_of(program))
    return 0


def near(word: str) -> str:
    """What is said of a word that is no command."""
    import difflib
    if os.path.exists(word):
        return f"{word}: a file comes after a command, as in tibzharuk trim -1 {word}"
    known = {name.lower(): name for name in COMMANDS}
    found = difflib.get_close_matches(word.lower(), known, 1, 0.6)
    hint = f"; did you mean {known[found[0]]}?" if found else ""
    return f"{word} is not a command" + (f"; {INSTEAD[word]}" if word in INSTEAD else hint)


def main(words: Optional[Sequence[str]] = None) -> int:
    """Returns the status."""
    ready_for_signals()
    find_program_beside()
    said: List[str] = list(sys.argv[1:] if words is None else words)
    if not said:
        return refuse(f"a command is missing: {', '.join(COMMANDS)}")
    if said[0] in ("-h", "--help", "help"):
        sys.stdout.write(__doc__ or "")
        return 0
    if said[0] in ("-V", "--version"):
        return show_version()
    if said[0] not in COMMANDS:
        return refuse(near(said[0]))
    run: Callable[[Sequence[str]], int] = importlib.import_module(COMMANDS[said[0]]).main
    return run(said[1:])
