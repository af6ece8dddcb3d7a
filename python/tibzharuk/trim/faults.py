"""How a run ends that can't go on, and what it prints."""

import contextlib
import os
import signal
from typing import Callable, List

# What ends no process, or what none can handle, or what shows a fault of this process itself.
OTHERS = (
    signal.SIGCHLD, signal.SIGCONT, signal.SIGURG, signal.SIGWINCH, signal.SIGTSTP, signal.SIGTTIN,
    signal.SIGTTOU, signal.SIGKILL, signal.SIGSTOP, signal.SIGSEGV, signal.SIGBUS, signal.SIGFPE,
    signal.SIGILL, signal.SIGTRAP, signal.SIGSYS, signal.SIGPIPE)
# What ends a process, unless it is handled. Batch systems send SIGUSR1, SIGUSR2, SIGXCPU or SIGALRM
# some time before they kill.
SIGNALS = tuple(sorted(set(signal.valid_signals()) - set(OTHERS)))


class Fault(Exception):
    """Ends the run with a status and a line."""

    def __init__(self, status: int, line: str) -> None:
        super().__init__(line)
        self.status, self.line = status, line


class Stopped(Exception):
    """A signal ends the run."""


def write_all(fd: int, data: bytes) -> None:
    """Writes all of these bytes."""
    while data:
        data = data[os.write(fd, data):]


def say(text: str, start: str = "tibzharuk: ") -> None:
    """Prints a line on standard error, as far as that is possible."""
    with contextlib.suppress(OSError):
        write_all(2, f"{start}{text}\n".encode("utf-8", "surrogateescape"))


warned: List[str] = []  # what this run warned of, for its report


def warn(text: str) -> None:
    """Prints a line about what may be wrong, although the run goes on."""
    warned.append(text)
    say(text, "tibzharuk: warning: ")


def reason(error: OSError) -> str:
    """The system's words for an error."""
    return error.strerror or str(error)


def ignore_signals() -> None:
    """From here on no signal interrupts the end of the run."""
    for number in (*SIGNALS, signal.SIGTSTP):
        signal.signal(number, signal.SIG_IGN)


def keep_streams() -> None:
    """Fills the places of closed standard streams, so that no file of the run gets their
    numbers."""
    for fd in range(3):
        try:
            os.fstat(fd)
        except OSError:
            os.open("/dev/null", os.O_RDONLY)


def signal_name(number: int) -> str:
    """The name of a signal, also of one that Python doesn't know."""
    try:
        return signal.Signals(number).name
    except ValueError:
        return f"signal {number}"


def status_of(work: Callable[[], None]) -> int:
    """The status of a run, after it was done or said why not."""
    try:
        work()
    except Fault as fault:
        if fault.line:
            say(fault.line)
        return fault.status
    except MemoryError:
        say("out of memory")
        return 5
    except OSError as error:  # such as too many open files
        say(f"cannot go on: {reason(error)}")
        return 4
    return 0
