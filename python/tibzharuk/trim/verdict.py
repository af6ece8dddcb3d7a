"""The verdict on a run: a fault, or none, from how each process ended.

Its order is what matters. A program that ends at a fault makes its neighbours fail, so several end
badly at once, and the one line that the user reads must name the first cause. A damaged input comes
before what the program made of its text; cutadapt comes before the program, which met its end; and
a program that ended well isn't believed unless all of the inputs were read. The user's command
comes last: its fault is here only if the program had closed its pipe before.
"""

import signal
from typing import Dict, NamedTuple, Optional, Sequence

from .children import Ended
from .faults import Fault, signal_name
from .files import with_names


class SideEnd(NamedTuple):
    """How the reading of a side ended."""

    is_whole: bool          # its text was read to its end
    fault: Optional[Fault]  # why not, if its file or its decompressor is why


class CutadaptEnd(NamedTuple):
    """How cutadapt ended. `child` is None while it still runs."""

    child: Optional[Ended]
    fault: Optional[Fault]  # why it failed, unless because the program stopped reading
    passed: Optional[int]   # the pairs that it passed on, as it says; None: it doesn't say


class Ends(NamedTuple):
    """How all of a run ended."""

    program: Ended
    name: str               # the program's, as it was called
    sides: Sequence[SideEnd]
    taken: Optional[int]    # the pairs that the program read, as its summary says
    cutadapt: Optional[CutadaptEnd] = None
    names: Dict[str, str] = {}  # the user's, by those that the program got
    writer: Optional[Fault] = None  # of an output, after the program had written all of it

    def options_are_refused(self) -> bool:
        """Whether cutadapt ended because it doesn't accept its options."""
        each = self.cutadapt
        return each is not None and each.child is not None and each.child.status == 2


def needs_more(ends: Ends) -> bool:
    """Whether the inputs must be read on, before a verdict, since a damaged file may be the cause
    of a fault in its text."""
    if ends.program.status not in (0, 3) or ends.options_are_refused():
        return False
    child = ends.cutadapt.child if ends.cutadapt else None
    return ends.program.status == 3 or child is not None and child.status != 0


def verdict(ends: Ends) -> Optional[Fault]:
    """Why the run failed, or None. The line is empty if the program has printed its own."""
    status = ends.program.status
    if status == 1:
        return Fault(1, "" if ends.program.said else f"{ends.name} ended with status 1")
    if status in (0, 3):
        fault = of_inputs(ends)
        if fault:
            return fault
    if status < 0:
        return Fault(128 - status, f"{ends.name} was ended by {signal_name(-status)}")
    if status > 0:
        lines = ends.program.text().splitlines() or [f"status {status}"]
        return Fault(status, with_names(lines[-1], ends.names))
    if ends.taken is None or not all(side.is_whole for side in ends.sides):
        return Fault(4, f"{ends.name} ended before it had read its inputs")
    fault = of_counts(ends.cutadapt, ends.taken) if ends.cutadapt else None
    return fault or ends.writer


def of_inputs(ends: Ends) -> Optional[Fault]:
    """The fault of an input, or of cutadapt, which is refused options before all others."""
    of_cutadapt = ends.cutadapt.fault if ends.cutadapt else None
    if ends.options_are_refused() and of_cutadapt:
        return of_cutadapt
    return next((side.fault for side in ends.sides if side.fault), of_cutadapt)


def of_counts(cutadapt: CutadaptEnd, taken: int) -> Optional[Fault]:
    """The fault if the program didn't read as many pairs as cutadapt passed on."""
    if cutadapt.child is None or cutadapt.child.status != 0:
        return Fault(4, "cutadapt was ended")
    if cutadapt.passed is None:
        return Fault(4, "cutadapt: no report")
    if cutadapt.passed != taken:
        return Fault(
            4, f"cutadapt passed on {cutadapt.passed} pairs, but fq_prog read another number")
    return None


def why_of_command(end: Ended, has_read_all: bool, is_read: bool) -> Optional[str]:
    """Why the user's command failed, or None. `is_read`: another program reads what it writes."""
    number = -end.status if end.status < 0 else end.status - 128
    if number == signal.SIGPIPE and is_read:
        return "its reader has ended"
    if end.status < 0:
        return f"its command was ended by {signal_name(number)}"
    if end.status:
        by = f" ({signal_name(number)})" if number in signal.valid_signals() else ""
        return f"its command ended with status {end.status}{by}"
    return None if has_read_all else "its command ended before it had read all pairs"
