"""What a check is, and the verdict on one run and on all."""

from typing import Dict, List, Mapping, NamedTuple, Sequence, Tuple

# The names that `tibzharuk trim` gives to hidden files have this part.
HIDDEN = ".tibzharuk."
NOTHING = "nothing"


class Check(NamedTuple):
    """What must be, and what is."""

    group: str
    what: str
    serves: str             # the requirement, as the guide's chapter names it
    must: Sequence[str]     # facts, each a line
    found: Sequence[str]
    lacks: str = ""         # why it wasn't tried, if it wasn't

    @property
    def passed(self) -> bool:
        return not self.lacks and list(self.must) == list(self.found)


class Case(NamedTuple):
    """A run of the command, and what must come of it."""

    group: str
    what: str
    serves: str
    words: Sequence[str]
    inputs: Mapping[str, str]           # which input is in the file of this name
    status: int = 0                     # negative for a signal
    line: str = ""                      # how its last line on standard error begins
    made: Mapping[str, str] = {}        # the SHA-256 of the text of each output
    others: Sequence[str] = ()          # outputs whose texts aren't known beforehand
    earlier: Sequence[str] = ()         # outputs that were there before, and stay as they were
    how: str = ""                       # LIMITED or STOPPED
    needs: str = ""                     # a program without which it isn't tried


LIMITED, STOPPED = "with a limit for the size of files", "stopped by SIGTERM"


class Outcome(NamedTuple):
    """What came of a run."""

    status: int
    said: str                       # on standard error
    made: Dict[str, str]            # the SHA-256 of the text of each new file
    changed: Sequence[str]          # earlier files that aren't as they were
    left: Sequence[str] = ()        # what else it left, such as a process


def status_fact(status: int) -> str:
    return f"ended by signal {-status}" if status < 0 else f"status {status}"


def last_line(said: str) -> str:
    """The last line, without the name of the command."""
    lines = said.splitlines() or [""]
    start = "tibzharuk: "
    return lines[-1][len(start):] if lines[-1].startswith(start) else lines[-1]


def line_fact(line: str) -> str:
    return f"says '{line}'" if line else "says nothing"


def output_facts(made: Mapping[str, str], others: Sequence[str]) -> List[str]:
    """A fact for each output; outputs whose texts aren't known are only named."""
    if not made:
        return ["makes " + NOTHING]
    return [f"{name} is there" if name in others else f"{name} has SHA-256 {made[name]}"
            for name in sorted(made)]


def judged(case: Case, outcome: Outcome) -> Check:
    """The check of a case by what came of it."""
    line = last_line(outcome.said)
    # A line goes on with a reason, whose words are the system's.
    line = case.line if case.line and line.startswith(case.line) else line
    wanted = {**case.made, **dict.fromkeys(case.others, "")}
    must = [status_fact(case.status), line_fact(case.line),
            *output_facts(wanted, case.others), "changes " + NOTHING]
    found = [status_fact(outcome.status), line_fact(line),
             *output_facts(outcome.made, case.others),
             "changes " + (", ".join(outcome.changed) or NOTHING)]
    found += [f"leaves {each}" for each in outcome.left]
    return Check(case.group, case.what, case.serves, must, found)


def not_tried(case: Case) -> Check:
    why = f"{case.needs} isn't installed"
    return Check(case.group, case.what, case.serves, [status_fact(case.status)], [], why)


def counts(checks: Sequence[Check]) -> Tuple[int, int, int]:
    """How many passed, failed, and weren't tried."""
    passed = sum(check.passed for check in checks)
    lacking = sum(check.lacks != "" for check in checks)
    return passed, len(checks) - passed - lacking, lacking


def verdict(checks: Sequence[Check]) -> str:
    """The last line."""
    passed, _, lacking = counts(checks)
    more = f", {lacking} not tried" if lacking else ""
    return f"passed {passed} of {len(checks) - lacking}{more}"


def status_of(checks: Sequence[Check]) -> int:
    """0 only if there are checks and all that were tried passed."""
    passed, failed, _ = counts(checks)
    return 0 if passed and not failed else 1
