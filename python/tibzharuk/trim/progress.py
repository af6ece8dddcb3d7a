"""How much of the inputs was read."""

import contextlib
import os
import time
from typing import Optional, Sequence

from .files import Input

SECONDS_ON_TERMINAL = 0.5
SECONDS_ELSEWHERE = 60
WIPE = "\r\033[K"


def clock(seconds: int) -> str:
    """The time left, as 0:42 or 1:59 h."""
    if seconds < 3600:
        return f"{seconds // 60}:{seconds % 60:02d}"
    return f"{seconds // 3600}:{seconds // 60 % 60:02d} h"


def describe(done: int, size: int, seconds: float) -> str:
    """A line of progress: the % of the inputs' bytes, bytes a second, and the time left."""
    line = f"{done / max(seconds, 0.001) / 1e6:.0f} MB/s"
    if size:
        line = f"{100 * done / size:3.0f} %, {line}"
    if 0 < done <= size:
        line += f", {clock(int(seconds * (size - done) / done + 0.5))} left"
    return line


class Progress:
    """Prints how far the inputs were read: one line that changes on a terminal, else a line each
    minute."""

    def __init__(self, is_wanted: Optional[bool], inputs: Sequence[Input]) -> None:
        self.is_terminal = self.is_shown = False
        with contextlib.suppress(OSError):
            self.is_terminal = os.isatty(2)
        is_wanted = self.is_terminal if is_wanted is None else is_wanted
        self.is_on = is_wanted and any(each.size for each in inputs)    # of pipes nothing is known
        self.inputs = inputs
        self.begun = time.monotonic()
        self.pause = SECONDS_ON_TERMINAL if self.is_terminal else SECONDS_ELSEWHERE
        self.next = self.begun + self.pause

    def tick(self) -> None:
        now = time.monotonic()
        if not self.is_on or now < self.next:
            return
        self.next = now + self.pause
        done = sum(each.bytes_read() for each in self.inputs)
        size = sum(each.size or 0 for each in self.inputs)
        line = "tibzharuk: " + describe(done, size, now - self.begun)
        self.print(WIPE + line if self.is_terminal else line + "\n")
        self.is_shown = self.is_terminal

    def wipe(self) -> None:
        """Removes the line from the terminal, before another one is printed. From then on no
        progress is printed."""
        self.is_on = False
        if self.is_shown:
            self.is_shown = False
            self.print(WIPE)

    @staticmethod
    def print(text: str) -> None:
        with contextlib.suppress(OSError):
            os.write(2, text.encode())
