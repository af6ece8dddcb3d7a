"""Copies the text of a lane to standard output, as cutadapt takes it: without empty lines at its
beginning and end, and with a line feed after its last line.

    python3 whole_lines.py COMMAND..   the text is what the command prints
    python3 whole_lines.py             the text is standard input

Ends as the command ends. If the first record isn't of four lines, it ends with status 1 and a line
on standard error, and with status 127 and a line if the command can't be started.
"""

import contextlib
import fcntl
import os
import re
import signal
import subprocess
import sys
from typing import Sequence

if not __package__:  # a program of its own
    HERE = os.path.dirname(os.path.abspath(__file__))
    sys.path.insert(0, os.path.dirname(os.path.dirname(HERE)))
from tibzharuk.trim.children import F_SETPIPE_SZ, way_to_end_with_us

PIECE = 1 << 20
HELD = 1 << 12
# The end of a text whose last record has no bases, and so an empty line of scores after this.
EMPTY_READ = re.compile(rb"\n\r?\n\+[^\n]*$")
WRAPPED = "its first record isn't of four lines, as cutadapt needs (seqtk seq makes it so)"


def write_all(data: memoryview) -> None:
    """Writes all of it to standard output."""
    while data:
        data = data[os.write(1, data):]


def is_wrapped(text: bytes) -> bool:
    """Whether a text begins with a record that isn't of four lines."""
    lines = text.split(b"\n", 3)
    begins = len(lines) == 4 and lines[0].startswith(b"@") and not lines[2].startswith(b"+")
    return begins and b"\n+" in text


def last_lines(text: bytes) -> bytes:
    """The end of a text, with one line end after it."""
    lines = text.rstrip(b"\r\n")
    if not lines:
        return b""
    return lines + (b"\n\n" if EMPTY_READ.search(lines) else b"\n")


def end_of(buffer: memoryview, end: int) -> int:
    """The end of a text in a buffer. Empty lines at its end that fill half of what is held are
    dropped: some are left, so nothing between two records is hidden."""
    while True:
        tail = bytes(buffer[max(end - HELD, 0):end])
        empty = len(tail) - len(tail.rstrip(b"\r\n"))
        if empty <= HELD // 2:
            return end
        end -= empty - HELD // 2


def copy(source: int) -> bool:
    """Copies the text, but for its last bytes, until they are known to be the last. Returns whether
    it begins as cutadapt needs; if not, it says so."""
    buffer = memoryview(bytearray(HELD + PIECE))
    held, is_first = 0, True
    while True:
        size = os.readv(source, [buffer[held:]])
        if not size:
            write_all(memoryview(last_lines(bytes(buffer[:held]))))
            return True
        end = held + size
        if is_first:
            text = bytes(buffer[:end]).lstrip(b"\r\n")
            if is_wrapped(text):
                print(WRAPPED, file=sys.stderr)
                return False
            buffer[:len(text)] = text
            end = len(text)
            is_first = end < HELD
        end = end_of(buffer, end)
        held = min(end, HELD)
        write_all(buffer[:end - held])
        buffer[:held] = bytes(buffer[end - held:end])


def started(command: Sequence[str]) -> "subprocess.Popen[bytes]":
    """The command, whose standard output is a pipe to this process. If it can't be started, this
    process ends with status 127 and a line."""
    first = way_to_end_with_us()
    try:
        child = subprocess.Popen(command, stdout=subprocess.PIPE, preexec_fn=first)
    except OSError as error:
        print(f"cannot start {command[0]}: {error.strerror}", file=sys.stderr)
        sys.exit(127)
    assert child.stdout
    with contextlib.suppress(OSError):
        fcntl.fcntl(child.stdout.fileno(), F_SETPIPE_SZ, PIECE)
    return child


def end_as(status: int) -> int:
    """Returns the status of the command, or ends this process by the signal that ended it."""
    if status < 0:
        if -status != signal.SIGKILL:
            signal.signal(-status, signal.SIG_DFL)
        os.kill(os.getpid(), -status)
    return status


def main(command: Sequence[str]) -> int:
    """Returns the status."""
    signal.signal(signal.SIGPIPE, signal.SIG_DFL)
    if not command:
        return 0 if copy(0) else 1
    child = started(command)
    assert child.stdout
    if not copy(child.stdout.fileno()):
        return 1
    return end_as(child.wait())


if __name__ == "__main__":
    sys.exit(main(sys.argv[1:]))
