"""Copies the first records of the text that a command prints to standard output, and then ends the
command.

    python3 first_records.py NUMBER COMMAND..

A text with fewer records is copied as it is, and so is one with a record that breaks a rule, since
the program will say what is wrong with it. Ends with status 0 if it has ended the command, else as
the command ends. With status 0 it says on standard error how many records it has copied.
"""

import os
import re
import signal
import sys
from typing import IO, Iterable

if not __package__:  # a program of its own
    HERE = os.path.dirname(os.path.abspath(__file__))
    sys.path.insert(0, os.path.dirname(os.path.dirname(HERE)))
from tibzharuk.trim.whole_lines import PIECE, end_as, started

MOST_BYTES = (1 << 20) + 2  # of a line, with its end
EMPTY_LINES = (b"\n", b"\r\n")


def size_of(line: bytes) -> int:
    """The bytes of a line without its end."""
    end = len(line) - line.endswith(b"\n")
    return end - line.endswith(b"\r", 0, end)


def copy_record(lines: Iterable[bytes], out: IO[bytes]) -> bool:
    """Copies a record, which may be wrapped, and empty lines before it. Returns whether there is
    one, of which no line is known to be wrong."""
    left, is_begun, has_plus = 0, False, False
    for line in lines:
        out.write(line)
        if not is_begun:
            if line in EMPTY_LINES:
                continue
            if not line.startswith(b"@"):
                return False
            is_begun = True
        elif has_plus:
            left -= size_of(line)
        elif line.startswith(b"+"):
            has_plus = True
        elif line.startswith(b"@"):
            return False
        else:
            left += size_of(line)
        if has_plus and left <= 0:
            return True
    return False


def copy_records(source: IO[bytes], out: IO[bytes], number: int) -> int:
    """Copies this many records, or all of the text. Returns how many records it has copied."""
    lines = iter(lambda: source.readline(MOST_BYTES), b"")
    for copied in range(number):
        if not copy_record(lines, out):
            for piece in iter(lambda: source.read(PIECE), b""):
                out.write(piece)
            return copied
    return number


def copied(said: bytes) -> int:
    """How many records were copied, from what this program has printed on standard error."""
    found = re.search(rb"^copied (\d+) records$", said, re.MULTILINE)
    return int(found.group(1)) if found else 0


def main(number: str, *command: str) -> int:
    """Returns the status."""
    signal.signal(signal.SIGPIPE, signal.SIG_DFL)
    child = started(command)
    assert child.stdout
    most = int(number)
    found = copy_records(child.stdout, sys.stdout.buffer, most)
    sys.stdout.buffer.flush()
    if found == most:
        child.kill()
    status = child.wait()
    if found == most or status == 0:
        sys.stderr.write(f"copied {found} records\n")
        return 0
    return end_as(status)


if __name__ == "__main__":
    sys.exit(main(*sys.argv[1:]))
