"""Runs the installed command, each time in a directory of its own, and looks at what it left."""

import gzip
import hashlib
import os
import resource
import signal
import subprocess
import sys
import time
import zlib
from typing import Dict, List, Mapping, Optional, Sequence, Tuple

from .checks import HIDDEN, LIMITED, STOPPED, Case, Outcome

SECONDS = 120           # within which a run must end
SECONDS_TO_LEAVE = 2    # within which what it started must end
LIMIT = 1 << 16         # bytes of a file, which the outputs exceed
PIECE = 1 << 20
EARLIER = b"earlier\n"
PIPE = "pipe"
PACKAGE = os.path.dirname(os.path.dirname(os.path.realpath(__file__)))
COMMAND = os.path.join(PACKAGE, "__main__.py")


def sum_of(text: bytes) -> str:
    return hashlib.sha256(text).hexdigest()


def sum_of_file(path: str) -> str:
    """The SHA-256 of what a file holds, decompressed if its name says that it is compressed."""
    found = hashlib.sha256()
    with gzip.open(path) if path.endswith(".gz") else open(path, "rb") as file:
        for piece in iter(lambda: file.read(PIECE), b""):
            found.update(piece)
    return found.hexdigest()


def command_words(words: Sequence[str]) -> List[str]:
    """The words that run the installed command, by the Python that its first line names."""
    return [COMMAND, *words] if os.access(COMMAND, os.X_OK) else [
        sys.executable, "-IS", COMMAND, *words]


def made_in(folder: str, known: Sequence[str]) -> Dict[str, str]:
    """The SHA-256 of the text of each file that isn't known, or what is wrong with it."""
    found = {}
    for name in os.listdir(folder):
        if name not in known:
            try:
                found[name] = sum_of_file(os.path.join(folder, name))
            except (OSError, EOFError, zlib.error) as error:
                found[name] = f"none: {error}"
    return found


def processes_in(folder: str) -> List[str]:
    """The processes of this user that work in a directory."""
    found = []
    for number in os.listdir("/proc"):
        try:
            if number.isdigit() and os.readlink(f"/proc/{number}/cwd") == folder:
                found.append(f"process {number}")
        except OSError:
            continue    # it has ended, or is another user's
    return found


def left_in(folder: str) -> List[str]:
    """The processes that still work there after a moment."""
    until = time.monotonic() + SECONDS_TO_LEAVE
    while processes_in(folder) and time.monotonic() < until:
        time.sleep(0.05)
    return processes_in(folder)


def limit_files() -> None:
    """Called by a child before it becomes the command."""
    resource.setrlimit(resource.RLIMIT_FSIZE, (LIMIT, LIMIT))


def stop_when_it_writes(process: "subprocess.Popen[bytes]", folder: str) -> None:
    """Sends a signal to a run that has opened its outputs, and waits for an input that doesn't
    come."""
    until = time.monotonic() + SECONDS
    writing: Optional[int] = None
    while process.poll() is None and time.monotonic() < until:
        try:
            if writing is None:
                writing = os.open(os.path.join(folder, PIPE), os.O_WRONLY | os.O_NONBLOCK)
        except OSError:
            pass    # nobody reads it yet
        if writing is not None and any(HIDDEN in name for name in os.listdir(folder)):
            process.send_signal(signal.SIGTERM)
            break
        time.sleep(0.02)
    try:
        process.wait(SECONDS)
    finally:
        if writing is not None:
            os.close(writing)


class Lab:
    """A directory for runs."""

    def __init__(self, folder: str, inputs: Mapping[str, bytes]) -> None:
        self.folder = os.path.realpath(folder)
        self.inputs = inputs
        self.number = 0

    @property
    def last_room(self) -> str:
        """The directory of the last run."""
        return os.path.join(self.folder, str(self.number))

    def room(self) -> str:
        """A new directory."""
        self.number += 1
        os.mkdir(self.last_room)
        return self.last_room

    def run(self, case: Case) -> Outcome:
        """Runs a case, and looks at what it left."""
        room = self.room()
        before = {name: self.inputs[key] for name, key in case.inputs.items()}
        before.update(dict.fromkeys(case.earlier, EARLIER))
        for name, data in before.items():
            with open(os.path.join(room, name), "wb") as file:
                file.write(data)
        if case.how == STOPPED:
            os.mkfifo(os.path.join(room, PIPE))
        status, said = self.call(case, room)
        changed = [name for name, data in before.items() if not holds(room, name, data)]
        made = made_in(room, [*before, PIPE] if case.how == STOPPED else list(before))
        return Outcome(status, said, made, changed, left_in(room))

    def call(self, case: Case, room: str) -> Tuple[int, str]:
        """The status, and what was said on standard error."""
        with open(os.path.join(self.folder, f"{self.number}.said"), "w+b") as said:
            process = subprocess.Popen(
                command_words(case.words), cwd=room, stdin=subprocess.DEVNULL,
                stdout=subprocess.DEVNULL, stderr=said,
                preexec_fn=limit_files if case.how == LIMITED else None)
            try:
                if case.how == STOPPED:
                    stop_when_it_writes(process, room)
                process.wait(SECONDS)
            except subprocess.TimeoutExpired:
                return -signal.SIGKILL, f"it didn't end in {SECONDS} seconds"
            finally:
                process.kill()  # if it still runs
                process.wait()
            said.seek(0)
            return process.returncode, said.read().decode("utf-8", "replace")


def holds(folder: str, name: str, data: bytes) -> bool:
    """Whether a file still holds this."""
    try:
        with open(os.path.join(folder, name), "rb") as file:
            return file.read() == data
    except OSError:
        return False
