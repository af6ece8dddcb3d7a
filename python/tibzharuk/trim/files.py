"""Inputs and outputs: what is read, hidden names, and final names."""

import contextlib
import errno
import io
import os
import re
import stat
import sys
from typing import TYPE_CHECKING, Dict, Iterable, List, Optional, Sequence

from .arguments import READS
from .checks import END_BLOCK, FRONT_BYTES, beginning, lacks_end, old_line_ends, other_format
from .faults import Fault, reason, write_all
from .tools import which

if TYPE_CHECKING:
    from .arguments import Arguments

# A named pipe is opened by a shell, which waits for its writer.
FROM_PIPE = ["sh", "-c", 'exec "$@" < "$0"']
# Between two lanes: the line feed ends a last line that has none. Otherwise it is an empty line
# between two records, which the program skips.
AFTER_LINE_FEED = ["sh", "-c", 'echo; exec "$@"', "sh"]
HERE = os.path.dirname(os.path.abspath(__file__))
COPY = ["cat"]
PYTHON = (sys.executable or "python3", "-IS")
# cutadapt takes no empty line, and no last line without a line feed.
WHOLE_LINES = [*PYTHON, os.path.join(HERE, "whole_lines.py")]
# The first records of a text, whose number follows.
FIRST_RECORDS = [*PYTHON, os.path.join(HERE, "first_records.py")]
STDOUT_NAMES = ("-", "/dev/stdout", "/dev/fd/1", "/proc/self/fd/1")
STDERR_NAMES = ("/dev/stderr", "/dev/fd/2", "/proc/self/fd/2")
# Under these names a reader expects a format that isn't written.
OTHER_ENDINGS = (".bz2", ".xz", ".zst", ".zip", ".lz4", ".bgz", ".gzip")
OLD = ".old"


def is_same(name: str, other: str) -> bool:
    """Whether both names lead to one file."""
    try:
        return os.path.samefile(name, other)
    except OSError:
        return False


def is_stream(name: str, fd: int) -> bool:
    """Whether the name leads to the file or the pipe that is open as `fd`, and what is written to
    one would be mixed with what is written to the other."""
    try:
        found = os.stat(name)
    except OSError:
        return False
    return os.path.samestat(found, os.fstat(fd)) and not stat.S_ISCHR(found.st_mode)


def is_gzip_name(name: str) -> bool:
    return name.lower().endswith(".gz")


def readable(name: str) -> str:
    """The name of a file as text, whatever the locale. Bytes that aren't UTF-8 become a replacement
    character."""
    return os.fsencode(name).decode("utf-8", "replace")


def with_names(text: str, names: Dict[str, str]) -> str:
    """The text, with the user's names in place of those that a child was given, which are the
    keys."""
    given = "|".join(map(re.escape, names))
    return re.sub(rf"({given})(?!\w)", lambda found: names[found.group()], text)


def holds_reads(name: str) -> bool:
    """Whether a file begins as FASTQ, or is gzip under the name of a plain one: a text in its place
    would destroy reads."""
    if not os.path.isfile(name):
        return False
    with contextlib.suppress(OSError), open(name, "rb") as file:
        is_packed = file.read(2) == b"\x1f\x8b"
        text = beginning(name).lstrip(b"\r\n")    # which the program skips
        return is_packed and not is_gzip_name(name) or text.startswith(b"@")
    return False


def why_not_opened(name: str, flags: int) -> str:
    """The system's error when a file is opened."""
    try:
        os.close(os.open(name, flags | os.O_NONBLOCK))
    except OSError as error:
        return reason(error)
    return os.strerror(errno.EACCES)


def is_used_up(name: str) -> bool:
    """Whether it is a file or a pipe, and not a device such as /dev/null."""
    return not stat.S_ISCHR(os.stat(name).st_mode)


def is_kept(name: str) -> bool:
    """Whether only another user may give this file another name: the directory is sticky, as /tmp
    is."""
    folder = os.stat(os.path.dirname(name))
    may_rename = (0, folder.st_uid, os.stat(name).st_uid)
    return bool(folder.st_mode & stat.S_ISVTX) and os.geteuid() not in may_rename


def check_inputs(names: Sequence[str]) -> None:
    """Refuses an input that can't be read, or that is given twice."""
    for place, name in enumerate(names):
        if os.path.isdir(name):
            raise Fault(4, f"cannot read {name}: {os.strerror(errno.EISDIR)}")
        if not os.access(name, os.R_OK):
            raise Fault(4, f"cannot read {name}: {why_not_opened(name, os.O_RDONLY)}")
        for other in names[place + 1:] if is_used_up(name) else ():
            if is_same(name, other):
                raise Fault(2, f"{other} is given twice")


class Input:
    """The file of one lane."""

    def __init__(self, name: str) -> None:
        self.name = name
        self.fd: Optional[int] = None
        # None: a pipe or a device
        self.size = os.stat(name).st_size if os.path.isfile(name) else None
        self.is_done = False
        self.is_packed = False  # a compressed file, not a pipe
        self.reader: Optional[int] = None   # the process that opens it again, and reads it

    def command(self, decompressor: str) -> List[str]:
        """The command that writes the text of this file, which it reads from standard input."""
        is_gz = is_gzip_name(self.name)
        if self.size is None:
            return [decompressor, "-dc"] if is_gz else ["gzip", "-dcf"]
        try:
            with open(self.name, "rb") as file:
                head = file.read(3)
                file.seek(max(self.size - len(END_BLOCK), 0))
                tail = file.read(len(END_BLOCK))
        except OSError as error:
            raise Fault(4, f"cannot read {self.name}: {reason(error)}")
        if not is_gz and head[:2] != b"\x1f\x8b":
            return COPY
        # gzip accepts zeros after the last member, and its message for a file that isn't compressed
        # is clear.
        has_zeros = tail.endswith(bytes(9)) and tail != END_BLOCK
        needs_gzip = has_zeros or head != b"\x1f\x8b\x08"
        return ["gzip" if needs_gzip else decompressor, "-dc"]

    def is_plain(self) -> bool:
        """Whether it is a file of plain text."""
        return self.size is not None and self.command("") == COPY

    def check_tool(self, decompressor: str) -> None:
        """Refuses the file if what reads it isn't installed."""
        tool = self.command(decompressor)[0]
        if not which(tool):
            raise Fault(1, f"no program {tool}, which reads {self.name}")

    def open(self) -> None:
        """Opens a file, for the process that reads it. A pipe is opened by that process."""
        if self.size is None:
            return
        try:
            self.fd = os.open(self.name, os.O_RDONLY)
        except OSError as error:
            raise Fault(4, f"cannot read {self.name}: {reason(error)}")
        self.is_packed = is_gzip_name(self.name) or os.pread(self.fd, 2, 0) == b"\x1f\x8b"

    def look(self) -> bool:
        """Refuses a file in another format. Returns whether it lacks its end."""
        if self.size is None:
            return False
        try:
            with open(self.name, "rb") as file:
                head = file.read(FRONT_BYTES)
                other = other_format(head) or old_line_ends(self.name, head)
                if other:
                    raise Fault(3, f"cannot read {self.name}: {other}")
                return lacks_end(file.fileno(), self.size)
        except OSError as error:
            raise Fault(4, f"cannot read {self.name}: {reason(error)}")

    def bytes_read(self) -> int:
        """How far it was read. The process that reads it shares the file's offset with this one,
        unless it has opened the file again."""
        if self.is_done or self.size is None:
            return self.size or 0
        if self.fd is None:
            return 0
        places = places_in(self.reader, self.fd) if self.reader else []
        return max([os.lseek(self.fd, 0, os.SEEK_CUR), *places])

    def close(self) -> None:
        self.is_done = True
        if self.fd is not None:
            os.close(self.fd)


def places_in(pid: int, fd: int) -> List[int]:
    """How far a process has read this file, by each of its descriptors."""
    places: List[int] = []
    with contextlib.suppress(OSError):
        for each in os.listdir(f"/proc/{pid}/fd"):
            if os.path.samestat(os.stat(f"/proc/{pid}/fd/{each}"), os.fstat(fd)):
                with open(f"/proc/{pid}/fdinfo/{each}") as lines:
                    places.append(int(lines.readline().split()[1]))
    return places


class Side:
    """The inputs of one side, whose texts follow each other in one pipe."""

    def __init__(self, name: str, files: Sequence[str]) -> None:
        self.name = name
        self.names = list(files)
        self.inputs = [Input(file) for file in files]
        self.place = 0                      # which input is read now
        self.left: Optional[int] = None     # how many records are still to be read; None: all
        self.fault: Optional[Fault] = None  # why its text is incomplete
        self.is_whole = False               # whether its text was read to its end
        self.is_direct = False              # whether the program opens its file, without a pipe

    def current(self) -> Input:
        return self.inputs[self.place]

    def has_more(self) -> bool:
        """Whether another lane is to be read."""
        return self.place + 1 < len(self.inputs) and self.left != 0

    def files(self) -> str:
        return " ".join(self.names)

    def hand_over(self) -> None:
        """The program opens its file, if that is a plain one and is read to its end. So nothing is
        copied, and the program itself says whether a read failed."""
        self.is_direct = len(self.inputs) == 1 and self.left is None and self.inputs[0].is_plain()
        self.is_whole = self.is_direct


def sides_of(arguments: "Arguments") -> List[Side]:
    """The inputs of one interleaved side, or of two sides."""
    sides = [Side("forward", arguments.both or arguments.forward)]
    if not arguments.both:
        sides.append(Side("reverse", arguments.reverse))
    for side in sides if arguments.pairs else ():
        side.left = (arguments.pairs or 0) * (2 if arguments.both else 1)
    return sides


class Output:
    """A file that is made under a hidden name, until all is well. A device or a pipe is written
    directly."""

    def __init__(self, role: str, name: str) -> None:
        self.role, self.name = role, name
        self.is_compressed = is_gzip_name(name)
        self.is_stdout = name in STDOUT_NAMES
        is_there = os.path.exists(name) and not os.path.isdir(name)
        self.is_device = self.is_stdout or is_there and not os.path.isfile(name)
        self.target = name if self.is_device else os.path.realpath(name)
        self.hidden: Optional[str] = None
        self.old: Optional[str] = None
        self.fd: Optional[int] = None
        self.is_placed = False

    def fault(self, why: str = "") -> Fault:
        return Fault(4, f"cannot write {self.name}" + (f": {why}" if why else ""))

    def check(self, inputs: Sequence[str], others: Iterable["Output"]) -> None:
        """Refuses it if it can't be written, or is another file of this run."""
        if self.name.lower().endswith(OTHER_ENDINGS):
            raise Fault(2, f"{self.name}: outputs are compressed only under names that end in .gz")
        if self.is_stdout and any(other.is_stdout for other in others):
            raise Fault(2, f"{self.name} is given for two outputs")
        self.check_streams()
        if self.is_device:
            return
        self.check_place()
        if any(is_same(self.name, name) for name in inputs):
            raise Fault(2, f"{self.name} is an input and an output")
        if any(self.target == other.target or is_same(self.name, other.target) for other in others):
            raise Fault(2, f"{self.name} is given for two outputs")
        if self.role not in (*READS, "interleaved") and holds_reads(self.target):
            raise Fault(2, f"{self.name} holds reads, or is compressed: --{self.role} doesn't "
                           "write over it")

    def check_streams(self) -> None:
        """Refuses it if what is printed would be in the same file."""
        name = "/dev/stdout" if self.is_stdout else self.name
        if name in STDERR_NAMES or self.is_stdout and is_stream(name, 2):
            raise self.fault("it is stderr too")
        for fd, stream in (1, "stdout"), (2, "stderr"):
            if not self.is_stdout and is_stream(name, fd):
                raise self.fault(f"it is {stream} too")

    def check_place(self) -> None:
        """Refuses it if a file of this name can't be made."""
        try:
            if stat.S_ISDIR(os.stat(self.target).st_mode):
                raise self.fault(os.strerror(errno.EISDIR))
        except FileNotFoundError:
            return
        except OSError as error:    # such as a name that is too long
            raise self.fault(reason(error))
        if not os.access(self.target, os.W_OK):
            raise self.fault(why_not_opened(self.target, os.O_WRONLY))
        if is_kept(self.target):
            raise self.fault("it belongs to another user, and its directory is sticky")

    def hide(self) -> None:
        """Makes the hidden file. It gets the rights that any new file gets in its directory."""
        if self.is_stdout:
            self.fd = os.dup(1)
        if self.is_device:
            return
        folder, name = os.path.split(self.target)
        ending = f".tibzharuk.{os.urandom(4).hex()}"
        try:
            most = os.pathconf(folder, "PC_NAME_MAX") - len(ending) - len(OLD)
            start = os.fsencode(f".{name}")[:most].decode("utf-8", "ignore").encode()
            hidden = os.path.join(folder, os.fsdecode(start) + ending)
            self.fd = os.open(hidden, os.O_RDWR | os.O_CREAT | os.O_EXCL, 0o666)
        except OSError as error:
            raise self.fault(reason(error))
        self.hidden = hidden

    def written(self) -> str:
        """What is written in its place."""
        return self.hidden or self.target

    def write(self, data: bytes, level: int) -> None:
        """Writes all of it, by this process."""
        fd = os.open(self.target, os.O_WRONLY) if self.fd is None else self.fd
        write_all(fd, compressed(data, level) if self.is_compressed else data)

    def sync(self) -> None:
        """Waits until its bytes are on the disk."""
        try:
            if self.fd is not None and self.hidden:
                os.fsync(self.fd)
        except OSError as error:
            raise self.fault(reason(error))

    def place(self) -> None:
        """The hidden file gets its final name. An older file of that name is kept beside it, until
        all have theirs."""
        hidden = self.hidden or ""
        if os.path.isdir(self.target):
            raise IsADirectoryError(errno.EISDIR, os.strerror(errno.EISDIR))
        if os.path.lexists(self.target):
            old = hidden + OLD
            try:
                os.link(self.target, old)
            except OSError:
                os.rename(self.target, old)
            self.old = old
        os.rename(hidden, self.target)
        self.hidden, self.is_placed = None, True

    def take_back(self) -> None:
        """Makes the name what it was before. An older file that can't get its name back stays
        beside it."""
        old, self.old = self.old, None
        with contextlib.suppress(OSError):
            if old:
                os.rename(old, self.target)
                os.unlink(old)  # if both were names of one file, the renaming did nothing
            elif self.is_placed:
                os.unlink(self.target)

    def forget(self) -> None:
        """Removes what is left under hidden names."""
        for name in (self.hidden, self.old):
            if name:
                with contextlib.suppress(OSError):
                    os.unlink(name)


def compressed(data: bytes, level: int) -> bytes:
    """The same bytes for the same data, whatever the time."""
    import gzip
    text = io.BytesIO()
    with gzip.GzipFile(
            filename="", mode="wb", compresslevel=level, fileobj=text, mtime=0) as member:
        member.write(data)
    return text.getvalue()


def give_names(outputs: Iterable[Output]) -> List[Output]:
    """Each output gets its final name, or if one can't, none does. Returns those that got one."""
    hidden = [output for output in outputs if output.hidden]
    for output in hidden:
        try:
            output.place()
        except OSError as error:
            take_names_back(hidden)
            raise output.fault(reason(error))
    return hidden


def take_names_back(outputs: Iterable[Output]) -> None:
    """Makes all names what they were before."""
    for output in outputs:
        output.take_back()
