"""Compressors and decompressors: which are safe, their arguments and their messages.

gzip and bgzip ended with a nonzero status on each damaged file that was tried. pigz and igzip
didn't: if a later member of a file is cut or damaged in its first bytes, they leave out the rest
and end with 0. So these two never decompress. igzip doesn't check its last write either, so it
compresses into a pipe, and cat writes the file.
"""

import os
import re
from typing import TYPE_CHECKING, Callable, Dict, List, Optional, Tuple

from .faults import Fault

if TYPE_CHECKING:
    from .arguments import Arguments

DECOMPRESSORS = ("bgzip", "gzip")

Command = Callable[[int, int], List[str]]
COMPRESSORS: Dict[str, Tuple[int, Command]] = {  # the level without --level, and the arguments
    "bgzip": (3, lambda level, threads: ["bgzip", "-c", "-l", str(level), "-@", str(threads)]),
    "igzip": (
        2, lambda level, threads: ["igzip", "-c", "-n", f"-{min(level, 3)}", "-T", str(threads)]),
    "pigz": (6, lambda level, threads: ["pigz", "-n", f"-{level}", "-p", str(threads)]),
    "gzip": (6, lambda level, threads: ["gzip", "-n", f"-{level}"]),
}
FASTEST = "igzip"   # for --level 1: it takes at most 0.6 of the time of bgzip's
# What bgzip prints for a damaged file, and gzip's words for it.
GZIP_WORDS = (
    ("hread returned -1", "read error"),
    ("truncated", "unexpected end of file"),
    ("Failed to read", "unexpected end of file"),
    ("header check", "decompression OK, trailing garbage ignored"),
    ("Invalid BGZF header", "decompression OK, trailing garbage ignored"),
    ("data check", "invalid compressed data--crc error"),
    ("CRC32 checksum mismatch", "invalid compressed data--crc error"),
    ("length check", "invalid compressed data--length error"),
    ("Inflate operation failed", "invalid compressed data--format violated"),
)
PREFIXES = (
    "gzip: ", "pigz: ", "igzip: ", "[bgzip] ", "abort: ", "cat: ")


CPU_MAX = "/sys/fs/cgroup/cpu.max"  # of a container: a time, or `max`, and of what period


def processors() -> int:
    """How many processors this process may use, also in a container."""
    count = len(os.sched_getaffinity(0))
    try:
        with open(CPU_MAX) as file:
            time, period = map(int, file.read().split())
    except (OSError, ValueError):
        return count
    return min(count, max(1, -(-time // max(1, period))))


def which(name: str) -> Optional[str]:
    """The program of this name on the search path. (The import of shutil, which has the same, takes
    longer than all that is done before a run.)"""
    places = [""] if os.path.dirname(name) else os.get_exec_path()
    paths = [os.path.join(place, name) for place in places]
    return next((each for each in paths if os.path.isfile(each) and os.access(each, os.X_OK)), None)


def version_in(text: str) -> str:
    """The version in what a program prints for --version, or nothing."""
    found = re.search(r"\b\d+(\.\d+)+\S*", text)
    return found.group() if found else ""


class Tools:
    """The compressor and the decompressor of a run, and their threads."""

    def __init__(self, arguments: "Arguments") -> None:
        self.compressor, self.level = self.choose_compressor(arguments.compressor, arguments.level)
        # No faster compressor than gzip is installed.
        self.is_slow = arguments.compressor == "auto" and self.compressor == "gzip"
        self.decompressor = self.choose_decompressor(arguments.decompressor)
        self.threads = processors()
        if arguments.threads and re.match("[1-9][0-9]?$", arguments.threads):
            self.threads = int(arguments.threads)
        self.threads = min(self.threads, 64)
        self.compress_threads = arguments.compress_threads

    @staticmethod
    def choose_compressor(name: str, level: Optional[int]) -> Tuple[str, int]:
        """The compressor and its level."""
        if name == "auto" and level == 1 and which(FASTEST):
            name, level = FASTEST, None
        elif name == "auto":
            name = next((name for name in ("bgzip", "pigz") if which(name)), "gzip")
        elif not which(name):
            raise Fault(1, f"no program {name} (--compressor)")
        return name, level or COMPRESSORS[name][0]

    @staticmethod
    def choose_decompressor(name: str) -> str:
        if name == "auto":
            return "bgzip" if which("bgzip") else "gzip"
        if not which(name):
            raise Fault(1, f"no program {name} (--decompressor)")
        return name

    def compress(self, role: str) -> List[str]:
        """The command that compresses the output of this role. Both paired outputs share all
        threads, and an interleaved one gets all."""
        share = 1 if role == "interleaved" else 2 if role.startswith("paired") else 4
        threads = self.compress_threads or max(1, self.threads // share)
        return COMPRESSORS[self.compressor][1](self.level, threads)

    def needs_cat(self) -> bool:
        """Whether cat writes the outputs. igzip doesn't check its last write, and bgzip doesn't say
        why a write failed."""
        return self.compressor in ("igzip", "bgzip")


def reason_of(text: str, name: str = "") -> str:
    """Why a tool failed: the first line that it printed, in gzip's words if bgzip printed it, the
    last line of a Python traceback, or nothing."""
    if text.startswith("[E::"):
        for word, meaning in GZIP_WORDS:
            if word in text:
                return meaning
    lines = [line for line in text.splitlines() if line] or [""]
    line = lines[-1 if lines[0].startswith("Traceback (") else 0]
    line = re.sub(r"^\[E::\w+\] ", "", line)
    for start in PREFIXES + (f"{name}: ", "stdin: "):
        if line.startswith(start):
            line = line[len(start):]
    return line
