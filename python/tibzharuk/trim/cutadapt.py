"""Adapters, removed by cutadapt in the same pass, before the program trims."""

import re
import time
from typing import Any, Dict, List, Optional

from .adapters import adapter_options
from .arguments import Arguments
from .children import Child, Ended
from .faults import Fault, signal_name
from .files import readable, with_names
from .tools import which

SECONDS_TO_NOTICE = 3
# Otherwise the C library returns cutadapt's buffers of some MB to the system after each use, and
# gets new ones, which the system clears page by page.
KEEPS_BUFFERS = {"MALLOC_MMAP_THRESHOLD_": "33554432", "MALLOC_TRIM_THRESHOLD_": "268435456"}
# Sequencers with two colours call G where there is no light, with good scores.
POLY_G = ["--nextseq-trim=20"]
# What to do about a text that the program takes but cutadapt doesn't, by what cutadapt prints.
FOUR_LINES = "cutadapt needs records of four lines, without empty lines between them"
NOT_ASCII, OTHER_NAME = "Non-ASCII", "Read name"
ASCII_TITLES = "cutadapt needs titles in ASCII"
SAME_NAMES = ("cutadapt compares names even with --no-name-check; "
              "seqtk rename gives both mates the same ones")


def killed_below(pid: int) -> int:
    """The signal that ended a child of process `pid` for which that process didn't wait, or 0."""
    try:
        with open(f"/proc/{pid}/task/{pid}/children") as children:
            for each in children.read().split():
                with open(f"/proc/{each}/stat") as fields:
                    words = fields.read().rpartition(")")[2].split()
                if words[0] == "Z" and int(words[49]) & 0x7F:
                    return int(words[49]) & 0x7F
    except (OSError, IndexError, ValueError):
        pass
    return 0


class Cutadapt:
    """cutadapt, between the decompressors and the program."""

    def __init__(self, arguments: Arguments, sample: str) -> None:
        self.options = adapter_options(arguments.adapters)
        self.options += POLY_G if arguments.poly_g else []
        if arguments.encoding in ("illumina13", "solexa"):
            self.options.append("--quality-base=64")
        self.options += arguments.cutadapt or []
        self.checks_names = arguments.checks_names
        self.sample = sample
        if not which("cutadapt"):
            raise Fault(1, "no program cutadapt (--adapters, --poly-g, --cutadapt, ILLUMINACLIP)")
        self.names: Dict[str, str] = {}     # the user's files, by the names of their pipes
        self.files: List[str] = []          # those of each side
        self.counts = self.printed = b""
        self.lost_since: Optional[float] = None

    def hear(self, names: Dict[str, str], files: List[str], counts: bytes, printed: bytes) -> None:
        """What it counted and printed. `names` are the user's, by those of its pipes; `files` are
        those of each side."""
        self.names, self.files = names, files
        self.counts, self.printed = counts, printed

    def watch(self, child: Child) -> None:
        """Ends the run if a process of cutadapt was killed. cutadapt 4.2 would wait for it
        forever."""
        number = killed_below(child.process.pid)
        now = time.monotonic()
        if not number:
            self.lost_since = None
        elif self.lost_since is None:
            self.lost_since = now
        elif now - self.lost_since > SECONDS_TO_NOTICE:
            name = signal_name(number)
            raise Fault(4, f"cutadapt: one of its processes was ended by {name}")

    def fault(self, end: Optional[Ended]) -> Optional[Fault]:
        """Why it failed, unless it did because the program stopped reading."""
        if end is None or not end.status:
            return None
        if end.met_closed_pipe() or b"Broken pipe" in self.printed:
            return None
        if end.status < 0:
            return Fault(4, f"cutadapt was ended by {signal_name(-end.status)}")
        if end.status == 2:
            return Fault(2, f"cutadapt: {self.complaint(end)}")
        return Fault(3, f"cutadapt: {self.with_remedy(self.complaint(end))}")

    def complaint(self, end: Ended) -> str:
        """The last line that it printed, without the usual beginning of its error messages."""
        printed = self.printed.decode("utf-8", "replace") + end.text()
        lines = [line for line in printed.splitlines() if line]
        line = lines[-1] if lines else f"status {end.status}"
        for start in ("cutadapt: error: ", "ERROR: "):
            line = line[len(start):] if line.startswith(start) else line
        return with_names(line, self.names)

    def with_remedy(self, line: str) -> str:
        """The line, with the files that it is about, and what to do."""
        files = f"({', '.join(self.files)})"
        if self.is_stricter(line):
            return f"{line} {files}: {ASCII_TITLES if NOT_ASCII in line else SAME_NAMES}"
        if "Could not determine whether file" in line:
            return f"a record isn't FASTQ {files}: {FOUR_LINES}"
        return f"{line} {files}" + (f": {FOUR_LINES}" if "Error in FASTQ file" in line else "")

    def is_stricter(self, line: str) -> bool:
        """Whether it refuses what the program takes."""
        return NOT_ASCII in line or OTHER_NAME in line and not self.checks_names

    def passed(self) -> Optional[int]:
        """The pairs that it passed on, or None if it doesn't say."""
        try:
            return int(self.counted()["read_counts"]["output"])
        except Fault:
            return None

    def counted(self) -> Dict[str, Any]:
        """What it counted."""
        import json
        try:
            counted: Dict[str, Any] = json.loads(self.counts.decode())
            return {name: counted[name]
                    for name in ("cutadapt_version", "read_counts", "basepair_counts")}
        except (ValueError, KeyError, TypeError):
            raise Fault(4, "cutadapt: no report")

    def removed_all(self) -> bool:
        """Whether it passed on none of the pairs that it read."""
        pairs = self.counted()["read_counts"]
        return bool(pairs["input"] and not pairs["output"])

    def report(self) -> bytes:
        """What it counted, as JSON, with the names of the user's files."""
        import json
        text = self.counts.decode()
        for pipe, name in self.names.items():
            text = text.replace(json.dumps(pipe), json.dumps(name))
        return text.encode()

    def summary(self) -> Dict[str, Any]:
        """What the report of a run says of it."""
        counted = self.counted()
        pairs = counted["read_counts"]
        return {
            "forward": side_of(counted, 1),
            "options": [readable(word) for word in self.options],
            "pairs_read": pairs["input"],
            "pairs_removed": pairs["input"] - pairs["output"],
            "program": "cutadapt",
            "reverse": side_of(counted, 2),
            "version": counted["cutadapt_version"],
        }

    def log(self) -> bytes:
        """What it printed, with the names of the user's files. The name of the sample is added to
        the line of its options, of which MultiQC reads the last word."""
        text = with_names(self.printed.decode("utf-8", "replace"), self.names)
        sample = re.sub(r"\s+", "_", self.sample)
        line = re.compile("^Command line parameters: .*", re.MULTILINE)
        return line.sub(lambda found: f"{found.group()} # {sample}", text, 1).encode()


def side_of(counted: Dict[str, Any], number: int) -> Dict[str, Optional[int]]:
    """What it counted of a side. No pairs, if it looked for no adapter there."""
    bases = counted["basepair_counts"]
    return {
        "bases_removed": bases[f"input_read{number}"] - bases[f"output_read{number}"],
        "pairs_with_adapter": counted["read_counts"][f"read{number}_with_adapter"],
    }
