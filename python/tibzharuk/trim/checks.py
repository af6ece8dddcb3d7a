"""What inputs show before a run: another format, an end that is missing, mates that aren't."""

import contextlib
import os
import re
import zlib
from typing import List, Optional, Sequence, Tuple

from .faults import Fault, warn
from .known_adapters import pieces

# How other files begin, and what decompresses them or makes FASTQ of them.
COMPRESSED = (
    (b"BZh", "bzip2", "bzip2 -d"), (b"\xfd7zXZ\0", "xz", "xz -d"),
    (b"\x28\xb5\x2f\xfd", "zstd", "zstd -d"), (b"PK\3\4", "zip", "unzip"))
MAPPED = ((b"BAM\1", "BAM"), (b"CRAM", "CRAM"), (b"@HD\tVN:", "SAM"), (b"@SQ\tSN:", "SAM"))
WEB_PAGE = re.compile(rb"\s*<(!doctype )?html", re.IGNORECASE)
FRONT_BYTES = 4096
BLOCK_BYTES = 1 << 16   # the most that a block of BGZF can have
BLOCK_START = b"\x1f\x8b\x08\x04"
BLOCK_EXTRA = b"\x06\0BC\x02\0"
END_BLOCK = bytes.fromhex("1f8b08040000000000ff0600424302001b0003000000000000000000")  # of BGZF
RECORD_BYTES = 1 << 20  # a first record that is longer isn't looked at
# So many first records are compared. A pair or two may be the same on both sides: two reads without
# a base (N), with the same title, as at the edge of a tile in files of the SRA.
RECORDS = 100
# Some programs keep it when they add the usual /1 and /2, as 1 on both sides.
READ_NUMBER = re.compile(rb"@\S*(?<!/[12])\s+([1-9]):[YN]:")
PASSED = "(--no-name-check passes them)"


def other_format(head: bytes) -> Optional[str]:
    """What a file is that begins so, if it isn't one that is read here, and what helps."""
    for start, name, tool in COMPRESSED:
        if head.startswith(start):
            return f"it is compressed by {name}, not by gzip; {tool} decompresses it"
    text = head
    if head.startswith(b"\x1f\x8b"):
        text = b""
        with contextlib.suppress(zlib.error):
            text = zlib.decompressobj(31).decompress(head, FRONT_BYTES)
    for start, name in MAPPED:
        if text.startswith(start):
            return f"it is {name}; samtools fastq makes FASTQ of it"
    return "it is a web page, so its download failed" if WEB_PAGE.match(text) else None


def old_line_ends(name: str, head: bytes) -> Optional[str]:
    """What a file is whose text has no line feed, as far as a line may be long, and what helps. To
    the program such a text is one title."""
    if not head.startswith(b"@") or b"\r" not in head or b"\n" in head + beginning(name):
        return None
    return r"its lines end in CR alone; tr '\r' '\n' makes lines of it"


def lacks_end(fd: int, size: int) -> bool:
    """Whether a file ends in a block of BGZF that holds text. Programs that write BGZF put an empty
    block after the last one, so the file may have been cut between two blocks."""
    tail = os.pread(fd, BLOCK_BYTES, max(size - BLOCK_BYTES, 0))
    if tail[-4:] == bytes(4):   # the length of the last text
        return False
    place = tail.rfind(BLOCK_START)
    while place >= 0:
        length = int.from_bytes(tail[place + 16:place + 18], "little") + 1
        if tail[place + 10:place + 16] == BLOCK_EXTRA and place + length == len(tail):
            return True
        place = tail.rfind(BLOCK_START, 0, place)
    return False


def no_end(name: str, is_refused: bool) -> None:
    """Warns of a file that lacks its end, or ends the run."""
    line = f"{name} may be cut: the end block of BGZF is missing"
    if is_refused:
        raise Fault(3, line)
    warn(f"{line} (--need-end refuses such a file)")


def beginning(name: str) -> bytes:
    """The beginning of a file's text, decompressed as far as that is possible."""
    text = bytearray()
    with contextlib.suppress(OSError, zlib.error):
        for piece in pieces(name):
            text += piece
            if len(text) >= RECORD_BYTES:
                break
    return bytes(text)


def first_records(name: str, count: int) -> List[List[bytes]]:
    """The first records of a file, or fewer if there are fewer. A record is taken as four lines."""
    text, lines = b"", []
    with contextlib.suppress(OSError, zlib.error):
        for piece in pieces(name):
            text += piece
            lines = [line.rstrip(b"\r") for line in text.split(b"\n")[:-1]]
            lines = [line for line in lines if line]
            if len(lines) >= 4 * count or len(text) >= RECORD_BYTES:
                break
    return [lines[4 * k:4 * k + 4] for k in range(min(len(lines) // 4, count))]


def read_number(record: Sequence[bytes]) -> int:
    """The number of the read in its title, such as 2 in '@name 2:N:0:ACGT', or 0."""
    found = READ_NUMBER.match(record[0])
    return int(found.group(1)) if found else 0


Records = List[List[bytes]]


def are_copies(forward: Records, reverse: Records) -> bool:
    """Whether all of these mates are the same record, and one has bases that were read."""
    mates = list(zip(forward, reverse))
    has_bases = any(set(one[1]) - set(b"Nn.") for one, _ in mates)
    return has_bases and all(one == other for one, other in mates)


def check_mates(forward: Records, reverse: Records, files: str, question: str = "") -> None:
    """Refuses first records that show that their files are exchanged, or one a copy of the other.
    The program compares names only up to the first space. `question`: what comes after a warning.
    """
    numbers: Tuple[int, int] = (read_number(forward[0]), read_number(reverse[0]))
    if are_copies(forward, reverse):
        raise Fault(3, f"both sides begin with the same records: {files} {PASSED}")
    if 0 < numbers[1] < numbers[0]:
        raise Fault(3, f"the sides seem to be exchanged: the first read numbers are {numbers[0]} "
                       f"and {numbers[1]}: {files} {PASSED}")
    if 0 < numbers[0] == numbers[1]:
        warn(f"the first reads of both sides have the number {numbers[0]}: {files}{question}")


def check_lanes(forward: Sequence[str], reverse: Sequence[str]) -> None:
    """Looks at the first records of each lane whose files aren't pipes."""
    for names in zip(forward, reverse):
        records = [first_records(name, RECORDS) for name in names if os.path.isfile(name)]
        if len(records) == 2 and all(records):
            check_mates(records[0], records[1], ", ".join(names))


def check_interleaved(files: Sequence[str]) -> None:
    """The same for interleaved files."""
    for name in files:
        records = first_records(name, 2 * RECORDS) if os.path.isfile(name) else []
        if len(records) > 1:
            check_mates(records[::2], records[1::2], name,
                        "; is it one of two files (-1 and -2)?")
