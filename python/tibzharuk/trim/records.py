"""The records of a SAM or BAM file, which the command of --through made, beside the pairs that it
was given. A mapper makes one record of each mate that is neither secondary nor supplementary."""

import collections
import re
from typing import Iterable, Mapping, NamedTuple, Optional

PAIRED, FIRST, SECOND = 0x1, 0x40, 0x80
OTHERS = 0x100 | 0x800      # secondary and supplementary records
PACKED = (b"\x1f\x8b", b"CRAM")    # how a file begins that samtools counts


class Primary(NamedTuple):
    """How many primary records there are of first and of second mates, and of reads that have no
    mate."""

    first: int
    second: int
    single: int = 0


def of_flags(counts: Mapping[int, int]) -> Primary:
    """`counts`: how many records have these flags."""
    def number(mask: int, wanted: int) -> int:
        return sum(count for flags, count in counts.items() if flags & (mask | OTHERS) == wanted)
    return Primary(number(PAIRED | FIRST, PAIRED | FIRST), number(PAIRED | SECOND, PAIRED | SECOND),
                   number(PAIRED, 0))


def of_sam(lines: Iterable[bytes]) -> Optional[Primary]:
    """Of the lines of a SAM file. None: it isn't SAM."""
    words = collections.Counter(
        line.partition(b"\t")[2].partition(b"\t")[0] for line in lines
        if not line.startswith(b"@"))
    try:
        return of_flags({int(flags): count for flags, count in words.items()})
    except ValueError:
        return None


def of_flagstat(text: str) -> Optional[Primary]:
    """Of what `samtools flagstat` prints, which counts good records and poor ones. None: it prints
    something else."""
    found = {name: int(good) + int(poor) for good, poor, name in re.findall(
        r"^(\d+) \+ (\d+) (in total|secondary|supplementary|paired in sequencing|read1|read2)\b",
        text, re.MULTILINE)}
    if len(found) < 6:
        return None
    primary = found["in total"] - found["secondary"] - found["supplementary"]
    return Primary(found["read1"], found["read2"], primary - found["paired in sequencing"])


def why_not(pairs: int, found: Optional[Primary]) -> Optional[str]:
    """Why these aren't the records of so many pairs, or None."""
    if found is None:
        return "it is neither SAM nor BAM"
    if found == (pairs, pairs, 0):
        return None
    said = (f"its command was given {pairs} pairs, but made primary records of {found.first} first "
            f"and {found.second} second mates")
    return said + (f", and of {found.single} reads without a mate" if found.single else "")
