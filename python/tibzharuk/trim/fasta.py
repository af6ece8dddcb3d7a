"""FASTA files of adapters."""

import os
from typing import BinaryIO, List, NamedTuple, cast

from .faults import Fault

MOST_BYTES = 1 << 24
# Bases, and letters for several bases. S, W and N are the same on both strands.
OTHER_STRAND = str.maketrans("ACGTURYKMBDHVacgturykmbdhv", "TGCAAYRMKVHDBtgcaayrmkvhdb")


class Entry(NamedTuple):
    """An adapter of a FASTA file."""

    name: str
    sequence: str


def other_strand(sequence: str) -> str:
    """The reverse complement."""
    return sequence.translate(OTHER_STRAND)[::-1]


def opened_gz(name: str) -> BinaryIO:
    import gzip
    return cast(BinaryIO, gzip.open(name))


def read_text(name: str) -> str:
    """The text of a file, as cutadapt sees it. A file that is too large for adapters is cut."""
    if os.path.exists(name) and not os.path.isfile(name):
        raise Fault(4, f"cannot read {name}: not a file")  # cutadapt reads it once for each side
    try:
        with open(name, "rb") as file:
            is_gz = file.read(2) == b"\x1f\x8b"
        with opened_gz(name) if is_gz else open(name, "rb") as opened:
            return opened.read(MOST_BYTES).decode("utf-8", "replace")
    except (OSError, EOFError) as error:
        raise Fault(4, f"cannot read {name}: {getattr(error, 'strerror', None) or error}")


def read_fasta(name: str, option: str = "--adapters") -> List[Entry]:
    """The adapters of a FASTA file, which this option names. Lines that begin with # are
    comments."""
    entries: List[Entry] = []
    for line in read_text(name).splitlines():
        if line.startswith(">"):
            entries.append(Entry((line[1:].split() or [""])[0], ""))
        elif line.startswith("#") or not line.strip():
            continue
        elif not entries:
            raise Fault(2, f"{option}: {name} isn't FASTA: its first line doesn't begin with >")
        else:
            last = entries[-1]
            entries[-1] = last._replace(sequence=last.sequence + line.strip())
    return entries
