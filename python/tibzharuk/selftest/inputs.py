"""The inputs of the cases, made from the reads that are installed."""

import bz2
import gzip
from typing import Dict, List

# What a sequencer reads after the end of a short insert (TruSeq), and then anything.
ADAPTERS = (b"AGATCGGAAGAGCACACGTCTGAACTCCAGTCA", b"AGATCGGAAGAGCGTCGTGTAGGGAAAGAGTGT")
BEHIND = b"TGCATTCAGG"
GOOD = b"I"
LINES = 4       # of a record
PAIRS = 1000    # of the reads that are installed


def packed(text: bytes) -> bytes:
    """The text as a gzip file, the same bytes each time."""
    return gzip.compress(text, 6, mtime=0)


def records(text: bytes) -> List[bytes]:
    """The records of a text, of four lines each."""
    lines = text.splitlines(True)
    return [b"".join(lines[at:at + LINES]) for at in range(0, len(lines), LINES)]


def in_turn(forward: bytes, reverse: bytes) -> bytes:
    """Both mates of each pair in turn."""
    return b"".join(map(b"".join, zip(records(forward), records(reverse))))


def with_adapter(text: bytes, adapter: bytes) -> bytes:
    """Each read goes on with an adapter, whose bases have good scores."""
    more = adapter + BEHIND
    lines = text.split(b"\n")
    for at in range(0, len(lines) - 1, LINES):
        lines[at + 1] += more
        lines[at + 3] += GOOD * len(more)
    return b"\n".join(lines)


def changed_byte(data: bytes) -> bytes:
    """The data with one byte in the middle changed."""
    place = len(data) // 2
    return data[:place] + bytes([data[place] ^ 0xFF]) + data[place + 1:]


def bad_score(text: bytes) -> bytes:
    """The text with a byte that is no score in its second record."""
    lines = text.split(b"\n")
    lines[7] = b"\x01" + lines[7][1:]
    return b"\n".join(lines)


def as_fasta(text: bytes) -> bytes:
    """The same reads without their scores."""
    lines = text.splitlines(True)
    return b"".join(b">" + lines[at][1:] + lines[at + 1] for at in range(0, len(lines), LINES))


def part(text: bytes, first: int, last: int) -> bytes:
    """Some records of a text."""
    return b"".join(records(text)[first:last])


def inputs_of(forward: bytes, reverse: bytes) -> Dict[str, bytes]:
    """Each input by its name. Those that are `forward` and `reverse` are as they are installed, and
    most others are made of the reverse reads, with one fault."""
    lines = reverse.splitlines(True)
    zipped = packed(reverse)
    return {
        "forward": forward,
        "reverse": reverse,
        "forward.gz": packed(forward),
        "reverse.gz": zipped,
        "both.gz": packed(in_turn(forward, reverse)),
        "forward lane 1": packed(part(forward, 0, 400)),
        "forward lane 2": packed(part(forward, 400, PAIRS)),
        "reverse lane 1": packed(part(reverse, 0, 400)),
        "reverse lane 2": packed(part(reverse, 400, PAIRS)),
        "forward with adapters": packed(with_adapter(forward, ADAPTERS[0])),
        "reverse with adapters": packed(with_adapter(reverse, ADAPTERS[1])),
        "half": zipped[:len(zipped) // 2],
        "changed": changed_byte(zipped),
        "fewer": packed(part(reverse, 0, PAIRS - 100)),
        "shifted": packed(part(reverse, 1, PAIRS) + part(reverse, 0, 1)),
        "within": packed(b"".join(lines[:LINES * (PAIRS - 100) + 2])),
        "score": packed(bad_score(reverse)),
        "fasta": packed(as_fasta(reverse)),
        "bzip2": bz2.compress(reverse),
        "empty": packed(b""),
    }
