"""Adapters that many libraries have: their names, and whether reads hold them."""

import contextlib
import itertools
import os
import re
import zlib
from typing import Dict, Iterator, List, NamedTuple, Optional, Sequence, Tuple

from .fasta import read_fasta
from .faults import Fault

# Illumina Adapter Sequences, document 1000000002694.
FILE = os.path.join(os.path.dirname(os.path.abspath(__file__)), "illumina_adapters.fa")
MOST_PAIRS = 10_000
FEW_READS = 2_000
MOST_BYTES = 1 << 24    # of the text of a file
MOST_PERCENT = 1
# So many bases of an adapter are looked for. By chance they are in one of 100,000 reads of 150.
BASES = 12
AUTO, NONE = "auto", "none"     # what --adapters is given, and what it takes if reads hold none
PIECE = 1 << 16
LOW_SCORE = re.compile(b"[^;-\xff]")    # of which Phred+64 has none
Pairs = List[Tuple[bytes, bytes]]       # the bases of both mates
Lanes = Sequence[Sequence[str]]         # the files of each lane: one that is interleaved, or two


class KnownAdapter(NamedTuple):
    """What follows the insert in reads that are longer than it."""

    name: str
    forward: str
    reverse: str


def known_adapters() -> Dict[str, KnownAdapter]:
    """The known adapters, by their names."""
    sequences = dict(read_fasta(FILE))
    names = [name[:-2] for name in sequences if name.endswith("_1")]
    return {name: KnownAdapter(name, sequences[f"{name}_1"], sequences[f"{name}_2"])
            for name in names}


def names_of_known() -> str:
    """Their names, for a sentence."""
    *names, last = known_adapters()
    return f"{', '.join(names)} or {last}"


def pieces(name: str) -> Iterator[bytes]:
    """The text of a plain or compressed file, piece by piece."""
    with open(name, "rb") as file:
        data = file.read(PIECE)
        if data[:2] != b"\x1f\x8b":
            while data:
                yield data
                data = file.read(PIECE)
        member = zlib.decompressobj(31)
        while data:
            yield member.decompress(data)
            data = member.unused_data or file.read(PIECE)
            if member.eof:
                member = zlib.decompressobj(31)


def first_text(name: str, lines: int) -> bytes:
    """The beginning of a file's text, with at least so many lines if it has them within MOST_BYTES,
    and without empty lines before them. It ends at damage, of which the run will say more."""
    text: List[bytes] = []
    size, left = 0, lines
    with contextlib.suppress(OSError, zlib.error):
        for piece in pieces(name):
            piece = piece if size else piece.lstrip(b"\r\n")
            text.append(piece)
            size += len(piece)
            left -= piece.count(b"\n")
            if left <= 0 or size >= MOST_BYTES:
                break
        else:
            text.append(b"\n" if size else b"")  # a last line needs none
    return b"".join(text)[:MOST_BYTES]


def first_reads(name: str, most: int, line: int = 1) -> List[bytes]:
    """The bases of the first reads of a file, or their qualities (line 3). The list is empty if its
    records aren't of four lines."""
    text = first_text(name, 4 * most)
    lines = text.split(b"\n")
    reads = min(text.count(b"\n") // 4, most)
    if not all(title.startswith(b"@") for title in lines[:4 * reads:4]):
        return []
    if not all(between.startswith(b"+") for between in lines[2:4 * reads:4]):
        return []
    return lines[line:4 * reads:4]


def first_pairs(lanes: Lanes) -> Pairs:
    """The bases of the first pairs of all lanes."""
    pairs: Pairs = []
    for files in lanes:
        most = MOST_PAIRS - len(pairs)
        if most and len(files) == 1:
            reads = first_reads(files[0], 2 * most)
            pairs += zip(reads[::2], reads[1::2])
        elif most:
            pairs += zip(first_reads(files[0], most), first_reads(files[1], most))
    return pairs


def word_on_scores(files: Sequence[str]) -> Optional[str]:
    """A line if the qualities of the first reads are those of Phred+64: none is below 26 as Sanger
    reads them, and one is above 50, which no sequencer gives. `files` are the first of each
    side."""
    for name in files:
        if not os.path.isfile(name):
            continue
        scores = b"".join(first_reads(name, FEW_READS, 3)).replace(b"\r", b"")
        if scores and not LOW_SCORE.search(scores) and max(scores) > 83:
            return (f"the scores of {name} go up to {max(scores) - 33}, so its qualities are "
                    "probably Phred+64: use --encoding illumina13")
    return None


class Share(NamedTuple):
    """Known adapters, and how many of the first pairs hold one of them."""

    name: str
    found: int
    pairs: int

    def is_large(self) -> bool:
        return 100 * self.found > MOST_PERCENT * self.pairs

    def __str__(self) -> str:
        percent = 100 * self.found / self.pairs
        return f"{percent:.0f} %" if percent >= 10 else f"{percent:.1f} %"


def share_of(known: KnownAdapter, pairs: Pairs, texts: Sequence[bytes]) -> Share:
    """How many pairs hold known adapters, exactly if it is a large share. `texts` are the joined
    reads of each side, in which they are counted in half of the time."""
    forward, reverse = (known[place][:BASES].encode() for place in (1, 2))
    found = sum(text.count(bases) for text, bases in zip(texts, (forward, reverse)))
    share = Share(known.name, found, len(pairs))
    if not share.is_large():
        return share
    holding = sum(forward in one or reverse in other for one, other in pairs)
    return share._replace(found=holding)


def largest_share(pairs: Pairs) -> Share:
    """The known adapters that most of these pairs hold."""
    texts = [b"\n".join(reads) for reads in zip(*pairs)]
    shares = [share_of(known, pairs, texts) for known in known_adapters().values()]
    return max(shares, key=lambda share: share.found)


def word_on_adapters(lanes: Lanes) -> Optional[str]:
    """A line if many of the first pairs hold a known adapter. Pipes aren't looked into."""
    share = largest_share(first_pairs(list(itertools.takewhile(are_files, lanes))))
    if not share.is_large():
        return None
    return (f"{share} of the first {share.pairs:,} pairs hold an adapter that "
            f"--adapters {share.name} removes")


def taken_by_auto(lanes: Lanes) -> Tuple[str, str]:
    """The known adapters that many of the first pairs hold, or NONE, and why."""
    for name in itertools.chain(*lanes):
        if not os.path.isfile(name):
            raise Fault(2, f"--adapters {AUTO} looks at the first pairs, but {name} is not a file: "
                           "name the adapters")
    pairs = first_pairs(lanes)
    if not pairs and all(first_text(name, 1) for name in lanes[0]):
        raise Fault(3, f"--adapters {AUTO}: the first records of {', '.join(lanes[0])} aren't of "
                       "four lines (seqtk seq makes it so)")
    share = largest_share(pairs)
    if share.is_large():
        return share.name, f"{share} of the first {share.pairs:,} pairs hold it"
    return NONE, (f"no known adapter is in more than {MOST_PERCENT} % of the first "
                  f"{share.pairs:,} pairs")


def are_files(names: Sequence[str]) -> bool:
    return all(map(os.path.isfile, names))
