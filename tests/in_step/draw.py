"""Simulates pairs whose reads are those of ref.fa, with scores that fall towards their ends.

    draw.py SEED KIND ENCODING PAIRS

writes r1.fq, r2.fq, both.fq (the same pairs interleaved) and ref.fa. KIND is a form of the titles
(`plain`, `casava`, `sra`, `tab` or `bare`), or `wrapped`, `crlf` or `empty_lines`.
"""

import random
import sys

TITLES = {
    "casava": "p{0} {1}:N:0:ACGT",
    "sra": "SRR001.{0} {0} length={2}",
    "tab": "p{0}/{1}\tBX:Z:ACGT/9\tlane 3",
    "bare": "p{0}",
}
# The byte of the score 0, and the lowest score.
ENCODINGS = {"sanger": (33, 0), "illumina13": (64, 0), "solexa": (64, -5)}
OTHER_STRAND = str.maketrans("ACGT", "TGCA")


class Text:
    """Draws records of one kind in one encoding."""

    def __init__(self, seed, kind, encoding):
        self.draw = random.Random(seed)
        self.kind = kind
        self.offset, self.lowest = ENCODINGS[encoding]
        self.end = "\r\n" if kind == "crlf" else "\n"

    def wrapped(self, text):
        width = self.draw.randint(5, 40)
        return self.end.join(text[place:place + width] for place in range(0, len(text), width))

    def quality(self, count):
        draw = self.draw
        scores = [max(self.lowest, draw.randint(18, 41) - draw.randint(0, 1 + 35 * place // count))
                  for place in range(count)]
        if count and draw.random() < 0.2:
            mark = draw.choice([31, 10])    # @ and + by Sanger's scores, else @
            scores[0] = mark if self.offset == 33 else 0
        return "".join(chr(self.offset + score) for score in scores)

    def record(self, number, side, bases):
        draw, end = self.draw, self.end
        if draw.random() < 0.03:
            bases = ""
        bases = "".join("N" if draw.random() < 0.01 else base for base in bases)
        if draw.random() < 0.1:
            bases = bases.lower()
        quality = self.quality(len(bases))
        title = TITLES.get(self.kind, "p{0}/{1}").format(number, side, len(bases))
        again = title if self.kind in ("sra", "tab") else ""
        if self.kind == "wrapped":
            bases, quality = self.wrapped(bases), self.wrapped(quality)
        front = end * draw.randint(0, 2) if self.kind == "empty_lines" else ""
        return f"{front}@{title}{end}{bases}{end}+{again}{end}{quality}{end}"

    def pair(self, number, reference):
        draw = self.draw
        start, insert = draw.randrange(3500), draw.randint(150, 400)
        fragment = reference[start:start + insert]
        strands = fragment, fragment.translate(OTHER_STRAND)[::-1]
        mates = [strand[:draw.randint(40, 120)] for strand in strands]
        return [self.record(number, side, mate) for side, mate in enumerate(mates, 1)]

    def put(self, name, records):
        text = "".join(records)
        if self.kind == "empty_lines":
            text = text.rstrip("\n")    # the last line has no line end
        with open(name, "w", newline="") as file:
            file.write(text)


def main(seed, kind, encoding, pairs):
    reference = "".join(random.Random(0).choices("ACGT", k=4000))
    text = Text(int(seed), kind, encoding)
    mates = [text.pair(number, reference) for number in range(1, int(pairs) + 1)]
    text.put("r1.fq", [forward for forward, _ in mates])
    text.put("r2.fq", [reverse for _, reverse in mates])
    text.put("both.fq", [record for pair in mates for record in pair])
    with open("ref.fa", "w") as file:
        file.write(f">ref\n{reference}\n")


main(*sys.argv[1:])
