"""Compares what Trimmomatic and the command made of one line, each in a directory of its own, with
what it printed in `said` there.

usage: check.py LEAST MOST THEIRS OURS

With LEAST `same`, all files have the same bytes, but for the names in logs. Else LEAST is how many
of the reads that both kept must be equal, in %, and at most MOST pairs more or fewer may be
dropped. Prints what differs.
"""

import gzip
import os
import re
import sys


def text_of(path):
    with open(path, "rb") as file:
        data = file.read()
    return (gzip.decompress(data) if path.endswith(".gz") else data).decode()


def files(folder):
    """The texts of the outputs, by their names."""
    return {name: text_of(os.path.join(folder, name)) for name in sorted(os.listdir(folder))
            if name != "said" and not os.path.islink(os.path.join(folder, name))}


def is_log(name):
    return name.startswith("trim.log")


def log_of(text):
    """A log whose names have no /1 and /2, and end at the first space."""
    lines = [line.split() for line in text.splitlines()]
    return [(re.sub("/[12]$", "", line[0]), *line[-4:]) for line in lines]


def reads(texts):
    """The records of all outputs, by title."""
    found = {}
    for name, text in texts.items():
        if re.search(r"\.(fq|fastq)(\.gz)?$", name):
            lines = text.split("\n")
            found.update((lines[k], lines[k + 1:k + 4]) for k in range(0, len(lines) - 1, 4))
    return found


def counts(said):
    """Input, both, forward only, reverse only, dropped."""
    line = re.search("^Input Read Pairs: .*", said, re.M)
    return [int(each) for each in re.findall(r": (\d+)", line.group())] if line else []


def told(said):
    """What both print alike, but for counts."""
    return re.findall("^(?:Quality encoding|Input Read Pairs).*", re.sub(r"[\d.]+(?=[ %]|$)", "N", said), re.M)


def same(theirs, ours):
    for name in sorted(theirs.keys() | ours.keys()):
        pair = theirs.get(name), ours.get(name)
        if None not in pair and is_log(name):
            pair = tuple(log_of(text) for text in pair)
        if pair[0] != pair[1]:
            yield f"{name} differs"


def alike(least, theirs, ours):
    theirs_reads, ours_reads = reads(theirs), reads(ours)
    both = theirs_reads.keys() & ours_reads.keys()
    share = 100 * sum(theirs_reads[title] == ours_reads[title] for title in both) / len(both)
    if share < least:
        yield f"{share:.2f} % of {len(both)} reads are equal"
    if theirs.keys() != ours.keys():
        yield f"other files: {' '.join(ours)}, not {' '.join(theirs)}"


def main():
    least, most, *folders = sys.argv[1:]
    texts = [files(folder) for folder in folders]
    said = [text_of(os.path.join(folder, "said")) for folder in folders]
    found = [counts(each) for each in said]
    wrong = [] if told(said[0]) == told(said[1]) else ["it prints other lines"]
    wrong += same(*texts) if least == "same" else alike(float(least), *texts)
    if least == "same" and found[0] != found[1]:
        wrong.append(f"counts {found[1]}, not {found[0]}")
    if least != "same" and abs(found[0][4] - found[1][4]) > int(most):
        wrong.append(f"{found[1][4]} pairs are dropped, not {found[0][4]}")
    print("\n".join(wrong), end="\n" if wrong else "")
    return bool(wrong)


if __name__ == "__main__":
    sys.exit(main())
