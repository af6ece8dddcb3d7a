"""Other programs find in fp.fq, fu.fq, rp.fq and ru.fq what the summary and trim.log show.

    check.py WHAT READER..   READER is seqkit, samtools or bwa, and WHAT the name of the run
"""

import itertools
import subprocess
import sys

FIRST, SECOND, ADDITIONAL = 0x40, 0x80, 0x900    # flags of SAM
NAME = r"^(\S*)"    # by default seqkit ends a name at a space, but not at a tab
NAME_OF_MATES = r"^(\S+?)(?:/[12])?(?:\s|$)"
wrong = []


def same(where, found, wanted):
    """Notes where they differ: of lists, the first place."""
    if found == wanted:
        return
    if isinstance(found, list):
        places = itertools.zip_longest(found, wanted)
        first = next((place for place, (one, other) in enumerate(places) if one != other), 0)
        found, wanted = found[first:first + 1], wanted[first:first + 1]
    wrong.append(f"{where}: {found}, not {wanted}")


def output_of(*words):
    ended = subprocess.run(words, stdout=subprocess.PIPE, stderr=subprocess.PIPE, text=True)
    if ended.returncode:
        said = ended.stderr.strip()[-300:]
        wrong.append(f"{words[0]} {words[1]}: status {ended.returncode}: {said}")
    return ended.stdout


def by_log():
    """The reads of each output as the log shows them, their names and lengths, if the summary
    agrees."""
    with open("summary", encoding="utf-8") as summary:
        pairs, both, forward_only, reverse_only, dropped = (
            int(line.rsplit(": ", 1)[1]) for line in summary)
    with open("trim.log", encoding="utf-8") as log:
        lines = [line.rsplit(" ", 4) for line in log.read().splitlines()]
    reads = [(name, int(length)) for name, length, *_ in lines]
    mates = list(zip(reads[0::2], reads[1::2]))
    same("pairs of the log", len(mates), pairs)
    same("sum of the summary", both + forward_only + reverse_only + dropped, pairs)
    outputs = {
        "fp.fq": [f for f, r in mates if f[1] and r[1]],
        "rp.fq": [r for f, r in mates if f[1] and r[1]],
        "fu.fq": [f for f, r in mates if f[1] and not r[1]],
        "ru.fq": [r for f, r in mates if r[1] and not f[1]],
    }
    counted = {"fp.fq": both, "rp.fq": both, "fu.fq": forward_only, "ru.fq": reverse_only}
    for name, count in counted.items():
        same(f"{name}: reads by the log", len(outputs[name]), count)
    names = [[name for name, _ in outputs[each]] for each in ("fp.fq", "rp.fq")]
    same("names of mates by the log", names[1], names[0])
    return outputs


def without_mark(name, mark):
    return name[:-2] if name.endswith(mark) else name


def check_file(name, reads):
    """seqkit finds these reads in this output."""
    seqkit = ["-t", "dna", "-j", "1"]
    mark = "/1" if name[0] == "f" else "/2"
    table = output_of("seqkit", "fx2tab", *seqkit, "--id-regexp", NAME, "-n", "-i", "-l", name)
    rows = [row.split("\t") for row in table.splitlines()]
    found = [(without_mark(row[0], mark), int(row[1])) for row in rows]
    same(f"{name}: reads by seqkit fx2tab", found, reads)
    if rows:
        head, row = output_of("seqkit", "stats", *seqkit, "-T", name).splitlines()
        stats = dict(zip(head.split("\t"), row.split("\t")))
        same(f"{name}: reads by seqkit stats", int(stats["num_seqs"]), len(reads))
        bases = sum(length for _, length in reads)
        same(f"{name}: bases by seqkit stats", int(stats["sum_len"]), bases)


def contents(name):
    with open(name, "rb") as file:
        return file.read()


def check_pairs():
    """seqkit pair finds exactly the pairs of the paired outputs, in this order."""
    output_of("seqkit", "pair", "-t", "dna", "-j", "1", "-f", "--id-regexp", NAME_OF_MATES,
              "-1", "fp.fq", "-2", "rp.fq", "-O", "paired")
    for name in "fp.fq", "rp.fq":
        if contents(f"paired/{name}") != contents(name):
            wrong.append(f"{name}: seqkit pair doesn't find exactly these pairs in this order")


def primary(text):
    """The reads of a SAM text, each with its number, without additional records of the same
    read."""
    rows = [line.split("\t") for line in text.splitlines() if not line.startswith("@")]
    return [(row[0], int(row[1]) & (FIRST | SECOND)) for row in rows
            if not int(row[1]) & ADDITIONAL]


def main(what, *readers):
    outputs = by_log()
    names = [name for name, _ in outputs["fp.fq"]]
    in_turn = [row for name in names for row in ((name, FIRST), (name, SECOND))]
    if "seqkit" in readers:
        for name, reads in outputs.items():
            check_file(name, reads)
        if names:
            check_pairs()
    if "samtools" in readers and names:
        text = output_of("samtools", "import", "-1", "fp.fq", "-2", "rp.fq", "-O", "SAM", "-o", "-")
        same("mates by samtools import", primary(text), in_turn)
    if "bwa" in readers and names:
        text = output_of("bwa", "mem", "-v", "1", "-t", "1", "ref.fa", "fp.fq", "rp.fq")
        same("mates by bwa mem", primary(text), in_turn)
    for line in wrong:
        print(f"in_step: {what}: {line}")
    return 1 if wrong else 0


sys.exit(main(*sys.argv[1:]))
