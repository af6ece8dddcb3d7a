"""Compares each count of a report with what others count in the files of its run: seqkit, the slow
count of tests/count.py, the trim log, and other programs if they are named.

    check.py REPORT [fastqc] [fastp]

FastQC is asked if it would find the encoding of the run, and fastp counts two files.
"""

import collections
import json
import math
import os
import shutil
import subprocess
import sys
import tempfile

sys.dont_write_bytecode = True
sys.path.insert(0, os.path.dirname(os.path.dirname(os.path.abspath(__file__))))

import count

SIDES = ("forward", "reverse")
wrong = []


def same(where, what, told, counted, by="by seqkit"):
    if told != counted:
        wrong.append(f"{where}: {what}: {told} in the report, {counted} {by}")


def near(where, what, told, field, found, by):
    """What a list of positions is for each base, up to rounding in others' text."""
    places = told["positions"]
    shares = [number / bases for number, bases in zip(places[field], places["bases"])]
    if len(shares) != len(found) or any(abs(a - b) > 0.0001 for a, b in zip(shares, found)):
        wrong.append(f"{where}: {what}: {shares} in the report, {found} {by}")


def lines_of(path):
    with open(path, "rb") as file:
        return file.read().splitlines(keepends=True)


def phred(encoding, byte):
    """The Phred score of a byte by the conversion of Cock et al. (2010): of Solexa's scores, the
    nearest whole number."""
    score = byte - (33 if encoding == "sanger" else 64)
    if encoding != "solexa":
        return score
    return math.floor(10 * math.log10(10 ** (score / 10) + 1) + 0.5)


def by_base(where, told, encoding, path):
    scores = [phred(encoding, byte) for byte in range(256)]
    counted = count.counted(count.reads_of(path, scores.__getitem__))
    positions = counted.pop("positions")
    for field, number in counted.items():
        same(where, field, told[field], number, "by base")
    for field, numbers in positions.items():
        same(where, f"positions.{field}", told["positions"].get(field), numbers, "by base")


def seqkit(*words):
    words = ["seqkit", "-t", "dna", "--quiet", *words]
    out = subprocess.run(words, check=True, stdout=subprocess.PIPE, text=True).stdout
    return [line.split("\t") for line in out.splitlines()]


def by_seqkit(where, told, encoding, path):
    table = seqkit("fx2tab", "-n", "-i", "-l", "-C", "GC", "-C", "N", path)
    reads = [list(map(int, row[1:4])) for row in table]
    lengths = [row[0] for row in reads]
    same(where, "reads", told["reads"], len(reads))
    same(where, "bases", told["bases"], sum(lengths))
    same(where, "gc_bases", told["gc_bases"], sum(row[1] for row in reads))
    same(where, "n_bases", told["n_bases"], sum(row[2] for row in reads))
    same(where, "shortest", told["shortest"], min(lengths, default=None))
    same(where, "longest", told["longest"], max(lengths, default=None))
    same(where, "lengths", told["lengths"], count.rows(collections.Counter(lengths)))
    if not reads:
        high = [told["q20_bases"], told["q30_bases"]]
        same(where, "q20_bases and q30_bases", high, [0, 0])
    elif encoding == "sanger":
        scores_by_seqkit(where, told, path)


def scores_by_seqkit(where, told, path):
    head, row = seqkit("stats", "-a", "-T", path)
    stats = dict(zip(head, row))
    same(where, "reads", told["reads"], int(stats["num_seqs"]))
    same(where, "bases", told["bases"], int(stats["sum_len"]))
    # Two decimals are enough to tell the number of bases, up to 10,000 bases.
    for field, column in (("q20_bases", "Q20(%)"), ("q30_bases", "Q30(%)")):
        percent = 100 * told[field] / told["bases"] if told["bases"] else 0
        if abs(percent - float(stats[column])) > 0.00501:
            wrong.append(f"{where}: {field}: {told[field]} in the report, "
                         f"{stats[column]} per cent by seqkit")


def quietly(*words):
    subprocess.run(words, check=True, stdout=subprocess.DEVNULL, stderr=subprocess.DEVNULL)


def by_fastqc(where, told, path, folder):
    """The reads by mean score, and the mean score by position, as FastQC counts them."""
    folder = tempfile.mkdtemp(dir=folder)
    shutil.copy(path, f"{folder}/drawn.fq")
    quietly("fastqc", "--quiet", "--extract", "--nogroup", "-o", folder, f"{folder}/drawn.fq")
    with open(f"{folder}/drawn_fastqc/fastqc_data.txt", encoding="utf-8") as file:
        data = file.read()

    def part(name):
        text = data.split(f">>{name}")[1].split(">>END_MODULE")[0]
        return [line.split("\t") for line in text.splitlines()[2:]]
    found = [[int(row[0]), int(float(row[1]))] for row in part("Per sequence quality scores")]
    same(where, "mean_scores", told["mean_scores"], [row for row in found if row[1]], "by FastQC")
    means = [float(row[1]) for row in part("Per base sequence quality")]
    near(where, "mean score by position", told, "score_sum", means, "by FastQC")


def by_fastp(report, folder):
    """The mean score and the share of each letter at each position of the inputs as fastp counts
    them, with its filters off."""
    inputs = [report["inputs"][side] for side in SIDES]
    quietly("fastp", "-i", inputs[0], "-I", inputs[1], "-A", "-Q", "-L", "-G", "-w", "1",
            "-j", f"{folder}/fastp.json", "-h", f"{folder}/fastp.html")
    with open(f"{folder}/fastp.json", encoding="utf-8") as file:
        counted = json.load(file)
    for number, side in enumerate(SIDES, 1):
        where, told = f"{side} before", report["reads"][side]["before"]
        part = counted[f"read{number}_before_filtering"]
        means = part["quality_curves"]["mean"]
        near(where, "mean score by position", told, "score_sum", means, "by fastp")
        for letter in "acgtn":
            found = part["content_curves"][letter.upper()]
            near(where, f"share of {letter} by position", told, letter, found, "by fastp")


def by_log(side, told, log):
    """The bases that each read of a side lost at its start and at its end, by the trim log."""
    lines = lines_of(log)[SIDES.index(side)::2]
    lost = [[int(word) for word in line.split()[-4:]] for line in lines]
    lost = [(start, end) for length, start, _, end in lost if length]
    for place, field in enumerate(("front", "behind")):
        numbers = collections.Counter(each[place] for each in lost)
        removed = sum(each[place] for each in lost)
        by = "by the trim log"
        same(side, f"removed_{field}", told[f"removed_{field}"], count.rows(numbers), by)
        same(side, f"removed_bases.{field}", told["removed_bases"][field], removed, by)


def by_pairs(report):
    """How the numbers of a report relate to each other."""
    pairs = report["pairs"]
    for side, alone in zip(SIDES, ("forward_only_surviving", "reverse_only_surviving")):
        told = report["reads"][side]
        dropped = sum(step[side]["dropped"] for step in report["steps"])
        left = told["paired"]["reads"] + told["unpaired"]["reads"]
        survive = pairs["both_surviving"] + pairs[alone]
        same(side, "reads before", told["before"]["reads"], pairs["input"], "by its pairs")
        same(side, "paired reads", told["paired"]["reads"], pairs["both_surviving"], "by its pairs")
        same(side, "unpaired reads", told["unpaired"]["reads"], pairs[alone], "by its pairs")
        for field in ("removed_front", "removed_behind"):
            reads = sum(row[1] for row in told[field])
            same(side, f"reads of {field}", reads, left, "by its reads")
        same(side, "dropped reads", dropped, pairs["input"] - survive, "by its pairs")


def files_of(report, side, folder):
    """The file of each part of a side. Of an interleaved file its reads get a file of their own."""
    inputs = report["inputs"]
    parts = {kind: report["outputs"][f"{side}_{kind}"] for kind in ("paired", "unpaired")}
    if report["command"] == "PE":
        return {"before": inputs[side], **parts}
    lines = lines_of(inputs["interleaved"])
    with open(f"{folder}/{side}.fq", "wb") as file:
        for record in range(4 * SIDES.index(side), len(lines), 8):
            file.writelines(lines[record:record + 4])
    return {"before": file.name, **parts}


def main(path, *others):
    with open(path, encoding="utf-8") as file:
        report = json.load(file)
    encoding, log = report["encoding"], report["outputs"]["trim_log"]
    with tempfile.TemporaryDirectory() as folder:
        for side in SIDES:
            for part, name in files_of(report, side, folder).items():
                where, told = f"{side} {part}", report["reads"][side][part]
                by_seqkit(where, told, encoding, name)
                by_base(where, told, encoding, name)
                if "fastqc" in others and told["reads"]:
                    by_fastqc(where, told, name, folder)
            if log is not None:
                by_log(side, report["reads"][side], log)
        if "fastp" in others:
            by_fastp(report, folder)
    by_pairs(report)
    for line in wrong:
        print(f"report_counts: {path}: {line}")
    return 1 if wrong else 0


sys.exit(main(*sys.argv[1:]))
