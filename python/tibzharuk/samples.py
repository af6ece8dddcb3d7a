"""Prints the table of samples that the workflow reads, from the names of files.

    tibzharuk samples reads > samples.tsv && mv samples.tsv config/

The table has a row for each pair of FASTQ files in DIRECTORY and below it, by
sample and lane. Files are paired if they have the names that Illumina's
programs or the SRA give them, with .fastq or .fq at the end, or .gz after it:

    liver1_S1_L001_R1_001.fastq.gz   sample liver1, lane L001
    liver1_L001_R1.fastq.gz          sample liver1, lane L001
    liver1_R1.fastq.gz               sample liver1, lane 1 (also .R1 or _r1)
    liver1_1.fastq.gz                sample liver1, lane 1
    liver1_FKDL23-1A_HXX_L1_1.fq.gz  sample liver1_FKDL23-1A_HXX, lane L1

R2 or 2 is in the place of R1 or 1 in the name of the reverse reads. If a lane
has several parts (_001, _002), each is a lane of its own: L001, L001_002. The
last form is Novogene's. MGI's names, such as V350012345_L01_12_1.fq.gz, have no
sample, and one barcode may be of two samples in two lanes. So each lane becomes
a sample; give those that belong together one name and several lanes.

Files of index reads (_I1, _I2) and files of other kinds are left out, and so
are reads of no sample (Undetermined, undecoded), with a line on standard error.

If a sample was sequenced in several runs, add --by-run: the name of a lane then
begins with that of its run, such as run1_L001. Each DIRECTORY is a run, or if
there is only one, each directory in it.

If a FASTQ file doesn't pair up, if two are of the same lane, if mates have
different numbers of samples (_S1, _S2), if a link leads nowhere, or if a
directory can't be read, nothing is printed, standard error names each of them,
and the status is 1. Unknown arguments end with status 2. Links to directories
are followed. Paths begin with DIRECTORY as it is given, so run this where you
run Snakemake.
"""

import argparse
import os
import re
import sys
from typing import Dict, List, NamedTuple, Sequence, Set, Tuple

FASTQ = re.compile(r"\.(fastq|fq)(\.gz)?$")
INDEX = re.compile(r"_I[12](_[0-9]{3})?\.(fastq|fq)(\.gz)?$")
NO_SAMPLE = re.compile(r"Undetermined(_S0)?[_.]|.*_undecoded_")
LANE = r"(_(?P<lane>L[0-9]{3}))?"
ILLUMINA = re.compile(
    rf"(?P<sample>.+?)(_S(?P<number>[0-9]+))?{LANE}[_.][Rr](?P<side>[12])(_(?P<part>[0-9]{{3}}))?"
)
NOVOGENE = re.compile(
    r"(?P<sample>.+_[A-Z]+[0-9]+-[0-9A-Za-z]+_[0-9A-Z]{3,})_(?P<lane>L[1-8])_(?P<side>[12])"
)
SRA = re.compile(rf"(?P<sample>.+?){LANE}_(?P<side>[12])")
SAMPLE = re.compile("[A-Za-z0-9][A-Za-z0-9_.-]*")
UNFIT = re.compile(r"[{}\x00-\x1f\x7f\udc80-\udcff]")  # the last are bytes that aren't UTF-8

Lane = Tuple[str, str]  # the names of a sample and of a lane


class Named(NamedTuple):
    """What the name of a file says."""

    sample: str
    lane: str
    side: str  # 1 or 2
    number: str  # that of the sample in the sheet of Illumina's programs, or nothing


class Found(NamedTuple):
    """The FASTQ files in directories and below them."""

    paths: List[str]
    no_sample: List[str]  # those of reads of no sample
    faults: List[str]  # a line for each directory or link that can't be read


def broken_links(paths: List[str]) -> List[OSError]:
    """Why what these paths lead to can't be looked at, as far as they are links."""
    errors = []
    for path in paths:
        try:
            if os.path.islink(path):
                os.stat(path)
        except OSError as error:
            errors.append(error)
    return errors


def fastq_files(folder: str, seen: Set[str]) -> Found:
    """The FASTQ files in a directory and below it, without those of index reads. Links are
    followed, and each directory is listed once: `seen` has those that were."""
    errors: List[OSError] = []
    paths: List[str] = []
    if os.path.realpath(folder) in seen:
        return Found([], [], [])
    seen.add(os.path.realpath(folder))
    for place, folders, files in os.walk(folder, onerror=errors.append, followlinks=True):
        real = {os.path.realpath(os.path.join(place, name)): name for name in sorted(folders)[::-1]}
        folders[:] = sorted(real[each] for each in real.keys() - seen)
        seen.update(real)
        names = [name for name in sorted(files) if FASTQ.search(name) and not INDEX.search(name)]
        paths += [os.path.join(place, name) for name in names]
        # A link that leads nowhere is among the files, and may have led to a directory.
        looked_at = [name for name in sorted(files) if name in names or name[0] != "."]
        errors += broken_links([os.path.join(place, name) for name in looked_at])
    faults = [f"{shown(error.filename)}: {error.strerror}" for error in errors]
    no_sample = [path for path in paths if NO_SAMPLE.match(os.path.basename(path))]
    paths = [path for path in paths if path not in no_sample]
    if not paths and not faults:
        but = " but of reads of no sample" if no_sample else ""
        faults = [f"{shown(folder)}: there are no FASTQ files{but}"]
    return Found(paths, no_sample, faults)


def shown(text: str) -> str:
    """Text on one line."""
    return "".join(c if c.isprintable() else ascii(c)[1:-1] for c in text)


def lane_of(name: str) -> Named:
    """What the name of a file says. Raises ValueError for one that isn't that of a pair."""
    stem = FASTQ.sub("", name)
    found = ILLUMINA.fullmatch(stem) or NOVOGENE.fullmatch(stem) or SRA.fullmatch(stem)
    if not found or not SAMPLE.fullmatch(found.group("sample")):
        raise ValueError("not named as one of a pair (tibzharuk samples --help)")
    said = found.groupdict()
    lane, part = said["lane"] or "1", said.get("part") or "001"
    lane = lane if part == "001" else f"{lane}_{part}"
    return Named(said["sample"], lane, said["side"], said.get("number") or "")


def run_of(path: str, folders: Sequence[str]) -> str:
    """The run of a file below one of these directories: the directory, or if there is only one, the
    directory in it that has the file. Nothing if the file is in that directory itself."""
    folder = max((each for each in folders if path.startswith(each)), key=len)
    below = os.path.relpath(path, folder).split(os.sep)
    if len(folders) == len(below) == 1:
        return ""
    run = below[0] if len(folders) == 1 else os.path.basename(os.path.abspath(folder))
    return re.sub("[^A-Za-z0-9.-]+", "-", run).strip("-.")


def lane_with_run(path: str, folders: Sequence[str]) -> Tuple[Lane, Named]:
    """The lane of a file, with its run before its name if there are directories of runs."""
    if UNFIT.search(os.fsencode(path).decode("utf-8", "surrogateescape")):
        raise ValueError("it has a character that the workflow doesn't take")
    named = lane_of(os.path.basename(path))
    run = run_of(path, folders) if folders else ""
    return (named.sample, f"{run}_{named.lane}" if run else named.lane), named


def paired(
    paths: Sequence[str], folders: Sequence[str] = ()
) -> Tuple[Dict[Lane, Dict[str, str]], List[str]]:
    """The files of each lane by their sides, and a line for each file that doesn't pair up. With
    the directories of runs, lanes have their names."""
    lanes: Dict[Lane, Dict[str, str]] = {}
    numbers: Dict[Lane, Set[str]] = {}
    faults = []
    for path in paths:
        try:
            lane, named = lane_with_run(path, folders)
            if named.side in lanes.setdefault(lane, {}):
                hint = "" if folders else "; if they are of two runs, add --by-run"
                other = shown(lanes[lane][named.side])
                raise ValueError(f"sample {lane[0]}, lane {lane[1]} is already in {other}{hint}")
            lanes[lane][named.side] = path
            numbers.setdefault(lane, set()).add(named.number)
        except ValueError as why:
            faults.append(f"{shown(path)}: {why}")
    for lane, sides in lanes.items():
        if len(sides) == 1:
            side, path = next(iter(sides.items()))
            missing = "reverse" if side == "1" else "forward"
            faults.append(f"{shown(path)}: there is no file of its {missing} mates")
        elif len(numbers[lane]) > 1:
            names = " and ".join(shown(sides[side]) for side in "12")
            faults.append(f"{names}: they have different numbers of samples (_S)")
    return lanes, faults


def arguments() -> argparse.ArgumentParser:
    parser = argparse.ArgumentParser(
        prog="tibzharuk samples", description=__doc__,
        formatter_class=argparse.RawDescriptionHelpFormatter
    )
    said = "begin the name of each lane with that of its run"
    parser.add_argument("--by-run", action="store_true", help=said)
    parser.add_argument("folders", metavar="DIRECTORY", nargs="+", help="where the FASTQ files are")
    return parser


def main(words: Sequence[str]) -> int:
    """Returns the status."""
    parser = arguments()
    given = parser.parse_args(words)
    seen: Set[str] = set()
    found = [fastq_files(folder, seen) for folder in given.folders]
    paths = [path for each in found for path in each.paths]
    no_sample = [path for each in found for path in each.no_sample]
    faults = [fault for each in found for fault in each.faults]
    lanes, unpaired = paired(paths, given.folders if given.by_run else ())
    for fault in faults + unpaired:
        print(f"{parser.prog}: {fault}", file=sys.stderr)
    if faults or unpaired:
        return 1
    if no_sample:
        more = f" and {len(no_sample) - 1} more" if len(no_sample) > 1 else ""
        said = f"left out, because these are reads of no sample: {shown(no_sample[0])}{more}"
        print(f"{parser.prog}: {said}", file=sys.stderr)
    rows = [("sample", "lane", "r1", "r2")]
    rows += [(*lane, sides["1"], sides["2"]) for lane, sides in sorted(lanes.items())]
    sys.stdout.buffer.write(os.fsencode("".join("\t".join(row) + "\n" for row in rows)))
    return 0
