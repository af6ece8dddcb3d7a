"""Makes one HTML page from a report.

    tibzharuk trim --report s1.json ..
    tibzharuk page s1.json > s1.html

The page is one file. It loads nothing from a network and runs no script: its
graphs are drawn inside the page as SVG. Hold the mouse over a graph to see its
numbers. The page follows the reader's light or dark setting, and prints on A4.

The page shows what became of the pairs, both sides before and after trimming,
what each step did, the reads by length, a text for the methods section, the
files, and how the run was made. If the report has counts by position, reads by
mean score, reads by G and C or reads by removed bases, the page draws them too.

If each lane of a sample was trimmed by itself, tibzharuk sum adds up their
reports. With --lane the page of the sum shows the lanes beside each other.

If adapters were removed in the same run, the page shows what cutadapt counted.
If they were removed by hand, say so with --cutadapt.

If the run stopped at a fault in its inputs, or if the mean score of a side is
above 50, the page starts with a warning in red.

A file that isn't a report is refused with one line on standard error and status
1. Unknown arguments end with status 2.
"""

import argparse
import os
import sys
from typing import List, Sequence

from .report.lanes import Lanes
from .report.page import page
from .report.reading import Refused, Report, read_report


def arguments() -> argparse.ArgumentParser:
    parser = argparse.ArgumentParser(
        prog="tibzharuk page", description=__doc__,
        formatter_class=argparse.RawDescriptionHelpFormatter
    )
    parser.add_argument(
        "--sample",
        metavar="NAME",
        help="the title of the page; if not given, the name of REPORT without .json",
    )
    parser.add_argument(
        "--cutadapt",
        metavar="TEXT",
        default="",
        help="how cutadapt removed adapters before, such as its options",
    )
    parser.add_argument(
        "--lane",
        metavar=("NAME", "LANE"),
        nargs=2,
        action="append",
        default=[],
        help="a lane of the sample, and its report; once for each lane",
    )
    parser.add_argument("report", metavar="REPORT", help="what fq_prog wrote with --report")
    return parser


def lanes_of(report: Report, given: List[List[str]]) -> Lanes:
    """The lanes whose sum a report is, with their reports."""
    lanes = [(name, read_report(path)) for name, path in given]
    whole, pairs = report["pairs"], [lane["pairs"] for _, lane in lanes]
    if lanes and any(sum(each[name] for each in pairs) != whole[name] for name in whole):
        raise Refused("the lanes don't add up to the report")
    return lanes


def main(words: Sequence[str]) -> int:
    """Returns the status."""
    parser = arguments()
    given = parser.parse_args(words)
    name = os.path.basename(given.report)
    name = given.sample or (name[:-5] if name.endswith(".json") else name) or name
    try:
        report = read_report(given.report)
        title = os.fsencode(name).decode("utf-8", "replace")  # whatever the locale
        made = page(report, title, given.cutadapt, lanes_of(report, given.lane))
        sys.stdout.buffer.write(made.encode("utf-8", "replace"))
        sys.stdout.buffer.flush()
    except Refused as why:
        print(f"{parser.prog}: {why}", file=sys.stderr)
        return 1
    except OSError as error:
        print(f"{parser.prog}: cannot write the page: {error.strerror}", file=sys.stderr)
        os.dup2(os.open(os.devnull, os.O_WRONLY), sys.stdout.fileno())
        return 1
    return 0
