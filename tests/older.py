"""Makes a report of the form before, which lacks the bases by position, and the reads by mean
score, by G and C and by removed bases.

    older.py REPORT FILE
"""

import json
import sys

PARTS = ("before", "paired", "unpaired")


def main(source, target):
    with open(source, encoding="utf-8") as file:
        report = json.load(file)
    del report["schema"]
    for side in report["reads"].values():
        del side["removed_front"], side["removed_behind"]
        for part in PARTS:
            for field in ("positions", "mean_scores", "gc_percents"):
                del side[part][field]
    with open(target, "w", encoding="utf-8") as file:
        json.dump(report, file, separators=(",", ":"))


main(*sys.argv[1:])
