"""The whole page of a report."""

import os

from .reading import SIDES, Report, both

from .adapters import adapter_table, how_removed
from .drawings import drawings
from .lanes import Lanes, lane_tables
from .provenance import provenance
from .sections import cards, pair_bar, run, side_table, step_table, warnings
from .texts import shown

STYLE_FILE = os.path.join(os.path.dirname(os.path.realpath(__file__)), "style.css")


def style() -> str:
    with open(STYLE_FILE, encoding="utf-8") as file:
        return file.read()


def page(report: Report, sample: str, cutadapt: str = "", lanes: Lanes = ()) -> str:
    """The page of a checked report, with its title, what was said of cutadapt, and the lanes whose
    sum the report is."""
    adapters = how_removed(report, cutadapt)
    before = {side: report["reads"][side]["before"] for side in SIDES}
    after = {
        side: both(report["reads"][side]["paired"], report["reads"][side]["unpaired"])
        for side in SIDES
    }
    steps = "".join(f"<code>{shown(step['step'])}</code>" for step in report["steps"])
    program = shown(f"{report['program']} {report['version']}")
    body = [
        f"<header><h1>{shown(sample)}</h1>"
        f'<span class="soft">trimmed by Tibzharuk, {program}</span></header>',
        f'<p class="steps">{steps}</p>',
        warnings(report, before),
        cards(report, before, after),
        pair_bar(report["pairs"]),
        lane_tables(lanes),
        adapter_table(report, before),
        side_table(before, after, adapters),
        step_table(report["steps"], before),
        *drawings(report, before, after),
        run(report, adapters),
        provenance(report),
        "<footer>Made by tibzharuk from a report of its run, "
        "which has all numbers of this page.</footer>",
    ]
    return (
        '<!DOCTYPE html>\n<html lang="en"><head><meta charset="utf-8">'
        '<link rel="icon" href="data:,">'
        '<meta name="viewport" content="width=device-width,initial-scale=1">'
        f"<title>{shown(sample)}: trimming</title><style>\n{style()}</style></head>\n"
        "<body><main>" + "\n".join(body) + "</main></body></html>\n"
    )
