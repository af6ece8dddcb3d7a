"""What the page says of the adapters that cutadapt removed before the steps."""

import shlex
from typing import Any, Dict, List, Tuple

from .reading import SIDES, Report

from .sections import Sides, table
from .texts import section, share, shown

Adapters = Dict[str, Any]  # the field of a report


def name_of(adapters: Adapters) -> str:
    """The program and its version."""
    return f"{adapters['program']} {adapters['version']}"


def options_of(adapters: Adapters) -> str:
    """Its options, as a shell takes them."""
    return " ".join(map(shlex.quote, adapters["options"]))


def how_removed(report: Report, given: str) -> str:
    """How adapters were removed, for a sentence, or nothing if they weren't. A report that doesn't
    know it may be that of fq_prog alone; then it is as the caller says."""
    adapters = report.get("adapters")
    if not adapters:
        return f"cutadapt ({given})" if given else ""
    said = f"{name_of(adapters)} ({options_of(adapters)})"
    if adapters["pairs_removed"]:
        said += f", which removed {adapters['pairs_removed']:,} of {adapters['pairs_read']:,} pairs"
    return said


def cells(adapters: Adapters, before: Sides) -> List[Tuple[str, List[str]]]:
    """The rows of the table, with a number and a share for each side."""
    found, removed = [], []
    for side in SIDES:
        with_adapter, bases = adapters[side]["pairs_with_adapter"], adapters[side]["bases_removed"]
        if with_adapter is None:
            found += ["–", "not looked for"]
        else:
            found += [f"{with_adapter:,}", share(with_adapter, adapters["pairs_read"])]
        removed += [f"{bases:,}", share(bases, bases + before[side]["bases"])]
    return [("reads with an adapter", found), ("bases removed", removed)]


def adapter_table(report: Report, before: Sides) -> str:
    """What cutadapt found and removed; nothing if the report doesn't know of cutadapt."""
    adapters = report.get("adapters")
    if not adapters:
        return ""
    read, removed = adapters["pairs_read"], adapters["pairs_removed"]
    said = f"What {shown(name_of(adapters))} found in {read:,} pairs, before the steps."
    if removed:
        said += f" It removed {removed:,} pairs ({share(removed, read)})."
    said += " All other numbers of this page are those of the reads that it passed on."
    options = f'<p class="soft">Its options: <code>{shown(options_of(adapters))}</code></p>'
    rows = table(("", "number", "share"), cells(adapters, before))
    return section("Adapters", said, rows, options)
