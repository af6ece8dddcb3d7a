"""How the workflow trimmed a sample: what a job writes beside the summary, and its table on the
page of all samples.

The file has a line for each field, its name before `: `.
"""

import re
from typing import Dict, List, Mapping, Optional

from .texts import shown

Settings = Dict[str, str]

FIELDS = ("program", "steps", "options", "adapters")
UNKNOWN = "not recorded"


def settings_lines(steps: str, options: str, adapters: str) -> List[str]:
    """The lines after that of the program, as a job writes them."""
    given = zip(FIELDS[1:], (steps, options, adapters))
    return [f"{name}: {' '.join(value.splitlines())}" for name, value in given]


def with_taken(text: str, taken: Optional[str]) -> str:
    """The lines of a job with which adapters `auto` took, if it was asked for."""
    if taken is None:
        return text
    return re.sub("(?im)^adapters: auto$", f"adapters: auto, which took {taken}", text)


def read_settings(text: str) -> Settings:
    """The fields of such a file; one that it lacks is UNKNOWN."""
    named = dict(line.split(": ", 1) for line in text.splitlines() if ": " in line)
    return {name: named.get(name, UNKNOWN) for name in FIELDS}


def settings_table(settings: Settings) -> str:
    rows = "".join(
        f"<tr><th>{name.capitalize()}</th><td><samp>{shown(value) or 'none'}</samp></td></tr>"
        for name, value in settings.items()
    )
    return f'<table class="table table-condensed" style="width: auto">{rows}</table>'


def how_trimmed(texts: Mapping[str, str]) -> List[str]:
    """A table for each group of samples that were trimmed in the same way, of the texts of their
    files. The samples are named if there are several groups."""
    groups: Dict[str, List[str]] = {}
    for sample, text in texts.items():
        groups.setdefault(settings_table(read_settings(text)), []).append(sample)
    parts = []
    for table, samples in groups.items():
        if len(groups) > 1:
            parts.append(f"<h4>{shown(', '.join(samples))}</h4>")
        parts.append(table)
    return parts
