"""How each run of a report was made: the last section of its page."""

import shlex
from typing import Any, Dict, List, Tuple

from .reading import Report
from .texts import section, shown

UNREADABLE = "unknown: its file can't be read"


def input_line(each: Dict[str, Any]) -> str:
    """An input, as far as it is known."""
    size = f"{each['bytes']:,} bytes" if each["bytes"] is not None else "a pipe or a device"
    checksum = f", SHA-256 {each['sha256']}" if each["sha256"] else ""
    return f"{each['name']}, {size}{checksum}"


def entries(made: Dict[str, Any]) -> List[Tuple[str, List[str]]]:
    """What is listed of a run."""
    programs = [f"{name} {version}" for name, version in sorted(made["programs"].items())]
    return [
        ("call", [" ".join(["tibzharuk", *map(shlex.quote, made["call"])])]),
        ("SHA-256 of fq_prog", [made["fq_prog_sha256"] or UNREADABLE]),
        ("programs", programs),
        ("inputs", [input_line(each) for each in made["inputs"]]),
    ]


def provenance(report: Report) -> str:
    """The section, or nothing if the report doesn't say it."""
    parts = []
    for made in report.get("provenance", []):
        rows = ""
        for name, values in entries(made):
            codes = "".join(f"<code>{shown(value)}</code>" for value in values)
            rows += f"<dt>{name}</dt><dd>{codes}</dd>"
        parts.append(f"<dl>{rows}</dl>")
    return section("Provenance", "How this was made, to be kept.", *parts) if parts else ""
