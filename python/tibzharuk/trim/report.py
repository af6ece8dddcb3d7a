"""The program's report, with the names of the user's files, and the page of it."""

import os
from typing import Any, Dict, List, Optional, Sequence, Union

from .arguments import Arguments
from .faults import Fault, warned
from .files import readable

OUTPUTS = {
    "forward_paired": "paired1",
    "forward_unpaired": "unpaired1",
    "reverse_paired": "paired2",
    "reverse_unpaired": "unpaired2",
    "trim_log": "trimlog",
}
# The outputs that name the sample, and the usual endings of their names.
NAMING = {
    "report": (".json",),
    "html": (".html", ".htm"),
    "cutadapt-log": (".log", ".txt"),
}


def one_or_all(names: Sequence[str]) -> Union[str, List[str]]:
    """The name of a side's file, or a list if it has several."""
    names = [readable(name) for name in names]
    return names[0] if len(names) == 1 else names


def counts_of(data: bytes) -> Dict[str, Any]:
    """The program's report."""
    import json
    try:
        report: Dict[str, Any] = json.loads(data.decode())
        return report
    except ValueError:
        raise Fault(4, "no report")


def pairs_read(counts: Dict[str, Any], adapters: Optional[Dict[str, Any]]) -> int:
    """How many pairs were taken from the inputs."""
    found: int = adapters["pairs_read"] if adapters else counts["pairs"]["input"]
    return found


def of_call(counts: Dict[str, Any], arguments: Arguments, adapters: Optional[Dict[str, Any]],
            provenance: Dict[str, Any]) -> bytes:
    """The program's report as that of the user's call, with what cutadapt removed before, what was
    warned of, and how the run was made: the program has read and written pipes and hidden files."""
    import json
    warnings = [readable(text) for text in warned]
    report: Dict[str, Any] = {
        "adapters": adapters, "provenance": [provenance], "warnings": warnings, **counts}
    if arguments.adapters_auto:
        report["adapters_auto"] = arguments.adapters_auto
    if arguments.pairs and arguments.pairs == pairs_read(counts, adapters):
        report["first_pairs"] = arguments.pairs
    if arguments.both:
        report["command"] = "IL"
        report["inputs"] = {"interleaved": one_or_all(arguments.both)}
    else:
        report["command"] = "PE"
        report["inputs"] = {
            "forward": one_or_all(arguments.forward),
            "reverse": one_or_all(arguments.reverse),
        }
    for field, role in OUTPUTS.items():
        name = arguments.outputs.get(arguments.written_as(role))
        report["outputs"][field] = None if name is None else readable(name)
    if arguments.through:
        report["through"] = [readable(arguments.through)]
    text = json.dumps(report, ensure_ascii=False, sort_keys=True, separators=(",", ":"))
    return (text + "\n").encode()


def stem(name: str, endings: Sequence[str]) -> str:
    """A name without the first of these endings that it has."""
    for ending in endings:
        if name.endswith(ending) and len(name) > len(ending):
            return name[:-len(ending)]
    return name


def sample_name(outputs: Dict[str, str]) -> str:
    """The name of the sample, which its report, its page and the log of cutadapt share: that of the
    first of them whose name has its usual ending, or else of the first."""
    stems = []
    for role, endings in NAMING.items():
        if role in outputs:
            name = stem(readable(os.path.basename(outputs[role])), [".gz"])
            stems.append((name, stem(name, endings)))
    usual = [short for name, short in stems if short != name]
    return (usual or [name for name, _ in stems] or [""])[0]


def page_of(report: bytes, sample: str) -> bytes:
    """The page of a report. The sample's name is text, whatever the locale."""
    import json

    from ..report.page import page
    from ..report.reading import Refused, check
    try:
        given = json.loads(report.decode())
        check(given)
        return page(given, sample).encode("utf-8", "replace")
    except (Refused, ValueError) as why:
        raise Fault(4, f"no page of the report: {why}")
