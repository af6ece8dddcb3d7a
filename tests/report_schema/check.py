"""Compares the reports of tests/report_schema.sh with docs/report.schema.json and with their calls,
and the schema with reports that were changed at one place.

    check.py VERSION EXAMPLE

VERSION is what the program prints for --version. A report is reports/N.json, beside the words of
its call (.words), what it printed (.printed) and its line (.told). That of EXAMPLE is the one in
the file `shown`. plain.json and adapters.json are reports of tibzharuk trim, if they are there.
"""

import copy
import glob
import json
import os
import sys

import jsonschema

TREE = os.path.dirname(os.path.dirname(os.path.dirname(os.path.abspath(__file__))))
READS = ("forward_paired", "forward_unpaired", "reverse_paired", "reverse_unpaired")
PAIRS = ("input", "both_surviving", "forward_only_surviving", "reverse_only_surviving", "dropped")
PARTS = ("before", "paired", "unpaired")
OPTIONAL = ({"adapters"}, {"adapters_auto"}, {"first_pairs"}, {"provenance"}, {"through"},
            {"warnings"})
wrong = []


def text_of(path):
    with open(path, encoding="utf-8", newline="") as file:
        return file.read()


def json_of(path):
    return json.loads(text_of(path))


def told_of(words):
    """What a report must say about a call: its words are options, then files, then steps."""
    command, *words = words
    options = {"--encoding": "sanger"}
    while words[0].startswith("--"):
        option = words.pop(0)
        options[option] = None if option == "--no-name-check" else words.pop(0)
    inputs = ["forward", "reverse"] if command == "PE" else ["interleaved"]
    return {
        "command": command,
        "inputs": {name: words.pop(0) for name in inputs},
        "outputs": {**{name: words.pop(0) for name in READS}, "trim_log": options.get("--trimlog")},
        "encoding": options["--encoding"],
        "name_check": "--no-name-check" not in options,
        "steps": words,
    }


def conforms(schema, report, where):
    for fault in schema.iter_errors(report):
        wrong.append(f"{where}: {fault.json_path}: {fault.message}")


def check(path, schema, version):
    """The report conforms, is one line, and says what its call was and gave. Returns it."""
    words = text_of(f"{path}.words").split("\0")[:-1]
    row = " ".join(words)
    text = text_of(f"{path}.json")
    report = json.loads(text)
    conforms(schema, report, row)
    line = json.dumps(report, sort_keys=True, ensure_ascii=False, separators=(",", ":"))
    if text != line + "\n":
        wrong.append(f"{row}: not one line without blanks, its fields in order")
    fault = text_of(f"{path}.told").rstrip("\n")
    counts = [int(line.split(": ")[1]) for line in text_of(f"{path}.printed").splitlines()]
    told = {
        **told_of(words),
        "program": version.split()[0],
        "version": version.split()[1],
        "outcome": "fault" if fault else "finished",
        "fault": fault or None,
        "pairs": dict(zip(PAIRS, counts)),
    }
    said = {**report, "steps": [step["step"] for step in report["steps"]]}
    for field, value in told.items():
        if said[field] != value:
            wrong.append(f"{row}: {field} is {said[field]!r}, not {value!r}")
    return report


def places(value):
    """Each value within a report, with what holds it and its name or index there."""
    for key in list(value) if isinstance(value, dict) else range(len(value)):
        yield value, key
        if isinstance(value[key], (dict, list)):
            yield from places(value[key])


def cut(report):
    """A report whose lists of positions have two items at most."""
    one = copy.deepcopy(report)
    for side in one["reads"].values():
        for part in PARTS:
            positions = side[part]["positions"]
            side[part]["positions"] = {name: items[:2] for name, items in positions.items()}
    return one


def changes(holder, key):
    """Changes of what holds a value, which are made there."""
    value = holder[key]
    if isinstance(holder, dict):
        yield lambda holder: holder.pop(key)
        yield lambda holder: holder.update(more=1)
    else:
        yield lambda holder: holder.insert(key, "1" if type(value) is int else 1)
    others = [str(value), -1, 0.5, 2**64] if type(value) is int else []
    others += [1] if isinstance(value, (str, dict, list, bool)) else []
    for other in others:
        yield lambda holder, other=other: holder.__setitem__(key, other)


def changed(report):
    """The reports made from one report by a change at one place."""
    report = cut(report)
    for number, place in enumerate(places(report)):
        for change in changes(*place):
            one = copy.deepcopy(report)
            holder, key = list(places(one))[number]
            change(holder)
            if json.dumps(one) != json.dumps(report):
                yield one, f"{key}: {json.dumps(holder)[:200]}"
    for field, value in (
        ("steps", []),
        ("steps", 65 * report["steps"]),
        ("command", "IL" if report["command"] == "PE" else "PE"),
        ("command", "SE"),
        ("encoding", "phred"),
        ("outcome", "fault" if report["fault"] is None else "finished"),
        ("fault", "input: record 1: NamesDiffer" if report["fault"] is None else None),
        ("inputs", {**report["inputs"], "forward": "f", "interleaved": "i"}),
    ):
        yield {**report, field: value}, f"{field}: {value}"


def of_command(report):
    """A report that names several files for each name, as tibzharuk trim writes it."""
    several = copy.deepcopy(report)
    for part in "inputs", "outputs":
        several[part] = {name: [value, f"more {value}"] for name, value in several[part].items()}
    several["adapters_auto"] = "none"
    several["first_pairs"] = 5
    several["through"] = ["bwa mem -p genome.fa -"]
    several["provenance"] = [{
        "call": ["trim", "-1", "f"],
        "fq_prog_sha256": 64 * "0",
        "inputs": [{"bytes": 5, "name": "f", "sha256": 64 * "a"}],
        "programs": {"python": "3.11.2", "tibzharuk": "2.0.0"},
    }]
    several["warnings"] = ["f may be cut", "all pairs were dropped"]
    several["adapters"] = {
        "program": "cutadapt",
        "version": "4.2",
        "options": ["-a", "A"],
        "pairs_read": 5,
        "pairs_removed": 1,
        "forward": {"bases_removed": 9, "pairs_with_adapter": 1},
        "reverse": {"bases_removed": 0, "pairs_with_adapter": None},
    }
    return several


def check_command(schema):
    for path, has_adapters in ("plain.json", False), ("adapters.json", True):
        if os.path.exists(path):
            report = json_of(path)
            conforms(schema, report, path)
            if (report["adapters"] is not None) != has_adapters:
                wrong.append(f"{path}: adapters is {report['adapters']}")
            if report["warnings"]:
                wrong.append(f"{path}: warnings is {report['warnings']}")


def check_refusals(schema, reports):
    """The schema refuses these reports with a change. Returns how many it must refuse."""
    refused = 0
    for report in reports:
        for one, what in changed(report):
            if set(report) - set(one) in OPTIONAL:
                continue    # such as a report of fq_prog
            refused += 1
            if schema.is_valid(one):
                wrong.append(f"the schema takes a report that was changed: {what}")
    return refused


def main(version, example):
    text = json_of(os.path.join(TREE, "docs", "report.schema.json"))
    jsonschema.Draft202012Validator.check_schema(text)
    schema = jsonschema.Draft202012Validator(text)
    paths = sorted(path[:-len(".words")] for path in glob.glob("reports/*.words"))
    reports = {path: check(path, schema, version) for path in paths}
    if reports[example] != json_of("shown"):
        wrong.append("the example of docs/FORMAT.md is not what the program makes of its inputs")
    several = of_command(reports["reports/2"])
    conforms(schema, several, "a report of several files")
    check_command(schema)
    fault = next(path for path in paths if reports[path]["fault"])
    some = [reports[path] for path in ("reports/2", "reports/4", fault)]
    refused = check_refusals(schema, [*some, several])
    if len(reports) < 20 or refused < 500:
        wrong.append(f"only {len(reports)} reports and {refused} changed ones")
    for line in wrong:
        print(f"report_schema: {line}")
    return 1 if wrong else 0


sys.exit(main(*sys.argv[1:]))
