"""Reads the settings and the table of the samples, tries the settings, and refuses bad ones with one
line."""

import csv
import os
import re
import subprocess
import sys
import tempfile
from pathlib import Path

import jsonschema
import yaml

sys.path.insert(0, str(Path(__file__).resolve().parents[2] / "python"))
from tibzharuk.trim.known_adapters import AUTO, known_adapters, names_of_known

COLUMNS = ["sample", "lane", "r1", "r2"]
# The columns of nf-core's tables that are read, by ours. Without `lane`, lanes are numbered.
NF_CORE = {"sample": "sample", "r1": "fastq_1", "r2": "fastq_2"}


class Refused(Exception):
    """Says in one line what is wrong, and where."""


def fault(value, schema_path):
    """The first fault of a value by its schema, as a place and a line, or None."""
    with open(schema_path, encoding="utf-8") as text:
        schema = yaml.safe_load(text)
    faults = jsonschema.Draft7Validator(schema).iter_errors(value)
    first = min(faults, key=lambda each: [str(step) for step in each.path], default=None)
    if first is None:
        return None
    message = first.message
    if first.validator == "pattern" and "description" in first.schema:
        message = f"{first.instance!r} isn't {first.schema['description']}"
    return ".".join(map(str, first.path)), " ".join(message.split())


def check_settings(settings, schema_path):
    """Refuses settings that don't match the schema."""
    found = fault(settings, schema_path)
    if found:
        place, message = found
        raise Refused(f"settings: {place + ': ' if place else ''}{message}")


def check_adapters(adapters, scatter):
    """Refuses adapters that are neither a file nor a sequence nor known. Returns the file, or None."""
    if adapters.lower() == AUTO and scatter == "lanes":
        raise Refused("settings: adapters: auto looks at the reads of each job, so two lanes of a sample might get others: name them, or set scatter to none")
    if adapters.lower() in (AUTO, *known_adapters()):
        return None
    if os.path.isfile(adapters):
        return adapters
    if adapters and not re.fullmatch("[ACGTUNRYSWKMBDHVI]+(,[ACGTUNRYSWKMBDHVI]+)?", adapters, re.IGNORECASE):
        raise Refused(f"settings: adapters: {adapters!r} is neither a file nor a sequence nor {AUTO}, {names_of_known()}")
    return None


def call_without_reads(command, settings, options, inputs):
    """The call of a job that trims these inputs by these settings, and writes nothing."""
    words = [command, "trim", "--program", settings["program"], "--threads", str(settings["trim"]["threads"])]
    outputs = ["paired1", "unpaired1", "paired2", "unpaired2", "summary", "report"]
    outputs += ["trimlog"] if settings["trim_logs"] else []
    if settings["adapters"]:
        words += ["--adapters", settings["adapters"]]
        outputs += ["cutadapt-report", "cutadapt-log"]
    words += [word for option in outputs for word in (f"--{option}", os.devnull)]
    return [*words, "-1", inputs[0], "-2", inputs[1], *options, "--", *settings["steps"].split()]


def try_settings(command, settings, options):
    """Refuses settings by which no sample can be trimmed: wrong steps or options, or a program that isn't there."""
    try:
        # `auto` looks into files only.
        with tempfile.NamedTemporaryFile() as one, tempfile.NamedTemporaryFile() as two:
            done = subprocess.run(
                call_without_reads(command, settings, options, (one.name, two.name)),
                stdout=subprocess.DEVNULL, stderr=subprocess.PIPE, text=True, errors="replace", timeout=300,
            )
    except (OSError, subprocess.TimeoutExpired) as why:
        raise Refused(f"settings: they can't be tried: {why}") from why
    if done.returncode != 0:
        raise Refused(f"settings: {(done.stderr.splitlines() or [f'status {done.returncode}'])[-1]}")


def lines_of(path):
    """The lines of a table with their numbers; empty lines and those that begin with # are skipped."""
    try:
        with open(path, encoding="utf-8-sig") as lines:
            for number, line in enumerate(lines, 1):
                line = line.rstrip("\r\n")
                if line.strip("\t ,") and not line.lstrip().startswith("#"):
                    yield number, line
    except OSError as error:
        raise Refused(f"{path}: {error.strerror}") from error
    except UnicodeDecodeError as error:
        raise Refused(f"{path}: not UTF-8 text") from error


def cells_of(line, delimiter):
    """The cells of a line. Only cells between commas may be in quotes."""
    cells = line.split("\t") if delimiter == "\t" else next(csv.reader([line]))
    return [cell.strip() for cell in cells]


def our_rows(path, lines):
    """The rows below a header of ours."""
    for number, line in lines:
        where, cells = f"{path}, line {number}", cells_of(line, "\t")
        if len(cells) != len(COLUMNS):
            raise Refused(f"{where}: {len(cells)} columns, not {len(COLUMNS)} with tabs between them")
        yield where, dict(zip(COLUMNS, cells))


def nf_core_rows(path, lines, header):
    """The rows below a header of nf-core. Its other columns are ignored."""
    lanes = {}
    for number, line in lines:
        where, cells = f"{path}, line {number}", cells_of(line, ",")
        if len(cells) != len(header):
            raise Refused(f"{where}: {len(cells)} columns, not {len(header)} with commas between them")
        named = dict(zip(header, cells))
        row = {ours: named[theirs] for ours, theirs in NF_CORE.items()}
        lanes[row["sample"]] = lanes.get(row["sample"], 0) + 1
        row["lane"] = named.get("lane", str(lanes[row["sample"]]))
        if not row["r2"]:
            raise Refused(f"{where}: column fastq_2: there is no file of reverse reads, and single reads aren't trimmed")
        yield where, row


def rows_of(path):
    """The rows of a table, each with its place."""
    lines = lines_of(path)
    header = next(lines, (1, ""))[1]
    if cells_of(header, "\t") == COLUMNS:
        return our_rows(path, lines)
    names = cells_of(header, ",")
    if set(NF_CORE.values()) <= set(names):
        return nf_core_rows(path, lines, names)
    found = " ".join(cells_of(header, "\t"))
    raise Refused(
        f"{path}: the first line must be '{' '.join(COLUMNS)}' with tabs between them, not '{found}'; a table of nf-core has "
        f"the columns {', '.join(NF_CORE.values())} with commas between them"
    )


def check_row(where, row, lanes, files, schema_path):
    """Refuses a row that breaks the schema, repeats an earlier row, or names a file that isn't there."""
    found = fault(row, schema_path)
    if found:
        place, message = found
        raise Refused(f"{where}: column {place}: {message}")
    if row["lane"] in lanes:
        raise Refused(f"{where}: sample {row['sample']} already has lane {row['lane']}")
    for column in ("r1", "r2"):
        name = row[column]
        if not os.path.isfile(name):
            raise Refused(f"{where}: column {column}: there is no file {name}")
        same = files.setdefault(os.path.realpath(name), f"{where}, column {column}")
        if same != f"{where}, column {column}":
            raise Refused(f"{where}: column {column}: {name} is already in {same}")


def read_samples(path, schema_path):
    """The samples in their order, each with its rows in their order."""
    samples, files = {}, {}
    for where, row in rows_of(path):
        lanes = samples.setdefault(row["sample"], [])
        check_row(where, row, [lane["lane"] for lane in lanes], files, schema_path)
        lanes.append(row)
    if not samples:
        raise Refused(f"{path}: there are no samples")
    return samples
