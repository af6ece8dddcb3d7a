#!/usr/bin/env python3
"""Makes one page of the samples that are trimmed, with MultiQC, and names the others on it.

Reads the samples from standard input, one a line: its name, and behind tabs the names of its lanes
if each was trimmed by a job of its own. RESULTS/report.html and the directory RESULTS/report_data
are replaced when the new ones are complete.
"""

import argparse
import html
import json
import os
import re
import shutil
import subprocess
import sys
import tempfile
from pathlib import Path

HERE = Path(__file__).resolve().parent
PYTHON = HERE.parent.parent / "python"  # which has the module that MultiQC loads
sys.dont_write_bytecode = True
sys.path.insert(0, str(PYTHON))

from tibzharuk.multiqc.counts import MOST_NAMED  # noqa: E402
from tibzharuk.report.overview import last_line, overview, warnings_of  # noqa: E402
from tibzharuk.report.reading import Refused, read_report  # noqa: E402
from tibzharuk.report.settings import how_trimmed, with_taken  # noqa: E402

SECTION = """<!--
id: 'tibzharuk_run'
section_name: 'This run'
description: ''
plot_type: 'html'
-->
"""


# How lines of a log begin that don't say why a job failed.
NO_FAULTS = ("tibzharuk: warning: ", "tibzharuk: --adapters auto takes ")


def telling_line(path):
    """The last line of a log that may say why its job failed, or an empty text; None if there is no log.

    If the program doesn't know an argument, it prints several lines. The first, `error: ..`, says which.
    """
    telling = ""
    try:
        with open(path, encoding="utf-8", errors="replace") as lines:
            for line in lines:
                if not line.startswith(NO_FAULTS):
                    telling = line.strip() or telling
                if telling.startswith("error: "):
                    break
    except OSError:
        return None
    return telling


def why_stopped(log):
    """Why a job failed, as far as its log says; None if it has no log, because it was not started."""
    said = telling_line(log)
    return "stopped without a message; on Slurm see logs/slurm/" if said == "" else said


def why_failed(results, logs, sample, lanes):
    """Why a sample failed, with the names of its failed lanes; None if it was not started."""
    if not lanes:
        return why_stopped(logs / "trim" / f"{sample}.log")
    reasons = []
    for lane in lanes:
        why = why_stopped(logs / "trim" / sample / f"{sample}_{lane}.log")
        if why is not None and not (results / "lanes" / sample / f"{sample}_{lane}.json").is_file():
            reasons.append(f"lane {lane}: {why}")
    if not reasons:
        reasons = [why_stopped(logs / "trim" / sample / "join.log")]
    return None if reasons == [None] else "; ".join(reasons)


def files_of(sample, lanes):
    """The reports and the logs of the jobs that trimmed a sample, below the results and the logs, by what names the job."""
    if not lanes:
        return {"": (f"reports/{sample}.json", f"trim/{sample}.log")}
    return {f"lane {lane}: ": (f"lanes/{sample}/{sample}_{lane}.json", f"trim/{sample}/{sample}_{lane}.log") for lane in lanes}


def text_of(path):
    """What a file holds; nothing if it can't be read."""
    try:
        return path.read_text(encoding="utf-8", errors="replace")
    except OSError:
        return ""


def all_warnings(results, logs, trimmed):
    """What tibzharuk trim warned of, by the samples, with the names of the lanes if each had a job."""
    found = {}
    for sample, lanes in trimmed.items():
        for job, (report, log) in files_of(sample, lanes).items():
            for line in warnings_of(read_report(str(results / report)), text_of(logs / log)):
                found.setdefault(sample, []).append(f"{job}{line}")
    return found


def missing_samples(failed, not_started):
    """The samples that the page lacks, and why, for the top of the page."""
    parts = []
    if failed:
        parts.append(f'<div class="alert alert-danger"><strong>Failed: {len(failed)}.</strong> There are no trimmed reads of:<ul>')
        parts += [f"<li><strong>{html.escape(name)}</strong>: <samp>{html.escape(why)}</samp></li>" for name, why in failed.items()]
        parts.append("</ul></div>")
    if not_started:
        parts.append(f'<div class="alert alert-warning"><strong>Not started:</strong> {html.escape(", ".join(not_started))}</div>')
    return parts


def few_kept(reports):
    """The samples that kept less than half of their pairs, each with the number of its pairs and of the kept ones."""
    pairs = {sample: (report["pairs"]["input"], report["pairs"]["both_surviving"]) for sample, report in reports.items()}
    return {sample: (read, kept) for sample, (read, kept) in pairs.items() if 2 * kept < read}


def link(results, sample):
    """The name of a sample, as a link to its own page if that page exists and isn't older than the report."""
    name = html.escape(sample)
    page, report = (results / "reports" / f"{sample}.{kind}" for kind in ("html", "json"))
    if page.is_file() and page.stat().st_mtime >= report.stat().st_mtime:
        return f'<a href="reports/{name}.html">{name}</a>'
    return name


def warned(results, warnings):
    """The samples with warnings."""
    if not warnings:
        return []
    parts = [f'<div class="alert alert-warning"><strong>Warnings: {len(warnings)}.</strong><ul>']
    for sample, lines in warnings.items():
        parts += [f"<li>{link(results, sample)}: <samp>{html.escape(line)}</samp></li>" for line in lines]
    return parts + ["</ul></div>"]


def below_half(results, reports):
    """The samples that kept less than half of their pairs."""
    parts = []
    few = few_kept(reports)
    if few:
        parts.append(f'<div class="alert alert-danger"><strong>Less than half of the pairs kept: {len(few)}.</strong><ul>')
        for sample, (pairs, kept) in few.items():
            parts.append(f"<li><strong>{link(results, sample)}</strong>: {kept:,} of {pairs:,} pairs</li>")
        parts.append("</ul></div>")
    return parts


def settings_of(results, reports):
    """What the jobs wrote of the settings by which they trimmed the samples, with what `adapters: auto` took."""
    texts = {name: (results / "summaries" / f"{name}.settings").read_text(encoding="utf-8") for name in reports}
    return {name: with_taken(text, reports[name].get("adapters_auto")) for name, text in texts.items()}


def call(command, environment):
    """Returns what a command prints. If it fails, prints that and refuses."""
    try:
        done = subprocess.run(
            command, env=environment, stdout=subprocess.PIPE, stderr=subprocess.STDOUT, text=True, errors="replace"
        )
    except OSError as error:
        raise Refused(f"cannot run {command[0]}: {error.strerror}") from error
    if done.returncode != 0:
        print(done.stdout, file=sys.stderr, end="")
        raise Refused(f"{command[0]} ended with status {done.returncode}")
    return done.stdout


def cutadapt_logs(results, sample, lanes):
    """The logs of cutadapt for a sample or for its lanes, by the names that the page shows."""
    if lanes:
        return {f"{sample}_{lane}": results / "lanes" / sample / f"{sample}_{lane}.cutadapt.log" for lane in lanes}
    return {sample: results / "cutadapt" / f"{sample}.log"}


def put_cutadapt(results, trimmed, folder):
    """Copies cutadapt's logs into the directory, if there are any.

    MultiQC takes the last word of cutadapt's command as the sample's name.
    """
    for sample, lanes in trimmed.items():
        settings = results / "summaries" / f"{sample}.settings"
        for name, log in cutadapt_logs(results, sample, lanes).items():
            if lanes:
                settings = log.with_name(f"{name}.settings")
            if log.is_file() and log.stat().st_mtime >= settings.stat().st_mtime:
                text = log.read_text(encoding="utf-8", errors="replace")
                text = re.sub("^Command line parameters: .*$", f"Command line parameters: {name}", text, count=1, flags=re.MULTILINE)
                (folder / f"{name}_cutadapt.txt").write_text(text, encoding="utf-8")


def gather(results, trimmed, folder):
    """Copies what MultiQC reads into a directory. Returns the reports."""
    reports = {}
    for sample in trimmed:
        report = results / "reports" / f"{sample}.json"
        reports[sample] = read_report(str(report))
        shutil.copyfile(report, folder / f"{sample}.json")
    put_cutadapt(results, trimmed, folder)
    return reports


def plugin(room):
    """A directory by which MultiQC finds its plugin: what an installed package has beside its code."""
    data = room / "plugin" / "tibzharuk-0.dist-info"
    data.mkdir(parents=True)
    (data / "METADATA").write_text("Metadata-Version: 2.1\nName: tibzharuk\nVersion: 0\n", encoding="utf-8")
    shutil.copyfile(PYTHON / "tibzharuk" / "entry_points.txt", data / "entry_points.txt")
    return data.parent


def run_multiqc(room, top):
    """Has MultiQC make the page of what is in `room`/read in `room`/written, with this text above its tables."""
    config = room / "top.json"  # JSON is YAML, too
    # The plugin would name the samples with warnings too, and MultiQC draw a line for each log of cutadapt.
    said = {"report_comment": top, "tibzharuk_warnings": False}
    if len(list((room / "read").glob("*_cutadapt.txt"))) > MOST_NAMED:
        said["remove_sections"] = [f"cutadapt_trimmed_sequences{end}" for end in ("", "_5", "_3")]
    config.write_text(json.dumps(said), encoding="utf-8")
    paths = [str(plugin(room)), str(PYTHON), os.environ.get("PYTHONPATH", "")]
    environment = dict(os.environ, PYTHONPATH=os.pathsep.join(filter(None, paths)), PYTHONDONTWRITEBYTECODE="1")
    settings = ["--config", str(HERE.parent / "multiqc.yaml"), "--config", str(config)]
    said = call(["multiqc", "--force", *settings, "--filename", "report.html", "--outdir", str(room / "written"), str(room / "read")], environment)
    if not (room / "written" / "report.html").is_file():
        print(said, file=sys.stderr, end="")
        raise Refused("multiqc made no page")


def make_page(results, trimmed, warnings, failed, not_started):
    """Makes the page in a directory of its own, and moves it to its place at the end."""
    samples = len(trimmed) + len(failed) + len(not_started)
    said = [SECTION, f"<p><strong>{len(trimmed)} of {samples} samples</strong> are on this page.</p>"]
    results.mkdir(parents=True, exist_ok=True)
    with tempfile.TemporaryDirectory(prefix=".report.", dir=results) as name:
        room = Path(name)
        (room / "read").mkdir()
        reports = gather(results, trimmed, room / "read")
        said += how_trimmed(settings_of(results, reports))
        (room / "read" / "run_mqc.html").write_text("\n".join(said) + "\n", encoding="utf-8")
        top = missing_samples(failed, not_started) + warned(results, warnings) + below_half(results, reports)
        top += overview(reports, lambda sample: link(results, sample))
        run_multiqc(room, "\n".join(top))
        shutil.rmtree(results / "report_data", ignore_errors=True)
        for name in ("report_data", "report.html"):
            (room / "written" / name).replace(results / name)


def main():
    parser = argparse.ArgumentParser(description=__doc__, formatter_class=argparse.RawDescriptionHelpFormatter)
    parser.add_argument("--results", type=Path, required=True, help="the directory of the workflow's results")
    parser.add_argument("--logs", type=Path, required=True, help="the directory of the workflow's logs")
    words = parser.parse_args()
    samples = {name: lanes for name, *lanes in (line.split("\t") for line in sys.stdin.read().split("\n")[:-1])}
    parts = ("summaries/{}.summary", "summaries/{}.settings", "reports/{}.json")
    files = {name: [part.format(name) for part in parts] + [f"lanes/{name}/{name}_{lane}.json" for lane in lanes] for name, lanes in samples.items()}
    trimmed = {name: lanes for name, lanes in samples.items() if all((words.results / file).is_file() for file in files[name])}
    reasons = {name: why_failed(words.results, words.logs, name, lanes) for name, lanes in samples.items() if name not in trimmed}
    failed = {name: why for name, why in reasons.items() if why is not None}
    not_started = [name for name, why in reasons.items() if why is None]
    try:
        warnings = all_warnings(words.results, words.logs, trimmed)
        make_page(words.results, trimmed, warnings, failed, not_started)
    except (Refused, OSError) as why:
        print(f"page: {' '.join(str(why).split())}", file=sys.stderr)
        return 1
    for name, lines in warnings.items():
        for line in lines:
            print(f"warning: {name}: {line}", file=sys.stderr)
    for name, why in failed.items():
        print(f"failed: {name}: {why}", file=sys.stderr)
    print(f"{words.results / 'report.html'}: {last_line(len(trimmed), failed, not_started)}", file=sys.stderr)
    return 0


if __name__ == "__main__":
    sys.exit(main())
