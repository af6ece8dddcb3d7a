# The settings, the samples, and the names of what is made of them.
import re
import shlex
import subprocess
import sys
from pathlib import Path
from types import SimpleNamespace

from snakemake.exceptions import WorkflowError
from snakemake.logging import logger

# Seen from this file, since `workflow.basedir` is that of a workflow which imports this one.
HERE = Path(str(workflow.current_basedir)).parent
sys.path.insert(0, str(HERE / "scripts"))
import console
from tables import Refused, check_adapters, check_settings, read_samples, try_settings
from tibzharuk.report.settings import settings_lines

# What Snakemake starts for a job, such as on a node, reads this file too.
IS_FOR_A_JOB = "--target-jobs" in sys.argv
# Another workflow that imports this one prints as it likes.
if Path(str(workflow.basedir)) == HERE and not IS_FOR_A_JOB:
    console.install(logger)

TIBZHARUK = str(HERE.parent / "python" / "tibzharuk" / "__main__.py")


def quoted(words):
    """Words as the shell takes them back."""
    return " ".join(shlex.quote(word) for word in words)


# `adapters:` with nothing after it, or no such line, is the same as "".
config["adapters"] = config.get("adapters") or ""

# No such line, an empty one, `off` and `none` are the same: one job trims all lanes of a sample.
config["scatter"] = config.get("scatter") or "none"

config.setdefault("trim_logs", False)

try:
    check_settings(config, HERE / "schemas" / "config.schema.yaml")
    SAMPLES = read_samples(config["samples"], HERE / "schemas" / "samples.schema.yaml")
    ADAPTER_FILE = check_adapters(config["adapters"], config["scatter"])
    OPTIONS = shlex.split(config["options"])
    if not IS_FOR_A_JOB:
        try_settings(TIBZHARUK, config, OPTIONS)
except Refused as why:
    raise WorkflowError(str(why))
except ValueError as why:
    raise WorkflowError(f"settings: options: {why}")

# The samples whose lanes are trimmed by a job each, with the names of the lanes.
SCATTERED = {
    sample: [lane["lane"] for lane in lanes] for sample, lanes in SAMPLES.items() if config["scatter"] == "lanes" and len(lanes) > 1
}

ADAPTERS = config["adapters"]
# What rules use and what doesn't change the trimmed reads. Snakemake runs a job again if one of its parameters changes, but
# it compares only texts, numbers and lists. So a rule that has this object as a parameter isn't run again if it changes.
SETUP = SimpleNamespace(
    program=config["program"],
    settings=quoted(settings_lines(config["steps"], config["options"], ADAPTERS)),
    trim_logs=config["trim_logs"],
    tibzharuk=TIBZHARUK,
)
RESULTS = config["results"]
READS = [(read, kind) for read in ("r1", "r2") for kind in ("paired", "unpaired")]
TRIMMED = f"{RESULTS}/trimmed/{{sample}}.{{read}}.{{kind}}.fastq.gz"
SUMMARY = f"{RESULTS}/summaries/{{sample}}.summary"
REPORT = f"{RESULTS}/reports/{{sample}}.json"
SAMPLE_PAGE = f"{RESULTS}/reports/{{sample}}.html"
SETTINGS = f"{RESULTS}/summaries/{{sample}}.settings"
CUTADAPT = f"{RESULTS}/cutadapt/{{sample}}"
TRIM_LOG = f"{RESULTS}/trim_logs/{{sample}}.log.gz"
# How the names of what is made of a lane begin. The sample is there twice, so that no two lanes have the same name.
LANE = f"{RESULTS}/lanes/{{sample}}/{{sample}}_{{lane}}"


def one_of(names):
    """What a wildcard may be: one of these names."""
    return "|".join(map(re.escape, names)) or "(?!)"


wildcard_constraints:
    sample="[A-Za-z0-9][A-Za-z0-9_.-]*",
    lane="[A-Za-z0-9][A-Za-z0-9_.-]*",
    read="r1|r2",
    kind="paired|unpaired",


def lanes(column):
    """A function that returns the files of one side of a sample, lane by lane."""
    return lambda wildcards: [lane[column] for lane in SAMPLES[wildcards.sample]]


def lane(column):
    """A function that returns the file of one side of a lane, in a list."""
    return lambda wildcards: [row[column] for row in SAMPLES[wildcards.sample] if row["lane"] == wildcards.lane]


def parts(ending):
    """A function that returns what is made of each lane of a sample, in their order."""
    return lambda wildcards: [f"{LANE}{ending}".format(sample=wildcards.sample, lane=name) for name in SCATTERED.get(wildcards.sample, [])]


def inputs_as_options(wildcards, input):
    """The lanes as tibzharuk trim takes them: -1 FILE for each forward file, -2 FILE for each reverse one."""
    return quoted(word for flag, files in (("-1", input.r1), ("-2", input.r2)) for name in files for word in (flag, name))


def lanes_as_options(wildcards, input):
    """The lanes as tibzharuk page takes them: --lane NAME REPORT for each."""
    return quoted(word for name, report in zip(SCATTERED.get(wildcards.sample, []), input.lanes) for word in ("--lane", name, report))


def make_page():
    """Makes the page of all samples. Returns whether it is made."""
    command = [sys.executable, str(HERE / "scripts" / "page.py"), "--results", RESULTS, "--logs", "logs"]
    names = "".join("\t".join([sample, *SCATTERED.get(sample, [])]) + "\n" for sample in SAMPLES)
    return subprocess.run(command, input=names, text=True).returncode == 0
