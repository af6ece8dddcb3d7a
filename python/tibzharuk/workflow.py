"""Prepares a directory for the workflow, which trims many samples.

    tibzharuk workflow lab

DIRECTORY, which is made if it isn't there, gets config/config.yaml and
config/samples.tsv: the settings, and an example of the table of the samples.
Then the calls are printed by which the table is made of your reads and the
samples are trimmed, on this machine or on a Slurm cluster. Snakemake runs the
workflow where it was installed, beside this command, so a laboratory may have
many such directories.

If one of the files is there already, or if the workflow isn't installed, no
file is written, one line on standard error says so, and the status is 1.
Unknown arguments end with status 2.
"""

import argparse
import os
import shlex
import shutil
import sys
from typing import List, Sequence

FILES = ("config.yaml", "samples.tsv")
# What holds workflow/, config/ and profiles/, seen from this file or from where it was installed.
ROOT = os.path.dirname(os.path.dirname(os.path.dirname(os.path.realpath(__file__))))


def next_steps(root: str, folder: str) -> str:
    """What a user does next in a directory with config/, with the workflow below `root`."""
    snakefile, profile = (
        shlex.quote(os.path.join(root, *parts))
        for parts in (("workflow", "Snakefile"), ("profiles", "local"))
    )
    call = f"snakemake --snakefile {snakefile} --profile {profile}"
    return f"""Now make the table of your reads, and look at config/config.yaml:

    cd {shlex.quote(folder)}
    tibzharuk samples READS > samples.tsv && mv samples.tsv config/

Then see what would be done, and do it. On a Slurm cluster the profile is slurm:

    {call} -n
    {call}

{os.path.join(root, "workflow", "README.md")} says more.
"""


def what_hinders(root: str, folder: str) -> List[str]:
    """Why the files can't be copied; nothing if they can."""
    missing = [name for name in FILES if not os.path.isfile(os.path.join(root, "config", name))]
    if missing or not os.path.isfile(os.path.join(root, "workflow", "Snakefile")):
        return [f"the workflow isn't below {root}, where it would be installed"]
    there = [os.path.join(folder, "config", name) for name in FILES]
    return [f"{path} is there already" for path in there if os.path.lexists(path)]


def main(words: Sequence[str]) -> int:
    """Returns the status."""
    parser = argparse.ArgumentParser(
        prog="tibzharuk workflow", description=__doc__,
        formatter_class=argparse.RawDescriptionHelpFormatter
    )
    parser.add_argument("folder", metavar="DIRECTORY", help="where you will run Snakemake")
    folder: str = parser.parse_args(words).folder
    hindrances = what_hinders(ROOT, folder)
    if hindrances:
        print(f"{parser.prog}: {hindrances[0]}", file=sys.stderr)
        return 1
    try:
        os.makedirs(os.path.join(folder, "config"), exist_ok=True)
        for name in FILES:
            to = os.path.join(folder, "config", name)
            shutil.copyfile(os.path.join(ROOT, "config", name), to)
    except OSError as error:
        name = error.filename2 or error.filename
        print(f"{parser.prog}: cannot write {name}: {error.strerror}", file=sys.stderr)
        return 1
    print(next_steps(ROOT, folder), end="")
    return 0
