"""What the scripts about tibzharuk trim look at in files and processes.

    check.py names REPORT JSON     the command and the files that the report names are these
    check.py cutadapt OURS PLAIN   the report of cutadapt has the counts of another one, and the
                                   names of the lanes
    check.py memory COMMAND..      runs a command, and prints the kB of its largest process
"""

import json
import resource
import subprocess
import sys

LANES = {
    "path1": "data/xa1.gz data/xb1.gz",
    "path2": "data/xa2.gz data/xb2.gz",
    "paired": True,
}
COUNTS = ("read_counts", "basepair_counts", "adapters_read1", "adapters_read2")


def loaded(path):
    with open(path, encoding="utf-8") as file:
        return json.load(file)


def check_names(path, wanted):
    report = loaded(path)
    found = [report[field] for field in ("command", "inputs", "outputs")]
    assert found == json.loads(wanted), found


def check_cutadapt(path, plain_path):
    ours, plain = loaded(path), loaded(plain_path)
    assert ours["input"] == LANES, ours["input"]
    for field in COUNTS:
        assert ours[field] == plain[field], field


def memory(*command):
    status = subprocess.call(command)
    print(resource.getrusage(resource.RUSAGE_CHILDREN).ru_maxrss)
    sys.exit(status)


def main(what, *words):
    {"names": check_names, "cutadapt": check_cutadapt, "memory": memory}[what](*words)


main(*sys.argv[1:])
