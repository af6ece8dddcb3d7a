#!/usr/bin/env python3
"""Runs a command, and writes the most memory that it and all that it started had at one time.

    tree_memory.py FILE COMMAND..

FILE gets kilobytes: the proportional set sizes (PSS) of all its processes, looked at each 50 ms. The status is the command's.
"""

import os
import subprocess
import sys
import time


def below(pid):
    """The process and all that it started."""
    found, left = [], [pid]
    while left:
        each = left.pop()
        found.append(each)
        try:
            for task in os.listdir(f"/proc/{each}/task"):
                with open(f"/proc/{each}/task/{task}/children") as children:
                    left += children.read().split()
        except OSError:
            continue
    return found


def kilobytes(pid):
    """Its part of the memory, or 0 if it has ended."""
    try:
        with open(f"/proc/{pid}/smaps_rollup") as fields:
            return next(int(line.split()[1]) for line in fields if line.startswith("Pss:"))
    except (OSError, StopIteration):
        return 0


def main(name, *command):
    child = subprocess.Popen(command)
    most = 0
    while child.poll() is None:
        most = max(most, sum(kilobytes(pid) for pid in below(child.pid)))
        time.sleep(0.05)
    with open(name, "w") as file:
        print(most, file=file)
    return child.returncode


sys.exit(main(*sys.argv[1:]))
