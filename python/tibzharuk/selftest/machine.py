"""The machine, the programs, and their versions."""

import datetime
import os
import platform
import re
import subprocess
from typing import Dict, List

from .. import VERSION
from ..command import PROGRAM, kit_of
from ..trim.checksums import sha256_of
from ..trim.tools import processors, version_in, which
from .checks import Check
from .runs import PACKAGE

GROUP = "Installation"
RELEASE = "the program that runs is the one that was released"
ONE = "the command and the program are of one version"
SUM_FILE = os.path.join(PACKAGE, f"{PROGRAM}.sha256")   # made by packaging/install.sh
TOOLS = ("bgzip", "gzip", "cutadapt")
NOT_NOTED = "none: it wasn't installed by a package or by make install"
MISSING = "not installed"
SECONDS = 30


def printed(path: str, *words: str) -> str:
    """What a program prints, or nothing."""
    try:
        done = subprocess.run([path, *words], stdin=subprocess.DEVNULL, stdout=subprocess.PIPE,
                              stderr=subprocess.STDOUT, timeout=SECONDS)
        return done.stdout.decode("utf-8", "replace")
    except (OSError, subprocess.SubprocessError):
        return ""


def version_of(name: str) -> str:
    """The version of a program on the search path."""
    path = which(name)
    return version_in(printed(path, "--version")) or "unknown" if path else MISSING


def field(path: str, pattern: str) -> str:
    """What a line of a system's file says, or nothing."""
    try:
        with open(path, encoding="utf-8", errors="replace") as file:
            found = re.search(pattern, file.read(), re.MULTILINE)
    except OSError:
        return ""
    return found.group(1).strip('"') if found else ""


def user() -> str:
    import pwd
    try:
        return pwd.getpwuid(os.getuid()).pw_name
    except KeyError:
        return str(os.getuid())


def machine() -> Dict[str, str]:
    """Where this runs, and who runs it."""
    system = os.uname()
    now = datetime.datetime.now(datetime.timezone.utc)
    memory = int(field("/proc/meminfo", r"^MemTotal: *(\d+)") or 0) // 1024
    model = field("/proc/cpuinfo", "^model name[^:]*: (.*)$") or "unknown"
    return {
        "date": now.strftime("%Y-%m-%d %H:%M UTC"),
        "machine": system.nodename,
        "system": field("/etc/os-release", "^PRETTY_NAME=(.*)$") or "unknown",
        "kernel": f"{system.sysname} {system.release} {system.machine}",
        "processors": f"{processors()} ({model})",
        "memory": f"{memory} MB",
        "run by": user(),
    }


class Installed:
    """The installed programs."""

    def __init__(self) -> None:
        self.program = which(PROGRAM)
        self.sum = sha256_of(self.program) if self.program else ""
        self.noted = field(SUM_FILE, r"^([0-9a-f]{64}) ")
        self.version = version_of(PROGRAM)
        self.kit = kit_of(self.program).strip() if self.program else ""

    def programs(self) -> Dict[str, str]:
        """The versions, as the record shows them."""
        return {
            "tibzharuk": VERSION,
            PROGRAM: self.version,
            f"SHA-256 of {PROGRAM}": self.sum or MISSING,
            f"SHA-256 of the release's {PROGRAM}": self.noted or NOT_NOTED,
            "proved and built with": " ".join(self.kit.split("\n")) or "not noted",
            **{name: version_of(name) for name in TOOLS},
            "Python": platform.python_version(),
            "command": os.path.join(PACKAGE, "__main__.py"),
            "program": self.program or MISSING,
        }

    def checks(self) -> List[Check]:
        noted = self.noted or NOT_NOTED
        return [
            Check(GROUP, f"the SHA-256 of {PROGRAM}", RELEASE, [noted], [self.sum or MISSING]),
            Check(GROUP, "the versions of the command and of the program", ONE,
                  [f"{PROGRAM} {VERSION}"], [f"{PROGRAM} {self.version}"]),
        ]
