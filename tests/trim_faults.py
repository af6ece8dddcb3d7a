#!/usr/bin/env python3
"""Random faults in runs of tibzharuk trim.

    trim_faults.py RUNS [--seed N] [--kind KIND] [--tell]

Each run has simulated pairs in one to three lanes or interleaved, in several forms of gzip files,
random compressors and options, and one fault: an input is cut or changed, one of its processes is
killed at a random moment, a small file system fills up, tibzharuk gets a signal, also as the first
process of a container, or a program is missing. After the run, either the status is 0 and each
output is that of the program over plain files, or the status is another one, a line says why, and
each output is as it was before. No child process and no hidden file is left, except for hidden
files after SIGKILL, and cutadapt for a moment then.

FQ_PROG names another build of the program. The status is 0 if nothing was wrong.
"""

import argparse
import collections
import os
import random
import shutil
import signal
import subprocess
import sys
import tempfile
import time
import zlib

TOP = os.path.dirname(os.path.dirname(os.path.abspath(__file__)))
SCRIPT = [os.path.join(TOP, "python", "tibzharuk", "__main__.py"), "trim"]
BUILT = os.path.join(TOP, "crates", "fq_prog", "out", "fq_prog")
PROGRAM = os.path.abspath(os.environ.get("FQ_PROG") or BUILT)
STEPS = ["LEADING:3", "TRAILING:3", "SLIDINGWINDOW:4:15", "MINLEN:36"]
ADAPTERS = ("AGATCGGAAGAGCACACGTCTGAACTCCAGTCA", "AGATCGGAAGAGCGTCGTGTAGGGAAAGAGTGT")
PAIRS = 20000
ROLES = {
    "paired1": ".fq",
    "unpaired1": ".fq",
    "paired2": ".fq",
    "unpaired2": ".fq",
    "trimlog": ".log",
    "summary": ".txt",
}
KINDS = {
    "none": 1,
    "cut": 3,
    "changed": 3,
    "between": 1,
    "both ends cut": 1,
    "killed": 4,
    "full": 2,
    "signal": 4,
    "process 1": 2,
    "SIGKILL": 1,
    "missing": 1,
}
TOOLS = ["env", "sh", "cat", "gzip", "bgzip", "pigz", "igzip", "cutadapt"]
# Those of a terminal and of the system, and those that batch systems send before they kill.
SIGNALS = [
    signal.SIGINT, signal.SIGTERM, signal.SIGHUP, signal.SIGQUIT, signal.SIGUSR1, signal.SIGUSR2,
    signal.SIGXCPU, signal.SIGALRM, signal.SIGVTALRM, signal.SIGPROF]
AS_FIRST = [shutil.which("unshare") or "unshare", "-m", "-p", "-f", "--mount-proc"]
WARNING = "tibzharuk: warning: "
MARK = "TRIM_FAULTS"


def run(words, data=b""):
    done = subprocess.run(words, input=data, stdout=subprocess.PIPE, stderr=subprocess.DEVNULL)
    return done.stdout


def succeeds(words):
    """Whether this program can be run and ends with 0."""
    try:
        done = subprocess.run(words, stdout=subprocess.DEVNULL, stderr=subprocess.DEVNULL)
    except OSError:
        return False
    return done.returncode == 0


def draw_pairs(chance):
    """The lines of both sides. A fifth of the reads end in an adapter."""
    sides = ([], [])
    for number in range(PAIRS):
        for side, lines in enumerate(sides):
            bases = "".join(chance.choices("ACGT", k=100))
            if number % 5 == side:
                bases = (bases[:chance.randrange(20, 95)] + ADAPTERS[side] + bases)[:100]
            low = chance.randrange(100)
            scores = "I" * low + "".join(chance.choices("!#5?I", k=100 - low))
            lines.append(f"@r{number}/{side + 1}\n{bases}\n+\n{scores}\n".encode())
    return sides


def pack(text, chance):
    """The text in one of several forms of a gzip file."""
    forms = ["bgzip", "-c", "-l", "1"], ["igzip", "-c", "-1"], ["gzip", "-1"]
    here = [words for words in forms if shutil.which(words[0])]
    place = chance.randrange(len(text)) if chance.random() < 0.4 else len(text)
    return b"".join(run(chance.choice(here), part) for part in (text[:place], text[place:]) if part)


def unpack(blob):
    """The text by the letter of RFC 1952, or None if it is damaged."""
    parts = []
    while blob:
        if len(blob) < 18 or blob[3] & 0xE0:
            return None
        member = zlib.decompressobj(31)
        try:
            parts.append(member.decompress(blob))
        except zlib.error:
            return None
        if not member.eof:
            return None
        blob = member.unused_data
    return b"".join(parts) if parts else None


def children_of(pid):
    """The processes that this one started."""
    try:
        with open(f"/proc/{pid}/task/{pid}/children") as children:
            return [int(word) for word in children.read().split()]
    except OSError:
        return []


def below(pid):
    """All processes that this one started, and those that they did."""
    found, left = [], [pid]
    while left:
        kids = children_of(left.pop())
        found += kids
        left += kids
    return found


def marked(mark):
    """The processes that were started by the run of this mark."""
    found = []
    for name in os.listdir("/proc"):
        if name.isdigit():
            try:
                with open(f"/proc/{name}/environ", "rb") as file:
                    if mark.encode() in file.read().split(b"\0"):
                        found.append(int(name))
            except OSError:
                pass
    return found


def catches(pid, number):
    """Whether the process has a handler of its own for the signal."""
    try:
        lines = read(f"/proc/{pid}/status").split(b"\n")
    except OSError:
        return False
    caught = [line for line in lines if line.startswith(b"SigCgt:")]
    return bool(caught) and int(caught[0].split()[1], 16) >> (number - 1) & 1 == 1


class Lab:
    """The directory of all runs: simulated pairs, tools, and what the program makes of plain
    files."""

    def __init__(self, seed):
        self.chance = random.Random(seed)
        memory = "/dev/shm" if os.access("/dev/shm", os.W_OK) else None
        self.folder = tempfile.mkdtemp(prefix="trim_faults.", dir=memory)
        for name in ("in", "bin", "small", "plain"):
            os.mkdir(self.path(name))
        self.sides = draw_pairs(self.chance)
        self.known = {}
        for tool in TOOLS:
            self.put_tool(tool)
        os.symlink(sys.executable, self.path("bin", "python3"))
        self.has_cutadapt = shutil.which("cutadapt") is not None
        self.lacks = set()      # kinds that can't be tried here
        if not (os.geteuid() == 0 and self.mount("16k") and self.unmount()):
            self.lacks.add("full")
        if not succeeds(AS_FIRST + ["true"]):
            self.lacks.add("process 1")

    def path(self, *names):
        return os.path.join(self.folder, *names)

    def put_tool(self, tool):
        place = shutil.which(tool)
        if place:
            os.symlink(place, self.path("bin", tool))

    def mount(self, size):
        options = ["-t", "tmpfs", "-o", f"size={size}", "tmpfs"]
        return succeeds(["mount"] + options + [self.path("small")])

    def unmount(self):
        return succeeds(["umount", self.path("small")])

    def plain(self, texts, has_adapters):
        """What cutadapt and the program make of plain texts, by roles; None if one of them
        refuses."""
        key = tuple(zlib.crc32(text) for text in texts) + (has_adapters,)
        if key not in self.known:
            self.known[key] = self.make_plain(texts, has_adapters)
        return self.known[key]

    def make_plain(self, texts, has_adapters):
        folder = self.path("plain")
        inputs = []
        for number, text in enumerate(texts):
            inputs.append(os.path.join(folder, f"{number}.fq"))
            with open(inputs[-1], "wb") as file:
                file.write(text)
        if has_adapters:
            interleaved = os.path.join(folder, "il.fq")
            words = ["cutadapt", "--interleaved", "-a", ADAPTERS[0], "-A", ADAPTERS[1]]
            if not succeeds(words + ["-o", interleaved] + inputs):
                return None
            inputs = [interleaved]
        names = {role: os.path.join(folder, role) for role in ROLES}
        words = [PROGRAM, "IL" if len(inputs) == 1 else "PE", "--trimlog", names["trimlog"], "--"]
        words += inputs + [names[role] for role in list(ROLES)[:4]] + STEPS
        done = subprocess.run(words, stdout=subprocess.PIPE, stderr=subprocess.DEVNULL)
        with open(names["summary"], "wb") as file:
            file.write(done.stdout)
        if done.returncode != 0:
            return None
        return {role: read(name) for role, name in names.items()}


def read(name):
    with open(name, "rb") as file:
        return file.read()


class Case:
    """One run with a fault."""

    def __init__(self, lab, kind, number):
        chance = self.chance = lab.chance
        self.lab, self.kind, self.detail = lab, kind, ""
        self.mark = f"{MARK}={os.getpid()}.{number}"
        self.has_adapters = lab.has_cutadapt and chance.random() < 0.35
        self.is_interleaved = chance.random() < 0.2
        self.texts = self.lanes(chance.choice([1, 1, 1, 2, 3]))
        self.blobs = [[pack(text, chance) for text in side] for side in self.texts]
        self.program, self.gone = PROGRAM, None
        self.status, self.problems = None, []
        self.names, self.olds = {}, {}
        self.is_early = False   # a signal came before tibzharuk had started anything

    def lanes(self, count):
        """The texts of each side, by lanes."""
        ends = [0] + sorted(self.chance.sample(range(1, PAIRS), count - 1)) + [PAIRS]
        forward, reverse = self.lab.sides
        if self.is_interleaved:
            interleaved = [line for pair in zip(forward, reverse) for line in pair]
            return [[b"".join(interleaved[2 * ends[k]:2 * ends[k + 1]]) for k in range(count)]]
        return [[b"".join(side[ends[k]:ends[k + 1]]) for k in range(count)]
                for side in (forward, reverse)]

    # Before the run.

    def damage(self):
        """Damages one input, as the kind says."""
        chance = self.chance
        side = chance.choice(self.blobs)
        lane = chance.randrange(len(side))
        blob = bytearray(side[lane])
        place = chance.choice([
            chance.randrange(len(blob)), len(blob) - chance.randrange(1, 30),
            chance.randrange(1, 30)])
        if self.kind == "cut":
            side[lane] = bytes(blob[:place])
        elif self.kind == "changed":
            blob[place] = (blob[place] + chance.randrange(1, 256)) % 256
            side[lane] = bytes(blob)
        elif self.kind == "both ends cut":
            for side in self.blobs:
                side[-1] = side[-1][:-chance.randrange(1, 12)]
        elif self.kind == "between":
            text = self.texts[self.blobs.index(side)][lane]
            place = chance.randrange(1, len(text))
            odd = chance.choice([b"x", bytes(600), b"\n", b"garbage" * 1000, b"\x1f\x8b\x08"])
            rest = chance.choice([run(["gzip", "-1"], text[place:]), b""])
            side[lane] = run(["gzip", "-1"], text[:place]) + odd + rest
        self.detail = f"{place} of {len(blob)}"

    def inputs(self):
        words = []
        for side, blobs in enumerate(self.blobs):
            for lane, blob in enumerate(blobs):
                name = self.lab.path("in", f"{side}.{lane}.fq.gz")
                with open(name, "wb") as file:
                    file.write(blob)
                words += ["-i" if self.is_interleaved else f"-{side + 1}", name]
        return words

    def outputs(self):
        """Options for the outputs, some of which are there already."""
        chance, out = self.chance, self.lab.path("out")
        shutil.rmtree(out, ignore_errors=True)
        os.mkdir(out)
        full = []
        if self.kind == "full":
            full = chance.sample(list(ROLES), chance.choice([1, 2, len(ROLES)]))
        words = []
        for role, ending in ROLES.items():
            folder = self.lab.path("small") if role in full else out
            name = os.path.join(folder, role + ending + chance.choice([".gz", ".gz", ".gz", ""]))
            self.names[role] = name
            words += [f"--{role}", name]
            if chance.random() < 0.3:
                self.put_older(name)
        return words

    def put_older(self, name):
        try:
            with open(name, "wb") as file:
                file.write(b"earlier")
            self.olds[name] = b"earlier"
        except OSError:
            os.unlink(name)

    def options(self):
        chance = self.chance
        here = [name for name in ("bgzip", "igzip", "pigz", "gzip") if shutil.which(name)]
        words = ["--compressor", chance.choice(["auto"] * 2 + here)]
        words += ["--decompressor", chance.choice(["auto", "auto", "gzip"])]
        words += ["--threads", str(chance.randrange(1, 6))] if chance.random() < 0.5 else []
        words += ["--level", str(chance.choice([1, 1, 2, 4, 6]))] if chance.random() < 0.5 else []
        words += ["--adapters", ",".join(ADAPTERS)] if self.has_adapters else []
        return words

    # The run.

    def go(self):
        lab, chance = self.lab, self.chance
        if self.kind == "full":
            size = chance.choice([4, 64, 200, 400, 700, 1000, 1500, 2000, 3000])
            lab.mount(f"{size}k")
        if self.kind in ("cut", "changed", "both ends cut", "between"):
            self.damage()
        words = self.inputs() + self.outputs() + self.options()
        if self.kind == "missing":
            here = [tool for tool in TOOLS[1:] if shutil.which(tool)]
            self.gone = self.detail = chance.choice(["fq_prog"] + here)
            if self.gone == "fq_prog":
                self.program = "/nowhere/fq_prog"
            else:
                os.unlink(lab.path("bin", self.gone))
        environment = dict(os.environ, PATH=lab.path("bin"))
        environment.update([self.mark.split("=")])
        words = [sys.executable] + SCRIPT + words + ["--program", self.program, "--"] + STEPS
        words = AS_FIRST + words if self.kind == "process 1" else words
        with open(lab.path("told"), "wb") as told, open(lab.path("printed"), "wb") as printed:
            child = subprocess.Popen(
                words, env=environment, stdin=subprocess.DEVNULL, stdout=printed, stderr=told,
                start_new_session=True)
        self.interfere(child)
        self.wait(child)
        if self.gone and self.gone != "fq_prog":
            lab.put_tool(self.gone)

    def pid_of_run(self, child, until):
        """The process of tibzharuk: the child, or the first process that unshare starts."""
        while self.kind == "process 1" and child.poll() is None and time.monotonic() < until:
            kids = children_of(child.pid)
            if kids:
                return kids[0]
            time.sleep(0.002)
        return child.pid

    def interfere(self, child):
        """Sends a signal at a random moment."""
        if self.kind not in ("killed", "signal", "process 1", "SIGKILL"):
            return
        chance = self.chance
        until = time.monotonic() + 10
        victim = pid = self.pid_of_run(child, until)
        if chance.random() < 0.7:  # when all children are there, or else at any moment
            while child.poll() is None and len(below(pid)) < 6 and time.monotonic() < until:
                time.sleep(0.002)
        delay = chance.random() * chance.choice([0.01, 0.1, 0.5, 1.5])
        number = signal.SIGKILL
        if self.kind in ("signal", "process 1"):
            number = chance.choice(SIGNALS)
        # A Ctrl-C while Python starts ends it with a traceback of its own library.
        while number == signal.SIGINT and not catches(pid, signal.SIGTERM):
            if child.poll() is not None or time.monotonic() > until:
                break
            time.sleep(0.002)
        time.sleep(delay)
        if self.kind == "killed":
            several = [signal.SIGKILL] * 3 + [signal.SIGTERM, signal.SIGPIPE, signal.SIGABRT]
            number = chance.choice(several)
            victim = chance.choice(below(pid) or [0])
        if victim and child.poll() is None:
            self.is_early = not below(pid)
            self.send(victim, number)

    def send(self, victim, number):
        try:
            self.detail = f"{read(f'/proc/{victim}/comm').decode().strip()} by {number.name}"
            os.kill(victim, number)
        except OSError:
            self.detail = "too late"

    def wait(self, child):
        try:
            self.status = child.wait(90)
        except subprocess.TimeoutExpired:
            self.problems.append("it hangs")
            os.kill(child.pid, signal.SIGKILL)
            self.status = child.wait()
        # cutadapt ends when its inputs do. The system kills the others at once.
        seconds = 0 if self.kind != "SIGKILL" else 20 if self.has_adapters else 2
        until = time.monotonic() + seconds
        while marked(self.mark) and time.monotonic() < until:
            time.sleep(0.05)
        left = marked(self.mark)
        if left:
            self.problems.append(f"{len(left)} processes are left")
        for pid in left:
            try:
                os.kill(pid, signal.SIGKILL)
            except OSError:
                pass

    # After the run.

    def there(self):
        """All files in the directories of outputs."""
        folders = [self.lab.path("out")]
        folders += [self.lab.path("small")] if self.kind == "full" else []
        names = [os.path.join(folder, name) for folder in folders for name in os.listdir(folder)]
        return {name: read(name) for name in names}

    def judge(self):
        there, told = self.there(), self.told()
        is_killed = self.kind == "SIGKILL" and self.status == -signal.SIGKILL
        hidden = [name for name in there if os.path.basename(name).startswith(".")]
        if hidden and not is_killed:
            self.problems.append(f"hidden: {hidden}")
        for name in hidden if is_killed else []:
            del there[name]
        if self.status == 0:
            self.judge_whole(there, told)
        elif is_killed:
            self.judge_killed(there)
        else:
            self.judge_none(there, told)
        if self.kind == "full":
            self.lab.unmount()

    def wanted(self):
        """The outputs that are right, by roles: of the simulated texts, and of the inputs as they
        are if they can be read."""
        yield self.lab.plain([b"".join(side) for side in self.texts], self.has_adapters)
        read_back = [[unpack(blob) for blob in side] for side in self.blobs]
        if all(text is not None for side in read_back for text in side):
            yield self.lab.plain([b"".join(side) for side in read_back], self.has_adapters)

    def text_of(self, there, role):
        data = there.get(self.names[role])
        return unpack(data) if data and self.names[role].endswith(".gz") else data

    def judge_whole(self, there, told):
        got = {role: self.text_of(there, role) for role in ROLES}
        if not any(got == wanted for wanted in self.wanted()):
            missing = [role for role in ROLES if got[role] is None]
            self.problems.append(f"status 0, but other outputs: {missing} are missing")
        if read(self.lab.path("printed")) != got["summary"]:
            self.problems.append("another summary was printed")
        if any(not line.startswith(WARNING) for line in told.splitlines()):
            self.problems.append("something was said at status 0")
        # The reads hold adapters, so a run that names none is told so.
        warnings = [line for line in told.splitlines() if "hold an adapter" not in line]
        if warnings and self.kind not in ("cut", "changed", "between", "both ends cut"):
            self.problems.append("a warning of good inputs")

    def judge_killed(self, there):
        """A kill in the middle of naming leaves some names old. Each file is whole, or as it
        was."""
        wanted = next(self.wanted())
        for role, name in self.names.items():
            if there.get(name) != self.olds.get(name) and self.text_of(there, role) != wanted[role]:
                self.problems.append(f"{role} isn't whole")

    def judge_none(self, there, told):
        if there != self.olds:
            self.problems.append(f"there are {sorted(there)}, before {sorted(self.olds)}")
        lines = [line for line in told.splitlines() if not line.startswith(WARNING)]
        if not lines and not self.is_early:
            self.problems.append("nothing was said")
        if "Traceback" in told or len(lines) > 1 and self.status != 1:
            self.problems.append("more than a line was said")
        if "/dev/fd/" in told or ".tibzharuk." in told:
            self.problems.append("a name that isn't the user's was said")
        if os.path.getsize(self.lab.path("printed")):
            self.problems.append("a summary was printed")
        if self.kind == "none":
            self.problems.append("a good run fails")
        if self.kind in ("cut", "both ends cut", "between") and self.status != 3:
            self.problems.append("the status is not 3")

    def told(self):
        return read(self.lab.path("told")).decode("utf-8", "replace").strip()

    def line(self):
        adapters = ", adapters" if self.has_adapters else ""
        return f"{self.kind}, {self.detail}{adapters}: status {self.status}, {self.told()[:200]}"


def main():
    parser = argparse.ArgumentParser(
        description=__doc__, formatter_class=argparse.RawDescriptionHelpFormatter)
    parser.add_argument("runs", type=int)
    parser.add_argument("--seed", type=int, default=int(time.time()))
    parser.add_argument("--kind", choices=list(KINDS))
    parser.add_argument("--tell", action="store_true", help="a line for each run")
    asked = parser.parse_args()
    signal.signal(signal.SIGTERM, lambda *_: sys.exit(143))  # the folder is removed then, too
    lab = Lab(asked.seed)
    table, wrong = collections.Counter(), 0
    kinds = [kind for kind in KINDS if kind not in lab.lacks]
    for kind in lab.lacks:
        print(f"trim_faults: skipped: {kind}: it is refused here")
    try:
        for number in range(asked.runs):
            kind = asked.kind or lab.chance.choices(kinds, [KINDS[kind] for kind in kinds])[0]
            case = Case(lab, kind, number)
            case.go()
            case.judge()
            table[kind, "whole" if case.status == 0 else "none"] += 1
            if case.problems:
                wrong += 1
                what = f"{'; '.join(case.problems)} ({case.line()})"
                print(f"WRONG in run {number} of seed {asked.seed}: {what}", flush=True)
            elif asked.tell:
                print(f"{number}: {case.line()}", flush=True)
            if number % 100 == 99 and number + 1 < asked.runs:
                print(f"{number + 1} runs, {wrong} wrong", flush=True)
    finally:
        lab.unmount()
        shutil.rmtree(lab.folder, ignore_errors=True)
    for kind in kinds:
        print(f"{kind}: {table[kind, 'whole']} whole, {table[kind, 'none']} none")
    print(f"{asked.runs} runs of seed {asked.seed}, {wrong} wrong")
    return 1 if wrong else 0


if __name__ == "__main__":
    sys.exit(main())
