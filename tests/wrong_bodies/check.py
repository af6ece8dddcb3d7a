#!/usr/bin/env python3
"""Checks the wrong bodies of every crate without a proof. Run it in the root of the repository.

Each edit in must-fail/ and wrong-bodies.edits still applies: its file exists, each text after 'old:'
is in the file once, and something changes. No name is given twice in a crate. Each public function of
a crate with wrong bodies has a row in guards.tsv beside this script, and each operation has an edit,
which the gate or `make deep` tries. Each row of survivors.tsv names a file, and says why it is right.
"""
import os
import re
import sys
from pathlib import Path

KINDS = ("operation", "value", "law")


def edits_of_gate(crate):
    """The edits that the gate tries, (name, lines)."""
    for path in sorted(crate.glob("must-fail/*.edit")):
        yield path.stem, path.read_text(encoding="utf-8").splitlines()


def edits_beside_gate(crate):
    """The edits that `make deep` tries, (name, lines). Those of a file stand after its line 'file: NAME',
    each after 'edit: NAME', up to a blank line."""
    path = crate / "wrong-bodies.edits"
    for group in path.read_text(encoding="utf-8").split("\n\n") if path.is_file() else ():
        file, *edits = re.split(r"\n(?=edit: )", group)
        for edit in edits:
            head, *lines = edit.splitlines()
            yield head.removeprefix("edit: "), [file, *lines]


def fault_of(lines, crate):
    """What is wrong with an edit, or None."""
    texts, path, old, changed = {}, None, None, False
    for line in lines:
        word, _, text = line.partition(": ")
        if word == "file":
            path = crate / text
            if not path.is_file():
                return f"{text} is not there"
            texts.setdefault(path, path.read_text(encoding="utf-8"))
        elif word == "old":
            old = text
            if path is None:
                return "no file is named before 'old:'"
            if texts[path].count(old) != 1:
                return f"{path.name} has {texts[path].count(old)} times: {old.strip()}"
        elif word == "new":
            if old is None:
                return "a 'new:' has no 'old:'"
            changed = changed or old != text
            texts[path], old = texts[path].replace(old, text), None
    if old is not None:
        return "the last 'old:' has no 'new:'"
    return None if changed else "nothing changes"


def public_functions(crate):
    """The public functions of a crate, methods as Type::name. Those of tests are left out."""
    found = set()
    for path in sorted((crate / "src").rglob("*.rt")):
        if "tests" in path.relative_to(crate).with_suffix("").parts:
            continue
        owner = None
        for line in path.read_text(encoding="utf-8").splitlines():
            block = re.match(r"impl\b(?:<.*?>)? *(.*)", line)
            if block:
                owner = re.search(r"[A-Z]\w*", block[1].split(" for ")[-1])[0]
            elif line.startswith("}"):
                owner = None
            function = re.match(r"( *)pub fn (\w+)", line)
            if function:
                found.add(f"{owner}::{function[2]}" if function[1] and owner else function[2])
    return found


def guards(path):
    """The rows of guards.tsv, (crate, function) to (kind, edit)."""
    rows = {}
    for line in path.read_text(encoding="utf-8").splitlines():
        if not line.startswith("#"):
            crate, function, kind, edit = line.split("\t")
            rows[crate, function] = (kind, edit)
    return rows


def faults_of_guards(crates, names, rows):
    public = {(crate.name, function) for crate in crates for function in public_functions(crate)}
    for crate, function in sorted(public - set(rows)):
        yield f"{crate}: {function} is public and has no row in guards.tsv"
    for (crate, function), (kind, edit) in sorted(rows.items()):
        at = (crate, edit) in names
        if (crate, function) not in public:
            yield f"guards.tsv: {crate} has no public function {function}"
        elif kind not in KINDS:
            yield f"guards.tsv: {function} of {crate} is of no kind {kind}"
        elif edit != "-" and not at:
            yield f"guards.tsv: {crate} has no edit {edit}"
        elif kind == "operation" and not at:
            yield f"guards.tsv: {function} of {crate} has no edit"


def faults_of_survivors(path):
    """Rows of survivors.tsv that aren't a crate, what rt plant prints, and a reason; or whose file is gone."""
    for line in path.read_text(encoding="utf-8").splitlines():
        if not line.startswith("#"):
            parts = line.split("\t")
            if len(parts) != 3 or not all(parts) or not Path("crates", parts[0], parts[1].split()[0]).is_file():
                yield f"survivors.tsv: no reason, or no such file: {line}"


def main():
    here = Path(__file__).resolve().parent
    crates = sorted({path.parent.parent for path in Path("crates").glob("*/must-fail/*.edit")})
    crates = sorted({*crates, *(path.parent for path in Path("crates").glob("*/wrong-bodies.edits"))})
    faults, names, count = [], set(), {}
    for crate in crates:
        for where, edits in (("in the gate", edits_of_gate), ("beside it", edits_beside_gate)):
            for name, lines in edits(crate):
                count[where] = count.get(where, 0) + 1
                fault = fault_of(lines, crate)
                if fault:
                    faults.append(f"{crate.name}: {name}: {fault}")
                if (crate.name, name) in names:
                    faults.append(f"{crate.name}: {name} is given twice")
                names.add((crate.name, name))
    faults += faults_of_guards(crates, names, guards(here / "guards.tsv"))
    faults += faults_of_survivors(here / "survivors.tsv")
    for fault in faults:
        print(f"wrong_bodies: {fault}")
    if not faults:
        print("wrong_bodies: ok, " + " and ".join(f"{number} {where}" for where, number in count.items()))
    return 1 if faults else 0


if __name__ == "__main__":
    os.chdir(Path(__file__).resolve().parents[2])
    sys.exit(main())
