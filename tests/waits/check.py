#!/usr/bin/env python3
"""Compares the calls of fq_work and fq_run that may wait with the table of docs/ARCHITECTURE.md.

A function waits only by what it was given to wait with: `rt`, or the value `waits` that has it. So it
lists, for each function and in the order of the code, the calls that one of them is passed to, the
calls of `waits`, its own endless loops, and the lanes that it closes. A function with a single such
call, of another function of its crate, only hands it on and isn't listed. Call it with a directory
that has docs/ and crates/.
"""
import re
import sys
from pathlib import Path

CRATES = ("fq_work", "fq_run")
FUNCTION = re.compile(r"\bfn (\w+)")
CALL = re.compile(r"\b(?:rt|waits)\.(\w+)\(|\.(close)\(\)|\b(\w+)\((?=([^()]*))")
WAITERS = {"rt", "&rt", "self.rt", "own", "&own", "waits", "&mut waits"}
FIRST, OTHERS = "| File | Functions that may wait", re.compile(r"\| `(\S+)` \| (.*) \|$")


def calls_of(text):
    """The calls of one function, of whose text the comments have been left out."""
    found = []
    for call in CALL.finditer(text):
        if call[1] or call[2]:
            found.append(call[1] or call[2])
        elif WAITERS & {part.strip() for part in call[4].split(",")}:
            found.append(call[3])
    return found


def calls_in(top):
    """(function, file) to its calls, of the functions that have some."""
    found, functions = {}, set()
    for crate in CRATES:
        for path in sorted((top / "crates" / crate / "src").rglob("*.rt")):
            code = "\n".join(line.partition("//")[0] for line in path.read_text(encoding="utf-8").splitlines())
            begins = [(match.start(), match[1]) for match in FUNCTION.finditer(code)]
            for (start, name), (end, _) in zip(begins, begins[1:] + [(len(code), "")]):
                functions.add(name)
                calls = calls_of(code[start:end])
                if calls:
                    found[name, path.relative_to(top / "crates").as_posix()] = calls
    return {place: calls for place, calls in found.items() if len(calls) > 1 or calls[0] not in functions}


def table_of(document):
    """The same, as the document lists it."""
    rows, inside = {}, False
    for line in document.read_text(encoding="utf-8").splitlines():
        inside = line.startswith(FIRST) or (inside and line.startswith("|"))
        row = OTHERS.match(line)
        for function in row[2].split("; ") if inside and row else ():
            name, *calls = re.findall(r"`(\w+)`", function)
            rows[name, row[1]] = calls
    return rows


def main():
    top = Path(sys.argv[1])
    found, listed = calls_in(top), table_of(top / "docs/ARCHITECTURE.md")
    wrong = sorted(place for place in found.keys() | listed.keys() if found.get(place) != listed.get(place))
    for place in wrong:
        code, row = (", ".join(calls.get(place, ["nothing"])) for calls in (found, listed))
        print(f"waits: {place[0]} of {place[1]} calls {code}; docs/ARCHITECTURE.md lists {row}")
    if not listed:
        print("waits: docs/ARCHITECTURE.md has no such table")
    return 1 if wrong or not listed else 0


if __name__ == "__main__":
    sys.exit(main())
