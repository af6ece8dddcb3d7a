#!/usr/bin/env python3
"""Counts the definitions of this repository that a contract rests on.

usage: tests/documents/definitions.py [-v] FILE:FUNCTION[.CLAUSE]..

Prints how many definitions in crates/*/specs/ these contracts name, or such a definition names, and
in how many files they are; with -v also each of them. A clause is one of `ensures`. Types of the
code, and what the kit defines, aren't counted, and a constructor counts as its type. Run it in the
root of the repository.
"""
import re
import sys
from functools import cache
from pathlib import Path
from typing import Dict, Iterable, Optional, Set, Tuple

# A file and a name, and what a file imports: each name with its file and its name there, and the file
# of each alias.
Place = Tuple[Path, str]
Imports = Tuple[Dict[str, Place], Dict[str, Path]]

WORD = r"[^\W\d][\w'-]*"
IMPORT = re.compile(r"\buse Rattle\.([\w.]+?)(?:\.\{([^}]*)\}| as (\w+))")
HEAD = re.compile(rf"(?:abbrev |unfoldable )?(?:pub )?(data |record )?({WORD})\b[^=|]* : ")
CONSTRUCTOR = re.compile(rf"  (?:pub |\| )?({WORD}) :")


def path_of(module: str) -> Optional[Path]:
    """The file of a module such as fq_text.specs.Grammar, or None if no crate here has it."""
    path = Path("crates", *module.split(".")).with_suffix(".antt")
    return path if path.is_file() and "/specs/declared/" not in str(path) else None


def imports_of(text: str) -> Imports:
    """What a file imports."""
    names: Dict[str, Place] = {}
    aliases: Dict[str, Path] = {}
    for module, listed, alias in IMPORT.findall(text):
        path = path_of(module)
        if path is None:
            continue
        if alias:
            aliases[alias] = path
        for entry in listed.split(",") if listed else []:
            there, _, here = entry.strip().partition(" as ")
            names[here or there] = (path, there)
    return names, aliases


@cache
def definitions_of(path: Path) -> Tuple[Dict[str, str], Dict[str, str], Imports]:
    """The text of each definition of a file, the definition of each name, and what is imported."""
    whole = path.read_text(encoding="utf-8")
    texts: Dict[str, str] = {}
    owners: Dict[str, str] = {}
    name = None
    for line in whole.splitlines():
        if line.startswith(("use ", "pub use ", "--", "module ")):
            name = None
            continue
        if head := HEAD.match(line):
            name = owners[head[2]] = head[2]
            texts.setdefault(name, head[1] or "")
        if name:
            texts[name] += line.partition(" -- ")[0] + "\n"
            inner = texts[name].startswith("data ") and CONSTRUCTOR.match(line)
            if inner:
                owners[inner[1]] = name
    return texts, owners, imports_of(whole)


def named_in(text: str, names: Dict[str, Place], aliases: Dict[str, Path]) -> Set[Place]:
    """The file and name of each definition that a text names."""
    whole = {(aliases[alias], word) for alias, word in re.findall(rf"\b(\w+)\.({WORD})", text) if alias in aliases}
    return whole | {names[word] for word in re.findall(WORD, text) if word in names}


def contract_in(text: str, function: str, clause: str = "") -> str:
    """The clauses of a function, or of `Type::method`, or the one of this name. Empty if there is none."""
    owner, _, name = function.rpartition("::")
    if owner:
        text = "\n".join(re.findall(rf"(?ms)^(?:pub )?(?:impl|trait)\b[^\n]*\b{owner}\b.*?^}}", text))
    found = re.search(rf"(?ms)^( *)[^\n/]*\bfn {name}\b.*?(?=^\1{{|;$)", text)
    lines = [line for line in found[0].splitlines() if "//" not in line] if found else []
    clauses = re.split(r"\n(?= *(?:requires|ensures)\b)", "\n".join(lines))[1:]
    return "\n".join(it for it in clauses if not clause or re.match(rf" *ensures {clause} ", it))


def reached_from(contracts: Iterable[str]) -> Set[Place]:
    """The file and name of each definition that a contract rests on."""
    reached: Set[Place] = set()
    ahead: Set[Place] = set()
    for contract in contracts:
        file, _, function = contract.partition(":")
        function, _, clause = function.partition(".")
        text = Path(file).read_text(encoding="utf-8")
        ahead |= named_in(contract_in(text, function, clause), *imports_of(text))
    while ahead:
        path, word = ahead.pop()
        texts, owners, (names, aliases) = definitions_of(path)
        if word not in owners:  # the file exports it again
            ahead.add(names[word])
            continue
        here = (path, owners[word])
        if here not in reached:
            reached.add(here)
            local = {name: (path, name) for name in owners}
            ahead |= named_in(texts[here[1]], {**names, **local}, aliases)
    return reached


def main() -> None:
    words = sys.argv[1:]
    reached = reached_from(word for word in words if word != "-v")
    print(len(reached), len({path for path, _ in reached}))
    if "-v" in words:
        print(*sorted(f"{path} {name}" for path, name in reached), sep="\n")


if __name__ == "__main__":
    main()
