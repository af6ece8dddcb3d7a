#!/usr/bin/env python3
"""Checks that each definition and lemma in crates/*/specs/ and crates/*/proofs/ is used, and that
lemmas which the answers of one function alone need stand with these answers.

A name is used by its own file, outside its declaration and its equations, by a file that imports it,
or by an attribute of the code. Answers to goals, invariants, worked examples, operators and the
fields of a record need no user.

A file needs what it uses, and what that uses in turn; if it needs one lemma of a module, it needs
all of them. Lemmas of the same crate that nothing but one Answers.antt needs may stand elsewhere if
they have fewer than ALONE lines in all, without comments.
Run it in the root of the repository.
"""
import re
import sys
from collections import Counter, defaultdict
from pathlib import Path

WORD = re.compile(r"[^\s(){}\[\],;.:\"]+")
IMPORT = re.compile(r" *(?:ghost |pub )*use Rattle\.([\w.-]+?)(?:\.\{([^}]*)\}| as \w+)?;?$")
# A declaration of a record or of anything else, or an equation: its kind, its name, and ' :'.
LINE = re.compile(r" *(?:(?:abbrev|rec|pub) )*(?:(record|data) )?([A-Za-z_][^\s(){}\[\],;.:]*)( :(?= |$))?")
ALONE = 80
# Answers that leave their lemmas where they are, and why.
STAY = {
    "fq_app_words/proofs/laws/usual_command_lines": "with them the file would have more than 800 lines",
    "fq_law_runs/proofs/parts/parts_may_be_trimmed_apart": "two texts and an interleaved one have lemmas of the same names",
}


def imports(line):
    """The (module, name) pairs that a line imports, with the name '*' for a whole module."""
    found = IMPORT.match(line)
    if not found:
        return []
    return [(found[1], name.strip()) for name in (found[2] or "*").split(",")]


def declarations(lines):
    """The names of a file with the lines that declare them, the words and the number of each name's
    lines, and the lines where the outermost modules of names begin. The words of a module's
    parameters are said by each of its names."""
    at, words, size, outermost, owner = {}, {}, Counter(), {}, None
    modules, header, begins, opened = [(0, set())], None, False, None
    for number, line in enumerate(lines, 1):
        code = re.sub(r"(^|\s)--.*", "", line)
        indent = len(code) - len(code.lstrip())
        if not code.strip() or imports(code):
            continue
        if begins:
            modules.append((indent, modules[-1][1] | header))
            header, begins = None, False
        found = LINE.match(code)
        if found and header is None and indent in [column for column, _ in modules]:
            modules = [module for module in modules if module[0] <= indent]
            opened = opened if len(modules) > 1 else None
            if found[2] == "module":
                header, opened = set(), opened or number
            elif found[1] or found[3]:
                owner = found[2]
                words.setdefault(owner, set()).update(modules[-1][1])
                if " : goal." not in code:
                    at.setdefault(owner, number)
                    outermost[owner] = opened
            elif found[2] in words:
                owner = found[2]
        if header is not None:
            header.update(WORD.findall(code))
            begins = code.endswith("where")
        else:
            words.setdefault(owner, set()).update(WORD.findall(code))
            size[owner] += 1
    return at, words, size, outermost


class Proofs:
    """A file of definitions, lemmas or answers."""

    def __init__(self, path):
        lines = path.read_text(encoding="utf-8").splitlines()
        self.path, self.module = path, ".".join(path.with_suffix("").parts[1:])
        self.at, self.words, self.size, self.outermost = declarations(lines)
        self.imported = {pair for line in lines for pair in imports(line)}
        self.last = path.stem in ("Answers", "Invariants") or path.stem.endswith("Examples")

    def needs(self, name):
        """The names that a name's lines say, of this file and others, and those of its module."""
        words, of_module = self.words[name], self.outermost.get(name)
        found = {other for other in self.at if other in words}
        if of_module:
            found.update(other for other in self.at if self.outermost[other] == of_module)
        elsewhere = {
            (module, other)
            for module, names in self.imported
            for other in (words if names == "*" else {names} & words)
        }
        return elsewhere | {(self.module, other) for other in found - {name}}


def needed_by(files, in_code):
    """The files of answers, invariants, examples and definitions that need each (module, name), and
    'code' if the code does."""
    needs = {(file.module, name): file.needs(name) for file in files for name in file.words}
    starts = {"code": in_code}
    for file in files:
        if file.last or "specs" in file.path.parts:
            starts[file.path] = {(file.module, name) for name in file.words}
    users = defaultdict(set)
    for start, names in starts.items():
        seen, left = set(names), list(names)
        while left:
            more = needs.get(left.pop(), set()) - seen
            seen |= more
            left += more
        for name in seen:
            users[name].add(start)
    return users


def apart(files, in_code):
    """The files of answers with ALONE lines and more of lemmas elsewhere that nothing else needs:
    the number of these lines, and the lemmas."""
    users, lines, names = needed_by(files, in_code), Counter(), defaultdict(list)
    for file in files:
        for name in [] if file.last else file.at:
            user, *others = users[(file.module, name)] or {"code"}
            if not others and user != "code" and user.stem == "Answers" and user.parts[1] == file.path.parts[1]:
                lines[user] += file.size[name]
                names[user].append(name)
    return [(user, count, names[user]) for user, count in sorted(lines.items()) if count >= ALONE]


def main():
    proofs = sorted(path for part in ("specs", "proofs") for path in Path("crates").glob(f"*/{part}/**/*.antt"))
    code = [path for top in ("crates", "bench") for path in Path(top).rglob("*.rt*") if "out" not in path.parts]
    files = [Proofs(path) for path in proofs]
    in_code, attributes, count, faults = set(), set(), 0, 0
    for path in code:
        for line in path.read_text(encoding="utf-8").splitlines():
            in_code.update(imports(line))
            if line.lstrip().startswith("#["):
                attributes.update(WORD.findall(re.sub(r'"[^"]*"', "", line)))
    used = in_code.union(*(file.imported for file in files))
    for file in files:
        if file.path.stem == "Invariants" or file.path.stem.endswith("Examples"):
            continue
        for name, number in file.at.items():
            count += 1
            here = any(name in said for owner, said in file.words.items() if owner != name)
            if not here and name not in attributes and not used & {(file.module, name), (file.module, "*")}:
                print(f"unused_lemmas: {file.path}:{number}: nothing uses {name}")
                faults += 1
    in_code.update((file.module, name) for file in files for name in file.at if name in attributes)
    for path, lines, names in apart(files, in_code):
        if str(path.relative_to("crates").parent) not in STAY:
            print(f"unused_lemmas: {path}: it alone needs {lines} lines of lemmas: put them there,")
            print(f"  without pub: {', '.join(names)}")
            faults += 1
    if not faults:
        print(f"unused_lemmas: ok, each of {count} names is used, and long proofs stand where they are used")
    return 1 if faults else 0


if __name__ == "__main__":
    sys.exit(main())
