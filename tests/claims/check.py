#!/usr/bin/env python3
"""Checks docs/claims.tsv. Run it in the root of the repository."""
import re
import sys
from functools import lru_cache
from pathlib import Path
from typing import Callable, Iterator, Optional, Tuple

sys.path[:0] = ["tests/documents"]
from claims import Claim, claims_of
from definitions import contract_in, reached_from

# The text of a file below the root, or None if it isn't there.
Reader = Callable[[str], Optional[str]]

IN_MEMORY = "proved over files in memory"
STATES = ("proved", IN_MEMORY, "proved, of the model", "tested", "trusted")


@lru_cache(maxsize=None)
def blocks(text: str) -> Tuple[str, ...]:
    """The paragraphs, items and rows of a document, each on one line. A link is its text, and the cells
    of a row are divided by colons."""
    text = re.sub(r"\[([^][]*(?:\[[^][]*\][^][]*)*)\]\([^)\s]*\)", r"\1", text)
    text = re.sub(r"(?m)^\|(.*)\|$", lambda row: "\n%s\n" % re.sub(r"( +\|)+ +", ": ", row[1]), text)
    parts = re.split(r"\n\s*\n|\n(?=\s*(?:[-*]|\d+\.) |#)", text)
    return tuple(" ".join(re.sub(r"^\s*(?:[-*]|\d+\.) ", "", part).split()) for part in parts)


def says(text: str, promise: str) -> bool:
    """Whether a document has this sentence, or this part of one, from one mark to another."""
    mark = r"[.?!:;][)*]*"
    whole = re.compile(rf"(?:^|{mark} |, ){re.escape(promise)}(?:$|{mark}(?: |$)|(?<=[.?!:;]) )")
    return any(promise in block and whole.search(block) for block in blocks(text))


def has_clause(part: str, text_of: Reader) -> bool:
    """Whether `crate/file.rt:function.clause` or `crate/File.antt:definition.field` is there."""
    file, _, words = part.partition(":")
    name, _, clause = words.partition(".")
    if file.endswith(".rt"):
        return "ensures" in contract_in(text_of(f"crates/{file.replace('/', '/src/', 1)}") or "", name, clause)
    head = rf"(?:abbrev |unfoldable |rec )*(?:pub )?(?:record |data )?{name}\b.*\n"
    found = re.search(rf"(?m)^{head}(?: .*\n|\n)*", text_of(f"crates/{file.replace('/', '/specs/', 1)}") or "")
    return bool(found and (not clause or re.search(rf"(?m)^  (?:pub )?{clause} :", found[0])))


def has_trial(part: str, text_of: Reader) -> bool:
    """Whether `NAME.rows:row` is there, or a test with these words outside of its comments."""
    file, _, words = part.partition(":")
    if file.endswith(".rows"):
        rows = text_of(f"crates/fq_test_rows/data/{file}") or ""
        return bool(re.search(rf"(?m)^(?:row: {re.escape(words)}$|\| {re.escape(words)} *\|)", rows))
    code = re.sub(r"(?m)^\s*(?:#|//).*$", "", text_of(file) or "")
    return bool(code and re.search(rf"(?<!\w){re.escape(words)}(?!\w)", code))


def faults(claim: Claim, text_of: Reader) -> Iterator[str]:
    """What a promise lacks."""
    if not says(text_of(claim.document) or "", claim.promise):
        yield f"{claim.document} doesn't say: {claim.promise}"
    yield from (f"no clause {part}" for part in claim.proof if not has_clause(part, text_of))
    yield from (f"nothing tries {part}" for part in claim.trial if not has_trial(part, text_of))
    if claim.state not in STATES:
        yield f"no promise is {claim.state}"
    if claim.state.startswith("proved") != any(".rt:" in part for part in claim.proof):
        yield f"{claim.state}, by the clauses {claim.proof}"
    if claim.state in (IN_MEMORY, "tested") and not claim.trial:
        yield f"{claim.state}, and nothing tries it"


def unreached(claim: Claim) -> Iterator[str]:
    """The definitions of a proof on which none of its clauses rests."""
    code = [part for part in claim.proof if ".rt:" in part]
    reached = reached_from("crates/" + part.replace("/", "/src/", 1) for part in code)
    for part in set(claim.proof) - set(code):
        file, _, words = part.partition(":")
        if (Path("crates", file.replace("/", "/specs/", 1)), words.partition(".")[0]) not in reached:
            yield f"none of its clauses rests on {part}"


def renamed(claim: Claim, text_of: Reader) -> Iterator[Tuple[str, Reader]]:
    """Each part of a row, with a tree in which it has another name, or isn't there if it is a file."""
    def other(path: str, word: str) -> Reader:
        return lambda asked: (text_of(asked) if not asked.endswith(path) else word and re.sub(
            rf"(?<!\w){re.escape(word)}(?!\w)", f"{word}_renamed", text_of(asked) or ""))
    yield claim.promise, other(claim.document, max(re.findall(r"\w+", claim.promise), key=len))
    for part in claim.proof + claim.trial:
        file, _, words = part.partition(":")
        yield part, other(file.partition("/")[2] or file, (re.findall(r"\w+", words) or [""])[-1])


def main() -> int:
    @lru_cache(maxsize=None)
    def text_of(path: str) -> Optional[str]:
        return Path(path).read_text(encoding="utf-8") if Path(path).is_file() else None

    claims = claims_of(text_of("docs/claims.tsv") or "")
    names = [claim.name for claim in claims]
    missing = [f"two rows are {name}" for name in sorted(set(names)) if names.count(name) > 1]
    renames = 0
    for claim in claims:
        found = list(faults(claim, text_of)) or list(unreached(claim))
        for part, tree in () if found else renamed(claim, text_of):
            renames += 1
            found += [] if any(faults(claim, tree)) else [f"it would not be missed: {part}"]
        missing += (f"{claim.name}: {fault}" for fault in found)
    for fault in missing:
        print(f"claims: {fault}")
    if not missing:
        print(f"claims: ok, {len(claims)} promises have their evidence, and {renames} other names are missed")
    return 1 if missing else 0


if __name__ == "__main__":
    sys.exit(main())
