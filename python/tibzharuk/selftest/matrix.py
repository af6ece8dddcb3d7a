"""Which promise of the documents rests on what: on a proof, on a test, or on trust."""

import os
from typing import Iterable, List, NamedTuple, Sequence

from ..report.texts import shown
from .runs import PACKAGE

# Where it was installed, and where it is in the tree.
PLACES = (os.path.join(PACKAGE, "selftest", "claims.tsv"),
          os.path.join(os.path.dirname(os.path.dirname(PACKAGE)), "docs", "claims.tsv"))
HEADS = ("promise", "document", "state", "evidence")


class Claim(NamedTuple):
    """A promise, and what it rests on."""

    name: str
    promise: str
    document: str
    state: str      # such as `proved`, `tested` or `trusted`
    evidence: str   # the clauses that prove it, and the rows and tests that try it

    def cells(self) -> List[str]:
        return [f"{self.name}: {self.promise}", self.document, self.state, self.evidence]


def claims_in(lines: Iterable[str]) -> List[Claim]:
    """The claims of a table: after comments, a line names its columns."""
    given = [line.rstrip("\n").split("\t") for line in lines
             if line.strip() and not line.startswith("#")]
    rows = [dict(zip(given[0], row)) for row in given[1:]]
    return [Claim(row["claim"], row["promise"], row["document"], row["state"],
                  "; ".join(row[part] for part in ("proof", "trial") if row.get(part)))
            for row in rows]


def claims() -> List[Claim]:
    """Those that were installed; none if there is no table."""
    for place in PLACES:
        if os.path.isfile(place):
            with open(place, encoding="utf-8") as file:
                return claims_in(file)
    return []


def matrix_text(found: Sequence[Claim]) -> str:
    """The table, as Markdown."""
    rows = [list(HEADS), ["---"] * len(HEADS), *(claim.cells() for claim in found)]
    return "".join("| " + " | ".join(cell.replace("|", "\\|") for cell in row) + " |\n"
                   for row in rows)


def matrix_table(found: Sequence[Claim]) -> str:
    """The table, as a section of the page."""
    if not found:
        return ""
    heads = "".join(f'<th scope="col">{head}</th>' for head in HEADS)
    rows = "".join("<tr>" + "".join(f"<td>{shown(cell)}</td>" for cell in claim.cells()) + "</tr>"
                   for claim in found)
    return ("<section><h2>What each promise rests on</h2>"
            f'<div class="wide"><table><thead><tr>{heads}</tr></thead>'
            f"<tbody>{rows}</tbody></table></div></section>")
