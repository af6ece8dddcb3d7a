"""The record of a check: as text, as a page to sign, and as JSON."""

import json
import re
from typing import Any, Dict, Iterator, List, Mapping, NamedTuple, Sequence

from ..report.page import style
from ..report.texts import shown
from .checks import Check, counts, verdict
from .matrix import Claim, matrix_table

SCHEMA = 1
TITLE = "Check of an installation of Tibzharuk"
NOT_TRIED = "not tried"
STYLE = """table{table-layout:fixed}th.verdict{width:76px}
td,tbody th{text-align:left;vertical-align:top;white-space:normal;overflow-wrap:anywhere;
font-size:13px}
th{text-align:left}td code{display:block;font-size:12px}
td.verdict{white-space:nowrap;font-weight:650}.failed{color:var(--bad)}.sign td{height:42px}
@media print{td,tbody th,td code{font-size:9px}section{break-inside:auto}
tr,.sign{break-inside:avoid}}"""
SIGNED = ("Checked by", "Reviewed by", "Released for use by")


class Record(NamedTuple):
    """All that a record says."""

    machine: Mapping[str, str]
    programs: Mapping[str, str]
    reads: Mapping[str, str]    # of the laboratory, if any
    checks: Sequence[Check]
    claims: Sequence[Claim]


def word_of(check: Check) -> str:
    return NOT_TRIED if check.lacks else "passed" if check.passed else "FAILED"


def short(fact: str) -> str:
    """A fact with only the first digits of a checksum."""
    return re.sub(r"(has SHA-256 )?\b([0-9a-f]{16})[0-9a-f]{48}\b", r"\2..", fact)


# Text

def lines_of(check: Check) -> Iterator[str]:
    """A check on the terminal: what differs, if it failed."""
    yield f"  {word_of(check):9}  {check.what}" + (f": {check.lacks}" if check.lacks else "")
    if check.passed or check.lacks:
        return
    for name, facts, others in (("must be", check.must, check.found),
                                ("is", check.found, check.must)):
        for fact in facts:
            if fact not in others:
                yield f"             {name:8} {fact}"


def last_text(checks: Sequence[Check]) -> str:
    """What is printed last: the failed checks again, and the verdict."""
    failed = [f"FAILED: {check.group}: {check.what}\n" for check in checks
              if not check.passed and not check.lacks]
    return "\n" + "".join(failed) + verdict(checks) + "\n"


# JSON

def json_of(record: Record) -> bytes:
    passed, failed, lacking = counts(record.checks)
    told: Dict[str, Any] = {
        "schema": SCHEMA,
        "machine": dict(record.machine),
        "programs": dict(record.programs),
        "reads": dict(record.reads),
        "passed": passed, "failed": failed, "not_tried": lacking,
        "checks": [{"group": check.group, "check": check.what, "serves": check.serves,
                    "must_be": list(check.must), "is": list(check.found),
                    "verdict": word_of(check).lower()} for check in record.checks],
    }
    return (json.dumps(told, ensure_ascii=False, indent=1) + "\n").encode("utf-8", "replace")


# The page

def listed(title: str, facts: Mapping[str, str]) -> str:
    rows = "".join(f"<dt>{shown(name)}</dt><dd><code>{shown(value)}</code></dd>"
                   for name, value in facts.items())
    return f"<section><h2>{title}</h2><dl>{rows}</dl></section>" if facts else ""


def codes(facts: Sequence[str]) -> str:
    return "".join(f"<code>{shown(short(fact))}</code>" for fact in facts)


def row(check: Check) -> str:
    word = word_of(check)
    found = shown(check.lacks) if check.lacks else codes(check.found)
    kind = "verdict" if check.passed or check.lacks else "verdict failed"
    return (f'<tr><th scope="row">{shown(check.what)}</th><td>{shown(check.serves)}</td>'
            f"<td>{codes(check.must)}</td><td>{found}</td>"
            f'<td class="{kind}">{word}</td></tr>')


def group_table(name: str, checks: Sequence[Check]) -> str:
    heads = "".join(f'<th scope="col">{head}</th>'
                    for head in ("check", "requirement", "must be", "is"))
    heads += '<th scope="col" class="verdict"></th>'
    rows = "".join(row(check) for check in checks if check.group == name)
    return (f'<section><h2>{shown(name)}</h2><div class="wide"><table><thead><tr>{heads}</tr>'
            f"</thead><tbody>{rows}</tbody></table></div></section>")


def sign_table() -> str:
    heads = "".join(f'<th scope="col">{head}</th>' for head in ("", "name", "date", "signature"))
    rows = "".join(f'<tr><th scope="row">{who}</th><td></td><td></td><td></td></tr>'
                   for who in SIGNED)
    return (f'<section class="sign"><h2>Signatures</h2><table><thead><tr>{heads}</tr></thead>'
            f"<tbody>{rows}</tbody></table></section>")


def verdict_section(checks: Sequence[Check]) -> str:
    """The verdict, in red if a check failed, with what failed and what wasn't tried."""
    failed = [check for check in checks if not check.passed and not check.lacks]
    lacking = sorted({check.lacks for check in checks if check.lacks})
    said = "".join(f"<p>FAILED: {shown(check.group)}: {shown(check.what)}</p>" for check in failed)
    said += "".join(f"<p>Not tried: {shown(why)}</p>" for why in lacking)
    kind = "fault" if failed or not counts(checks)[0] else "note" if lacking else "card"
    return f'<section class="{kind}"><h2>{shown(verdict(checks))}</h2>{said}</section>'


def page_of(record: Record) -> bytes:
    """The page, which loads nothing and runs no script."""
    groups: List[str] = list(dict.fromkeys(check.group for check in record.checks))
    body = [
        f'<header><h1>{TITLE}</h1><span class="soft">{shown(record.machine["date"])}, '
        f'{shown(record.machine["machine"])}</span></header>',
        verdict_section(record.checks),
        listed("Programs", record.programs),
        listed("Machine", record.machine),
        listed("The laboratory's own reads", record.reads),
        *(group_table(name, record.checks) for name in groups),
        matrix_table(record.claims),
        sign_table(),
        "<footer>Made by tibzharuk selftest. Of a checksum of a text the first 16 digits are "
        "shown.</footer>",
    ]
    return (
        '<!DOCTYPE html>\n<html lang="en"><head><meta charset="utf-8">'
        '<link rel="icon" href="data:,">'
        '<meta name="viewport" content="width=device-width,initial-scale=1">'
        f"<title>{TITLE}</title><style>\n{style()}\n{STYLE}</style></head>\n"
        "<body><main>" + "\n".join(body) + "</main></body></html>\n"
    ).encode("utf-8", "replace")
