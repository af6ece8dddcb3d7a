"""The sections without graphs: what became of the pairs, the tables, the run, and what the reader
must know first."""

from typing import Callable, Dict, List, Sequence, Tuple

from .reading import COUNTS, SIDES, Reads, Report

from .graph import key
from .texts import mean, section, share, short, shown, unbroken

Sides = Dict[str, Reads]
Entry = Tuple[str, List[str]]  # a name, and what is listed under it

HIGHEST_MEAN = 50
PAIRS = {
    "both_surviving": ("both mates survive", "blue"),
    "forward_only_surviving": ("only the forward mate", "sky"),
    "reverse_only_surviving": ("only the reverse mate", "orange"),
    "dropped": ("no mate: dropped", "grey"),
}
QUALITIES = {"sanger": "Phred+33", "illumina13": "Phred+64", "solexa": "Solexa+64"}


def warnings(report: Report, before: Sides) -> str:
    """What the reader must know first: red, if the inputs have a fault or were read wrongly."""
    found = []
    if report["outcome"] != "finished":
        why = f": <code>{shown(report['fault'])}</code>" if report["fault"] else ""
        said = f"The run stopped at a fault{why}. "
        said += "The numbers on this page are those of the pairs before it."
        found.append(("fault", "The inputs have a fault", said))
    means = {side: (before[side]["score_sum"], before[side]["bases"]) for side in SIDES}
    high = [side for side, (scores, bases) in means.items() if scores > HIGHEST_MEAN * bases > 0]
    if high:
        told = " and ".join(f"{mean(*means[side])} in {side} reads" for side in high)
        said = f"The mean score is {told}, but sequencers give less than {HIGHEST_MEAN}."
        if report["encoding"] == "sanger":
            said += " The qualities are probably Phred+64. If they are, trim again with "
            said += "<code>--encoding illumina13</code>."
        found.append(("fault", "The scores are too high", said))
    if report.get("warnings"):
        found.append(("note", "Warnings", "</p><p>".join(map(shown, report["warnings"]))))
    if not report["pairs"]["input"] and report["outcome"] == "finished":
        found.append(("note", "There are no pairs", "The inputs have no reads."))
    return "".join(
        f'<section class="{kind}"><h2>{title}</h2><p>{said}</p></section>'
        for kind, title, said in found
    )


def raw_bases(report: Report) -> int:
    """The bases of both sides, with those that cutadapt removed before the steps."""
    adapters = report.get("adapters")
    removed = sum(adapters[side]["bases_removed"] for side in SIDES) if adapters else 0
    bases = sum(report["reads"][side]["before"]["bases"] for side in SIDES)
    return int(bases + removed)


def cards(report: Report, before: Sides, after: Sides) -> str:
    """The numbers that a reader looks for first."""
    pairs, raw = report["pairs"], raw_bases(report)
    old, new = (
        {name: sum(reads[side][name] for side in SIDES) for name in COUNTS}
        for reads in (before, after)
    )
    lengths = [
        " | ".join(mean(reads[side]["bases"], reads[side]["reads"], 0) for side in SIDES)
        for reads in (before, after)
    ]
    kept = pairs["both_surviving"]
    low = " low" if 2 * kept < pairs["input"] else ""
    q30 = [share(each["q30_bases"], each["bases"]) for each in (old, new)]
    when = " before cutadapt" if raw > old["bases"] else ""
    entries = (
        (
            "Pairs kept",
            unbroken(share(kept, pairs["input"])),
            f"{kept:,} of {pairs['input']:,} pairs",
        ),
        (
            "Bases kept",
            unbroken(share(new["bases"], raw)),
            f"{short(new['bases'])} of {short(raw)}{when}",
        ),
        ("Bases with Q30 or more", unbroken(q30[1]), f"before: {q30[0]}"),
        ("Mean length, forward | reverse", lengths[1], f"before: {lengths[0]}"),
    )
    drawn = [
        f"<small>{name}</small><b>{value}</b><small>{more}</small></div>"
        for name, value, more in entries
    ]
    every = '<div class="card">'.join(drawn)
    return f'<div class="cards"><div class="card{low}">{every}</div>'


def pair_bar(pairs: Dict[str, int]) -> str:
    """What became of the pairs, as one bar."""
    at, parts = 0.0, []
    for field, (name, colour) in PAIRS.items():
        wide = 1000 * pairs[field] / max(pairs["input"], 1)
        parts.append(
            f'<rect class="full {colour}" x="{at:.2f}" width="{wide:.2f}" height="28">'
            f"<title>{name}: {pairs[field]:,}</title></rect>"
        )
        at += wide
    entries = [
        ("full", colour, f"{name}: {pairs[field]:,} ({share(pairs[field], pairs['input'], 2)})")
        for field, (name, colour) in PAIRS.items()
    ]
    box = 'viewBox="0 0 1000 28" preserveAspectRatio="none" role="img" aria-label="pairs"'
    bar = f'<svg class="pairs" {box}>{"".join(parts)}</svg>'
    said = f"What became of the {pairs['input']:,} pairs."
    return section("Pairs", said, bar, key(entries, "key squares"))


def table(head: Sequence[str], body: Sequence[Tuple[str, Sequence[str]]]) -> str:
    """A table for each side. A row of the body has the cells of all sides, in their order."""
    columns = len(head) - 1
    first = f'<th scope="col">{head[0]}</th>' if head[0] else "<td></td>"
    top = first + "".join(f'<th scope="col">{name}</th>' for name in head[1:])
    tables = []
    for place, side in enumerate(SIDES):
        lines = []
        for name, cells in body:
            part = cells[place * columns : (place + 1) * columns]
            drawn = "".join(f"<td>{cell}</td>" for cell in part)
            lines.append(f'<tr><th scope="row">{name}</th>{drawn}</tr>')
        tables.append(
            f'<div class="wide"><table><caption>{side.capitalize()}</caption>'
            f'<thead><tr>{top}</tr></thead><tbody>{"".join(lines)}</tbody></table></div>'
        )
    return f'<div class="two">{"".join(tables)}</div>'


def lengths_of(reads: Reads) -> str:
    if reads["shortest"] is None:
        return "–"
    return f"{reads['shortest']:,} to {reads['longest'] or 0:,}"


SIDE_ROWS: Dict[str, Callable[[Reads], str]] = {
    "reads": lambda reads: f"{reads['reads']:,}",
    "bases": lambda reads: f"{reads['bases']:,}",
    "mean length": lambda reads: mean(reads["bases"], reads["reads"]),
    "shortest to longest": lengths_of,
    "mean score": lambda reads: mean(reads["score_sum"], reads["bases"]),
    "bases with Q20 or more": lambda reads: share(reads["q20_bases"], reads["bases"]),
    "bases with Q30 or more": lambda reads: share(reads["q30_bases"], reads["bases"]),
    "G and C": lambda reads: share(reads["gc_bases"], reads["bases"]),
    "N": lambda reads: share(reads["n_bases"], reads["bases"], 3),
}


def side_table(before: Sides, after: Sides, adapters: str) -> str:
    columns = [reads[side] for side in SIDES for reads in (before, after)]
    body = [(name, [cell(column) for column in columns]) for name, cell in SIDE_ROWS.items()]
    said = "After: what is left of the reads that survive, with or without their mate."
    if adapters:
        said = "Before: the reads without their adapters, which cutadapt removed. " + said
    return section("Both sides before and after", said, table(("", "before", "after"), body))


def step_cell(number: int, most: int, reads: int, colour: str) -> str:
    """A number of reads, the share of all reads, and a bar below."""
    if not number:
        return '<span class="soft">0</span> <span class="part"></span>'
    wide = 100 * number / most
    bar = f'<rect class="full {colour}" x="{100 - wide:.1f}" width="{wide:.1f}" height="4"/>'
    box = 'viewBox="0 0 100 4" preserveAspectRatio="none" aria-hidden="true"'
    return f'{number:,} <span class="part">{share(number, reads)}</span><svg {box}>{bar}</svg>'


def step_table(steps: List[Report], before: Sides) -> str:
    did = (("shortened", "sky"), ("dropped", "red"))
    most = max([step[side][what] for step in steps for side in SIDES for what, _ in did] + [1])
    body = []
    for place, step in enumerate(steps, 1):
        cells = [
            step_cell(step[side][what], most, before[side]["reads"], colour)
            for side in SIDES
            for what, colour in did
        ]
        body.append((f"{place}. <code>{shown(step['step'])}</code>", cells))
    said = "Reads that each step shortened or dropped, and their share of all reads of the side."
    return section("What each step did", said, table(("step", "shortened", "dropped"), body))


def methods(report: Report, adapters: str) -> str:
    """What a methods section can say about the run."""
    steps = " ".join(step["step"] for step in report["steps"])
    quality = QUALITIES.get(report["encoding"], report["encoding"])
    checked = "were checked" if report["name_check"] else "were not checked"
    kept, pairs = report["pairs"]["both_surviving"], report["pairs"]["input"]
    removed = f"Adapters were removed with {adapters}. " if adapters else ""
    if "first_pairs" in report:
        removed = f"Only the first {report['first_pairs']:,} pairs were taken. {removed}"
    program = f"{report['program']} {report['version']}"
    return (
        f"{removed}Read pairs were trimmed with Tibzharuk ({program}) with the steps {steps}. "
        f"Qualities were read as {quality} (--encoding {report['encoding']}), "
        f"and names of mates {checked}. "
        f"Both mates survived in {kept:,} of {pairs:,} pairs ({share(kept, pairs)})."
    )


def run_entries(report: Report, adapters: str) -> List[Entry]:
    """What the page says about the run, and its files."""
    entries = [
        ("command", [f"{report['program']} {report['command']}"]),
        ("version", [report["version"]]),
        ("encoding", [report["encoding"]]),
        ("names of mates", ["checked" if report["name_check"] else "not checked"]),
    ]
    if adapters:
        entries.append(("adapters", [adapters]))
    if "adapters_auto" in report:
        entries.append(("taken by --adapters auto", [report["adapters_auto"]]))
    if "through" in report:
        entries.append(("pairs read by", report["through"]))
    for part in "inputs", "outputs":
        for name, value in report[part].items():
            files = value if isinstance(value, list) else [value] if value is not None else []
            if files:
                entries.append((f"{part[:-1]}, {name.replace('_', ' ')}", files))
    return entries


def run(report: Report, adapters: str) -> str:
    """The text for the methods section, and the files."""
    parts = []
    for name, values in run_entries(report, adapters):
        codes = "".join(f"<code>{shown(value)}</code>" for value in values)
        parts.append(f"<dt>{shown(name)}</dt><dd>{codes}</dd>")
    files = f"<dl>{''.join(parts)}</dl>"
    if report["outcome"] != "finished":
        said = "The run stopped at a fault, so there is no text for the methods section."
        return section("The run", said, files)
    quote = f'<p class="quote">{shown(methods(report, adapters))}</p>'
    return section("The run", "For the methods section:", quote, files)
