"""What MultiQC calls: reads the reports that were found, and makes the sections of its page."""

import logging
import os
from collections import OrderedDict  # MultiQC sorts the names of other dictionaries
from html import escape
from typing import Any, Callable, Dict, Mapping, Sequence, Tuple

from multiqc.modules.base_module import BaseMultiqcModule
from multiqc.plots import bargraph, linegraph
from multiqc import config

from ..report.reading import LAST, SIDES, Refused, Report, plain, read_report

from . import counts

try:  # MultiQC 1.16 or later
    from multiqc.modules.base_module import ModuleNoSamplesFound as NoSamples
except ImportError:
    NoSamples = UserWarning

log = logging.getLogger("multiqc.modules.tibzharuk")  # whose lines MultiQC prints

PERCENT = {"max": 100, "suffix": "%", "format": "{:,.1f}", "scale": "RdYlGn"}
MEGABASES = {"format": "{:,.2f}", "scale": "Greys"}
Q30 = "% of the bases {} trimming that have a score of at least 30"
COLUMNS: Dict[str, Tuple[str, str, Dict[str, Any]]] = {
    "pairs": ("Pairs", "Pairs that were read", {"format": "{:,.0f}", "scale": "Blues"}),
    "megabases_raw": ("Mb raw", "Megabases of both sides, with adapters", MEGABASES),
    "percent_with_adapter": (
        "% adapter",
        "% of the reads in which cutadapt found an adapter",
        dict(PERCENT, scale="OrRd"),
    ),
    "megabases_before": (
        "Mb before",
        "Megabases of both sides before the steps, without adapters that were removed first",
        MEGABASES,
    ),
    "megabases_after": ("Mb after", "Megabases left of the reads that survive", MEGABASES),
    "percent_q30_before": ("% Q30 before", Q30.format("before"), PERCENT),
    "percent_q30_after": ("% Q30 after", Q30.format("after"), PERCENT),
    "percent_pairs_kept": (
        "% pairs kept",
        "% of the pairs in which both mates survive trimming",
        dict(PERCENT, cond_formatting_rules={"fail": [{"lt": 50}]}),
    ),
}
COLOURS = {
    "Both Surviving": "#0072B2",
    "Forward Only Surviving": "#56B4E9",
    "Reverse Only Surviving": "#E69F00",
    "Dropped": "#999999",
}
WHEN = {
    "before": (counts.before, "of the reads that were read"),
    "after": (counts.after, "of the reads that survive, with their mates or alone"),
}
REMOVED = {"front": "at the start", "behind": "at the end"}
MORE = f"{LAST} means {LAST} or more."
LABELS: Dict[str, Dict[str, Any]] = {
    "scores": {"xlab": "Position", "ylab": "Mean score"},
    "means": {"xlab": "Mean score", "ylab": "Per cent of reads"},
    "lengths": {"xlab": "Bases", "ylab": "Per cent of reads"},
    "removed": {"xlab": "Bases removed", "ylab": "Per cent of surviving reads"},
}
# Each line graph before and after trimming: the counts that it needs, its points, its title, and
# what it shows.
LINES = {
    "scores": (
        "positions",
        counts.score_line,
        "Mean score by position",
        "Mean Phred score of the bases at each position {}.",
    ),
    "means": (
        "mean_scores",
        counts.mean_line,
        "Reads by mean score",
        "The whole part of the mean Phred score {}.",
    ),
    "lengths": (
        "lengths",
        counts.length_line,
        "Reads by length",
        "The lengths {}. " + MORE,
    ),
}

Rows = Mapping[str, Mapping[Any, float]]  # by sample, y by x


def above_tables(kind: str, title: str, lines: Mapping[str, Sequence[str]]) -> None:
    """Puts the samples that have lines above the tables, with a title that counts them."""
    some = {name: each for name, each in lines.items() if each}
    if not some:
        return
    samples = "".join(
        f"<li><strong>{escape(name)}</strong>: <samp>{escape(plain(line))}</samp></li>"
        for name, each in some.items() for line in each
    )
    config.report_comment = (
        f"{getattr(config, 'report_comment', None) or ''}"
        f'<div class="alert {kind}"><strong>{title.format(len(some))}<ul>{samples}</ul></div>'
    )


class MultiqcModule(BaseMultiqcModule):
    """The reports, by sample."""

    def __init__(self) -> None:
        said = "trims paired-end reads before they are mapped."
        super().__init__(name="Tibzharuk", anchor="tibzharuk", info=said)
        reports, stopped = self.read_reports()
        self.reports, self.stopped = self.ignore_samples(reports), self.ignore_samples(stopped)
        if not self.reports and not self.stopped:
            raise NoSamples
        log.info("Found %d reports", len(self.reports))
        self.name_stopped()
        if getattr(config, "tibzharuk_warnings", True):
            self.name_warned()
        if self.reports:
            self.add_table()
            self.add_bars()
            for kind in LINES:
                for when in WHEN:
                    self.add_lines(kind, when)
            for end in REMOVED:
                self.add_removed(end)

    def read_reports(self) -> Tuple[Dict[str, Report], Dict[str, str]]:
        """The reports of whole runs by their samples, and the faults at which others stopped."""
        whole = {}  # type: Dict[str, Report]
        stopped = {}  # type: Dict[str, str]
        paths = {}  # type: Dict[str, str]
        for file in self.find_log_files("tibzharuk", filecontents=False):
            path = os.path.join(file["root"], file["fn"])
            try:
                report = read_report(path)
            except Refused as why:
                log.warning("%s", why)
                continue
            name = file["fn"][:-5] if file["fn"].endswith(".json") else file["fn"]
            name = self.clean_s_name(name, file)
            if name in paths:
                log.warning("%s is left out: %s is %s too", plain(path), plain(paths[name]), name)
                continue
            paths[name] = path
            self.add_data_source(file, s_name=name)
            if report["outcome"] == "finished":
                whole[name] = report
            else:
                stopped[name] = report["fault"] or report["outcome"]
        return whole, stopped

    def name_stopped(self) -> None:
        """Names the samples whose run stopped at a fault, above the tables: what was counted of
        them is only a part."""
        title = "Stopped at a fault of the inputs: {}.</strong> These samples are left out:"
        above_tables("alert-danger", title, {name: [why] for name, why in self.stopped.items()})

    def name_warned(self) -> None:
        """Names the samples whose runs warned, above the tables."""
        told = {name: report.get("warnings", []) for name, report in self.reports.items()}
        above_tables("alert-warning", "Warnings: {}.</strong>", told)

    def add_table(self) -> None:
        """The columns of the general statistics for which a report has a number."""
        rows = counts.table_rows(self.reports)
        headers = OrderedDict(
            (key, {"title": title, "description": description, "min": 0, **form})
            for key, (title, description, form) in COLUMNS.items()
            if any(key in row for row in rows.values())
        )
        self.general_stats_addcols(rows, headers)
        self.write_data_file(rows, "multiqc_tibzharuk")

    def add_graph(
        self, graph: str, title: str, description: str, rows: Rows, plot: Callable[..., str]
    ) -> None:
        """A section with a graph, and a file with its numbers."""
        self.add_section(
            name=title,
            anchor=f"tibzharuk_{graph}",
            description=description,
            plot=plot(
                {
                    "id": f"tibzharuk_{graph}_plot",
                    "title": f"Tibzharuk: {title[0].lower()}{title[1:]}",
                    "save_data_file": False,
                }
            ),
        )
        self.write_graph(graph, rows)

    def write_graph(self, graph: str, rows: Rows) -> None:
        """A file with the numbers of a graph."""
        # Without the order, a table has the columns of its first row first.
        columns = list({column: 0 for row in rows.values() for column in row})
        if all(isinstance(column, (int, float)) for column in columns):
            columns.sort()
        table = {
            name: {str(column): row.get(column, "") for column in columns}
            for name, row in rows.items()
        }
        self.write_data_file(table, f"multiqc_tibzharuk_{graph}_plot")

    def add_bars(self) -> None:
        """What became of the pairs, and the reads that each step dropped."""
        pairs = {
            name: dict(zip(COLOURS, counts.pairs_bar(report)))
            for name, report in self.reports.items()
        }
        colours = OrderedDict(
            (name, {"name": name, "color": colour}) for name, colour in COLOURS.items()
        )
        self.add_graph(
            "pairs",
            "Read pairs",
            "What became of each sample's pairs: both mates survive, only one does, or none.",
            pairs,
            lambda names: bargraph.plot(pairs, colours, dict(names, ylab="Pairs")),
        )
        dropped = {
            f"{name} {side}": bar
            for name, report in self.reports.items()
            for side, bar in zip(SIDES, counts.dropped_bars(report))
        }
        steps = OrderedDict((step, {"name": step}) for bar in dropped.values() for step in bar)
        self.add_graph(
            "dropped",
            "Reads dropped by step",
            "The reads that each step dropped, in the order of the steps. "
            "Other reads are not shown.",
            dropped,
            lambda names: bargraph.plot(dropped, steps, dict(names, ylab="Reads", cpswitch=False)),
        )

    def add_line_graph(self, graph: str, title: str, said: str, rows: Rows, kind: str) -> None:
        """A line graph, unless no report has its counts. If nobody could tell which line is whose,
        only its numbers are written."""
        if counts.are_named(len(rows), config.plots_force_flat):
            labels = dict(LABELS[kind], ymin=0)
            self.add_graph(
                graph, title, said, rows, lambda names: linegraph.plot(rows, dict(names, **labels))
            )
        elif rows:
            self.write_graph(graph, rows)

    def add_lines(self, kind: str, when: str) -> None:
        """A line graph of all reads before trimming, or of those that survive after it."""
        needs, line, title, said = LINES[kind]
        sides_of, whose = WHEN[when]
        rows = {
            f"{name} {side}": line(reads)
            for name, report in self.reports.items()
            for side, reads in zip(SIDES, sides_of(report))
            if needs in reads
        }
        title = f"{title} {when} trimming"
        self.add_line_graph(f"{kind}_{when}", title, said.format(whose), rows, kind)

    def add_removed(self, end: str) -> None:
        """The reads that survive by the bases that they lost at one end."""
        rows = {
            f"{name} {side}": counts.removed_line(report["reads"][side], end)
            for name, report in self.reports.items()
            for side in SIDES
            if f"removed_{end}" in report["reads"][side]
        }
        said = (
            f"The bases that surviving reads lost {REMOVED[end]}. "
            f"Reads that lost none there are not shown. {MORE}"
        )
        self.add_line_graph(end, f"Bases removed {REMOVED[end]}", said, rows, "removed")
