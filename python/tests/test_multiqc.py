"""The numbers that MultiQC's table shows of reports."""

import pytest

from reports import adapters, report
from tibzharuk.multiqc import counts

# Of 100 pairs of 2 x 100 bases.
WITHOUT = {"pairs": 100, "megabases_before": 0.02, "megabases_after": 0.0162,
           "percent_q30_before": 100.0, "percent_q30_after": 100.0, "percent_pairs_kept": 90.0}


@pytest.mark.parametrize("more, wanted", (
    ({}, {}),
    ({"adapters": None}, {"megabases_raw": 0.02}),
    ({"adapters": adapters(10, 50)}, {"megabases_raw": 0.0201, "percent_with_adapter": 10.0}),
    ({"adapters": adapters(None, 50)}, {"megabases_raw": 0.0201}),
    ({"adapters": dict(adapters(10, 50), reverse=adapters(None, 0)["reverse"])},
     {"megabases_raw": 0.02005, "percent_with_adapter": 10.0}),
    ({"adapters": adapters(0, 0, 0)}, {"megabases_raw": 0.02}),
))
def test_a_row(more, wanted):
    assert counts.table_row(report(**more)) == {**WITHOUT, **wanted}


@pytest.mark.parametrize("lines, are_pictures, wanted", (
    (0, True, False), (0, False, False), (15, True, True), (16, True, False), (192, False, True),
))
def test_lines_that_have_a_name(lines, are_pictures, wanted):
    assert counts.are_named(lines, are_pictures) == wanted


@pytest.mark.parametrize("reports, raw", (
    ([{"adapters": None}, {}], [None, None]),
    ([{"adapters": None}, {"adapters": adapters(10, 50)}, {}], [0.02, 0.0201, None]),
))
def test_raw_bases_are_a_column_if_cutadapt_was_used(reports, raw):
    rows = counts.table_rows({f"s{n}": report(**more) for n, more in enumerate(reports)})
    assert [row.get("megabases_raw") for row in rows.values()] == raw
