"""Parts of the page of a report."""

import re

import pytest

from reports import adapters, report
from tibzharuk.report import drawings, page


@pytest.mark.parametrize("more, share, said", (
    ({}, "81.0", "16,200 of 20,000"),
    ({"adapters": None}, "81.0", "16,200 of 20,000"),
    ({"adapters": adapters(10, 2500)}, "64.8", "16,200 of 25,000 before cutadapt"),
))
def test_bases_kept_are_of_the_raw_ones(more, share, said):
    made = page.page(report(**more), "s")
    card = re.search("<small>Bases kept</small><b>([0-9.]*).%</b><small>([^<]*)</small>", made)
    assert card.groups() == (share, said)


@pytest.mark.parametrize("scores, told", (
    ((35, 36), "before 100.0 %, after 100.0 %"),
    ((25, 36), "before 0.0 %, after 100.0 %"),
))
def test_bases_with_q30_by_position(scores, told):
    found = report(scores=scores)
    before, after = ({side: found["reads"][side][part] for side in drawings.SIDES}
                     for part in ("before", "paired"))
    titles = re.findall("<title>(.*?)</title>", drawings.high_scores_by_position(before, after))
    assert len(titles) == 200 and titles[0] == f"position 1: {told}"
    assert titles[99] == f"position 100: {told.split(',')[0]}"
