"""Looks at the rows of the page of all samples: the project's own table, and MultiQC's.

    page_looks.py PAGE NAMES BAD   BAD is the only sample with marks, and first
"""

import re
import sys


def main(page, names, bad):
    with open(page, encoding="utf-8") as file:
        content = file.read()
    with open(names, encoding="utf-8") as file:
        samples = file.read().split()
    above, below = content.split('id="general_stats_table"', 1)
    own = above.split('<div class="tz">')[1]
    rows = re.findall(r'<tr><th scope="row">(.*?)</th>(.*?)</tr>', own, re.DOTALL)
    found = [re.sub("<[^>]*>", "", name) for name, _ in rows]
    assert found[0] == bad and sorted(found) == sorted(samples), found
    for name, (link, cells) in zip(found, rows):
        assert link == f'<a href="reports/{name}.html">{name}</a>', link
        assert ('class="out"' in cells) == (name == bad), (name, cells)
        assert cells.count("<svg") == 4 and cells.count('d="M') >= 11, (name, cells)
    table = below.split("</table>")[0]
    shown = re.findall(r'<th class="rowheader"[^>]*>(.*?)</th>', table)
    assert sorted(shown[1:]) == sorted(samples), shown
    assert "mqc-table-responsive mqc-table-collapse" not in content, "a part of the table is hidden"
    assert "tibzharuk_scores_before" not in re.findall(r'id="([^"]*)"', content)


main(*sys.argv[1:])
