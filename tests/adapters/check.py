"""Compares what a report and its page say of adapters with what cutadapt counts.

    check.py REPORT JSON VERSION PAGE   JSON is cutadapt's own, over the same reads
"""

import html
import json
import re
import sys


def loaded(path):
    with open(path, encoding="utf-8") as file:
        return json.load(file)


def text_of(path):
    with open(path, encoding="utf-8") as file:
        return " ".join(html.unescape(re.sub("<[^>]*>", " ", file.read())).split())


def main(report_path, json_path, version, page_path):
    report, counted, text = loaded(report_path), loaded(json_path), text_of(page_path)
    found, pairs, bases = report["adapters"], counted["read_counts"], counted["basepair_counts"]
    assert (found["program"], found["version"]) == ("cutadapt", version), found
    assert found["options"][0] == "-a" and found["options"][-2:] == ["-m", "50"], found["options"]
    assert found["pairs_read"] == pairs["input"] == 2000, found
    assert found["pairs_removed"] == pairs["filtered"]["too_short"] > 10, found
    assert found["pairs_read"] - found["pairs_removed"] == report["pairs"]["input"], found
    assert f"{found['pairs_removed']:,} " in text
    for number, side in (1, "forward"), (2, "reverse"):
        with_adapter, removed = found[side]["pairs_with_adapter"], found[side]["bases_removed"]
        read = bases[f"input_read{number}"]
        assert with_adapter == pairs[f"read{number}_with_adapter"] > 100, found
        assert removed == read - bases[f"output_read{number}"] > 1000, found
        assert removed + report["reads"][side]["before"]["bases"] == read == 200_000, found
        assert f"{with_adapter:,} " in text and f"{removed:,} " in text, side
    options = " ".join(found["options"])
    assert f"Adapters were removed with cutadapt {version} ({options})" in text, text


main(*sys.argv[1:])
