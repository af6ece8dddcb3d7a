"""A plugin of MultiQC, which finds reports and puts them on its page. MultiQC loads it by the entry
points of this package (pyproject.toml).

    tibzharuk  what MultiQC calls, which prints the name of this module
    counts     the numbers that the page shows of a report
"""


def add_search_pattern() -> None:
    """Says how MultiQC recognizes a report: it is one line that names the program."""
    from multiqc import config

    pattern = {"contents": '"program":"fq_prog"', "num_lines": 1}
    config.update_dict(config.sp, {"tibzharuk": pattern})
