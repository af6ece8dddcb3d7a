"""Whether the records of a SAM or BAM file are those of the pairs that its mapper was given."""

import pytest

from tibzharuk.trim.records import Primary, of_flags, of_flagstat, of_sam, why_not

# As samtools 1.16 prints it: both mates of 5 pairs, one of them poor, and others of the first.
FLAGSTAT = """14 + 2 in total (QC-passed reads + QC-failed reads)
9 + 2 primary
3 + 0 secondary
2 + 0 supplementary
0 + 0 duplicates
0 + 0 primary duplicates
14 + 2 mapped (100.00% : 100.00%)
9 + 2 primary mapped (100.00% : 100.00%)
8 + 2 paired in sequencing
4 + 1 read1
4 + 1 read2
8 + 2 properly paired (100.00% : 100.00%)
"""


@pytest.mark.parametrize("flags, wanted", (
    ({}, (0, 0, 0)),
    ({0x1 | 0x40: 2, 0x1 | 0x80: 3}, (2, 3, 0)),
    ({77: 5, 141: 5}, (5, 5, 0)),                   # neither mate is mapped
    ({99: 1, 147: 1, 99 | 0x800: 4, 147 | 0x100: 4}, (1, 1, 0)),
    ({99 | 0x400: 1, 147 | 0x200: 1}, (1, 1, 0)),   # a duplicate and a poor one
    ({0: 2, 16: 1, 4: 1, 0x100: 3, 0x810: 3}, (0, 0, 4)),
))
def test_flags(flags, wanted):
    assert of_flags(flags) == wanted


@pytest.mark.parametrize("text, wanted", (
    (b"", (0, 0, 0)),
    (b"@SQ\tSN:a\tLN:9\n@PG\tID:bwa\n", (0, 0, 0)),
    (b"@HD\tVN:1.6\nr\t77\t*\t0\nr\t141\t*\t0\nr\t2113\ta\t1\n", (1, 1, 0)),
    (b"r\t4\t*\t0\n", (0, 0, 1)),
    (b"r\t77\t*\nr", None),         # cut
    (b"@r\nACGT\n+\nIIII\n", None),
    (b"\0\n\0", None),
))
def test_sam(text, wanted):
    assert of_sam(text.splitlines(True)) == wanted


@pytest.mark.parametrize("text, wanted", (
    (FLAGSTAT, (5, 5, 1)),
    (FLAGSTAT.replace("9 + 2 primary\n", "").replace("0 + 0 primary duplicates\n", ""), (5, 5, 1)),
    ("", None),
    (FLAGSTAT.replace("4 + 1 read2", ""), None),
))
def test_what_samtools_counts(text, wanted):
    assert of_flagstat(text) == wanted


@pytest.mark.parametrize("pairs, found, wanted", (
    (0, Primary(0, 0), None),
    (7, Primary(7, 7), None),
    (7, Primary(7, 6), "its command was given 7 pairs, but made primary records of 7 first and 6 "
                       "second mates"),
    (7, Primary(0, 0, 14), "its command was given 7 pairs, but made primary records of 0 first and "
                           "0 second mates, and of 14 reads without a mate"),
    (7, Primary(7, 7, 1), "its command was given 7 pairs, but made primary records of 7 first and "
                          "7 second mates, and of 1 reads without a mate"),
    (7, None, "it is neither SAM nor BAM"),
))
def test_the_pairs_that_were_passed(pairs, found, wanted):
    assert why_not(pairs, found) == wanted
