"""Which fault ends a run, from how its processes ended."""

import itertools

import pytest

from tibzharuk.trim.children import Ended
from tibzharuk.trim.faults import Fault
from tibzharuk.trim.verdict import (CutadaptEnd, Ends, SideEnd, needs_more, verdict,
                                    why_of_command)

GOOD = SideEnd(True, None)
CUT = SideEnd(False, Fault(3, "cannot read a.gz: unexpected end of file"))
UNREAD = SideEnd(False, None)       # its decompressor still runs
OK = Ended(0)
FAILED = Fault(3, "cutadapt: why")
REFUSED = Fault(2, "cutadapt: no such option")
MAPPER = Fault(4, "cannot write s.bam: why")


def clean(passed=7):
    return CutadaptEnd(OK, None, passed)


def ends(program=OK, sides=(GOOD, GOOD), taken=7, cutadapt=None, writer=None):
    return Ends(program, "fq_prog", sides, taken, cutadapt, {"/dev/fd/5": "a.gz"}, writer)


ROWS = {
    "all is well": (ends(), None),
    "cutadapt too": (ends(cutadapt=clean()), None),
    "the program explains its arguments": (ends(Ended(1, b"usage")), (1, "")),
    "it says nothing": (ends(Ended(1)), (1, "fq_prog ended with status 1")),
    "wrong arguments before a cut file": (ends(Ended(1, b"usage"), (CUT, GOOD)), (1, "")),
    "a wrong step before a cut file": (ends(Ended(2, b"no such step\n"), (CUT, GOOD)),
                                       (2, "no such step")),
    "a fault in a text": (ends(Ended(3, b"x\nread failed: /dev/fd/5: why\n")),
                          (3, "read failed: a.gz: why")),
    "a cut file before the fault in its text": (ends(Ended(3, b"short"), (GOOD, CUT)),
                                                (3, "cannot read a.gz: unexpected end of file")),
    "a cut file though the program ended well": (ends(OK, (CUT, GOOD)),
                                                 (3, "cannot read a.gz: unexpected end of file")),
    "a full disk before a cut file": (ends(Ended(4, b"cannot write"), (CUT, GOOD)),
                                      (4, "cannot write")),
    "killed": (ends(Ended(-9)), (137, "fq_prog was ended by SIGKILL")),
    "no summary": (ends(taken=None), (4, "fq_prog ended before it had read its inputs")),
    "a side isn't read": (ends(sides=(GOOD, UNREAD)),
                          (4, "fq_prog ended before it had read its inputs")),
    "cutadapt refuses its options": (
        ends(Ended(3, b"x"), (CUT, UNREAD), cutadapt=CutadaptEnd(Ended(2), REFUSED, None)),
        (2, "cutadapt: no such option")),
    "cutadapt fails": (ends(cutadapt=CutadaptEnd(Ended(1), FAILED, None)), (3, "cutadapt: why")),
    "a cut file before cutadapt": (ends(OK, (GOOD, CUT), cutadapt=CutadaptEnd(Ended(1), FAILED, 7)),
                                   (3, "cannot read a.gz: unexpected end of file")),
    "cutadapt before the program": (
        ends(Ended(3, b"odd"), cutadapt=CutadaptEnd(Ended(1), FAILED, None)), (3, "cutadapt: why")),
    "cutadapt met a closed pipe": (
        ends(Ended(3, b"odd"), cutadapt=CutadaptEnd(Ended(-13), None, None)), (3, "odd")),
    "cutadapt still runs": (
        ends(cutadapt=CutadaptEnd(None, None, None)), (4, "cutadapt was ended")),
    "cutadapt has no report": (ends(cutadapt=clean(None)), (4, "cutadapt: no report")),
    "a pair is lost between both": (
        ends(cutadapt=clean(8)),
        (4, "cutadapt passed on 8 pairs, but fq_prog read another number")),
    "the mapper fails after the program": (ends(writer=MAPPER), (4, "cannot write s.bam: why")),
    "a cut file before the mapper, which met its end": (
        ends(Ended(3, b"short"), (CUT, GOOD), writer=MAPPER),
        (3, "cannot read a.gz: unexpected end of file")),
    "a fault in a text before the mapper": (ends(Ended(3, b"odd"), writer=MAPPER), (3, "odd")),
    "a full disk before the mapper": (ends(Ended(4, b"cannot write"), writer=MAPPER),
                                      (4, "cannot write")),
    "the program was killed before the mapper": (
        ends(Ended(-9), writer=MAPPER), (137, "fq_prog was ended by SIGKILL")),
    "cutadapt before the mapper": (
        ends(cutadapt=CutadaptEnd(Ended(1), FAILED, None), writer=MAPPER), (3, "cutadapt: why")),
    "a lost pair before the mapper": (
        ends(cutadapt=clean(8), writer=MAPPER),
        (4, "cutadapt passed on 8 pairs, but fq_prog read another number")),
    "memory": (ends(Ended(5, b"out of memory")), (5, "out of memory")),
    "threads": (ends(Ended(6, b"no thread"), (CUT, GOOD)), (6, "no thread")),
    "a status without a line": (ends(Ended(7)), (7, "status 7")),
    "both files are cut": (ends(Ended(3, b"short"), (CUT, CUT)),
                           (3, "cannot read a.gz: unexpected end of file")),
    "an interleaved file": (ends(sides=(GOOD,)), None),
    "an interleaved file is cut": (ends(Ended(3, b"short"), (CUT,)),
                                   (3, "cannot read a.gz: unexpected end of file")),
    "no pairs": (ends(taken=0, cutadapt=clean(0)), None),
}


@pytest.mark.parametrize("given, wanted", ROWS.values(), ids=ROWS)
def test_verdict(given, wanted):
    fault = verdict(given)
    assert (fault and (fault.status, fault.line)) == wanted


@pytest.mark.parametrize("given, wanted", (
    (ends(), False), (ends(Ended(3)), True), (ends(Ended(4)), False), (ends(Ended(-9)), False),
    (ends(cutadapt=clean()), False), (ends(cutadapt=CutadaptEnd(Ended(1), FAILED, None)), True),
    (ends(Ended(3), cutadapt=CutadaptEnd(Ended(2), REFUSED, None)), False),
))
def test_whether_to_read_on(given, wanted):
    assert needs_more(given) == wanted


PROGRAMS = [Ended(status, b"line") for status in (0, 1, 2, 3, 4, 5, 6, -9, -13)]
SIDES = list(itertools.product((GOOD, CUT, UNREAD), repeat=2))
CUTADAPTS = [None, clean(), clean(8), clean(None), CutadaptEnd(None, None, None)] + [
    CutadaptEnd(Ended(status), fault, None)
    for status, fault in ((1, FAILED), (2, REFUSED), (-9, FAILED), (-13, None))]


@pytest.mark.parametrize("program", PROGRAMS, ids=lambda end: str(end.status))
def test_nothing_is_whole_unless_all_are(program):
    """Of each combination of ends: none is taken for a good run but those in which each process
    ended well and every pair was read, and each other one has a status and a line."""
    for sides, cutadapt, writer, taken in itertools.product(
            SIDES, CUTADAPTS, (None, MAPPER), (None, 7)):
        given = ends(program, sides, taken, cutadapt, writer)
        is_whole = (program.status == 0 and sides == (GOOD, GOOD) and taken == 7
                    and cutadapt in (None, clean()) and writer is None)
        fault = verdict(given)
        assert (fault is None) == is_whole
        assert fault is None or fault.status > 0 and (fault.line or program.status == 1)
        if program.status not in (0, 3):    # its own status is that of the run
            assert fault.status == (program.status if program.status > 0 else 128 - program.status)


@pytest.mark.parametrize("status, has_read_all, is_read, wanted", (
    (0, True, False, None),
    (0, False, False, "its command ended before it had read all pairs"),
    (1, True, False, "its command ended with status 1"),
    (1, False, True, "its command ended with status 1"),
    (-9, True, False, "its command was ended by SIGKILL"),
    (137, False, False, "its command ended with status 137 (SIGKILL)"),
    (255, True, False, "its command ended with status 255"),
    (-13, False, True, "its reader has ended"),
    (141, False, True, "its reader has ended"),
    (141, False, False, "its command ended with status 141 (SIGPIPE)"),
))
def test_the_users_command(status, has_read_all, is_read, wanted):
    assert why_of_command(Ended(status), has_read_all, is_read) == wanted
