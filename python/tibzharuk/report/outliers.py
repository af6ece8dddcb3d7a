"""Which samples of a run lie outside the others, and in what."""

import statistics
from typing import Dict, List, Mapping, NamedTuple, Optional, Tuple

from .reading import SIDES, Reads, Report, both

from .sections import raw_bases

Values = Dict[str, Optional[float]]  # what is measured of a sample, by the names of MEASURES
Outside = Dict[str, Dict[str, float]]  # by sample and measure: how far outside, 1 is the bound

FEWEST = 4  # samples by which one can lie outside the others
# Makes a median absolute deviation comparable with a standard deviation, as mad() of R does.
SCALE, DEVIATIONS = 1.4826, 3


class Measure(NamedTuple):
    """What samples are compared by."""

    title: str
    unit: str
    digits: int
    low: bool  # whether a low value is marked
    high: bool
    least: float  # a smaller difference from the median isn't marked
    part: float = 0.0  # nor one that is a smaller part of the median


MEASURES = {
    "pairs": Measure("Pairs", "", 0, True, True, 1, 0.2),
    "kept": Measure("Pairs kept", " %", 1, True, False, 1),
    "bases": Measure("Bases kept", " %", 1, True, False, 1),
    "q30": Measure("Q30 before", " %", 1, True, False, 1),
    "length": Measure("Length after", "", 1, True, False, 1),
    "gc": Measure("G and C", " %", 1, True, True, 1),
    "adapter": Measure("Adapter", " %", 1, False, True, 1),
}


def after_of(report: Report) -> Dict[str, Reads]:
    """What was counted of the reads of each side that survive."""
    sides = report["reads"]
    return {side: both(sides[side]["paired"], sides[side]["unpaired"]) for side in SIDES}


def percent(part: float, whole: float) -> Optional[float]:
    return 100 * part / whole if whole else None


def share_with_adapter(report: Report) -> Optional[float]:
    """The % of reads in which cutadapt found an adapter, of those that it looked at."""
    adapters = report.get("adapters") or {}
    counts = [adapters[side]["pairs_with_adapter"] for side in SIDES if adapters]
    found = [count for count in counts if count is not None]
    return percent(sum(found), len(found) * adapters["pairs_read"]) if found else None


def values_of(report: Report) -> Values:
    """What is measured of a sample."""
    old = both(*(report["reads"][side]["before"] for side in SIDES))
    new = both(*after_of(report).values())
    pairs = report["pairs"]
    return {
        "pairs": pairs["input"],
        "kept": percent(pairs["both_surviving"], pairs["input"]),
        "bases": percent(new["bases"], raw_bases(report)),
        "q30": percent(old["q30_bases"], old["bases"]),
        "length": new["bases"] / new["reads"] if new["reads"] else None,
        "gc": percent(old["gc_bases"], old["bases"]),
        "adapter": share_with_adapter(report),
    }


def middle_and_bound(values: List[float], measure: Measure) -> Tuple[float, float]:
    """The median of some values, and how far from it a value may be."""
    middle = statistics.median(values)
    deviation = SCALE * statistics.median(abs(value - middle) for value in values)
    return middle, max(DEVIATIONS * deviation, measure.least, measure.part * abs(middle))


def outside(values: Mapping[str, Values]) -> Outside:
    """The samples that lie outside the others: their measures, and how many bounds from the median
    they are."""
    found: Outside = {sample: {} for sample in values}
    for name, measure in MEASURES.items():
        known = {sample: each[name] for sample, each in values.items()}
        numbers = [value for value in known.values() if value is not None]
        if len(numbers) < FEWEST:
            continue
        middle, bound = middle_and_bound(numbers, measure)
        for sample, value in known.items():
            far = (value - middle) / bound if value is not None else 0.0
            if far < -1 and measure.low or far > 1 and measure.high:
                found[sample][name] = far
    return found


def worst_first(values: Mapping[str, Values], found: Outside) -> List[str]:
    """The samples: those that keep less than half of their pairs, those that lie outside, the
    farthest first, and the others by the pairs that they keep."""

    def place(sample: str) -> Tuple[bool, float, float]:
        kept = values[sample]["kept"]
        share = 0.0 if kept is None else kept
        far = max((abs(each) for each in found[sample].values()), default=0.0)
        return share >= 50, -far, share

    return sorted(values, key=place)
