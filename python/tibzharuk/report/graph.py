"""A graph of lines over whole numbers, drawn as SVG, with its numbers as a folded table, and the
keys of its colours."""

import math
from typing import Dict, Iterable, List, NamedTuple, Optional, Sequence, Tuple

Point = Tuple[float, float]
Span = Tuple[int, int]

LETTERS = {"A": "green", "C": "blue", "G": "brown", "T": "red", "N": "grey"}
# From which number on a level is written with this letter, and what the letter stands for.
SIZES = ((1e12, 1e12, " T"), (1e9, 1e9, " G"), (1e6, 1e6, " M"), (1e4, 1e3, " k"))


class Axes(NamedTuple):
    """What a graph shows, and over what."""

    unit: str  # such as "% of reads"
    across: str  # such as "position in the read"
    told: str  # the name of a place under the mouse, such as "position {}"
    columns: Sequence[str]  # what has a value at each place, such as "before"
    sign: str = ""  # what follows each value under the mouse


def round_step(most: float, number: int) -> float:
    """The least of 1, 2 or 5 times a power of ten that reaches `most` in at most `number` steps."""
    for digits in range(-2, 25):
        for digit in (1, 2, 5):
            step = digit * 10.0**digits
            if most <= number * step:
                return step
    return most


def levels_to(most: float, number: int) -> List[float]:
    """Round numbers from 0 to `most` or just above it, at most `number` steps."""
    step = round_step(most, number)
    return [step * place for place in range(max(math.ceil(most / step), 1) + 1)]


def level_names(levels: Sequence[float]) -> List[str]:
    """All levels in the unit of the highest: at most five characters each."""
    sizes = ((size, letter) for least, size, letter in SIZES if levels[-1] >= least)
    size, letter = next(sizes, (1, ""))
    return [f"{level / size:,g}{letter}" if level else "0" for level in levels]


def spans(last: int, most: int = 320) -> List[Span]:
    """Neighbouring numbers that are drawn as one point, up to `last`.

    They are pairs (a, b), each for a + 1 to b."""
    size = max(-(-last // most), 1)
    return [(start, min(start + size, last)) for start in range(0, last, size)]


def span_name(span: Span) -> str:
    return f"{span[1]:,}" if span[1] - span[0] == 1 else f"{span[0] + 1:,} to {span[1]:,}"


class Graph:
    """A graph of lines over whole numbers. Its parts are drawn in the order of the calls."""

    WIDE, HIGH, LEFT, RIGHT, TOP, BOTTOM, LINE = 520, 240, 56, 44, 10, 44, 15
    END = WIDE - RIGHT
    FLOOR = HIGH - BOTTOM

    def __init__(self, title: str, axes: Axes, first: float, last: float, most: float) -> None:
        self.title, self.axes = title, axes
        # A single number is in the middle.
        self.first, self.last = (first, last) if first < last else (first - 0.5, first + 0.5)
        self.levels = levels_to(max(most, 0.1), 5)
        self.parts: List[str] = []
        self.rows: List[str] = []

    def x(self, value: float) -> float:
        inside = self.END - self.LEFT
        return round(self.LEFT + (value - self.first) / (self.last - self.first) * inside, 1)

    def y(self, value: float) -> float:
        inside = self.FLOOR - self.TOP
        return round(self.FLOOR - value / self.levels[-1] * inside, 1)

    def text(self, x: float, y: float, said: str, form: str) -> str:
        return f'<text class="{form}" x="{x}" y="{y:.1f}">{said}</text>'

    def level(self, value: float, form: str) -> str:
        return f'<path class="{form}" d="M{self.LEFT} {self.y(value)}H{self.END}"/>'

    def grid(self) -> List[str]:
        """The levels with their numbers, and the name of the axis below."""
        drawn = []
        for value, name in zip(self.levels, level_names(self.levels)):
            drawn.append(self.level(value, "grid"))
            drawn.append(self.text(self.LEFT - 7, self.y(value) + 4, name, "end"))
        middle = (self.LEFT + self.END) / 2
        return drawn + [self.text(middle, self.HIGH - 5, self.axes.across, "mid")]

    def columns(self) -> List[str]:
        """Round numbers under the graph, and 1 if it is the first. Small windows show some only."""
        step = max(round_step(self.last - self.first, 8), 1)
        places = range(math.ceil(self.first / step), math.floor(self.last / step) + 1)
        values = [step * place for place in places]
        if self.first == 1:
            values = [1] + [value for value in values if value - 1 > step / 2]
        drawn = []
        for value in values:
            is_spare = len(values) > 5 and value / step % 2 == 1 and value != self.first
            form = "mid more" if is_spare else "mid"
            drawn.append(self.text(self.x(value), self.FLOOR + 18, f"{value:,g}", form))
        return drawn

    def mark(self, value: float, name: str) -> None:
        self.parts.append(self.level(value, "mark"))
        self.parts.append(self.text(self.END + 4, self.y(value) + 4, name, "name"))

    def line(
        self, points: Sequence[Point], colour: str, filled: bool = False, dashed: bool = False
    ) -> None:
        """A line through the points; a single one is a dot."""
        if len(points) == 1:
            x, y = self.x(points[0][0]), self.y(points[0][1])
            self.parts.append(f'<circle class="full {colour}" cx="{x}" cy="{y}" r="3.5"/>')
        if len(points) < 2:
            return
        way = "M" + "L".join(f"{self.x(x)} {self.y(y)}" for x, y in points)
        if filled:
            area = f"{way}V{self.y(0)}H{self.x(points[0][0])}Z"
            self.parts.append(f'<path class="area {colour}" d="{area}"/>')
        self.parts.append(f'<path class="line {colour}{" dashed" if dashed else ""}" d="{way}"/>')

    def letters(self, lines: Dict[str, List[Point]]) -> None:
        """The name of each line after its end; names that would overlap are moved apart."""
        ends = sorted((self.y(points[-1][1]) + 4, name) for name, points in lines.items() if points)
        heights = [y for y, _ in ends]
        for place in range(1, len(heights)):
            heights[place] = max(heights[place], heights[place - 1] + self.LINE)
        lowest = self.FLOOR + 4.0
        for place in reversed(range(len(heights))):
            heights[place] = min(heights[place], lowest)
            lowest = heights[place] - self.LINE
        for y, (_, name) in zip(heights, ends):
            self.parts.append(self.text(self.END + 6, y, name, f"letter {LETTERS[name]}"))

    def tip(self, start: float, end: float, name: str, values: Sequence[Optional[str]]) -> None:
        """The values of a place, shown while the mouse is there, and a row of the table."""
        left, right = self.x(max(start, self.first)), self.x(min(end, self.last))
        box = f"M{left} {self.TOP}H{right}V{self.FLOOR}H{left}Z"
        pairs = [(column, value) for column, value in zip(self.axes.columns, values) if value]
        told = ", ".join(f"{column} {value}{self.axes.sign}" for column, value in pairs)
        said = f"{self.axes.told.format(name)}: {told}"
        self.parts.append(f'<path class="tip" d="{box}"><title>{said}</title></path>')
        cells = "".join(f"<td>{value or '–'}</td>" for value in values)
        self.rows.append(f'<tr><th scope="row">{name}</th>{cells}</tr>')

    def table(self, caption: str) -> str:
        head = "".join(f'<th scope="col">{name}</th>' for name in self.axes.columns)
        return (
            '<details><summary>Numbers</summary><div class="wide">'
            f'<table><caption>{caption}</caption><thead><tr><th scope="col">{self.axes.across}</th>'
            f'{head}</tr></thead><tbody>{"".join(self.rows)}</tbody></table></div></details>'
        )

    def html(self) -> str:
        name = f"{self.title}: {self.axes.unit} by {self.axes.across}"
        drawn = self.grid() + (self.columns() if self.rows else []) + self.parts
        if not self.rows:
            middle = (self.LEFT + self.END) / 2
            drawn.append(self.text(middle, (self.TOP + self.FLOOR) / 2, "nothing to draw", "mid"))
        return (
            f"<figure><figcaption><b>{self.title.capitalize()}</b> {self.axes.unit}</figcaption>"
            f'<svg viewBox="0 0 {self.WIDE} {self.HIGH}" role="img" aria-label="{name}">'
            f'{"".join(drawn)}</svg>{self.table(name) if self.rows else ""}</figure>'
        )


def swatch(kind: str, colour: str) -> str:
    shape = '<rect class="{}" x="9" width="13" height="12" rx="3"/>'
    if kind.startswith("line"):
        shape = '<path class="{}" d="M0 6H22"/>'
    drawn = shape.format(f"{kind} {colour}")
    return f'<svg viewBox="0 0 22 12" aria-hidden="true">{drawn}</svg>'


def key(entries: Iterable[Tuple[str, str, str]], form: str = "key") -> str:
    """What the colours mean: (how it is drawn, colour, name) for each."""
    drawn = (f"<span>{swatch(kind, colour)}{name}</span>" for kind, colour, name in entries)
    return f'<p class="{form}">{"".join(drawn)}</p>'
