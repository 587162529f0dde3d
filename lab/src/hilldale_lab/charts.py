"""Charts of a series as SVG that stands within a page: a run chart and a histogram."""

from __future__ import annotations

from collections.abc import Callable, Sequence
from dataclasses import dataclass
from fractions import Fraction
from html import escape

from markupsafe import Markup

from hilldale_lab.series import Reading, Series
from hilldale_lab.ticks import nice_step, ticks

WIDTH, LEFT, RIGHT, TOP, BOTTOM = 760, 76, 12, 10, 40
INK, PALE, BLUE, RED = "#595959", "#d4d4d4", "#5b7a99", "#a63603"
MOST_BINS = 24
FAR = 3  # a limit so many spans away from the values is told, and not drawn


@dataclass(frozen=True)
class Frame:
    """The field of a chart: the first and last numbers across and up, which differ. counts: `across` or `up`, where
    only whole numbers are marked."""

    across: tuple[Fraction, Fraction]
    up: tuple[Fraction, Fraction]
    height: int
    counts: str

    def x(self, value: Fraction | int) -> str:
        """Where a number stands across."""
        part = float((value - self.across[0]) / (self.across[1] - self.across[0]))
        return f"{LEFT + part * (WIDTH - LEFT - RIGHT):.2f}"

    def y(self, value: Fraction | int) -> str:
        """Where a number stands up."""
        part = float((value - self.up[0]) / (self.up[1] - self.up[0]))
        return f"{self.height - BOTTOM - part * (self.height - TOP - BOTTOM):.2f}"

    def svg(self, parts: Sequence[str], label: str, across: str) -> Markup:
        """The chart with its axes. label: what it shows, in words. across: what stands below it."""
        down = self.height - BOTTOM
        lines = [f'<svg viewBox="0 0 {WIDTH} {self.height}" role="img" aria-label="{escape(label)}">']
        for value, text in self._marks("up", 5):
            y = self.y(value)
            lines.append(f'<path d="M{LEFT} {y}H{WIDTH - RIGHT}" stroke="{PALE}"/>')
            lines.append(f'<text x="{LEFT - 6}" y="{y}" dy=".35em" text-anchor="end">{text}</text>')
        for value, text in self._marks("across", 8):
            lines.append(f'<text x="{self.x(value)}" y="{down + 16}" text-anchor="middle">{text}</text>')
        lines.append(
            f'<text x="{(LEFT + WIDTH) // 2}" y="{self.height - 6}" text-anchor="middle">{escape(across)}</text>'
        )
        lines += parts
        lines.append(f'<path d="M{LEFT} {TOP}V{down}H{WIDTH - RIGHT}" fill="none" stroke="{INK}"/></svg>')
        return Markup("\n".join(lines))

    def _marks(self, axis: str, wanted: int) -> list[tuple[Fraction, str]]:
        found = ticks(*(self.up if axis == "up" else self.across), wanted)
        return [mark for mark in found if self.counts != axis or mark[0].denominator == 1]


def in_unit(unit: str) -> str:
    """A unit behind a name, as ` in µm`."""
    shown = shown_unit(unit)
    return f" {shown}" if shown.startswith("per ") else f" in {shown}" if shown else ""


def shown_unit(unit: str) -> str:
    """A unit of a heading as a page shows it, as `µm²`."""
    for letters, sign in (("um", "µm"), ("2", "²"), ("3", "³")):
        unit = unit.replace(letters, sign)
    return unit


def widened(least: Fraction, greatest: Fraction) -> tuple[Fraction, Fraction]:
    """A range with a rim on both sides, which is never empty."""
    rim = (greatest - least) / 20 or abs(least) / 10 or Fraction(1)
    return least - rim, greatest + rim


def drawn_limits(series: Series) -> list[Fraction]:
    """The limits that stand near enough to the values."""
    least, greatest = series.least.value, series.greatest.value
    room = FAR * ((greatest - least) or abs(least) or Fraction(1))
    return [value for value in series.limit_values() if least - room <= value <= greatest + room]


def run_chart(series: Series, rows: int, report: Callable[[Reading], str]) -> Markup:
    """The values in the order of the rows, with the limits. report: where the report of a value is, or empty."""
    limits = drawn_limits(series)
    values = [series.least.value, series.greatest.value, *limits]
    frame = Frame((Fraction(1, 2), rows + Fraction(1, 2)), widened(min(values), max(values)), 240, "across")
    parts = [
        f'<path d="M{LEFT} {frame.y(value)}H{WIDTH - RIGHT}" stroke="{RED}" stroke-width="1.5" stroke-dasharray="7 4"/>'
        for value in limits
    ]
    places = [(reading, frame.x(reading.place), frame.y(reading.value)) for reading in series.readings]
    dots = "".join(f"M{x} {y}h0" for reading, x, y in places if not reading.is_failed)
    parts.append(f'<path d="{dots}" stroke="{BLUE}" stroke-width="5" stroke-linecap="round"/>')
    for reading, x, y in places:
        if reading.is_failed:
            cross = f'<path d="M{x} {y}m-4-4l8 8m0-8l-8 8" stroke="{RED}" stroke-width="2.2"/>'
            mark = f"<g>{cross}<title>{escape(reading.file)}</title></g>"
            where = report(reading)
            parts.append(f'<a href="{escape(where)}">{mark}</a>' if where else mark)
    return frame.svg(parts, f"{series.name} of {len(series.readings)} files in their order", "file")


def histogram_chart(series: Series) -> Markup:
    """How many values lie where, in bins of a round width."""
    least, greatest = series.least.value, series.greatest.value
    width = nice_step((greatest - least) or abs(least) or Fraction(1), MOST_BINS - 2)
    first = least // width
    counts = [0] * (int(greatest // width - first) + 1)
    for reading in series.readings:
        counts[int(reading.value // width - first)] += 1
    frame = Frame((first * width, (first + len(counts)) * width), (Fraction(0), Fraction(max(counts))), 190, "up")
    parts = []
    for place, count in enumerate(counts):
        left, right, top = frame.x((first + place) * width), frame.x((first + place + 1) * width), frame.y(count)
        bar = f"M{left} {frame.y(0)}V{top}H{right}V{frame.y(0)}z"
        parts += [f'<path d="{bar}" fill="{BLUE}" stroke="#ffffff"><title>{count}</title></path>'] if count else []
    return frame.svg(parts, f"how many files have which {series.name}", f"{series.name}{in_unit(series.unit)}")
