"""Masks by rule: which points a rule takes, and the script's `mask` lines that they become. No number is rounded."""

from __future__ import annotations

import math
from collections.abc import Iterable, Sequence
from fractions import Fraction

import numpy as np
from numpy.typing import NDArray

from hilldale_lab.errors import LabError
from hilldale_lab.height_map import HeightMap
from hilldale_lab.units import Kind, Scales
from hilldale_lab.values import Quantity

Points = NDArray[np.bool_]
Length = str | int | Fraction
Row = tuple[int, int, int]


def above(surface: HeightMap, steps: Fraction) -> Points:
    """The present points that are higher than so many steps."""
    return surface.measured & (surface.steps > math.floor(steps))


def below(surface: HeightMap, steps: Fraction) -> Points:
    """The present points that are lower than so many steps."""
    return surface.measured & (surface.steps < math.ceil(steps))


def _middle_sum(numbers: NDArray[np.int64]) -> int:
    """Twice the median: the sum of the two middle numbers, or twice the one."""
    low, high = (len(numbers) - 1) // 2, len(numbers) // 2
    ordered = np.partition(numbers, (low, high))
    return int(ordered[low]) + int(ordered[high])


def outliers(surface: HeightMap, times: Fraction) -> Points:
    """The present points further from the median of the heights than `times` the median absolute deviation.

    Raises LabError where no point is present, or this deviation is 0.
    """
    if not surface.measured.any():
        raise LabError("no point is present, so none is an outlier")
    heights = surface.steps[surface.measured]
    twice_median = _middle_sum(heights)
    deviations = np.abs(2 * heights - twice_median)
    deviation = Fraction(_middle_sum(deviations), 4)
    if not deviation:
        raise LabError("the median absolute deviation of the heights is 0: no multiple of it tells an outlier")
    found = np.zeros_like(surface.measured)
    found[surface.measured] = deviations > math.floor(2 * times * deviation)
    return found


def length(given: Length, spacing: Fraction) -> Fraction:
    """A length in multiples of a spacing: a whole number counts points; a text has a unit, as `120 um`. Raises
    LabError."""
    if isinstance(given, str):
        quantity = Quantity.parse(given)
        if quantity.kind is Kind.HEIGHT and not quantity.raw:
            if not spacing:
                raise LabError(f"{given!r}: the points have no distance")
            return quantity.amount / spacing
        if quantity.kind in (Kind.NUMBER, Kind.AREA) and (quantity.raw or not given.strip().endswith("%")):
            return quantity.amount
        raise LabError(f"{given!r} is no length: write it as 120 um, or a number of points")
    return Fraction(given)


def circle(shape: tuple[int, int], scales: Scales, x: Length, y: Length, radius: Length) -> Points:
    """The points at most `radius` from a centre. x, y, radius: as `120 um`; x and y also as a column and a profile.

    Raises LabError where one is no length, or the radius has no unit while points lie at two distances.
    """
    if not isinstance(radius, str) and scales.dx != scales.dy:
        raise LabError("a radius in points needs points of one distance each way: write it as 120 um")
    found = np.zeros(shape, np.bool_)
    middle, across = length(x, scales.dx), length(y, scales.dy)
    wide, high = length(radius, scales.dx), length(radius, scales.dy)
    if wide < 0:
        raise LabError(f"the radius {radius} is below 0")
    for row in range(max(0, math.ceil(across - high)), min(shape[0] - 1, math.floor(across + high)) + 1):
        share = 1 - ((row - across) / high) ** 2 if high else Fraction(1)
        first, last = _columns_within(middle, wide**2 * share)
        found[row, max(0, first) : max(0, last + 1)] = True
    return found


def _columns_within(middle: Fraction, square: Fraction) -> tuple[int, int]:
    """The first and the last column whose distance from the middle has at most this square; last < first if none."""
    reach = math.isqrt(math.floor(square)) + 1
    first, last = math.ceil(middle) - reach, math.floor(middle) + reach
    while last >= middle and (last - middle) ** 2 > square:
        last -= 1
    while first <= middle and (first - middle) ** 2 > square:
        first += 1
    return first, last


def polygon(shape: tuple[int, int], scales: Scales, corners: Sequence[tuple[Length, Length]]) -> Points:
    """The points in a polygon or on its border, by the even-odd rule. corners: x and y of each, as `circle` takes them.

    Raises LabError for fewer than three corners.
    """
    if len(corners) < 3:
        raise LabError("a polygon has at least three corners")
    places = [(length(x, scales.dx), length(y, scales.dy)) for x, y in corners]
    edges = list(zip(places, places[1:] + places[:1]))
    found = np.zeros(shape, np.bool_)
    for row in range(shape[0]):
        crossings = sorted(
            _crossing(edge, row) for edge in edges if min(edge[0][1], edge[1][1]) <= row < max(edge[0][1], edge[1][1])
        )
        for left, right in [*zip(crossings[::2], crossings[1::2]), *_touched(edges, row)]:
            found[row, max(0, math.ceil(left)) : max(0, math.floor(right) + 1)] = True
    return found


Edge = tuple[tuple[Fraction, Fraction], tuple[Fraction, Fraction]]


def _crossing(edge: Edge, row: int) -> Fraction:
    """The column at which an edge that is not level crosses a profile."""
    (x0, y0), (x1, y1) = edge
    return x0 + (row - y0) * (x1 - x0) / (y1 - y0)


def _touched(edges: Iterable[Edge], row: int) -> Iterable[tuple[Fraction, Fraction]]:
    """What lies of each edge on a profile: from which column to which."""
    for edge in edges:
        (x0, y0), (x1, y1) = edge
        if y0 == y1 == row:
            yield min(x0, x1), max(x0, x1)
        elif y0 != y1 and min(y0, y1) <= row <= max(y0, y1):
            at = _crossing(edge, row)
            yield at, at


def rectangles(points: Points) -> list[tuple[int, int, int, int]]:
    """The points as rectangles (first column, first profile, last column, last profile), none of which overlap.

    Each is a run of a profile, and of the next profiles where the same run comes again. In the order of their corners.
    """
    padded = np.zeros((points.shape[0], points.shape[1] + 2), np.int8)
    padded[:, 1:-1] = points
    change = np.diff(padded, axis=1)
    rows, first = np.nonzero(change == 1)
    last = np.nonzero(change == -1)[1] - 1
    order = np.lexsort((rows, last, first))
    rows, first, last = rows[order], first[order], last[order]
    goes_on = np.zeros(len(rows), np.bool_)
    goes_on[1:] = (first[1:] == first[:-1]) & (last[1:] == last[:-1]) & (rows[1:] == rows[:-1] + 1)
    heads = np.flatnonzero(~goes_on)
    tails = np.append(heads[1:], len(rows)) - 1 if len(rows) else heads
    found = zip(first[heads].tolist(), rows[heads].tolist(), last[heads].tolist(), rows[tails].tolist())
    return sorted(found, key=lambda corner: (corner[1], corner[0]))


def mask_lines(points: Points) -> list[str]:
    """The lines of a script that mask these points."""
    return [f"mask {x0} {y0} {x1} {y1}" for x0, y0, x1, y1 in rectangles(points)]
