"""Lists of points x, y and z, to a table: the points stand on a grid, some may be missing, in any order."""

from __future__ import annotations

from fractions import Fraction

import numpy as np
from numpy.typing import NDArray

from hilldale_lab.decimals import Decimals, TooManySteps
from hilldale_lab.formats.field import Field, Source

# How far a position may be from its place on the grid, as a part of the distance of its neighbours.
TOLERANCE = 0.1
# Of how many places at most one is measured.
MOST_EMPTY = 64


def grid_of_points(
    source: Source, shape: tuple[int, int], numbers: Decimals, rows: NDArray, columns: NDArray, notes: list[str]
) -> Field:
    """The surface of a list of points, with its distances in the list's own unit. Raises InputRefused."""
    if shape[1] != 3:
        raise source.refuse("", f"{shape[1]} columns, and a list of points has 3")
    axes = [_axis(source, shape[0], numbers, rows, columns, axis) for axis in range(3)]
    if not (axes[0][2].all() and axes[1][2].all()):
        raise source.refuse("", "a point has no x or no y")
    (x_at, x_pitch, x_count), (y_at, y_pitch, y_count) = (
        _places(source, values, power, name) for (values, power, _), name in zip(axes[:2], "xy")
    )
    if x_count * y_count > MOST_EMPTY * shape[0]:
        raise source.refuse("", f"{shape[0]} points on a grid of {x_count} by {y_count}: they are no surface")
    heights, power, measured = axes[2]
    places = y_at * x_count + x_at
    if len(np.unique(places)) != len(places):
        first = int(np.flatnonzero(np.bincount(places) > 1)[0])
        raise source.refuse("", f"two points stand at column {first % x_count} of profile {first // x_count}")
    values, there = np.zeros(x_count * y_count, np.int64), np.zeros(x_count * y_count, np.bool_)
    values[places], there[places] = heights, measured
    table = (y_count, x_count)
    notes = [
        *notes,
        f"a list of points: x goes up by {x_pitch or '-'} along a profile, and y by {y_pitch or '-'} between two",
    ]
    found = Field(values.reshape(table), there.reshape(table), None, None, None, Fraction(10) ** power, notes=notes)
    found.pitch = (x_pitch, y_pitch)
    return found


def _axis(
    source: Source, count: int, numbers: Decimals, rows: NDArray, columns: NDArray, axis: int
) -> tuple[NDArray[np.int64], int, NDArray[np.bool_]]:
    """The numbers of a column as whole multiples of a power of ten, the power, and which lines have one."""
    here = columns == axis
    mine = Decimals(numbers.mantissas[here], numbers.exponents[here])
    power = mine.last_power()
    values, measured = np.zeros(count, np.int64), np.zeros(count, np.bool_)
    try:
        values[rows[here]] = mine.steps(power)
    except TooManySteps as error:
        raise source.refuse(
            f"column {axis + 1}", "beyond 2^53 steps of its last place", "export fewer digits"
        ) from error
    measured[rows[here]] = True
    return values, power, measured


def _places(
    source: Source, values: NDArray[np.int64], power: int, name: str
) -> tuple[NDArray[np.int64], Fraction, int]:
    """The place of each position on its axis, the distance of two places, and how many there are."""
    levels = np.unique(values)
    if len(levels) == 1:
        return np.zeros(len(values), np.int64), Fraction(0), 1
    gaps = np.diff(levels)
    small = float(np.min(gaps[gaps > TOLERANCE * np.median(gaps)], initial=float(gaps.max())))
    count = round(float(levels[-1] - levels[0]) / float(np.median(gaps[gaps < 1.5 * small])))
    pitch = Fraction(int(levels[-1] - levels[0]), count)
    places = np.rint((values - levels[0]) / float(pitch)).astype(np.int64)
    off = np.abs((values - levels[0]) - places * float(pitch))
    if float(off.max()) > TOLERANCE * float(pitch):
        at = int(np.argmax(off))
        raise source.refuse(
            f"point {at + 1} of the list",
            f"its {name} stands on no even grid",
            "hilldale reads points at even distances",
        )
    return places, pitch * Fraction(10) ** power, count + 1
