"""What a drawing asks of regions and no command of the program tells. All of it is the lab's own, and unproved.

Regions are numbered by labels: an int32 table of the map's shape, -1 where a point is not present. `at` is a height C
in whole steps; for hills `at most C` is read as `at least C`.
"""

from __future__ import annotations

from decimal import Decimal, localcontext
from fractions import Fraction

import numpy as np
from numpy.typing import NDArray

from hilldale_lab.height_map import HeightMap
from hilldale_lab.labels import edge_points

Labels = NDArray[np.int32]
Counts = NDArray[np.int64]
PI = Decimal("3.14159265358979323846264338327950288419716939937510582097494459")
DIAMETER_DIGITS = 40


def _is_within(surface: HeightMap, side: str, at: int) -> NDArray[np.bool_]:
    within = surface.steps <= at if side == "D" else surface.steps >= at
    return within & surface.measured


def points_at(surface: HeightMap, labels: Labels, count: int, side: str, at: int) -> Counts:
    """How many points of each region are at most C high."""
    return np.bincount(labels[_is_within(surface, side, at)], minlength=count)


def is_open(surface: HeightMap, labels: Labels, count: int, side: str, at: int) -> NDArray[np.bool_]:
    """Whether an edge point of each region is at most C high, so that the region is open at C."""
    return np.bincount(labels[_is_within(surface, side, at) & edge_points(surface.measured)], minlength=count) > 0


def position_sums(labels: Labels, count: int) -> tuple[Counts, Counts]:
    """The sum of the columns and of the profiles of the points of each region."""
    rows, columns = np.nonzero(labels >= 0)
    found = labels[rows, columns]
    # The sums are whole numbers below 2^53, which bincount adds without loss.
    sums = (np.bincount(found, weights=places, minlength=count) for places in (columns, rows))
    in_columns, in_profiles = (total.astype(np.int64) for total in sums)
    return in_columns, in_profiles


def mean_of_reaching(points: Counts, closed: NDArray[np.bool_], reaches: NDArray[np.bool_]) -> Fraction | None:
    """The mean number of points of the regions that are closed at C and reach C; None where there is none.

    It is Sda (Sha) without the regions whose pit lies above C.
    """
    chosen = points[closed & reaches]
    return Fraction(int(chosen.sum()), len(chosen)) if len(chosen) else None


def equivalent_diameter(area: Fraction) -> Fraction:
    """The diameter of the circle of this area, rounded to 40 digits: the root of 4 area / pi."""
    with localcontext() as context:
        context.prec = DIAMETER_DIGITS + 15
        root = (4 * Decimal(area.numerator) / Decimal(area.denominator) / PI).sqrt()
        context.prec = DIAMETER_DIGITS
        return Fraction(+root)
