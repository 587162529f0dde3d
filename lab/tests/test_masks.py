"""Masks by rule against the same rule written as one plain loop."""

from __future__ import annotations

from fractions import Fraction
from statistics import median

import numpy as np
import pytest
from hypothesis import given
from hypothesis import strategies as st
from surfaces import height_maps

from hilldale_lab import masks
from hilldale_lab.errors import LabError
from hilldale_lab.height_map import HeightMap
from hilldale_lab.units import Scales

SCALES = Scales(Fraction("2e-6"), Fraction("3e-6"), Fraction("1e-9"))
LENGTHS = st.fractions(-3, 12, max_denominator=7)


@given(height_maps(), st.fractions(-50, 50, max_denominator=4))
def test_above_and_below(surface: HeightMap, steps: Fraction) -> None:
    for y, x in np.ndindex(surface.steps.shape):
        there, height = surface.measured[y, x], int(surface.steps[y, x])
        assert masks.above(surface, steps)[y, x] == (there and height > steps)
        assert masks.below(surface, steps)[y, x] == (there and height < steps)


@given(height_maps(), st.fractions(0, 9, max_denominator=5))
def test_outliers(surface: HeightMap, times: Fraction) -> None:
    heights = [Fraction(int(h)) for h in surface.steps[surface.measured]]
    deviation = median([abs(h - median(heights)) for h in heights]) if heights else 0
    if not deviation:
        with pytest.raises(LabError):
            masks.outliers(surface, times)
        return
    found = masks.outliers(surface, times)
    for y, x in np.ndindex(surface.steps.shape):
        is_far = abs(int(surface.steps[y, x]) - median(heights)) > times * deviation
        assert found[y, x] == (surface.measured[y, x] and is_far)


@given(LENGTHS, LENGTHS, st.fractions(0, 20, max_denominator=7))
def test_circle(x: Fraction, y: Fraction, radius: Fraction) -> None:
    words = [f"{number.numerator}/{number.denominator} um" for number in (x, y, radius)]
    found = masks.circle((6, 9), SCALES, *words)
    for row, column in np.ndindex(found.shape):
        assert found[row, column] == ((2 * column - x) ** 2 + (3 * row - y) ** 2 <= radius**2)


def test_circle_in_points() -> None:
    square = Scales(Fraction(1), Fraction(1), Fraction(1))
    assert np.argwhere(masks.circle((5, 5), square, 2, 2, 1)).tolist() == [[1, 2], [2, 1], [2, 2], [2, 3], [3, 2]]
    with pytest.raises(LabError):
        masks.circle((5, 5), SCALES, 2, 2, 1)


@given(st.lists(st.tuples(st.integers(-2, 9), st.integers(-2, 7)), min_size=3, max_size=3))
def test_triangle(corners: list[tuple[int, int]]) -> None:
    def turn(a: tuple[int, int], b: tuple[int, int], c: tuple[int, int]) -> int:
        return (b[0] - a[0]) * (c[1] - a[1]) - (b[1] - a[1]) * (c[0] - a[0])

    found = masks.polygon((6, 8), SCALES, corners)
    a, b, c = corners
    low, high = [min(p[i] for p in corners) for i in (0, 1)], [max(p[i] for p in corners) for i in (0, 1)]
    for row, column in np.ndindex(found.shape):
        at = (column, row)
        turns = [turn(a, b, at), turn(b, c, at), turn(c, a, at)]
        is_boxed = low[0] <= column <= high[0] and low[1] <= row <= high[1]
        assert found[row, column] == (is_boxed and (min(turns) >= 0 or max(turns) <= 0))


def test_a_polygon_with_a_notch() -> None:
    notched = [(0, 0), (6, 0), (6, 6), (3, 3), (0, 6)]
    found = masks.polygon((7, 7), Scales(Fraction(1), Fraction(1), Fraction(1)), notched)
    assert ["".join(".#"[inside] for inside in row) for row in found.astype(int).tolist()] == [
        "#######",
        "#######",
        "#######",
        "#######",
        "###.###",
        "##...##",
        "#.....#",
    ]
    with pytest.raises(LabError):
        masks.polygon((7, 7), SCALES, notched[:2])


@given(
    st.integers(1, 7).flatmap(
        lambda width: st.lists(st.lists(st.booleans(), min_size=width, max_size=width), min_size=1, max_size=7)
    )
)
def test_lines_cover_the_points_and_no_others(rows: list[list[bool]]) -> None:
    points = np.array(rows)
    covered = np.zeros(points.shape, int)
    for line in masks.mask_lines(points):
        word, *corners = line.split()
        x0, y0, x1, y1 = map(int, corners)
        assert word == "mask" and x0 <= x1 and y0 <= y1
        covered[y0 : y1 + 1, x0 : x1 + 1] += 1
    assert np.array_equal(covered, points)
