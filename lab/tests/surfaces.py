"""Surfaces that the tests draw, with ties, gaps and single rows, and the two kinds of a measured size."""

from __future__ import annotations

from fractions import Fraction

import numpy as np
from hypothesis import strategies as st
from hypothesis.extra import numpy as arrays

from hilldale_lab.height_map import HeightMap

SHAPES = (
    st.tuples(st.integers(1, 9), st.integers(1, 9))
    | st.tuples(st.just(1), st.integers(1, 40))
    | st.tuples(st.integers(1, 40), st.just(1))
)
LEVELS = [(0, 1), (0, 3), (-9, 9), (-1000, 1000), (-(2**31), 2**31 - 1)]


def map_of(steps: np.ndarray, measured: np.ndarray | None = None, step: str = "1e-9") -> HeightMap:
    """A height map with points 1 um apart."""
    there = np.ones(steps.shape, np.bool_) if measured is None else measured
    return HeightMap(
        np.where(there, steps, 0).astype(np.int64), there, Fraction(step), Fraction("1e-6"), Fraction("1e-6")
    )


@st.composite
def height_maps(draw: st.DrawFn) -> HeightMap:
    """A small height map: heights of few levels, so that many are equal, and perhaps points without a height."""
    shape = draw(SHAPES)
    least, greatest = draw(st.sampled_from(LEVELS))
    steps = draw(arrays.arrays(np.int64, shape, elements=st.integers(least, greatest)))
    gaps = draw(st.sampled_from([0, 0, 1, 3, 9]))
    there = np.ones(shape, np.bool_)
    for _ in range(gaps):
        there[draw(st.integers(0, shape[0] - 1)), draw(st.integers(0, shape[1] - 1))] = False
    return map_of(steps, there)


def noise(size: int) -> HeightMap:
    """Independent heights, where nearly each ninth point is a pit."""
    return map_of(np.random.default_rng(7).integers(0, 1 << 20, (size, size)))


def waves(size: int) -> HeightMap:
    """A smooth surface with little noise and a gap."""
    y, x = np.mgrid[:size, :size]
    heights = 30000 * np.sin(x / 19) * np.cos(y / 27) + 7000 * np.sin((2 * x + y) / 11)
    steps = np.rint(heights).astype(np.int64) + np.random.default_rng(8).integers(0, 4, (size, size))
    there = np.ones(steps.shape, np.bool_)
    there[size // 3 : size // 3 + 9, size // 2 :] = False
    return map_of(steps, there)
