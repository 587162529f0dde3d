"""Borders, trees and letters, each against its definition."""

from __future__ import annotations

import random
import time
from fractions import Fraction

import numpy as np
import pytest
from hypothesis import given
from hypothesis import strategies as st
from hypothesis.extra.numpy import array_shapes, arrays

from hilldale_lab.drawing import Drawing, border_lines
from hilldale_lab.letters import inner_points, text_picture
from hilldale_lab.picture import as_bytes
from hilldale_lab.report.histogram import MOST_BINS, histogram
from hilldale_lab.tree import Join, dendrogram, tree_figure

LABELS = arrays(np.int32, array_shapes(min_dims=2, max_dims=2, max_side=9), elements=st.integers(-1, 3))


def unit_edges(lines: np.ndarray) -> list[tuple[float, float, float, float]]:
    """The lines, cut into parts as long as a point."""
    found = []
    for (x0, y0), (x1, y1) in lines.tolist():
        parts = round(abs(x1 - x0) + abs(y1 - y0))
        dx, dy = (x1 - x0) / parts, (y1 - y0) / parts
        found += [(x0 + dx * k, y0 + dy * k, x0 + dx * (k + 1), y0 + dy * (k + 1)) for k in range(parts)]
    return sorted(found)


@given(LABELS)
def test_borders_run_between_the_points_of_two_regions(labels: np.ndarray) -> None:
    expected = []
    for y, x in np.ndindex(labels.shape):
        here = labels[y, x]
        if x + 1 < labels.shape[1] and -1 < here != labels[y, x + 1] > -1:
            expected.append((x + 0.5, y - 0.5, x + 0.5, y + 0.5))
        if y + 1 < labels.shape[0] and -1 < here != labels[y + 1, x] > -1:
            expected.append((x - 0.5, y + 0.5, x + 0.5, y + 0.5))
    assert unit_edges(border_lines(labels)) == sorted(expected)


def test_a_straight_border_is_one_line() -> None:
    assert border_lines(np.array([[0, 1]] * 5)).tolist() == [[[0.5, -0.5], [0.5, 4.5]]]


@given(LABELS, st.sampled_from([4, 6, 8]))
def test_inner_points_have_no_neighbour_in_another_region(labels: np.ndarray, setting: int) -> None:
    around = [
        (dx, dy)
        for dx in (-1, 0, 1)
        for dy in (-1, 0, 1)
        if setting == 8 or not dx * dy or setting == 6 and dx * dy > 0
    ]
    inner = inner_points(labels, setting)
    for y, x in np.ndindex(labels.shape):
        beside = {
            int(labels[y + dy, x + dx])
            for dx, dy in around
            if 0 <= y + dy < labels.shape[0] and 0 <= x + dx < labels.shape[1]
        }
        assert labels[y, x] < 0 or inner[y, x] == (beside <= {-1, int(labels[y, x])})


def test_letters() -> None:
    labels = np.array([[0, 0, 1], [0, -1, 1]])
    pits = np.array([[0, 0], [2, 1]])
    assert text_picture(labels, pits, [(1, 0, True)]) == " A + b\n a . B\n"
    assert text_picture(labels, pits, [(1, 0, False)], [["5", "-6", "7"], ["8", ".", "10"]]) == (
        "   5  -6   7    A * b\n   8   .  10    a . B\n"
    )
    assert text_picture(labels, pits, inner=np.ones((2, 3), bool)) == " A\n   . B\n"


def test_two_letters() -> None:
    labels = np.arange(27).reshape(1, 27)
    picture = text_picture(labels, np.stack([np.arange(27), np.zeros(27, int)], 1))
    assert picture.split()[:2] == ["AA", "AB"] and picture.split()[25:] == ["AZ", "BA"]


def random_tree(leaves: int, seed: int) -> tuple[list[int], list[Join]]:
    """Leaves that are joined two or three at once, the lowest first."""
    rng = random.Random(seed)
    heights = [rng.randint(-1000, 0) for _ in range(leaves)]
    left, joins = list(range(leaves)), []
    while len(left) > 1:
        members = sorted(
            rng.sample(left, min(len(left), rng.choice((2, 2, 2, 3)))), key=lambda leaf: (heights[leaf], leaf)
        )
        joins.append(Join(len(joins), tuple(members)))
        left = [leaf for leaf in left if leaf not in members[1:]]
    return heights, joins


@pytest.mark.parametrize("seed", range(20))
def test_what_is_joined_stands_side_by_side(seed: int) -> None:
    heights, joins = random_tree(12, seed)
    tree = dendrogram(heights, joins)
    assert sorted(tree.order) == list(range(12))
    classes = {leaf: {leaf} for leaf in range(12)}
    for join in joins:
        first = join.members[0]
        for leaf in join.members[1:]:
            classes[first] |= classes[leaf]
        places = sorted(tree.order.index(leaf) for leaf in classes[first])
        assert places[-1] - places[0] == len(places) - 1
    feet = {(place, float(heights[leaf])) for place, leaf in enumerate(tree.order)}
    assert feet <= {tuple(end) for line in tree.lines.tolist() for end in line}
    assert {line[1][1] for line in tree.lines.tolist()} == {float(join.height) for join in joins}


def test_a_tree_of_6000_saddles() -> None:
    heights = [-1 - leaf for leaf in range(6001)]
    joins = [Join(leaf, (6000, 5999 - leaf)) for leaf in range(6000)]
    began = time.monotonic()
    tree = dendrogram(heights, joins)
    assert tree.order == tuple(range(6000, -1, -1)) and len(tree.lines) == 18000
    assert as_bytes(tree_figure(heights, joins, Fraction(1, 10**9)), "pdf").startswith(b"%PDF")
    assert time.monotonic() - began < 20


def test_leaves_without_a_join() -> None:
    tree = dendrogram([3, 1, 2], [Join(5, (1, 2))])
    assert tree.order == (0, 1, 2) and len(tree.lines) == 3


@given(st.lists(st.integers(-(2**53), 2**53) | st.integers(-9, 9), min_size=1, max_size=40))
def test_a_histogram_counts_each_height_once(heights: list[int]) -> None:
    steps = np.array([heights], np.int64)
    found = histogram(Drawing(steps, np.ones(steps.shape, bool), Fraction(1), Fraction(1), Fraction(1)))
    expected = [0] * len(found.counts)
    for height in heights:
        expected[(height - min(heights)) // found.width] += 1
    assert found.counts.tolist() == expected and len(expected) <= MOST_BINS and expected[-1]
