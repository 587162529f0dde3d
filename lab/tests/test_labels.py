"""The region of each point, from heights by numpy, is that of the proved program."""

from __future__ import annotations

import os
from collections.abc import Callable
from fractions import Fraction

import numpy as np
import pytest
from hypothesis import given, settings
from hypothesis import strategies as st
from surfaces import height_maps, noise, waves

from hilldale_lab import Surface, answers, labels, measures
from hilldale_lab.answers import Pruning
from hilldale_lab.height_map import HeightMap
from hilldale_lab.labels import Disagreement


@pytest.fixture(autouse=True)
def _use_program(program: str, monkeypatch: pytest.MonkeyPatch) -> None:
    monkeypatch.setenv("HILLDALE_PROGRAM", os.path.abspath(program))


def test_program_is_asked_of_each_point(program: str) -> None:
    # hypothesis draws inside one test, so that the fixture is set once.
    @given(
        height_maps(), st.sampled_from("DH"), st.sampled_from((4, 6, 8)), st.sampled_from(("0%", "5%", "40%", "100%"))
    )
    @settings(max_examples=150, deadline=None)
    def labels_are_the_programs(map_: HeightMap, side: str, setting: int, percent: str) -> None:
        surface = Surface.from_map(map_).neighbours(setting)
        present = np.argwhere(map_.measured).tolist()
        asked = [f"prune {side} {percent}", *(f"label {side} {x} {y}" for y, x in present)]
        pruning, *told = surface.ask(*asked)
        assert isinstance(pruning, Pruning)
        found = surface.labels(side, percent)
        into = {(x, y): (to_x, to_y) for x, y, _, _, _, to_x, to_y in pruning.gone.tolist()}
        rows = {(x, y): row for row, (x, y, _, _) in enumerate(pruning.kept.tolist())}
        for (y, x), label in zip(present, told, strict=True):
            pit = label.pit
            while pit in into:
                pit = into[pit]
            assert found[y, x] == rows[pit]
        assert ((found >= 0) == map_.measured).all()

    labels_are_the_programs()


@pytest.mark.parametrize("make", [noise, waves])
@pytest.mark.parametrize("setting", [4, 6, 8])
def test_measured_size(make: Callable[[int], HeightMap], setting: int) -> None:
    surface = Surface.from_map(make(1024)).neighbours(setting)
    questions = surface.questions()
    for side in "DH":
        for percent in ("0%", "5%"):
            questions.answer(f"prune {side} {percent}", Pruning)
    questions.send()
    for side in "DH":
        for percent in ("0%", "5%"):
            surface.labels(side, percent)


def test_a_difference_is_an_error() -> None:
    map_ = waves(64)
    surface = Surface.from_map(map_)
    pruning = surface.pruning("D", "5%")
    labels.labels(map_, pruning, 8)
    for column, change in ((3, 1), (2, 5), (0, 1)):
        kept = pruning.kept.copy()
        kept[0, column] += change
        with pytest.raises(Disagreement):
            labels.labels(map_, Pruning("D", "5%", pruning.gone, kept), 8)
    with pytest.raises(Disagreement):
        labels.labels(map_, Pruning("D", "5%", pruning.gone[:-1], pruning.kept), 8)
    with pytest.raises(Disagreement):
        labels.labels(map_, surface.pruning("D", "50%"), 4)


def test_regions_are_measured_as_they_are_defined(program: str) -> None:
    @given(height_maps(), st.sampled_from("DH"), st.sampled_from(("5%", "40%")), st.integers(-10, 10))
    @settings(max_examples=100, deadline=None)
    def regions(map_: HeightMap, side: str, percent: str, at: int) -> None:
        surface = Surface.from_map(map_)
        found = surface.regions(side, percent, at)
        sign = 1 if side == "D" else -1
        for row, region in enumerate(found.table):
            points = [(y, x) for y, x in np.argwhere(found.labels == row).tolist()]
            heights = [sign * int(map_.steps[y, x]) for y, x in points]
            assert region.points == len(points) and sign * region.height == min(heights)
            assert region.points_at == sum(height <= sign * at for height in heights)
            assert region.reaches == (min(heights) <= sign * at)
            assert found.value(row, "centroid_x").exact == Fraction(sum(x for _, x in points), len(points)) * map_.dx
            assert found.value(row, "centroid_y").exact == Fraction(sum(y for y, _ in points), len(points)) * map_.dy
        closed = surface.ask(f"feature FC;{side};Wolfprune:{percent};Closed:{at};Count;Sum")[0].value
        assert (closed or 0) == found.table["closed"].sum()
        depths = sorted(found.table["depth"].tolist(), reverse=True)[:5]
        word = {"D": "Bot", "H": "Top"}[side]
        five = surface.feature(f"FC;{side};Wolfprune:{percent};{word}:5;lpvh;Mean").exact
        assert five == (Fraction(sum(depths), len(depths)) if depths else None)

    regions()


def test_the_diameter_of_a_circle_of_an_area() -> None:
    for area in (Fraction(1), Fraction(205, 2), Fraction(1, 3 * 10**12)):
        diameter = measures.equivalent_diameter(area)
        pi = Fraction("3.14159265358979323846264338327950288419716939937510")
        assert abs(diameter**2 * pi / 4 - area) < area * Fraction(1, 10**38)
    assert measures.equivalent_diameter(Fraction(0)) == 0
    assert measures.mean_of_reaching(np.array([5]), np.array([False]), np.array([True])) is None


def test_neighbours_of_one_point() -> None:
    steps = np.full((3, 3), 5)
    steps[1, 1] = 0
    for setting, lower in ((4, 5), (6, 7), (8, 9)):
        map_ = HeightMap(steps, np.ones((3, 3), np.bool_), Fraction(1), Fraction(1), Fraction(1))
        assert (labels.nexts(map_, "D", setting) == 4).sum() == lower
    assert answers.SIDES == ("D", "H")
