"""Numbers packed for a page, unfolded again by what the page's script does."""

from __future__ import annotations

import base64

import numpy as np
from hypothesis import given
from hypothesis import strategies as st

from hilldale_lab.view.pack import packed, planes, runs, steps_up
from hilldale_lab.view.regions import NEVER, first_percent, goes_at

NUMBERS = st.lists(st.integers(0, 2**55), max_size=30)


def unpacked(text: str) -> list[int]:
    found, number, shift = [], 0, 0
    for byte in base64.b64decode(text):
        number |= (byte & 127) << shift
        shift += 7
        if byte < 128:
            found.append(number)
            number = shift = 0
    return found


@given(NUMBERS)
def test_packed(numbers: list[int]) -> None:
    assert unpacked(packed(np.array(numbers, np.int64))) == numbers


@given(st.lists(st.integers(0, 3), max_size=40))
def test_runs(numbers: list[int]) -> None:
    pairs = unpacked(runs(np.array(numbers, np.int64)))
    assert [value for value, times in zip(pairs[::2], pairs[1::2]) for _ in range(times)] == numbers
    assert all(before != after for before, after in zip(pairs[::2], pairs[2::2]))


@given(st.lists(st.integers(-(2**53), 2**53), min_size=1, max_size=20))
def test_planes(heights: list[int]) -> None:
    least, total = min(heights), [0] * len(heights)
    for plane, text in enumerate(planes(np.array(heights, np.int64), least)):
        value = 0
        for place, number in enumerate(unpacked(text)):
            value += -(number + 1) // 2 if number % 2 else number // 2
            total[place] += value << 26 * plane
            assert number < 2**31
    assert [least + offset for offset in total] == heights


@given(st.lists(st.integers(-(2**60), 2**60), max_size=20))
def test_steps_up(numbers: list[int]) -> None:
    value, found = 0, []
    for number in unpacked(steps_up(np.array(numbers, np.int64))):
        value += -(number + 1) // 2 if number % 2 else number // 2
        found.append(value)
    assert found == numbers


@given(st.integers(0, 2**54), st.integers(0, 2**54), st.integers(0, 100_000))
def test_a_pit_goes_where_its_local_height_is_below_the_percent(local: int, sz: int, thousandths: int) -> None:
    assert (goes_at(local, sz) <= thousandths) == (local * 100_000 < thousandths * sz)


@given(st.lists(st.integers(1, 9), max_size=12), st.integers(1, 4), st.integers(1, 6))
def test_the_first_percent_that_keeps_few(going: list[int], stay: int, most: int) -> None:
    first = first_percent(going, len(going) + stay, most)
    kept = [percent for percent in range(11) if stay + sum(when > percent for when in going) <= most]
    assert first == (kept[0] if kept else NEVER)
