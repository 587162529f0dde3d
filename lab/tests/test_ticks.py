"""Marks of axes: exact decimals, round, and all within the axis."""

from __future__ import annotations

from fractions import Fraction

import pytest
from hypothesis import given
from hypothesis import strategies as st

from hilldale_lab.ticks import decimal, ticks


@pytest.mark.parametrize(
    "value, text",
    [
        (Fraction(0), "0"),
        (Fraction(-1, 8), "-0.125"),
        (Fraction(10), "10"),
        (Fraction(1, 40), "0.025"),
        (Fraction(-3, 2), "-1.5"),
        (Fraction(123456789, 1000), "123456.789"),
    ],
)
def test_decimal(value: Fraction, text: str) -> None:
    assert decimal(value) == text


def test_no_decimal() -> None:
    with pytest.raises(ValueError):
        decimal(Fraction(1, 3))


@given(st.fractions(max_denominator=10**9), st.fractions(0, max_denominator=10**9), st.integers(2, 9))
def test_marks_are_round_values_of_the_axis(least: Fraction, span: Fraction, wanted: int) -> None:
    found = ticks(least, least + span, wanted)
    assert len(found) <= wanted + 1
    assert all(least <= value <= least + span and Fraction(text) == value for value, text in found)
    steps = {after - before for (before, _), (after, _) in zip(found, found[1:])}
    assert len(steps) <= 1
    assert all(str(step.numerator).strip("0") in {"1", "2", "5"} for step in steps)
    assert not span or len(found) >= wanted // 3
