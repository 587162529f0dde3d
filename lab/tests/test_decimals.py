"""Decimals by their digits: every form that a surface file takes, against fractions, and what is none."""

from __future__ import annotations

import random
from fractions import Fraction

import numpy as np
import pytest

from hilldale_lab.decimals import (
    NotDecimal,
    TooManySteps,
    decimal_text,
    parse_decimal,
    read_decimals,
    rounded_decimal,
    short_text,
    token_bounds,
    which_bound,
)


def read(words):
    text = np.frombuffer(" ".join(words).encode(), np.uint8)
    numbers = read_decimals(text, *token_bounds(text, text <= 32))
    return [int(m) * Fraction(10) ** int(e) for m, e in zip(numbers.mantissas.tolist(), numbers.exponents.tolist())]


PLAIN = ["0", "-0", "+7", "12.5", "-.5", "5.", "+0.001", "123456789012345678", "-12345678901234567", "00012.500"]
OTHERS = [
    "1e5",
    "-2.5E-3",
    "+.5e+02",
    "7e-300",
    "123456789012345678000000000000000000e-20",
    "1.000000000000000000000000",
]
NONE = [
    "1-2",
    "--1",
    "1..2",
    "1.2.3",
    "e5",
    "1e",
    "1e+",
    ".",
    "-",
    "+.",
    "-.e1",
    "1e5.0",
    "0x10",
    "1_0",
    "nan",
    "1e1000",
    "1,5",
]


@pytest.mark.parametrize("words", [PLAIN, OTHERS, PLAIN + OTHERS, PLAIN[:1], []])
def test_decimals(words):
    assert read(words) == [Fraction(word) for word in words]


@pytest.mark.parametrize("wrong", NONE)
@pytest.mark.parametrize("around", [[], PLAIN, OTHERS])
def test_what_is_no_decimal(wrong, around):
    with pytest.raises(NotDecimal) as error:
        read([*around, wrong, *around])
    assert error.value.index == len(around)


def test_random_decimals():
    chance = random.Random(2)
    for form in ("%.*f", "%.*e", "%+.*g"):
        words = [
            form % (chance.randint(0, 7), chance.uniform(-1, 1) * 10 ** chance.randint(-6, 6)) for _ in range(5000)
        ]
        assert read(words) == [Fraction(word) for word in words]
        assert read(words[::-1]) == [Fraction(word) for word in words[::-1]]


def test_too_many_digits():
    with pytest.raises(TooManySteps):
        read(["1234567890123456789.5"])


def test_steps_of_a_power():
    text = np.frombuffer(b"1.50 2.250 -3e2 0e-9", np.uint8)
    numbers = read_decimals(text, *token_bounds(text, text <= 32))
    assert numbers.last_power() == -2
    assert numbers.steps(-2).tolist() == [150, 225, -30000, 0]
    with pytest.raises(TooManySteps):
        numbers.steps(-20)


def test_which_bound():
    bounds = np.array([3, 7, 9])
    for places in ([0, 4, 8], [1, 3, 5, 7, 8, 9], [0, 0, 0], [4, 4, 9], [], [8]):
        wanted = np.searchsorted(bounds, places).tolist()
        assert which_bound(bounds, np.array(places, np.int64)).tolist() == wanted


@pytest.mark.parametrize("text", ["1.5", "-0.00025", "1e-9", "1.234e-10", "25", "1e12", "0", "999999.5"])
def test_texts_of_decimals(text):
    assert parse_decimal(decimal_text(Fraction(text))) == Fraction(text)
    assert Fraction(short_text(Fraction(text), 17)) == Fraction(text)


def test_texts_that_round():
    assert decimal_text(Fraction(1, 3)) is None and decimal_text(Fraction(1, 2**60)) is None
    assert short_text(Fraction(1, 3)) == "0.333333" and short_text(Fraction(-2, 3), 3) == "-0.667"
    assert rounded_decimal(Fraction(999_999_999, 10), 3) == 10**8
    assert parse_decimal("1,5") is None and parse_decimal("1 5") is None and parse_decimal("\u0661") is None
