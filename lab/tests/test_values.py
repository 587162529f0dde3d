"""Values, units, heights C and limits: every text is parsed back."""

from __future__ import annotations

from fractions import Fraction

import pytest
from hypothesis import given
from hypothesis import strategies as st

from hilldale_lab.errors import LabError
from hilldale_lab.levels import Level, Rounding, rounding_of
from hilldale_lab.limits import Limit
from hilldale_lab.percents import percent_text, thousandths_of
from hilldale_lab.units import Kind, Scales, kind_of
from hilldale_lab.values import Quantity, Value, exact_texts, rounded_text

POCKETS = Scales(Fraction("5e-6"), Fraction("5e-6"), Fraction("1e-9"))
FRACTIONS = st.fractions(max_denominator=10**9) | st.builds(
    Fraction, st.integers(-(10**40), 10**40), st.integers(1, 10**30)
)


@given(FRACTIONS, st.integers(1, 12))
def test_a_text_is_the_nearest_decimal_of_its_digits(value: Fraction, digits: int) -> None:
    text = rounded_text(value, digits)
    found = Fraction(text)
    assert set(text) <= set("-.0123456789") and not text.endswith(".")
    places = len(text.partition(".")[2])
    assert abs(found - value) <= Fraction(1, 2 * 10**places)
    if found != value:
        shown = text.replace("-", "").replace(".", "").lstrip("0")
        assert len(shown) >= digits or not shown and places >= digits


@pytest.mark.parametrize(
    ("value", "digits", "text"),
    [
        ("9501/20000", 6, "0.47505"),
        ("2240/3", 6, "746.667"),
        ("1/10000001", 1, "0.0000001"),
        ("99999999/100000", 6, "1000.00"),
        ("-1/8", 2, "-0.12"),
        ("3/8", 2, "0.38"),
        ("123456789/2", 3, "61728394"),
        ("0", 6, "0"),
        ("-1/3", 3, "-0.333"),
        ("10", 1, "10"),
    ],
)
def test_texts(value: str, digits: int, text: str) -> None:
    assert rounded_text(Fraction(value), digits) == text


@given(st.lists(st.none() | st.integers(-(2**60), 2**60)), FRACTIONS.filter(bool))
def test_many_texts_are_those_of_each(numbers: list[int | None], factor: Fraction) -> None:
    texts = exact_texts(numbers, factor)
    for number, text in zip(numbers, texts, strict=True):
        if number is None:
            assert text == "none"
        elif text != rounded_text(number * factor, 17):
            assert Fraction(text) == number * factor


def test_the_numbers_of_a_drawing() -> None:
    rows = [
        ("S5p", "289/5", "0.0578 um"),
        ("S5v", "1669/4", "0.41725 um"),
        ("S10z", "9501/20", "0.47505 um"),
        ("Spd", "7/375", "746.667 per mm2"),
        ("Sda", "205/2", "2562.5 um2"),
        ("Sha", "89/2", "1112.5 um2"),
        ("Smr", "41/125", "0.328"),
        ("FC;D;Wolfprune:2%;Bot:5;lpvh;Mean", "1687/5", "0.3374 um"),
        ("FC;D;Wolfprune:2%;All;AreaE;Max", "113/1", "2825 um2"),
        ("FC;D;Wolfprune:5%;All;Count;Density", "4/375", "426.667 per mm2"),
        ("FC;D;Wolfprune:5%;All;AreaE;Density", "1/1", "1"),
        ("FC;D;Wolfprune:5%;Closed:-350;Count;Sum", "2/1", "2"),
        ("FC;D;Wolfprune:2%;All;lpvh;Density", "1703/375", "181.653 um per mm2"),
    ]
    for name, exact, text in rows:
        assert Value(name, Fraction(exact), kind_of(name), POCKETS).text() == text
    assert Value("volume", Fraction(5754), Kind.VOLUME, POCKETS).text() == "143.85 um3"
    value = Value("S10z", Fraction(9501, 20), Kind.HEIGHT, POCKETS)
    assert (value.um, str(value), value.symbol_text()) == (0.47505, "0.47505 um  (9501/20 steps)", "0.47505 µm")
    assert str(Value("Sda", None, Kind.AREA, POCKETS)) == "none"
    with pytest.raises(LabError):
        _ = value.um2
    for name in ("Sq", "FC;D;Wolfprune:5%;All;lpvh;Median", "FC;D;Wolfprune:5%;All;lpv;Mean", ""):
        with pytest.raises(LabError):
            kind_of(name)


def test_without_a_scale_nothing_is_measured() -> None:
    for kind, scales in (
        (Kind.DENSITY, Scales(Fraction(0), Fraction(1), Fraction(1))),
        (Kind.HEIGHT, Scales(Fraction(1), Fraction(1), Fraction(0))),
    ):
        value = Value("x", Fraction(7, 3), kind, scales)
        assert value.text() == "no scale" and "7/3" in value.fraction and value.shown is None
        with pytest.raises(LabError):
            Limit.parse({Kind.HEIGHT: "< 1 um", Kind.DENSITY: "< 1/mm2"}[kind].replace("< 1/", "< 1 1/")).passes(value)


def test_quantities() -> None:
    for text, exact in [
        ("5.0 um", 5000),
        ("-350nm", -350),
        ("12 steps", 12),
        ("9501/20 steps", Fraction(9501, 20)),
        ("50%", Fraction(1, 2)),
        ("700 1/mm2", Fraction(7, 400)),
        ("700 per mm²", Fraction(7, 400)),
        ("2562.5 µm²", Fraction(205, 2)),
        ("1e-3 mm", 1000),
    ]:
        assert Quantity.parse(text).exact(POCKETS) == exact
    with pytest.raises(LabError, match="write a decimal point"):
        Quantity.parse("5,0 um")
    for text in ("", "um", "5 parsec", "1e9999 um", "5 um um"):
        with pytest.raises(LabError):
            Quantity.parse(text)


def test_heights_become_whole_steps() -> None:
    mean = 59 - Fraction(46888, 375)
    for given_, down, up in [
        ("-0.3 um from mean", -367, -366),
        ("-300 steps from the mean", -367, -366),
        (-350, -350, -350),
        ("-0.3505 um", -351, -350),
        ("5 um from the plane z = 0", 5000, 5000),
    ]:
        level = Level.parse(given_)
        assert (level.whole(POCKETS, mean, Rounding.DOWN), level.whole(POCKETS, mean, Rounding.UP)) == (down, up)
    assert (
        Level.parse("-0.3 um from mean").note(POCKETS, mean, Rounding.DOWN)
        == "-0.3 um from mean = -137263/375 steps, down to -367"
    )
    for text in ("5.5", "x", "5 um2", "50%", "5 um from top"):
        with pytest.raises(LabError):
            Level.parse(text)
    with pytest.raises(LabError):
        Level.parse("1 um from mean").steps(POCKETS, None)
    assert [rounding_of(name).value for name in ("Sda", "Sha", "Smr", "FC;D;..", "FC;H;..")] == [
        "down",
        "up",
        "up",
        "down",
        "up",
    ]


def test_limits_are_exact() -> None:
    value = Value("S10z", Fraction(9501, 20), Kind.HEIGHT, POCKETS)
    for text, passes in [
        ("<= 0.47505 um", True),
        ("< 0.47505 um", False),
        (">= 0.47505000000000000001 um", False),
        ("475 .. 476 nm", True),
        ("0.4 um .. 0.5 um", True),
        ("> 9501/20 steps", False),
        ("1 .. 2 um", False),
    ]:
        assert Limit.parse(text).passes(value) is passes
    assert Limit.parse(["> 0.4 um", "< 0.47505 um"]).passes(value) is False
    assert Limit.parse("<= 1 um").passes(Value("S10z", None, Kind.HEIGHT, POCKETS)) is False
    with pytest.raises(LabError, match="is a height, and its limit '1 um2' an area"):
        Limit.parse("<= 1 um2").passes(value)
    for text in ("5 um", "= 5 um", "", [], "<= um"):
        with pytest.raises(LabError):
            Limit.parse(text)


@given(st.integers(0, 100_000))
def test_percents(thousandths: int) -> None:
    text = f"{thousandths // 1000:03d}.{thousandths % 1000:03d} %"
    plain = percent_text(text)
    assert thousandths_of(plain) == thousandths and percent_text(plain) == plain and not plain.startswith("00")
    for wrong in ("5", "100.001%", "1000%", "5.0001%", "-5%", ".5%", "5 percent"):
        with pytest.raises(LabError):
            percent_text(wrong)
