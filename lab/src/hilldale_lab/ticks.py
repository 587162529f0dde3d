"""Marks of an axis as exact decimals: what stands at a mark is its value, and never a rounded one."""
from __future__ import annotations

from fractions import Fraction

LONGEST_LONE = 12


def decimal(value: Fraction) -> str:
    """The text of a fraction that ends as a decimal, such as -0.125; others are refused with ValueError."""
    places, bottom = 0, value.denominator
    while bottom % 10 == 0:
        bottom, places = bottom // 10, places + 1
    while bottom % 2 == 0:
        bottom, places = bottom // 2, places + 1
    while bottom % 5 == 0:
        bottom, places = bottom // 5, places + 1
    if bottom != 1:
        raise ValueError(f"{value} has no end as a decimal")
    while places and (value * 10 ** (places - 1)).denominator == 1:
        places -= 1
    whole = str(abs(value.numerator) * 10**places // value.denominator).rjust(places + 1, "0")
    sign = "-" if value < 0 else ""
    return sign + (whole[:-places] + "." + whole[-places:] if places else whole)


def nice_step(span: Fraction, wanted: int) -> Fraction:
    """The least of 1, 2 and 5 times a power of ten that parts a span above 0 into at most `wanted` steps."""
    part = span / wanted
    power = Fraction(1)
    while power > part:
        power /= 10
    while power * 10 <= part:
        power *= 10
    return next(power * times for times in (1, 2, 5, 10) if power * times >= part)


def ticks(least: Fraction, greatest: Fraction, wanted: int = 6) -> list[tuple[Fraction, str]]:
    """Round values from least to greatest, at most some `wanted` of them, each with its text; the one where they are
    the same, if its text is short."""
    if least == greatest:
        return _lone_tick(least)
    step = nice_step(greatest - least, wanted)
    first, last = -((-least) // step), greatest // step
    return [(step * number, decimal(step * number)) for number in range(first, last + 1)]


def _lone_tick(value: Fraction) -> list[tuple[Fraction, str]]:
    try:
        text = decimal(value)
    except ValueError:
        return []
    return [(value, text)] if len(text) <= LONGEST_LONE else []
