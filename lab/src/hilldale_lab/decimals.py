"""Decimals by their digits: many at once from a text, and back. No number passes through a float."""

from __future__ import annotations

import re
from dataclasses import dataclass
from fractions import Fraction

import numpy as np
from numpy.typing import NDArray

MOST_STEPS = 2**53
MOST_DIGITS = 38
# Up to this many digits a number fits 64 bits.
FAST_DIGITS = 18
DECIMAL = re.compile(rb"([+-]?)([0-9]*)(?:\.([0-9]*))?(?:[eE]([+-]?[0-9]{1,3}))?")


class NotDecimal(ValueError):
    """The token of this index is no decimal."""

    def __init__(self, index: int) -> None:
        super().__init__(f"token {index} is no decimal")
        self.index = index


class TooManySteps(ValueError):
    """A height is beyond 2^53 steps of the size that another one needs."""


@dataclass(frozen=True)
class Decimals:
    """Numbers mantissa * 10^exponent: two tables of int64 with one shape. The exponents are as written."""

    mantissas: NDArray[np.int64]
    exponents: NDArray[np.int64]

    def last_power(self) -> int:
        """The greatest power of ten, at most 0, of which all numbers are whole multiples."""
        power = 0
        for exponent in self._written():
            common = int(np.gcd.reduce(self.mantissas[self.exponents == exponent]))
            while common and common % 10 == 0:
                common, exponent = common // 10, exponent + 1
            power = min(power, exponent) if common else power
        return power

    def _written(self) -> list[int]:
        """The exponents that stand in the numbers, each once."""
        if not self.exponents.size:
            return []
        least = int(self.exponents.min())
        if least == self.exponents.max():
            return [least]
        return (np.flatnonzero(np.bincount(self.exponents - least)) + least).tolist()

    def steps(self, power: int) -> NDArray[np.int64]:
        """The numbers as whole multiples of 10^power, which divides them all. Raises TooManySteps beyond 2^53."""
        steps = np.zeros_like(self.mantissas)
        written = self._written()
        for exponent in written:
            here = self.exponents == exponent if len(written) > 1 else np.s_[:]
            mantissas = self.mantissas[here]
            if exponent >= power:
                factor = 10 ** (exponent - power)
                if mantissas.any() and int(np.abs(mantissas).max()) * factor > MOST_STEPS:
                    raise TooManySteps
                steps[here] = mantissas * factor if mantissas.any() else 0
            else:
                steps[here] = mantissas // 10 ** min(power - exponent, FAST_DIGITS)
        if steps.size and int(np.abs(steps).max()) > MOST_STEPS:
            raise TooManySteps
        return steps


def token_bounds(text: NDArray[np.uint8], is_apart: NDArray[np.bool_]) -> tuple[NDArray, NDArray]:
    """Where the longest runs of bytes that are not apart begin, and where they end."""
    edges = np.flatnonzero(is_apart[1:] != is_apart[:-1]) + 1
    before = [0] if len(is_apart) and not is_apart[0] else []
    after = [len(is_apart)] if len(is_apart) and not is_apart[-1] else []
    bounds = np.concatenate((before, edges, after)).astype(np.int64)
    return bounds[0::2], bounds[1::2]


def read_decimals(text: NDArray[np.uint8], starts: NDArray, ends: NDArray) -> Decimals:
    """The decimals that stand in the text from each start to its end. Raises NotDecimal, or TooManySteps where one has
    more digits than can be told apart in 2^53 steps."""
    lengths = ends - starts
    plain = _read_plain(text, starts, ends) if 0 < lengths.max(initial=0) <= FAST_DIGITS else None
    if plain is not None:
        return plain
    long = np.flatnonzero(lengths > FAST_DIGITS)
    width = int(np.minimum(lengths, FAST_DIGITS).max(initial=0))
    state = _Columns(len(starts))
    padded = np.concatenate((text, np.zeros(FAST_DIGITS, np.uint8)))
    for column in range(width):
        state.take(padded[starts + column], column < lengths)
    state.is_bad[long] = False
    numbers = state.result()
    for index in long.tolist():
        found = _one(text[starts[index] : ends[index]].tobytes())
        if found is None:
            state.is_bad[index] = True
        else:
            numbers.mantissas[index], numbers.exponents[index] = found
    if state.is_bad.any():
        raise NotDecimal(int(np.argmax(state.is_bad)))
    return numbers


def _read_plain(text: NDArray[np.uint8], starts: NDArray, ends: NDArray) -> Decimals | None:
    """Decimals of at most 18 bytes, all without exponents: read as whole numbers, once their points are taken out. None
    where one of them has another form."""
    change = np.zeros(len(text) + 1, np.int8)
    change[starts] += 1
    change[ends] -= 1
    inside = np.cumsum(change[:-1], dtype=np.int8).view(np.bool_)
    is_point = inside & (text == ord("."))
    is_sign = inside & ((text == ord("-")) | (text == ord("+")))
    is_start = change[:-1] > 0
    digits = (text - np.uint8(48)) < 10
    if (inside & ~(digits | is_point | is_sign)).any() or (is_sign & ~is_start).any():
        return None
    points = np.flatnonzero(is_point)
    token_of = which_bound(ends, points)
    length = ends - starts - is_sign[starts]
    exponents = np.zeros(len(starts), np.int64)
    exponents[token_of] = points + 1 - ends[token_of]
    length[token_of] -= 1
    if (token_of[1:] == token_of[:-1]).any() or length.min() < 1:
        return None
    whole = np.where(inside, text, np.uint8(32))[~is_point].tobytes()
    return Decimals(np.fromstring(whole, np.int64, sep=" "), exponents)


def which_bound(bounds: NDArray[np.int64], places: NDArray[np.int64]) -> NDArray[np.int64]:
    """The index of the first bound that is not before each place; both go up. Quick where each bound has as many."""
    if len(bounds) and len(places) and len(places) % len(bounds) == 0:
        table = places.reshape(len(bounds), -1)
        if (table[:, -1] <= bounds).all() and (table[1:, 0] > bounds[:-1]).all():
            return np.repeat(np.arange(len(bounds)), table.shape[1])
    return np.searchsorted(bounds, places)


class _Columns:
    """Reads many tokens at once, a byte of each after the other."""

    def __init__(self, count: int) -> None:
        self.mantissas = np.zeros(count, np.int64)
        self.exponents = np.zeros(count, np.int64)
        self.places = np.zeros(count, np.int64)
        self.is_bad, self.is_minus, self.is_minus_exponent, self.has_point, self.has_digit = (
            np.zeros(count, np.bool_) for _ in range(5)
        )
        self.has_e, self.has_exponent, self.may_sign = (np.zeros(count, np.bool_) for _ in range(3))
        self.may_sign[:] = True

    def take(self, here: NDArray[np.uint8], is_inside: NDArray[np.bool_]) -> None:
        """The next byte of each token that has one."""
        digit = here - np.uint8(48)
        is_digit = (digit < 10) & is_inside
        in_mantissa = is_digit & ~self.has_e
        np.multiply(self.mantissas, 10, out=self.mantissas, where=in_mantissa)
        np.add(self.mantissas, digit, out=self.mantissas, where=in_mantissa)
        self.places += in_mantissa & self.has_point
        self.has_digit |= in_mantissa
        if self.has_e.any():
            in_exponent = is_digit & self.has_e
            self.exponents = np.where(in_exponent, self.exponents * 10 + digit, self.exponents)
            self.has_exponent |= in_exponent
        rest = is_inside & ~is_digit
        if rest.any():
            self._take_mark(here, rest)
        self.may_sign &= ~is_inside | ((here | 32) == ord("e"))

    def _take_mark(self, here: NDArray[np.uint8], rest: NDArray[np.bool_]) -> None:
        is_e = rest & ((here | 32) == ord("e")) & self.has_digit & ~self.has_e
        is_point = rest & (here == ord(".")) & ~self.has_point & ~self.has_e
        is_minus = rest & (here == ord("-")) & self.may_sign
        is_plus = rest & (here == ord("+")) & self.may_sign
        self.is_minus |= is_minus & ~self.has_e
        self.is_minus_exponent |= is_minus & self.has_e
        self.has_point |= is_point
        self.has_e |= is_e
        self.may_sign |= is_e
        self.is_bad |= rest & ~(is_e | is_point | is_minus | is_plus)

    def result(self) -> Decimals:
        """The numbers, once all bytes are taken."""
        self.is_bad |= ~self.has_digit | (self.has_e & ~self.has_exponent) | (self.exponents > 999)
        exponents = np.where(self.is_minus_exponent, -self.exponents, self.exponents) - self.places
        return Decimals(np.where(self.is_minus, -self.mantissas, self.mantissas), exponents)


def _one(token: bytes) -> tuple[int, int] | None:
    """The mantissa and exponent of one token of any length, or None where it is no decimal."""
    found = DECIMAL.fullmatch(token) if len(token) <= 400 else None
    if found is None or not (found[2] or found[3]):
        return None
    whole, places = found[2], found[3] or b""
    mantissa, exponent = int(whole + places), int(found[4] or b"0") - len(places)
    while abs(mantissa) >= 10**FAST_DIGITS and mantissa % 10 == 0:
        mantissa, exponent = mantissa // 10, exponent + 1
    if mantissa >= 10**FAST_DIGITS:
        raise TooManySteps
    return (-mantissa if found[1] == b"-" else mantissa), exponent


def parse_decimal(text: str) -> Fraction | None:
    """The number that a decimal gives, as `1.5e-6`, or None where it is none."""
    try:
        found = DECIMAL.fullmatch(text.encode("ascii")) if len(text) <= 64 else None
    except UnicodeEncodeError:
        return None
    if found is None or not (found[2] or found[3]):
        return None
    places = found[3] or b""
    number = int(found[2] + places) * Fraction(10) ** (int(found[4] or b"0") - len(places))
    return -number if found[1] == b"-" else number


def decimal_parts(number: Fraction) -> tuple[int, int] | None:
    """The mantissa, without zeros at its end, and the exponent of a number; None where no decimal is equal to it."""
    twos = (number.denominator & -number.denominator).bit_length() - 1
    fives, rest = 0, number.denominator >> twos
    while rest % 5 == 0:
        fives, rest = fives + 1, rest // 5
    if rest != 1:
        return None
    places = max(twos, fives)
    mantissa, exponent = number.numerator * 10**places // number.denominator, -places
    while mantissa and mantissa % 10 == 0:
        mantissa, exponent = mantissa // 10, exponent + 1
    return mantissa, exponent if mantissa else 0


def decimal_text(number: Fraction) -> str | None:
    """The number as a decimal, as `1.234e-10` or `25`; None where it has none of at most 38 digits."""
    parts = decimal_parts(number)
    return None if parts is None or len(str(abs(parts[0]))) > MOST_DIGITS else _shown(*parts)


def short_text(number: Fraction, digits: int = 6) -> str:
    """The number as a decimal of at most so many digits, rounded where it has more."""
    parts = decimal_parts(number)
    if parts is None or len(str(abs(parts[0]))) > digits:
        near = rounded_decimal(abs(number), digits)
        parts = decimal_parts(near if number > 0 else -near)
    return _shown(*(parts or (0, 0)))


def _shown(mantissa: int, exponent: int) -> str:
    """A mantissa without zeros at its end, and its exponent, as text."""
    text, sign = str(abs(mantissa)), "-" if mantissa < 0 else ""
    leading = exponent + len(text) - 1
    if leading < -4 or leading > 9:
        return f"{sign}{text[0]}{'.' if text[1:] else ''}{text[1:]}e{leading}"
    if exponent >= 0:
        return f"{sign}{text}{'0' * exponent}"
    padded = text.rjust(1 - exponent, "0")
    return f"{sign}{padded[:exponent]}.{padded[exponent:]}"


def rounded_decimal(number: Fraction, digits: int) -> Fraction:
    """The decimal of so many digits that is nearest to a number above 0; of two, the even one."""
    leading = len(str(number.numerator)) - len(str(number.denominator))
    leading -= number < Fraction(10) ** leading
    scale = Fraction(10) ** (leading - digits + 1)
    return round(number / scale) * scale
