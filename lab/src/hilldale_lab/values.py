"""Values: the program's exact fraction, its unit, and a text of it with a stated number of digits."""

from __future__ import annotations

import re
from collections.abc import Iterable
from dataclasses import dataclass
from fractions import Fraction

from hilldale_lab.decimals import decimal_parts
from hilldale_lab.errors import LabError
from hilldale_lab.units import NAMED_UNITS, RAW_UNITS, Kind, Scales, Unit, plain_unit

DIGITS = 6
_AMOUNT = re.compile(
    r"([+-]?[0-9]+/[1-9][0-9]*|[+-]?(?:[0-9]+\.?[0-9]*|\.[0-9]+)(?:[eE][+-]?[0-9]{1,3})?)\s*(.*)", re.S
)


def rounded_text(value: Fraction, digits: int = DIGITS) -> str:
    """A fraction as a decimal, without an exponent: whole where `digits` digits suffice, else rounded to so many.

    A rounded text has all its digits, zeros at the end too, as `0.100000`; an exact one has none that can go. The
    digits before the point are never rounded away. Ties go to the even digit.
    """
    places = max(0, digits - 1 - leading_power(value))
    if places and round(abs(value) * 10**places) >= 10**digits:
        places -= 1
    scaled = abs(value) * 10**places
    whole = round(scaled)
    text = str(whole).rjust(places + 1, "0")
    if places:
        text = f"{text[:-places]}.{text[-places:]}"
        if scaled == whole:
            text = text.rstrip("0").rstrip(".")
    return f"-{text}" if value < 0 and whole else text


def leading_power(value: Fraction) -> int:
    """The power of ten of the first digit of a number: 2 of 314, -3 of 0.00314, 0 of 0."""
    if not value:
        return 0
    top, bottom = abs(value.numerator), value.denominator
    power = len(str(top)) - len(str(bottom))
    return power if abs(value) >= Fraction(10) ** power else power - 1


def exact_texts(numbers: Iterable[int | None], factor: Fraction | None, digits: int = 17) -> list[str]:
    """Whole numbers times a factor as decimals: exact where the factor is a decimal, else with so many digits.

    None gives `none`. Many at once, since a table has a hundred thousand.
    """
    if factor is None:
        return ["no scale"] * len(list(numbers))
    parts = decimal_parts(factor)
    if parts is None:
        return ["none" if number is None else rounded_text(number * factor, digits) for number in numbers]
    mantissa, places = parts[0] * 10 ** max(parts[1], 0), max(-parts[1], 0)
    if not places:
        return ["none" if number is None else str(number * mantissa) for number in numbers]
    return ["none" if number is None else _shifted_text(number * mantissa, places, 10**places) for number in numbers]


def _shifted_text(number: int, places: int, scale: int) -> str:
    """A whole number divided by 10^places, which is the scale, without zeros at the end."""
    whole, rest = divmod(abs(number), scale)
    sign = "-" if number < 0 else ""
    return f"{sign}{whole}.{rest:0{places}d}".rstrip("0") if rest else f"{sign}{whole}"


@dataclass(frozen=True)
class Value:
    """A number of a surface.

    name: the parameter, the notation, or what it is. exact: in the program's unit (steps, points ..), None where the
    program answers `none`. kind: what it measures. own: computed by the lab beside the program, unproved.
    """

    name: str
    exact: Fraction | None
    kind: Kind
    scales: Scales
    own: bool = False

    @property
    def unit(self) -> Unit:
        """The unit that the value is shown in."""
        return self.kind.unit

    @property
    def shown(self) -> Fraction | None:
        """The exact value in µm, µm², µm³ or per mm²; None where there is none, or a scale is 0."""
        factor = self.kind.factor(self.scales)
        return None if self.exact is None or factor is None else self.exact * factor

    def number(self, digits: int = DIGITS) -> str:
        """The value in its unit with so many digits, as `0.47505`; `none` where there is none."""
        shown = self.shown
        if shown is None:
            return "none" if self.exact is None else "no scale"
        return rounded_text(shown, digits)

    def text(self, digits: int = DIGITS) -> str:
        """The number and its unit in plain letters, as `0.47505 um`."""
        return self._with(self.number(digits), self.unit.name)

    def symbol_text(self, digits: int = DIGITS) -> str:
        """The number and its unit as a page shows them, as `0.47505 µm`."""
        return self._with(self.number(digits), self.unit.symbol)

    @property
    def fraction(self) -> str:
        """The program's exact answer with its unit, as `9501/20 steps`."""
        if self.exact is None:
            return "none"
        return self._with(f"{self.exact.numerator}/{self.exact.denominator}", self.kind.raw)

    def _with(self, number: str, unit: str) -> str:
        return f"{number} {unit}" if unit and number[-1:].isdigit() else number

    def __str__(self) -> str:
        return "none" if self.exact is None else f"{self.text()}  ({self.fraction})"

    def __repr__(self) -> str:
        return f"Value({self.name}: {self})"

    def __float__(self) -> float:
        return self._measure(self.kind)

    @property
    def um(self) -> float:
        """The height in µm as the nearest float, for axes and spreadsheets; printed numbers come of `text`."""
        return self._measure(Kind.HEIGHT)

    @property
    def um2(self) -> float:
        """The area in µm² as the nearest float."""
        return self._measure(Kind.AREA)

    @property
    def um3(self) -> float:
        """The volume in µm³ as the nearest float."""
        return self._measure(Kind.VOLUME)

    @property
    def per_mm2(self) -> float:
        """The density per mm² as the nearest float."""
        return self._measure(Kind.DENSITY)

    def _measure(self, kind: Kind) -> float:
        if kind is not self.kind:
            raise LabError(f"{self.name} is told in {self.unit.name or 'no unit'}, and not in {kind.unit.name}")
        shown = self.shown
        return float("nan") if shown is None else float(shown)


@dataclass(frozen=True)
class Quantity:
    """A number with a unit as a user writes it: `5.0 um`, `-350 nm`, `12 steps`, `50%`.

    amount is exact, in metres, square metres .. where `raw` is false, and else in the program's unit.
    """

    text: str
    amount: Fraction
    kind: Kind
    raw: bool

    @classmethod
    def parse(cls, text: str) -> Quantity:
        """Reads a number and a unit. Raises LabError where it has neither form, or the unit is not known."""
        text = text.strip()
        match = _AMOUNT.fullmatch(text)
        if match is None:
            raise LabError(f"{text!r} is no number with a unit, such as 5.0 um")
        amount, name = Fraction(match[1]), plain_unit(match[2])
        if name in RAW_UNITS:
            return cls(text, amount, RAW_UNITS[name], True)
        if name in NAMED_UNITS:
            kind, metres = NAMED_UNITS[name]
            return cls(text, amount * metres, kind, False)
        if name:
            advice = ": write a decimal point" if name.startswith(",") else ""
            raise LabError(f"{text!r}: no unit is called {match[2].strip()!r}{advice}")
        return cls(text, amount, Kind.NUMBER, False)

    def exact(self, scales: Scales) -> Fraction:
        """The quantity in the program's unit. Raises LabError where the scale that it needs is 0."""
        metres = Fraction(1) if self.raw else self.kind.metres(scales)
        if not metres:
            raise LabError(f"{self.text!r}: the surface has a scale of 0")
        return self.amount if self.raw else self.amount / metres
