"""Heights C as a drawing gives them, and how each becomes the whole steps that the program asks for."""

from __future__ import annotations

import math
import re
from dataclasses import dataclass
from enum import Enum
from fractions import Fraction

from hilldale_lab.errors import LabError
from hilldale_lab.units import Kind, Scales
from hilldale_lab.values import Quantity

_ORIGIN = re.compile(r"(.*?)\s*(?:\bfrom\s+(?:the\s+)?(mean|plane(?:\s+z\s*=\s*0)?|zero))?\s*", re.S)


class Rounding(Enum):
    """Which whole step a height between two becomes, so that no value changes: heights are whole steps themselves.

    DOWN where the question is what is at most C high, or higher than C; UP where it is what is at least C high, or
    lower.
    """

    DOWN = "down"
    UP = "up"


def rounding_of(name: str) -> Rounding:
    """How the C of a parameter, or of a notation, becomes whole steps: UP for Sha, Smr and hills, DOWN for Sda and
    dales."""
    if name in ("Sha", "Smr") or name.startswith("FC;H"):
        return Rounding.UP
    return Rounding.DOWN


@dataclass(frozen=True)
class Level:
    """A height C: an amount with a unit, from the plane z = 0 (the zero of the file) or from the mean of the
    heights."""

    text: str
    quantity: Quantity
    from_mean: bool

    @classmethod
    def parse(cls, given: str | int | Level) -> Level:
        """Reads `-1.2 um`, `-350 steps`, `-0.3 um from mean`, `5 um from the plane z = 0`; a whole number counts steps.

        Raises LabError where it is no height.
        """
        if isinstance(given, Level):
            return given
        if isinstance(given, bool) or not isinstance(given, (str, int)):
            raise LabError(f"{given!r} is no height: write a text such as '-1.2 um', or a whole number of steps")
        text = str(given).strip()
        match = _ORIGIN.fullmatch(text)
        quantity = Quantity.parse(match[1])
        if quantity.kind is Kind.NUMBER:
            if quantity.amount.denominator != 1 or quantity.text.endswith("%"):
                raise LabError(f"{text!r} has no unit: write it with one, such as um, or as whole steps")
            quantity = Quantity(quantity.text, quantity.amount, Kind.HEIGHT, True)
        if quantity.kind is not Kind.HEIGHT:
            raise LabError(f"{text!r} is no height")
        return cls(text, quantity, match[2] == "mean")

    @property
    def shown(self) -> str:
        """The height as it was given; a plain number with its unit, as `-350 steps`."""
        return f"{self.text} steps" if re.fullmatch(r"[+-]?[0-9]+", self.text) else self.text

    def steps(self, scales: Scales, mean: Fraction | None = None) -> Fraction:
        """The height in steps from the zero of the file, exact. mean: that of the present heights, in steps.

        Raises LabError where it counts from the mean and there is none.
        """
        height = self.quantity.exact(scales)
        if not self.from_mean:
            return height
        if mean is None:
            raise LabError(f"{self.text!r}: no point is present, so there is no mean")
        return height + mean

    def whole(self, scales: Scales, mean: Fraction | None, rounding: Rounding) -> int:
        """The whole number of steps that stands for the height in a script."""
        steps = self.steps(scales, mean)
        return math.floor(steps) if rounding is Rounding.DOWN else math.ceil(steps)

    def note(self, scales: Scales, mean: Fraction | None, rounding: Rounding) -> str:
        """How the height became whole steps, as `-0.3 um from mean = -366.035 steps, down to -367`."""
        steps = self.steps(scales, mean)
        whole = self.whole(scales, mean, rounding)
        if steps == whole:
            return f"{self.text} = {whole} steps"
        return f"{self.text} = {steps.numerator}/{steps.denominator} steps, {rounding.value} to {whole}"
