"""One table of units: of what each parameter and each notation is told, and what it is shown in."""

from __future__ import annotations

from dataclasses import dataclass
from enum import Enum
from fractions import Fraction

from hilldale_lab.errors import LabError
from hilldale_lab.lengths import LENGTHS


@dataclass(frozen=True)
class Scales:
    """The metres from point to point (dx), from profile to profile (dy), and of one step of height; exact."""

    dx: Fraction
    dy: Fraction
    step: Fraction

    @property
    def area(self) -> Fraction:
        """The square metres that one point stands for."""
        return abs(self.dx * self.dy)


@dataclass(frozen=True)
class Unit:
    """A unit: its name in plain letters, as `um2`, and as a page shows it, as `µm²`."""

    name: str
    symbol: str


class Kind(Enum):
    """What a value measures: the program's unit, the unit it is shown in, and the powers that lead from one to the
    other.

    A value in the program's unit times step^heights times (dx dy)^areas is in metres; times 10^exponent in the shown
    unit.
    """

    HEIGHT = ("steps", Unit("um", "µm"), 1, 0, 6)
    AREA = ("points", Unit("um2", "µm²"), 0, 1, 12)
    VOLUME = ("steps times points", Unit("um3", "µm³"), 1, 1, 18)
    DENSITY = ("per point", Unit("per mm2", "1/mm²"), 0, -1, -6)
    HEIGHT_DENSITY = ("steps per point", Unit("um per mm2", "µm/mm²"), 1, -1, 0)
    LENGTH = ("m", Unit("um", "µm"), 0, 0, 6)
    NUMBER = ("", Unit("", ""), 0, 0, 0)

    def __init__(self, raw: str, unit: Unit, heights: int, areas: int, exponent: int) -> None:
        self.raw, self.unit = raw, unit
        self.heights, self.areas, self.exponent = heights, areas, exponent

    def metres(self, scales: Scales) -> Fraction | None:
        """What a value in the program's unit is multiplied by for metres, square metres ..; None where a scale is 0."""
        if self.heights and not scales.step or self.areas and not scales.area:
            return None
        return scales.step**self.heights * scales.area**self.areas

    def factor(self, scales: Scales) -> Fraction | None:
        """What a value in the program's unit is multiplied by for the shown unit; None where a scale is 0."""
        metres = self.metres(scales)
        return None if metres is None else metres * Fraction(10) ** self.exponent


PARAMETERS = {
    "Spd": Kind.DENSITY,
    "S5p": Kind.HEIGHT,
    "S5v": Kind.HEIGHT,
    "S10z": Kind.HEIGHT,
    "Sda": Kind.AREA,
    "Sha": Kind.AREA,
}
HEIGHTS = {"Sp": Kind.HEIGHT, "Sv": Kind.HEIGHT, "Sa": Kind.HEIGHT, "Smr": Kind.NUMBER}
WITH_HEIGHT = ("Sda", "Sha", "Smr")
ATTRIBUTES = {"lpvh": Kind.HEIGHT, "Count": Kind.NUMBER, "AreaE": Kind.AREA}
STATISTICS = ("Mean", "Max", "Min", "Sum", "Density")
DENSITIES = {"lpvh": Kind.HEIGHT_DENSITY, "Count": Kind.DENSITY, "AreaE": Kind.NUMBER}


def kind_of(name: str) -> Kind:
    """The kind of a parameter (`S10z`), of a notation (six parts) or of the attribute of one (five parts).

    Raises LabError for any other name.
    """
    known = PARAMETERS.get(name) or HEIGHTS.get(name)
    if known is not None:
        return known
    parts = name.split(";")
    if len(parts) in (5, 6) and parts[0] == "FC" and parts[4] in ATTRIBUTES:
        if len(parts) == 6 and parts[5] == "Density":
            return DENSITIES[parts[4]]
        if len(parts) == 5 or parts[5] in STATISTICS:
            return ATTRIBUTES[parts[4]]
    raise LabError(f"no unit is known of {name}")


_SQUARED = ("m", "cm", "mm", "um", "nm", "pm")


def _named_units() -> dict[str, tuple[Kind, Fraction]]:
    """Each unit that a user may write: what it measures, and its metres, square metres, .."""
    units: dict[str, tuple[Kind, Fraction]] = {name: (Kind.HEIGHT, metres) for name, metres in LENGTHS.items()}
    for length in _SQUARED:
        metres = LENGTHS[length]
        units[f"{length}2"] = (Kind.AREA, metres**2)
        units[f"{length}3"] = (Kind.VOLUME, metres**3)
        units[f"per {length}2"] = units[f"1/{length}2"] = (Kind.DENSITY, 1 / metres**2)
        for area in _SQUARED:
            units[f"{length} per {area}2"] = (Kind.HEIGHT_DENSITY, metres / LENGTHS[area] ** 2)
    units["%"] = (Kind.NUMBER, Fraction(1, 100))
    return units


NAMED_UNITS = _named_units()
RAW_UNITS = {"step": Kind.HEIGHT, "point": Kind.AREA} | {k.raw: k for k in Kind if k.raw and k is not Kind.LENGTH}


def plain_unit(text: str) -> str:
    """A unit in plain letters: `µm²` becomes `um2`; blanks at the ends go, and others become one."""
    for sign, letters in (("µ", "u"), ("μ", "u"), ("²", "2"), ("³", "3"), ("^", "")):
        text = text.replace(sign, letters)
    return " ".join(text.split())
