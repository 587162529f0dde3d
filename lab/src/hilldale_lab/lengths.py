"""The units of length that files and users name, in metres."""

from fractions import Fraction

_POWERS = {
    "m": 0,
    "dm": -1,
    "cm": -2,
    "mm": -3,
    "um": -6,
    "\u00b5m": -6,
    "\u03bcm": -6,
    "micron": -6,
    "microns": -6,
    "micrometer": -6,
    "micrometre": -6,
    "nm": -9,
    "A": -10,
    "\u00c5": -10,
    "Angstrom": -10,
    "pm": -12,
    "fm": -15,
}
LENGTHS = {name: Fraction(10) ** power for name, power in _POWERS.items()}
LENGTHS["in"] = LENGTHS["inch"] = Fraction(254, 10_000)
LENGTHS["mil"] = Fraction(254, 10_000_000)
