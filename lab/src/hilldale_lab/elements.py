"""Elements of filters by a few words, `flat 3x3` or `ball 1 mm 7x7`, as the line of a script that defines each."""

from __future__ import annotations

import math
import re
from fractions import Fraction

from hilldale_lab.errors import LabError
from hilldale_lab.units import Kind, Scales
from hilldale_lab.values import Quantity

MOST = 15
_FLAT = re.compile(r"flat\s+([0-9]+)\s*x\s*([0-9]+)")
_BALL = re.compile(r"ball\s+(.+?)\s+([0-9]+)\s*x\s*([0-9]+)")
NAME = re.compile(r"[A-Za-z0-9_-]{1,32}")


def element(words: str, scales: Scales) -> tuple[str, str] | None:
    """The name and the `element` line of `flat 3x3`, or of a ball of a radius, as `ball 1 mm 7x7`; None for other
    words.

    A flat element is zeros. A ball of radius r is, at a distance d from its centre, r less the root of r² - d² lower,
    rounded to whole steps; it has no number where d is more than half its lesser side, or more than r. Raises LabError
    where the size is even or above 15, or the radius is no length.
    """
    flat = _FLAT.fullmatch(words.strip())
    if flat:
        width, height = _size(flat[1], flat[2])
        return f"flat-{width}x{height}", f"element flat-{width}x{height} {width} {height}" + " 0" * (width * height)
    ball = _BALL.fullmatch(words.strip())
    if ball is None:
        return None
    width, height = _size(ball[2], ball[3])
    radius = Quantity.parse(ball[1])
    if radius.kind is not Kind.HEIGHT or radius.raw or radius.amount <= 0:
        raise LabError(f"{ball[1]!r} is no radius, such as 1 mm")
    name = re.sub(r"[^A-Za-z0-9_-]+", "-", words.strip())[:32]
    entries = " ".join(_ball_entries(width, height, radius.amount, scales))
    return name, f"element {name} {width} {height} {entries}"


def _size(width: str, height: str) -> tuple[int, int]:
    size = int(width), int(height)
    if not all(side % 2 and side <= MOST for side in size):
        raise LabError(f"an element of {width} by {height} points: both are odd, and at most {MOST}")
    return size


def _ball_entries(width: int, height: int, radius: Fraction, scales: Scales) -> list[str]:
    half_x, half_y = width // 2, height // 2
    reach = min(half_x * abs(scales.dx) if half_x else radius, half_y * abs(scales.dy) if half_y else radius, radius)
    found = []
    for down in range(-half_y, half_y + 1):
        for right in range(-half_x, half_x + 1):
            square = (right * scales.dx) ** 2 + (down * scales.dy) ** 2
            found.append("-" if square > reach**2 else str(_drop(radius, square, scales.step)))
    return found


def _drop(radius: Fraction, square: Fraction, step: Fraction) -> int:
    """How many steps, rounded, a ball of this radius is lower at a distance of this square than at its centre."""
    fine = 10**6
    below = Fraction(math.isqrt(math.floor((radius**2 - square) / step**2 * fine**2)), fine)
    return math.floor(below - radius / step + Fraction(1, 2))
