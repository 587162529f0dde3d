"""What a reader finds in a file, before its numbers become whole steps, and what the user says about the file."""

from __future__ import annotations

from dataclasses import dataclass, field
from fractions import Fraction
from pathlib import Path
from typing import Any

import numpy as np
from numpy.typing import NDArray

from hilldale_lab.decimals import parse_decimal
from hilldale_lab.errors import InputRefused, LabError
from hilldale_lab.lengths import LENGTHS


@dataclass(frozen=True)
class Options:
    """What the user says about a file. None stands for what is not said.

    unit: metres of the file's number 1. dx, dy: metres from point to point and from profile to profile.
    crop: the first column and profile, and how many of each. missing: numbers of the file that mark missing points;
    no_marks: no number does. step: metres of a step to round to. channel: its number, from 1, or its name.
    skip: how many lines of a text come before the numbers. separator: of its fields. is_xyz: each line is x, y and z,
    and xy_unit are the metres of x and y.
    keep_masked: masked points of a GWY file are heights too. reader: `own` or `gwyddion`.
    """

    unit: Fraction | None = None
    dx: Fraction | None = None
    dy: Fraction | None = None
    crop: tuple[int, int, int, int] | None = None
    missing: tuple[Fraction, ...] = ()
    no_marks: bool = False
    step: Fraction | None = None
    channel: str | None = None
    skip: int | None = None
    separator: str | None = None
    xy_unit: Fraction | None = None
    is_xyz: bool = False
    keep_masked: bool = False
    reader: str | None = None


@dataclass(frozen=True)
class Source:
    """A file: its path, its name as the user gave it, and its bytes."""

    path: Path
    name: str
    data: bytes = field(repr=False)

    def refuse(self, place: str, found: str, advice: str = "") -> InputRefused:
        """The refusal of this file, to be raised."""
        return InputRefused(self.name, place, found, advice)


@dataclass
class Field:
    """One channel of a file.

    values: whole numbers or floats of shape (profiles, columns), of no account where nothing is measured.
    measured: bool of the same shape. unit: metres of the value 1, or None where the file doesn't tell.
    dx, dy: metres, or None. number: what the value 1 is in the numbers that the file shows, as 1/100 for 12.34 read as
    1234. channel: its name. keys: what is kept of the header. notes: what the user should know. pitch: the distances of
    a list of points along x and y, in its own unit. spacing: what a number of the file is in the unit of its heights,
    as 0.37 where a file in um has steps of 0.37 um.
    """

    values: NDArray[Any]
    measured: NDArray[np.bool_]
    unit: Fraction | None
    dx: Fraction | None
    dy: Fraction | None
    number: Fraction = Fraction(1)
    channel: str = ""
    keys: list[tuple[str, str]] = field(default_factory=list)
    notes: list[str] = field(default_factory=list)
    pitch: tuple[Fraction, Fraction] | None = None
    spacing: Fraction = Fraction(1)


def decimal_of_float(number: float | np.floating[Any]) -> Fraction | None:
    """The shortest decimal that a float of its width stands for, which its writer typed; None if not finite."""
    if not np.isfinite(number):
        return None
    text = str(np.float32(number)) if isinstance(number, np.float32) else repr(float(number))
    return Fraction(text)


def scale_of(text: str | None) -> Fraction | None:
    """The number above 0 that a text gives, or None."""
    number = parse_decimal(text.strip()) if text is not None else None
    return number if number is not None and number > 0 else None


def length_unit(name: str) -> Fraction | None:
    """The metres of a unit that a file names, as `um`; None where it is none of a length."""
    return LENGTHS.get(name.strip().replace("\u03bc", "\u00b5"))


def table_of(
    source: Source, place: str, kind: str, columns: int, profiles: int, data: bytes | memoryview, at: int
) -> NDArray[Any]:
    """A table of numbers of this kind of numpy, as `<i4`, that stands at a byte. Raises InputRefused where the file
    is too short for it, before anything is made."""
    size = np.dtype(kind).itemsize
    if columns < 1 or profiles < 1:
        raise source.refuse(place, f"{columns} by {profiles} points")
    there = max(len(data) - at, 0) // size
    if columns * profiles > there:
        raise source.refuse(
            place,
            f"{columns} by {profiles} points are named, and {there} are there",
            "the file was cut off, or its sizes are wrong",
        )
    return np.frombuffer(data, kind, columns * profiles, at).reshape(profiles, columns)


def choose_channel(source: Source, names: list[str], wanted: str | None) -> int:
    """The index of the channel that is asked for, by its number from 1 or its name. Raises InputRefused where there
    are several and none is named, or where there is none of that name."""
    shown = ", ".join(f"{number} {name}".strip() for number, name in enumerate(names, 1))
    if not names:
        raise source.refuse("", "there is no channel of heights")
    if wanted is None:
        if len(names) == 1:
            return 0
        raise source.refuse("", f"there are {len(names)} channels", f"name one by --channel: {shown}")
    if wanted.isdecimal() and 1 <= int(wanted) <= len(names):
        return int(wanted) - 1
    if names.count(wanted) == 1:
        return names.index(wanted)
    raise source.refuse("", f"there is no channel {wanted}, or it is no single one", f"--channel takes one of: {shown}")


def read_length(text: str, what: str) -> Fraction:
    """The metres that a word gives, as `1um`, `0.5 mm` or `1e-6`; a number alone is metres. Raises LabError."""
    number = text.strip().rstrip("abcdefghijklmnopqrstuvwxyz\u00b5\u03bc\u00c5 ")
    name = text.strip()[len(number) :].strip()
    unit = length_unit(name) if name else Fraction(1)
    value = scale_of(number)
    if unit is None or value is None:
        raise LabError(f"{what} takes a length above 0, as 1um or 1e-6 for metres, and not {text}")
    return value * unit
