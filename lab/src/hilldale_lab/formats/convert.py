"""From what a reader found to a surface: marks, crop, units and steps, and the warnings that a user should see."""

from __future__ import annotations

from dataclasses import dataclass, replace
from fractions import Fraction

import numpy as np
from numpy.typing import NDArray

from hilldale_lab.decimals import decimal_text, rounded_decimal, short_text
from hilldale_lab.formats.field import Field, Options, Source
from hilldale_lab.formats.steps import NoWholeSteps, WholeSteps, exact_steps, rounded_steps
from hilldale_lab.height_map import HeightMap
from hilldale_lab.surface_file import MOST_IN_A_LINE, MOST_POINTS

FAR = Fraction(1, 100)
NEAR = Fraction(1, 10**11)
SUSPICIOUS_SHARE = 1000
SCALE_DIGITS = 17


@dataclass(frozen=True)
class Imported:
    """A surface as it was imported: what of, by which reader, what a user should see, and the greatest rounding in
    metres, 0 where nothing was rounded."""

    surface: HeightMap
    format: str
    reader: str
    channel: str
    warnings: tuple[str, ...]
    rounding: Fraction
    sha256: str


def convert(source: Source, found: Field, options: Options) -> tuple[HeightMap, Fraction, list[str]]:
    """The surface of a field, its greatest rounding in metres, and the warnings. Raises InputRefused."""
    found = _cropped(source, _without_marks(found, options), options)
    warnings = [*found.notes, *_marks_to_look_at(found)]
    unit = _unit(source, found, options, warnings)
    dx, dy = (_lateral(source, found, options, axis, warnings) for axis in ("dx", "dy"))
    whole = _whole_steps(source, found, unit, options)
    if decimal_text(whole.step) is None:
        raise source.refuse(
            "",
            f"a step of {whole.step} m is no decimal of 38 digits",
            f"round to one: --step {short_text(whole.step, 3)}",
        )
    steps = np.zeros(found.measured.shape, np.int64)
    steps[found.measured] = whole.steps
    surface = HeightMap(steps, found.measured, whole.step, dx, dy, tuple(found.keys))
    return surface, whole.rounding, warnings + _sizes_to_look_at(surface)


def _unit(source: Source, found: Field, options: Options, warnings: list[str]) -> Fraction:
    """The metres of the value 1: as the user says, else as the file tells."""
    if options.unit is None and found.unit is None:
        raise source.refuse("", "the file doesn't tell the unit of its heights", "give it, as --unit um")
    if options.unit is None:
        return found.unit
    unit = options.unit * found.spacing * found.number
    if found.unit is not None and found.unit != unit:
        warnings.append(f"by --unit the heights are {short_text(unit / found.unit)} times what the file tells")
    return unit


def _without_marks(found: Field, options: Options) -> Field:
    """The field with the points missing that hold a number which the user names."""
    measured = found.measured.copy()
    for mark in options.missing:
        value = mark / found.number
        if found.values.dtype.kind == "f":
            here = found.values == found.values.dtype.type(_float(value))
        else:
            here = found.values == int(value) if value.denominator == 1 else np.zeros(measured.shape, np.bool_)
        if not here.any():
            found.notes.append(f"no point holds {decimal_text(mark) or mark}, which --missing names")
        measured &= ~here
    if found.values.dtype.kind == "f":
        measured &= np.isfinite(found.values)
    return replace(found, measured=measured)


def _float(number: Fraction) -> float:
    """The float nearest to a number, infinite beyond the greatest one."""
    try:
        return float(number)
    except OverflowError:
        return float("inf") if number > 0 else float("-inf")


def _cropped(source: Source, found: Field, options: Options) -> Field:
    profiles, columns = found.values.shape
    if options.crop is not None:
        left, top, width, height = options.crop
        if left + width > columns or top + height > profiles:
            raise source.refuse("", f"there are {columns} by {profiles} points, and --crop goes beyond")
        part = np.s_[top : top + height, left : left + width]
        return replace(found, values=found.values[part], measured=found.measured[part])
    if columns * profiles > MOST_POINTS or max(columns, profiles) > MOST_IN_A_LINE:
        raise source.refuse(
            "",
            f"{columns} by {profiles} points are more than hilldale reads, {MOST_POINTS} in all "
            f"and {MOST_IN_A_LINE} in a line",
            "take a part: --crop COLUMN PROFILE COLUMNS PROFILES",
        )
    return found


def _lateral(source: Source, found: Field, options: Options, axis: str, warnings: list[str]) -> Fraction:
    """The metres from point to point, or from profile to profile; rounded, and told, where no decimal is equal."""
    given = getattr(options, axis)
    distance = given if given is not None else getattr(found, axis)
    if distance is None and found.pitch is not None and options.xy_unit is not None:
        pitch = found.pitch[axis == "dy"] or max(found.pitch)
        distance = pitch * options.xy_unit if pitch else None
    if distance is None and found.pitch is not None:
        raise source.refuse("", "the list doesn't tell the unit of x and y", "give it, as --xy-unit um")
    if distance is None:
        what = "from point to point" if axis == "dx" else "from profile to profile"
        raise source.refuse("", f"the file doesn't tell how far it is {what}", f"give it, as --{axis} 1um")
    if decimal_text(distance) is not None:
        return distance
    rounded = rounded_decimal(distance, SCALE_DIGITS)
    warnings.append(f"{axis} is {distance} m, which no decimal equals: written as {decimal_text(rounded)}")
    return rounded


def _whole_steps(source: Source, found: Field, unit: Fraction, options: Options) -> WholeSteps:
    values = found.values[found.measured]
    try:
        if options.step is not None:
            return rounded_steps(values, unit, options.step)
        return exact_steps(values, unit) if found.number == 1 else _of_last_place(values, unit, found.number)
    except NoWholeSteps as error:
        advice = f"round them by --step {short_text(error.step, 17)}" + (f": {error.advice}" if error.advice else "")
        raise source.refuse("the heights", str(error), advice) from error


def _of_last_place(values: NDArray[np.int64], unit: Fraction, number: Fraction) -> WholeSteps:
    """Decimals as whole steps of the greatest power of ten, at most the number 1, that divides those which are left."""
    whole = exact_steps(values, unit)
    common, power = int(np.gcd.reduce(values)) if values.size else 0, 1
    while common and common % (10 * power) == 0 and number * 10 * power <= 1:
        power *= 10
    return WholeSteps(whole.steps // power, unit * power)


def _marks_to_look_at(found: Field) -> list[str]:
    """A warning where the least or greatest value is on many points, and the next one lies far away."""
    values = found.values[found.measured]
    told = []
    if values.size < 3:
        return told
    for extreme, word in ((values.min(), "below"), (values.max(), "above")):
        rest = values[values != extreme]
        count = values.size - rest.size
        if not rest.size or count * SUSPICIOUS_SHARE <= values.size or count < 2:
            continue
        least, greatest = Fraction(rest.min().item()), Fraction(rest.max().item())
        gap = least - Fraction(extreme.item()) if word == "below" else Fraction(extreme.item()) - greatest
        if gap > max(greatest - least, 0) and gap > 0 and rest.size > 1 and greatest > least:
            shown = short_text(Fraction(extreme.item()) * found.number, 20)
            told.append(
                f"{count} points hold {shown}, far {word} all others: where it marks missing points, "
                f"give --missing {shown}"
            )
    return told


def _sizes_to_look_at(surface: HeightMap) -> list[str]:
    """Warnings for heights and distances that look as if a unit were wrong."""
    told = []
    if surface.least is None or surface.greatest is None:
        return ["no point has a height"]
    most = max(-surface.least, surface.greatest) * surface.step
    span = (surface.greatest - surface.least) * surface.step
    if most > FAR:
        told.append(f"heights reach {short_text(most)} m, beyond 10 mm: is the unit right?")
    if 0 < span < NEAR:
        told.append(f"the heights range over {short_text(span)} m, below 10 pm: is the unit right?")
    if surface.step == 1:
        told.append("Zscale is 1: a step is a whole metre. Is the unit right?")
    return told
