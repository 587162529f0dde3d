"""Numbers of a file to whole steps: exactly, or rounded where the user asks for it."""

from __future__ import annotations

from dataclasses import dataclass
from fractions import Fraction
from typing import Any

import numpy as np
from numpy.typing import NDArray

from hilldale_lab.decimals import MOST_STEPS, decimal_text
from hilldale_lab.formats.grid import grid_of

# A float32 has 24 bits, a float64 has 53.
MANTISSA_BITS = 53


class NoWholeSteps(ValueError):
    """The heights are no whole steps that hilldale reads; `step` is one in metres that they may be rounded to."""

    def __init__(self, cause: str, step: Fraction, advice: str) -> None:
        super().__init__(cause)
        self.step, self.advice = step, advice


@dataclass(frozen=True)
class WholeSteps:
    """Whole steps int64 of one dimension, the metres of one, and the greatest rounding in metres."""

    steps: NDArray[np.int64]
    step: Fraction
    rounding: Fraction = Fraction(0)


def exact_steps(values: NDArray[Any], unit: Fraction) -> WholeSteps:
    """The values times the unit as whole steps: of the unit for whole numbers, and for floats of the greatest power of
    two of it, at most 1, that divides all of them. Raises NoWholeSteps."""
    if values.dtype.kind in "iu":
        steps = _in_range(values, unit)
        return WholeSteps(steps, unit)
    mantissas, exponents = _parts(values)
    lowest = min(int(exponents.min(initial=0)), 0)
    greatest = float(np.abs(values).max(initial=0))
    if decimal_text(unit / Fraction(2) ** -lowest) is None:
        raise _no_steps(values, unit, f"a step of 2^{lowest} of their unit has more digits than the 38 of Zscale")
    if Fraction(greatest) / Fraction(2) ** lowest > MOST_STEPS:
        raise _no_steps(values, unit, f"they reach {greatest:g} and need steps of 2^{lowest}: more than 2^53 steps")
    return WholeSteps(np.ldexp(values.astype(np.float64), -lowest).astype(np.int64), unit * Fraction(2) ** lowest)


def _in_range(values: NDArray[Any], unit: Fraction) -> NDArray[np.int64]:
    if values.size and max(-int(values.min()), int(values.max())) > MOST_STEPS:
        raise NoWholeSteps("whole numbers beyond 2^53", unit * 1024, "")
    return values.astype(np.int64)


def _parts(values: NDArray[Any]) -> tuple[NDArray[np.int64], NDArray[np.int64]]:
    """Odd mantissas and exponents of floats: each is mantissa * 2^exponent; 0 is 0 * 2^0."""
    fractions, exponents = np.frexp(values.astype(np.float64))
    mantissas = np.ldexp(fractions, MANTISSA_BITS).astype(np.int64)
    lowest_bits = mantissas & -mantissas
    shifts = np.where(mantissas == 0, 0, np.log2(np.maximum(lowest_bits, 1).astype(np.float64)).astype(np.int64))
    powers = np.where(mantissas == 0, 0, exponents.astype(np.int64) - MANTISSA_BITS + shifts)
    return mantissas >> shifts, powers


def _no_steps(values: NDArray[Any], unit: Fraction, cause: str) -> NoWholeSteps:
    """The refusal of floats, with a step that serves: of the grid that they stand on, or of their own precision."""
    grid = grid_of(values, unit)
    if grid is not None:
        return NoWholeSteps(
            cause, grid, f"all are whole multiples of {decimal_text(grid)} m but for the rounding of their floats"
        )
    bits = 24 if values.dtype.itemsize == 4 else 40
    finest = float(np.abs(values).max(initial=0)) * float(unit) / 2**bits
    step = Fraction(10) ** int(np.floor(np.log10(finest))) if finest > 0 else unit
    return NoWholeSteps(cause, step, "the rounding is told")


def rounded_steps(values: NDArray[Any], unit: Fraction, step: Fraction) -> WholeSteps:
    """The values times the unit, rounded to whole multiples of a step; a half goes to the even one. Raises NoWholeSteps
    beyond 2^53 steps."""
    ratio = unit / step
    greatest = (
        max((abs(Fraction(values.min().item())), abs(Fraction(values.max().item()))), default=0)
        if values.size
        else Fraction(0)
    )
    if greatest * ratio > MOST_STEPS:
        raise NoWholeSteps(f"{step} m is too small a step: the heights have more than 2^53 of it", step * 1024, "")
    if values.dtype.kind in "iu" and greatest * ratio.numerator * 2 < 2**62 and ratio.denominator < 2**61:
        return _rounded_whole(values.astype(np.int64), ratio, step)
    return _rounded_floats(values, ratio, step)


def _rounded_whole(values: NDArray[np.int64], ratio: Fraction, step: Fraction) -> WholeSteps:
    floors, rests = np.divmod(values * ratio.numerator, ratio.denominator)
    is_up = (2 * rests > ratio.denominator) | ((2 * rests == ratio.denominator) & (floors % 2 == 1))
    worst = int(np.minimum(rests, ratio.denominator - rests).max(initial=0))
    return WholeSteps(floors + is_up, step, Fraction(worst, ratio.denominator) * step)


def _rounded_floats(values: NDArray[Any], ratio: Fraction, step: Fraction) -> WholeSteps:
    """Most are rounded as floats; those whose rounding the float may have wrong, and the greatest, as fractions."""
    scaled = values.astype(np.float64) * float(ratio)
    steps = np.rint(scaled)
    errors = np.abs(scaled - steps)
    doubt = 1e-3 if float(np.abs(scaled).max(initial=0)) < 2**40 else 1.0
    near_half = np.flatnonzero(errors > 0.5 - doubt)
    near_worst = np.flatnonzero(errors >= errors.max(initial=0) - 2 * doubt)
    whole, worst = steps.astype(np.int64), Fraction(0)
    for index in np.union1d(near_half, near_worst).tolist():
        exact = Fraction(values[index].item()) * ratio
        whole[index] = round(exact)
        worst = max(worst, abs(exact - int(whole[index])))
    return WholeSteps(whole, step, worst * step)
