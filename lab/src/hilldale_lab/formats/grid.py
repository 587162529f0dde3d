"""Floats that are whole multiples of one decimal but for their rounding, as programs make them of an instrument's whole
numbers."""

from __future__ import annotations

from fractions import Fraction
from typing import Any

import numpy as np
from numpy.typing import NDArray

MOST_DIVISOR = 64
MOST_DIGITS = 17
# Beyond this, either way, are no heights.
LEAST = 1e-100


def grid_of(values: NDArray[Any], unit: Fraction) -> Fraction | None:
    """The metres of the greatest step, a decimal of at most 17 digits, of which all values times the unit are whole
    multiples but for the rounding of their floats; None where there is none, or none that could be told."""
    sizes = np.unique(np.abs(values.astype(np.float64)))
    sizes = sizes[sizes > 0]
    if not len(sizes) or not LEAST < sizes[-1] < 1 / LEAST:
        return None
    noise = sizes * float(np.finfo(values.dtype).eps) * 2
    gaps = np.diff(sizes)
    least = min(float(sizes[0]), float(gaps[gaps > 4 * noise[1:]].min(initial=sizes[0])))
    for divisor in range(1, MOST_DIVISOR + 1):
        step = _sharpened(sizes, noise, least / divisor)
        if step is not None:
            short = _shortest(sizes, noise, step)
            return None if short is None else short * unit
    return None


def _is_grid(sizes: NDArray[np.float64], noise: NDArray[np.float64], step: float) -> bool:
    """Whether the sizes are whole multiples of the step but for their noise."""
    return bool((np.abs(sizes - step * np.rint(sizes / step)) <= noise).all())


def _sharpened(sizes: NDArray[np.float64], noise: NDArray[np.float64], step: float) -> float | None:
    """The step, made sharper by ever greater sizes as long as they stay near whole multiples of it."""
    reach = 2.0
    while step >= 4 * noise[-1]:
        at = int(np.searchsorted(sizes, reach * step, "right")) - 1
        if at >= 0:
            whole = np.rint(sizes[at] / step)
            if not whole or abs(sizes[at] / step - whole) > 0.1:
                return None
            step = float(sizes[at] / whole)
        if reach * step > sizes[-1]:
            return step if _is_grid(sizes, 2 * noise, step) else None
        reach *= 2
    return None


def _shortest(sizes: NDArray[np.float64], noise: NDArray[np.float64], step: float) -> Fraction | None:
    """The shortest decimal near a step that is a step too."""
    for digits in range(1, MOST_DIGITS + 1):
        text = f"{step:.{digits - 1}e}"
        if abs(float(text) - step) < step / 1000 and _is_grid(sizes, noise, float(text)):
            return Fraction(text)
    return None
