"""Measured heights as whole steps."""

from __future__ import annotations

from dataclasses import dataclass, field
from fractions import Fraction

import numpy as np
from numpy.typing import NDArray


@dataclass(frozen=True, eq=False)
class HeightMap:
    """Measured heights as whole steps, profile by profile.

    steps: int64 of shape (profiles, columns), 0 where nothing is measured.
    measured: bool of the same shape.
    step: the metres of one step, exact and above 0.
    dx, dy: the metres from point to point and from profile to profile, exact.
    keys: further keys of the header and their values, in order.
    """

    steps: NDArray[np.int64] = field(repr=False)
    measured: NDArray[np.bool_] = field(repr=False)
    step: Fraction
    dx: Fraction
    dy: Fraction
    keys: tuple[tuple[str, str], ...] = ()

    def __post_init__(self) -> None:
        if self.steps.ndim != 2 or self.steps.shape != self.measured.shape or not self.steps.size:
            raise ValueError("steps and measured are one table of at least one point")
        if self.steps.dtype != np.int64 or self.measured.dtype != np.bool_:
            raise ValueError("steps are int64, and measured is bool")

    @property
    def profiles(self) -> int:
        """How many profiles there are."""
        return self.steps.shape[0]

    @property
    def columns(self) -> int:
        """How many points a profile has."""
        return self.steps.shape[1]

    @property
    def missing(self) -> int:
        """How many points have no height."""
        return int(self.measured.size - np.count_nonzero(self.measured))

    @property
    def least(self) -> int | None:
        """The least height in steps, or None where nothing is measured."""
        return int(self.steps[self.measured].min()) if self.measured.any() else None

    @property
    def greatest(self) -> int | None:
        """The greatest height in steps, or None where nothing is measured."""
        return int(self.steps[self.measured].max()) if self.measured.any() else None
