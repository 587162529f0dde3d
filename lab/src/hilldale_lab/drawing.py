"""What a picture shows of a surface: whole heights, what is not there, regions and their pits."""
from __future__ import annotations

from dataclasses import dataclass
from fractions import Fraction
from typing import TYPE_CHECKING

import numpy as np
from numpy.typing import NDArray

if TYPE_CHECKING:
    from hilldale_lab.surface import Surface

MICROMETRES = 10**6


@dataclass(frozen=True)
class Drawing:
    """A surface to be drawn.

    steps: heights in whole steps, of shape (profiles, columns). step: metres of a step. dx, dy: metres from point to
    point and from profile to profile. present, masked: of the same shape; a point that is neither is not measured.
    labels: for each point the number of its region, from 0 in the order of `pits`, and -1 where it is not present.
    pits: the column and the profile of each kept pit or peak, of shape (regions, 2). side: D for dales, H for hills.
    """

    steps: NDArray[np.int64]
    present: NDArray[np.bool_]
    step: Fraction
    dx: Fraction
    dy: Fraction
    masked: NDArray[np.bool_] | None = None
    labels: NDArray[np.integer] | None = None
    pits: NDArray[np.int64] | None = None
    side: str = "D"

    @property
    def profiles(self) -> int:
        return self.steps.shape[0]

    @property
    def columns(self) -> int:
        return self.steps.shape[1]

    @property
    def range(self) -> tuple[int, int]:
        """The least and the greatest height of a present point, in steps; 0 and 0 where none is present."""
        heights = self.steps[self.present]
        return (int(heights.min()), int(heights.max())) if heights.size else (0, 0)

    @property
    def regions_word(self) -> str:
        return "dales" if self.side == "D" else "hills"

    @property
    def pits_word(self) -> str:
        return "pits" if self.side == "D" else "peaks"


def drawing_of(surface: Surface, side: str | None = None, percent: str = "0%") -> Drawing:
    """The present map of a surface, with the regions of a side that a pruning keeps, where a side is given."""
    present = surface.present()
    labels = pits = None
    if side is not None:
        pits = surface.pruning(side, percent).kept[:, :2]
        labels = surface.labels(side, percent)
    return Drawing(
        present.steps,
        present.measured,
        present.step,
        present.dx,
        present.dy,
        surface.map.measured & ~present.measured,
        labels,
        pits,
        side or "D",
    )


def micrometres(heights: NDArray[np.int64], step: Fraction) -> NDArray[np.float64]:
    """Heights in micrometres as floats, which are for places on paper only."""
    return heights.astype(np.float64) * float(step * MICROMETRES)


def border_lines(labels: NDArray[np.integer]) -> NDArray[np.float64]:
    """The borders between regions as straight lines between the points, of shape (lines, 2, 2): columns and profiles.

    Lines run half way between two points of different regions; each is as long as the border is straight. Points
    that are in no region (-1) have no border.
    """
    inside = labels >= 0
    across = (labels[:, :-1] != labels[:, 1:]) & inside[:, :-1] & inside[:, 1:]
    along = (labels[:-1] != labels[1:]) & inside[:-1] & inside[1:]
    at, begin, end = _runs(across.T)
    upright = np.stack([np.stack([at + 0.5, begin - 0.5], 1), np.stack([at + 0.5, end - 0.5], 1)], 1)
    at, begin, end = _runs(along)
    level = np.stack([np.stack([begin - 0.5, at + 0.5], 1), np.stack([end - 0.5, at + 0.5], 1)], 1)
    return np.concatenate([upright, level])


def _runs(marks: NDArray[np.bool_]) -> tuple[NDArray[np.int64], NDArray[np.int64], NDArray[np.int64]]:
    """Of each run of marks in a row its row, its first place and the place after its last."""
    rows, width = marks.shape
    padded = np.zeros((rows, width + 2), np.int8)
    padded[:, 1:-1] = marks
    change = np.diff(padded, axis=1)
    row, begin = np.nonzero(change == 1)
    _, end = np.nonzero(change == -1)
    return row, begin, end
