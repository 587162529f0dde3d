"""The region of each point, by numpy from the heights, and held against the program's pits and areas at each call."""

from __future__ import annotations

import numpy as np
from numpy.typing import NDArray

from hilldale_lab.answers import Pruning
from hilldale_lab.errors import LabError
from hilldale_lab.height_map import HeightMap

Indexes = NDArray[np.intp]
_FAR = np.iinfo(np.int64).max
_AROUND = [(down, right) for down in (-1, 0, 1) for right in (-1, 0, 1)]
_OFFSETS = {
    4: [(down, right) for down, right in _AROUND if not down * right],
    6: [(down, right) for down, right in _AROUND if down * right >= 0],
    8: _AROUND,
}


class Disagreement(LabError):
    """The lab and the program do not agree. This is a fault of one of them, and no number is to be used."""


def shifted(shape: tuple[int, int], down: int, right: int) -> tuple[tuple[slice, slice], tuple[slice, slice]]:
    """Where the points stand that have another one so far down and to the right, and where the others stand."""
    rows, columns = shape
    here = slice(max(0, -down), rows - max(0, down)), slice(max(0, -right), columns - max(0, right))
    there = slice(max(0, down), rows - max(0, -down)), slice(max(0, right), columns - max(0, -right))
    return here, there


def nexts(surface: HeightMap, side: str, setting: int) -> Indexes:
    """The index of the next of each point: its lowest neighbour below it (of hills its highest above), else itself.

    surface: its points without a height are not present, and are their own next. Gives intp of the map's shape.
    """
    sign, order = (1, _OFFSETS[setting]) if side == "D" else (-1, _OFFSETS[setting][::-1])
    height = np.where(surface.measured, sign * surface.steps, _FAR)
    index = np.arange(height.size).reshape(height.shape)
    least, found = np.full_like(height, _FAR), index.copy()
    # In the order of ranks the first of equal heights stays, since only what is truly lower takes its place.
    for down, right in order:
        here, there = shifted(height.shape, down, right)
        is_lower = height[there] < least[here]
        np.copyto(least[here], height[there], where=is_lower)
        np.copyto(found[here], index[there], where=is_lower)
    np.copyto(found, index, where=~surface.measured)
    return found


def ends(following: Indexes) -> Indexes:
    """Where each chain of followers ends, for a table of one dimension in which the last follows itself."""
    while True:
        further = following[following]
        if np.array_equal(further, following):
            return following
        following = further


def roots(surface: HeightMap, side: str, setting: int) -> Indexes:
    """The index of the pit (peak) in whose dale (hill) each point lies, of the map's shape; its own where not
    present."""
    return ends(nexts(surface, side, setting).ravel()).reshape(surface.steps.shape)


def _indexes(points: NDArray[np.int64], columns: int) -> Indexes:
    return points[:, 1] * columns + points[:, 0]


def owners(pruning: Pruning, surface: HeightMap) -> tuple[Indexes, Indexes]:
    """The indexes of all pits, the kept ones first, and for each the row of the kept pit that owns it.

    Raises Disagreement where a pit that goes is taken over by none of them.
    """
    pits = _indexes(np.concatenate((pruning.kept[:, :2], pruning.gone[:, :2])), surface.columns)
    if len(pits) and pits.max() >= surface.steps.size:
        raise Disagreement("the program names a pit outside of the surface")
    number = np.full(surface.steps.size, -1)
    number[pits] = np.arange(len(pits))
    following = np.arange(len(pits))
    following[len(pruning.kept) :] = number[_indexes(pruning.gone[:, 5:7], surface.columns)]
    if (following < 0).any():
        raise Disagreement("the program names a pit that takes over and is none")
    return pits, ends(following)


def labels(surface: HeightMap, pruning: Pruning, setting: int) -> NDArray[np.int32]:
    """For each point the row of `pruning.kept` whose pit owns it, -1 where the point is not present.

    surface: the present map. Raises Disagreement where its pits, their heights or their areas are not the program's.
    """
    root = roots(surface, pruning.side, setting).ravel()
    pits, owner = owners(pruning, surface)
    number = np.full(root.size, -1)
    number[pits] = owner
    found = np.where(surface.measured.ravel(), number[root], -1).astype(np.int32).reshape(surface.steps.shape)
    _compare(surface, pruning, root, pits, found)
    return found


def _compare(surface: HeightMap, pruning: Pruning, root: Indexes, pits: Indexes, found: NDArray[np.int32]) -> None:
    present = surface.measured.ravel()
    own = np.flatnonzero((root == np.arange(root.size)) & present)
    if not np.array_equal(own, np.sort(pits)):
        raise Disagreement(f"the lab finds {len(own)} pits, and the program {len(pits)} or others")
    kept = pruning.kept
    if not np.array_equal(surface.steps[kept[:, 1], kept[:, 0]], kept[:, 2]):
        raise Disagreement("the heights of the kept pits are not those of the program")
    areas = np.bincount(found[found >= 0], minlength=len(kept))
    if not np.array_equal(areas, kept[:, 3]):
        raise Disagreement("the areas of the kept regions are not those of the program")


def edge_points(present: NDArray[np.bool_]) -> NDArray[np.bool_]:
    """The present points on the border of the grid, or with a position beside them, of the eight, that is not
    present."""
    framed = np.pad(present, 1)
    is_inner = np.ones_like(present)
    for down, right in _AROUND:
        is_inner &= framed[1 + down : framed.shape[0] - 1 + down, 1 + right : framed.shape[1] - 1 + right]
    return present & ~is_inner
