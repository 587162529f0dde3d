"""Pictures of small surfaces as text: a letter for each point, by its region.

A capital is a pit or a peak, `.` a point that is not present; `+` is a pass that is the saddle of its two regions, `*`
one that a lower way leads around. With more than 26 regions each has two letters.
"""

from __future__ import annotations

from collections.abc import Iterable

import numpy as np
from numpy.typing import NDArray

WIDEST = 200  # points of a profile, for text
WIDEST_WITH_HEIGHTS = 12
MOST_REGIONS = 676  # with two letters each


def text_picture(
    labels: NDArray[np.integer],
    pits: NDArray[np.integer],
    passes: Iterable[tuple[int, int, bool]] = (),
    heights: list[list[str]] | None = None,
    inner: NDArray[np.bool_] | None = None,
) -> str:
    """The picture, a line for each profile.

    labels: of shape (profiles, columns), the number of the region of each point, -1 where it is not present.
    pits: column and profile of each pit or peak, of shape (regions, 2). passes: column, profile, and whether it is the
    saddle. heights: what stands at the left for each point. inner: points that stay blank, of the shape of labels.
    """
    lettered = _letters(len(pits))
    names = np.array([*lettered, "."], dtype="U2")
    shown = names[np.where(labels >= 0, labels, len(pits))]
    if inner is not None:
        shown[inner & (labels >= 0)] = ""
    for column, profile, is_saddle in passes:
        shown[profile, column] = "+" if is_saddle else "*"
    for (column, profile), letters in zip(pits, lettered):
        shown[profile, column] = letters.upper()
    width = 2 if len(pits) > 26 else 1
    lines = []
    for profile, row in enumerate(shown.tolist()):
        left = "".join(f"{height:>4}" for height in heights[profile]) + "   " if heights else ""
        lines.append((left + "".join(f" {text:>{width}}" for text in row)).rstrip() + "\n")
    return "".join(lines)


def _letters(regions: int) -> list[str]:
    """A letter for each region, or two where there are more than 26."""
    if regions <= 26:
        return [chr(97 + number) for number in range(regions)]
    return [chr(97 + number // 26 % 26) + chr(97 + number % 26) for number in range(regions)]


def inner_points(labels: NDArray[np.integer], setting: int) -> NDArray[np.bool_]:
    """Whether no neighbour of a point, under this setting, lies in another region; of the shape of labels."""
    profiles, columns = labels.shape
    padded = np.full((profiles + 2, columns + 2), -1, labels.dtype)
    padded[1:-1, 1:-1] = labels
    inner = np.ones(labels.shape, np.bool_)
    for dy in (-1, 0, 1):
        for dx in (-1, 0, 1):
            if setting == 4 and dx and dy or setting == 6 and dx * dy < 0:
                continue
            beside = padded[1 + dy : 1 + dy + profiles, 1 + dx : 1 + dx + columns]
            inner &= (beside < 0) | (beside == labels)
    return inner
