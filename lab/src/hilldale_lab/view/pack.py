"""Whole numbers as text that a page's script unfolds: base64 of variable-length numbers."""

from __future__ import annotations

import base64

import numpy as np
from numpy.typing import NDArray

LOW_BITS = 26


def packed(numbers: NDArray[np.integer]) -> str:
    """Numbers from 0 to below 2^63 as base64 of seven bits a byte, the lowest first.

    All bytes of a number but its last have bit 7.
    """
    left = numbers.astype(np.uint64).ravel()
    columns, more = [], []
    while True:
        columns.append((left & np.uint64(127)).astype(np.uint8))
        left = left >> np.uint64(7)
        more.append(left > 0)
        if not more[-1].any():
            break
    table = np.stack(columns, axis=1)
    goes_on = np.stack(more, axis=1)
    is_there = np.ones(table.shape, np.bool_)
    is_there[:, 1:] = goes_on[:, :-1]
    table |= goes_on.astype(np.uint8) << np.uint8(7)
    return base64.b64encode(table[is_there].tobytes()).decode("ascii")


def runs(numbers: NDArray[np.integer]) -> str:
    """Numbers from 0, packed as pairs: a number, and how many times it comes."""
    flat = numbers.ravel()
    if not flat.size:
        return ""
    begin = np.flatnonzero(np.diff(flat, prepend=flat[0] - 1))
    lengths = np.diff(begin, append=flat.size)
    return packed(np.stack([flat[begin].astype(np.int64), lengths], axis=1))


def steps_up(numbers: NDArray[np.integer]) -> str:
    """Numbers below 2^61 either way, packed as each less the one before: n as 2n, and -n as 2n - 1."""
    change = np.diff(numbers.ravel().astype(np.int64), prepend=0)
    return packed(np.where(change < 0, -2 * change - 1, 2 * change))


def planes(heights: NDArray[np.int64], least: int) -> list[str]:
    """Heights from `least` on by their lowest 26 bits and, where there are any, their others, as steps up."""
    offset = heights.ravel() - least
    low = offset & ((1 << LOW_BITS) - 1)
    high = offset >> LOW_BITS
    return [steps_up(low), steps_up(high)] if high.any() else [steps_up(low)]
