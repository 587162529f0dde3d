"""What a page needs to run regions together at any percent: when each pit goes, and which one takes its points over.

A pit goes at P exactly where its step in a pruning at 100% has a local height below P of Sz. So for each there is a
least percent at which it goes; percents are whole thousandths, and no number here is rounded.
"""

from __future__ import annotations

from collections.abc import Sequence
from dataclasses import dataclass
from typing import TYPE_CHECKING, Any

from hilldale_lab.tree import joins_of
from hilldale_lab.view.pack import runs

if TYPE_CHECKING:
    from hilldale_lab.surface import Surface

WHOLE = 100_000  # thousandths of a percent in 100%
NEVER = WHOLE + 1
MOST_REGIONS = 10_000


def goes_at(local: int, sz: int) -> int:
    """The least percent, in thousandths, of which local height is below that percent of Sz; NEVER where there is none.

    local * 100000 < thousandths * sz, in whole numbers.
    """
    return min(local * WHOLE // sz + 1, NEVER) if sz > 0 else NEVER


def percent_text(thousandths: int) -> str:
    """A percent as a script writes it, such as 5% or 2.125%."""
    whole, part = divmod(thousandths, 1000)
    return f"{whole}.{part:03}".rstrip("0").rstrip(".") + "%" if part else f"{whole}%"


def first_percent(going: Sequence[int], pits: int, most: int = MOST_REGIONS) -> int:
    """The least percent, in thousandths, at which at most so many pits are kept; NEVER where more remain at 100%."""
    if pits <= most:
        return 0
    lasting = sorted([*going, *[NEVER] * (pits - len(going))], reverse=True)
    return lasting[most]


@dataclass(frozen=True)
class SideData:
    """One side for the page: as JSON, the first percent, and how many pits there are before any pruning."""

    json: dict[str, Any] | None
    first: int
    pits: int


def side_data(surface: Surface, side: str, most: int = MOST_REGIONS) -> SideData:
    """All of one side that the page's script needs: regions from the first percent on, and how they run together."""
    info = surface.info()
    sz = (info.greatest - info.least) if info.greatest is not None else 0
    whole = surface.pruning(side, "100%")
    going = [goes_at(local, sz) for local in whole.gone[:, 2].tolist()]
    pits = len(whole.gone) + len(whole.kept)
    first = first_percent(going, pits, most)
    if first == NEVER:
        return SideData(None, first, pits)
    percent = percent_text(first)
    kept = surface.pruning(side, percent).kept
    place = {(x, y): number for number, (x, y) in enumerate(kept[:, :2].tolist())}
    goes, into, order = [NEVER] * len(kept), list(range(len(kept))), []
    for step, when in zip(whole.gone.tolist(), going):
        if when > first:
            number = place[step[0], step[1]]
            goes[number], into[number] = when, place[step[5], step[6]]
            order.append(number)
    joins = joins_of(surface.tree(side), kept[:, :2], surface.columns)
    return SideData(
        {
            "first": first,
            "pits": kept.tolist(),
            "goes": goes,
            "into": into,
            "order": order,
            "joins": [[join.height, *join.members] for join in joins],
            "labels": runs(surface.labels(side, percent).astype("int64") + 1),
        },
        first,
        pits,
    )
