"""What a report shows of one side: the map, the table of the kept regions, and their change tree."""

from __future__ import annotations

from dataclasses import dataclass
from typing import Any

import numpy as np

from hilldale_lab.drawing import Drawing
from hilldale_lab.pages import counted, picture_uri, shown_rows
from hilldale_lab.picture import borders_fit, height_figure
from hilldale_lab.regions import Column, Regions
from hilldale_lab.surface import Surface
from hilldale_lab.tree import joins_of, tree_figure

MOST_LEAVES = 3_000  # of a tree
FOREVER = np.iinfo(np.int64).max


@dataclass(frozen=True)
class SideWords:
    """What the regions of a side, their lowest or highest points, and their local heights are called."""

    many: str
    pits: str
    pit: str
    depth: str


WORDS = {
    "D": SideWords("dales", "pits", "pit", "depth"),
    "H": SideWords("hills", "peaks", "peak", "height over saddle"),
}
HEADINGS = {
    "column": "Column",
    "profile": "Profile",
    "height in um": "Height in µm",
    "area in um2": "Area in µm²",
    "points": "Points",
    "volume in um3": "Volume in µm³",
    "area at C in um2": "Area at C in µm²",
    "reaches C": "Reaches C",
    "closed at C": "Closed at C",
}


def side_section(
    surface: Surface, regions: Regions, columns: list[Column], drawing: Drawing, table_name: str
) -> dict[str, Any]:
    """All that the page tells of a side. columns: of the regions. table_name: the file with all rows, or empty."""
    chosen = shown_rows(regions)
    return {
        "map": _map(drawing, regions, chosen, surface),
        "table": _table(regions, columns, chosen, table_name),
        "tree": _tree(surface, regions),
    }


def _map(drawing: Drawing, regions: Regions, chosen: list[int], surface: Surface) -> dict[str, str]:
    words = WORDS[regions.side]
    kept = f"{counted(len(regions), words.many)} kept at {regions.percent}"
    drawn = "with their borders" if borders_fit(drawing) else "too small here for their borders to be drawn"
    which = "all" if len(chosen) == len(regions) else f"the {len(chosen)}"
    return {
        "picture": picture_uri(height_figure(drawing, numbers=chosen)),
        "caption": f"Heights in µm; {kept}, {drawn}. The numbers at {which} {words.pits} are those of the table.",
        "alt": f"Height map with {kept}; heights, {words.pits} and areas stand in the table below.",
    }


def _table(regions: Regions, columns: list[Column], chosen: list[int], table_name: str) -> dict[str, Any]:
    words = WORDS[regions.side]
    headings = {**HEADINGS, "depth in um": f"{words.depth.capitalize()} in µm"}
    shown = [(headings[column.heading], column) for column in columns if column.heading in headings]
    rows = [[str(row + 1), *(column.texts[row] for _, column in shown)] for row in chosen]
    return {
        "title": f"{words.many.capitalize()} kept at {regions.percent}",
        "text": _kept_text(regions),
        "headings": ["No.", *(f"{text}*" if column.own else text for text, column in shown)],
        "rows": rows,
        "note": _table_note(regions, shown, len(chosen), table_name),
    }


def _kept_text(regions: Regions) -> str:
    words = WORDS[regions.side]
    all_of = len(regions) + len(regions.pruning.gone)
    text = f"A pruning at {regions.percent} of Sz keeps {len(regions)} of {all_of} {words.many}"
    return f"{text}. They are numbered in the order of their {words.pits}, profile by profile, from the left."


def _table_note(regions: Regions, shown: list[tuple[str, Column]], rows: int, table_name: str) -> str:
    words = WORDS[regions.side]
    parts = []
    if rows < len(regions):
        where = f"all stand in {table_name}" if table_name else "hilldale-lab regions lists all"
        parts.append(f"The {rows} of greatest {words.depth} of {len(regions)} are shown; {where}.")
    parts.append(
        f"The {words.depth} is the local height; the volume fills a region up to its nearest saddle, where it has one."
    )
    if any(column.own for _, column in shown):
        parts.append(f"* by hilldale-lab itself, unproved; C is {regions.at} steps.")
    return " ".join(parts)


def _tree(surface: Surface, regions: Regions) -> dict[str, str]:
    """The tree of the kept regions, or of those that last longest where they are too many for a picture."""
    words = WORDS[regions.side]
    chosen = np.arange(len(regions))
    if len(regions) > MOST_LEAVES:
        chosen = np.sort(np.argsort(-lasting_heights(surface, regions), kind="stable")[:MOST_LEAVES])
    kept = regions.pruning.kept[chosen]
    joins = joins_of(surface.tree(regions.side), kept[:, :2], surface.columns)
    names = [str(number + 1) for number in chosen.tolist()]
    figure = tree_figure(kept[:, 2].tolist(), joins, surface.scales.step, regions.side, names)
    left_out = (
        ""
        if len(kept) == len(regions)
        else (f" Of {len(regions)} {words.many} those {len(kept)} are drawn that a pruning would keep longest.")
    )
    caption = (
        f"Heights in µm. Lines meet where the {words.many} run together, at saddles of their {words.pits}.{left_out}"
    )
    return {
        "picture": picture_uri(figure),
        "caption": caption,
        "title": f"Change tree of the {words.many}",
        "alt": f"Change tree of {counted(len(kept), words.many)}: which of them meet at which height.",
    }


def lasting_heights(surface: Surface, regions: Regions) -> np.ndarray:
    """The local height of each kept pit in a pruning at 100%, in steps: up to where a pruning keeps it."""
    gone = surface.pruning(regions.side, "100%").gone
    lasting = np.full(surface.map.steps.size, FOREVER)
    lasting[gone[:, 1] * surface.columns + gone[:, 0]] = gone[:, 2]
    return lasting[regions.table["y"] * surface.columns + regions.table["x"]]
