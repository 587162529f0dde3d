"""Change trees: which pits meet at which saddle, cut to those that are kept, and drawn as a dendrogram."""

from __future__ import annotations

from collections.abc import Sequence
from dataclasses import dataclass
from fractions import Fraction
from typing import TYPE_CHECKING

import matplotlib
import numpy as np
from matplotlib.axes import Axes
from matplotlib.backends.backend_agg import FigureCanvasAgg
from matplotlib.collections import LineCollection
from matplotlib.figure import Figure
from matplotlib.ticker import FixedFormatter, FixedLocator
from numpy.typing import NDArray

from hilldale_lab.drawing import MICROMETRES
from hilldale_lab.picture import DOTS, INK, PAPER, STYLE
from hilldale_lab.ticks import ticks

if TYPE_CHECKING:
    from hilldale_lab.answers import Tree
    from hilldale_lab.surface import Surface

MOST_LEAF_NUMBERS = 60  # leaves, where each has its number


@dataclass(frozen=True)
class Join:
    """A saddle at which classes of pits meet: its height in steps, and the lowest pit of each class, the lowest first.

    For hills: the highest peak of each class, the highest first. Pits are numbers of leaves.
    """

    height: int
    members: tuple[int, ...]


def joins_of(tree: Tree, pits: NDArray[np.integer], columns: int) -> list[Join]:
    """The joins of the answer `tree` among the pits that a pruning keeps, given by column and profile.

    A class that has a kept pit is named by one, since its lowest pit is kept too; so a class whose pit is not kept has
    none and falls away. A join that is left with one class is none.
    """
    leaf_of = {int(y) * columns + int(x): leaf for leaf, (x, y) in enumerate(pits.tolist())}
    joins = []
    for saddle in tree.saddles:
        named = (leaf_of.get(y * columns + x) for x, y in saddle.pits)
        members = tuple(leaf for leaf in named if leaf is not None)
        if len(members) > 1:
            joins.append(Join(saddle.height, members))
    return joins


@dataclass(frozen=True)
class Dendrogram:
    """Where a tree is drawn: the leaves from left to right, and straight lines with leaves across and steps up.

    order: the numbers of the leaves, from left to right. lines: of shape (lines, 2, 2).
    """

    order: tuple[int, ...]
    lines: NDArray[np.float64]


def dendrogram(heights: Sequence[int], joins: Sequence[Join]) -> Dendrogram:
    """Lays a tree out. heights: of the leaves, in steps. joins: the first to meet first.

    Leaves stand in the order in which no two lines cross; what is joined first stands side by side.
    """
    order = _order(len(heights), joins)
    across = {leaf: float(place) for place, leaf in enumerate(order)}
    foot = {leaf: float(height) for leaf, height in enumerate(heights)}
    lines = []
    for join in joins:
        height, places = float(join.height), [across[leaf] for leaf in join.members]
        for leaf, place in zip(join.members, places):
            lines.append(((place, foot[leaf]), (place, height)))
        lines.append(((min(places), height), (max(places), height)))
        across[join.members[0]] = (min(places) + max(places)) / 2
        foot[join.members[0]] = height
    return Dendrogram(tuple(order), np.array(lines, np.float64).reshape(-1, 2, 2))


def _order(leaves: int, joins: Sequence[Join]) -> list[int]:
    """The leaves, so that those of each join stand together: each class is a chain of links from its first leaf."""
    following, last = [-1] * leaves, list(range(leaves))
    is_first = [True] * leaves
    for join in joins:
        first = join.members[0]
        for leaf in join.members[1:]:
            following[last[first]] = leaf
            last[first], is_first[leaf] = last[leaf], False
    order = []
    for leaf in range(leaves):
        here = leaf if is_first[leaf] else -1
        while here >= 0:
            order.append(here)
            here = following[here]
    return order


def tree_figure(
    heights: Sequence[int], joins: Sequence[Join], step: Fraction, side: str = "D", names: Sequence[str] = ()
) -> Figure:
    """A dendrogram with heights in micrometres. names: what stands at each leaf, where there are not too many.

    heights and joins are those of the kept pits alone, as `joins_of` gives them.
    """
    with matplotlib.rc_context(STYLE):
        figure = Figure(figsize=(7.35, 3.1), dpi=DOTS, facecolor=PAPER)
        FigureCanvasAgg(figure)
        axes = figure.add_axes((0.1, 0.1, 0.88, 0.86))
        tree = dendrogram(heights, joins)
        _draw_lines(axes, tree, step)
        _mark_heights(axes, [*heights, *(join.height for join in joins)], step)
        if len(tree.order) <= MOST_LEAF_NUMBERS:
            _draw_leaves(axes, tree, heights, step, side, names)
        axes.set_xlim(-0.7, max(len(tree.order) - 0.3, 0.7))
        word = ("pit" if side == "D" else "peak") + ("" if len(heights) == 1 else "s, joined at their saddles")
        axes.set_xlabel(f"{len(heights)} kept {word}")
        return figure


def tree_figure_of(surface: Surface, side: str, percent: str, numbers: bool = False) -> Figure:
    """The dendrogram of the regions that a pruning at this percent keeps."""
    kept = surface.pruning(side, percent).kept
    joins = joins_of(surface.tree(side), kept[:, :2], surface.columns)
    names = [str(number) for number in range(1, len(kept) + 1)] if numbers else []
    return tree_figure(kept[:, 2].tolist(), joins, surface.scales.step, side, names)


def _draw_lines(axes: Axes, tree: Dendrogram, step: Fraction) -> None:
    thin = 0.9 if len(tree.order) <= 200 else 0.5 if len(tree.order) <= 2000 else 0.25
    lines = tree.lines * (1.0, float(step * MICROMETRES))
    axes.add_collection(LineCollection(lines, colors=INK, linewidths=thin, capstyle="projecting"), autolim=False)
    axes.xaxis.set_major_locator(FixedLocator([]))
    for edge in ("top", "right", "bottom"):
        axes.spines[edge].set_visible(False)


def _mark_heights(axes: Axes, heights: Sequence[int], step: Fraction) -> None:
    """The axis of heights, with some room below the least and above the greatest."""
    least, greatest = (height * step * MICROMETRES for height in (min(heights, default=0), max(heights, default=0)))
    room = float(greatest - least or 1) * 0.09
    axes.set_ylim(float(least) - room, float(greatest) + room)
    marks = ticks(least, greatest, 7)
    axes.yaxis.set_major_locator(FixedLocator([float(value) for value, _ in marks]))
    axes.yaxis.set_major_formatter(FixedFormatter([text for _, text in marks]))
    axes.set_ylabel("height in µm")


def _draw_leaves(
    axes: Axes, tree: Dendrogram, heights: Sequence[int], step: Fraction, side: str, names: Sequence[str]
) -> None:
    """A dot at each leaf, and its name below a pit or above a peak."""
    scale = float(step * MICROMETRES)
    away, stand = (-4, "top") if side == "D" else (4, "bottom")
    for place, leaf in enumerate(tree.order):
        foot = (place, heights[leaf] * scale)
        axes.plot(*foot, "o", color=INK, markersize=2.6)
        if names:
            axes.annotate(
                names[leaf],
                foot,
                xytext=(0, away),
                textcoords="offset points",
                ha="center",
                va=stand,
                fontsize=8 if len(names) <= 30 else 6,
            )
