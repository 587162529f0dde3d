"""How many points have which height: counted by the lab in whole steps, and drawn."""

from __future__ import annotations

from dataclasses import dataclass

import matplotlib
import numpy as np
from matplotlib.backends.backend_agg import FigureCanvasAgg
from matplotlib.figure import Figure
from matplotlib.ticker import FixedFormatter, FixedLocator
from numpy.typing import NDArray

from hilldale_lab.drawing import MICROMETRES, Drawing
from hilldale_lab.picture import DOTS, INK, PAPER, STYLE
from hilldale_lab.ticks import ticks

MOST_BINS = 60


@dataclass(frozen=True)
class Histogram:
    """Counts of present heights. first: the least height, in steps. width: steps of a bin. counts: of each bin."""

    first: int
    width: int
    counts: NDArray[np.int64]


def histogram(drawing: Drawing) -> Histogram:
    """At most 60 bins of a whole number of steps each, from the least height on."""
    least, greatest = drawing.range
    width = -(-(greatest - least + 1) // MOST_BINS)
    heights = drawing.steps[drawing.present]
    bins = (greatest - least) // width + 1
    return Histogram(least, width, np.bincount((heights - least) // width, minlength=bins))


def histogram_figure(drawing: Drawing) -> Figure:
    """The histogram with heights in micrometres across and numbers of points up."""
    found = histogram(drawing)
    unit = drawing.step * MICROMETRES
    with matplotlib.rc_context(STYLE):
        figure = Figure(figsize=(7.35, 2.2), dpi=DOTS, facecolor=PAPER)
        FigureCanvasAgg(figure)
        axes = figure.add_axes((0.1, 0.2, 0.88, 0.74))
        scale = float(unit)
        left = (found.first - 0.5 + np.arange(len(found.counts)) * float(found.width)) * scale
        axes.bar(left, found.counts, found.width * scale, align="edge", color="#5b7a99", edgecolor=PAPER, linewidth=0.4)
        axes.set_xlim(left[0], left[-1] + found.width * scale)
        for edge in ("top", "right"):
            axes.spines[edge].set_visible(False)
        last = found.first + found.width * len(found.counts)
        for axis, marks in (
            (axes.xaxis, ticks(found.first * unit, last * unit, 9)),
            (axes.yaxis, ticks(0 * unit, int(found.counts.max()) + 0 * unit, 4)),
        ):
            axis.set_major_locator(FixedLocator([float(value) for value, _ in marks]))
            axis.set_major_formatter(FixedFormatter([text for _, text in marks]))
        axes.set_xlabel("height in µm")
        axes.set_ylabel("points", color=INK)
        return figure
