"""Height maps as picture files: colours by height, borders as lines between points, kept pits marked and numbered.

Colours are those of viridis, which the colour-blind can tell apart and which print well in grey. Points without a
height are light grey, masked ones pink. The same surface gives the same file: no date stands in it.
"""
from __future__ import annotations

import io
from collections.abc import Sequence
from fractions import Fraction
from pathlib import Path

import matplotlib
import numpy as np
from matplotlib.axes import Axes
from matplotlib.axis import Axis
from matplotlib.backends.backend_agg import FigureCanvasAgg
from matplotlib.collections import LineCollection
from matplotlib.colors import ListedColormap
from matplotlib.figure import Figure
from matplotlib.image import AxesImage
from matplotlib.patches import Patch
from matplotlib.patheffects import withStroke
from matplotlib.ticker import FixedFormatter, FixedLocator

from hilldale_lab.drawing import MICROMETRES, Drawing, border_lines, micrometres
from hilldale_lab.errors import LabError
from hilldale_lab.surface_file import replace_file
from hilldale_lab.ticks import ticks

NOT_MEASURED, MASKED = "#d9d9d9", "#f2a3b8"
INK, PAPER = "#1a1a1a", "#ffffff"
DOTS = 200  # per inch, of a picture file
MOST_NUMBERS = 200  # kept pits, where they are numbered in a picture
MOST_MARKS = 5_000  # kept pits, where each has a mark
LEAST_REGION = 6.0  # pixels of the width of a region, where regions have borders
MOST_VECTORS = 20_000  # lines of borders, where a PDF or SVG keeps them as lines
MOST_SHARP = 1_100  # points of a side, where each is a square of one colour
FORMATS = (".png", ".svg", ".pdf")
STYLE = {
    "font.family": "sans-serif",
    "font.size": 9.0,
    "axes.linewidth": 0.6,
    "axes.edgecolor": INK,
    "text.color": INK,
    "axes.labelcolor": INK,
    "xtick.color": INK,
    "ytick.color": INK,
    "svg.fonttype": "none",
    "svg.hashsalt": "hilldale",
    "pdf.fonttype": 42,
    "axes.formatter.use_locale": False,
    "xtick.major.width": 0.6,
    "ytick.major.width": 0.6,
}


def height_figure(drawing: Drawing, numbers: Sequence[int] = (), borders: bool = True, title: str = "") -> Figure:
    """A height map with a colour bar and axes in micrometres; with `labels` the borders and the kept pits too.

    numbers: the rows of `pits` that are numbered, each by its row, from 1.
    """
    with matplotlib.rc_context(STYLE):
        width, height, is_stretched = size_of(drawing)
        across, up = 0.75 + width + 1.0, 0.5 + height + 0.35
        figure = Figure(figsize=(across, up), dpi=DOTS, facecolor=PAPER)
        FigureCanvasAgg(figure)
        axes = figure.add_axes((0.75 / across, 0.5 / up, width / across, height / up))
        image = _paint(axes, drawing)
        _label_axes(axes, drawing, is_stretched)
        place = ((0.75 + width + 0.12) / across, 0.5 / up, 0.14 / across, height / up)
        _colour_bar(figure, image, drawing, place)
        if borders and borders_fit(drawing):
            _draw_borders(axes, drawing)
        if drawing.pits is not None and len(drawing.pits):
            _draw_pits(axes, drawing, numbers)
        _legend(axes, drawing)
        axes.set_title(title, loc="left", fontsize=9, pad=6)
        return figure


def size_of(drawing: Drawing) -> tuple[float, float, bool]:
    """Inches of the map, and whether it is stretched since one side is more than five times the other."""
    if not drawing.dx or not drawing.dy:
        ratio = drawing.profiles / drawing.columns
    else:
        ratio = float(abs(drawing.dy * drawing.profiles / (drawing.dx * drawing.columns)))
    shown = min(max(ratio, 0.2), 2.0)
    width = 5.6 if shown <= 1.1 else 6.2 / shown
    return width, width * shown, shown != ratio


def _extent(drawing: Drawing) -> tuple[float, float, float, float]:
    """Micrometres at the left, right, lower and upper edge; point 0 has its middle at 0, and profiles go down."""
    dx, dy = (float(scale * MICROMETRES) or 1.0 for scale in (drawing.dx, drawing.dy))
    return (-0.5 * dx, (drawing.columns - 0.5) * dx, (drawing.profiles - 0.5) * dy, -0.5 * dy)


def _paint(axes: Axes, drawing: Drawing) -> AxesImage:
    least, greatest = (float(height * drawing.step * MICROMETRES) for height in drawing.range)
    extent = _extent(drawing)
    heights = np.ma.masked_array(micrometres(drawing.steps, drawing.step), ~drawing.present)
    colours = matplotlib.colormaps["viridis"].with_extremes(bad=NOT_MEASURED)
    how = "antialiased" if max(drawing.columns, drawing.profiles) > MOST_SHARP else "nearest"
    image = axes.imshow(
        heights, cmap=colours, vmin=least, vmax=greatest, extent=extent, aspect="auto", interpolation=how
    )
    if drawing.masked is not None and drawing.masked.any():
        over = np.ma.masked_array(np.zeros(drawing.steps.shape), ~drawing.masked)
        axes.imshow(over, cmap=ListedColormap([MASKED]), extent=extent, aspect="auto", interpolation="nearest")
    return image


def _label_axes(axes: Axes, drawing: Drawing, is_stretched: bool) -> None:
    _mark_axis(axes.xaxis, *_span(drawing.dx, drawing.columns))
    _mark_axis(axes.yaxis, *_span(drawing.dy, drawing.profiles))
    axes.set_xlabel("x in µm" + (" (x and y are drawn to different scales)" if is_stretched else ""))
    axes.set_ylabel("y in µm")


def _span(scale: Fraction, points: int) -> tuple[Fraction, Fraction]:
    """Micrometres of the first and of the last point; points are counted where the scale is 0."""
    last = (scale * MICROMETRES or Fraction(1)) * (points - 1)
    return min(last, Fraction(0)), max(last, Fraction(0))


def _mark_axis(axis: Axis, least: Fraction, greatest: Fraction) -> None:
    marks = ticks(least, greatest, 8)
    axis.set_major_locator(FixedLocator([float(value) for value, _ in marks]))
    axis.set_major_formatter(FixedFormatter([text for _, text in marks]))


def _colour_bar(figure: Figure, image: AxesImage, drawing: Drawing, place: tuple[float, ...]) -> None:
    bar = figure.colorbar(image, cax=figure.add_axes(place))
    _mark_axis(bar.ax.yaxis, *(height * drawing.step * MICROMETRES for height in drawing.range))
    bar.ax.minorticks_off()
    bar.set_label("height in µm")
    bar.outline.set_linewidth(0.6)


def borders_fit(drawing: Drawing) -> bool:
    """Whether there are borders, and the regions are wide enough for their lines to be told apart."""
    if drawing.labels is None or drawing.pits is None:
        return False
    width, height, _ = size_of(drawing)
    pixels = width * height * DOTS**2 / max(1, len(drawing.pits))
    return pixels >= LEAST_REGION**2


def _draw_borders(axes: Axes, drawing: Drawing) -> None:
    left, right, lower, upper = _extent(drawing)
    scale = np.array([(right - left) / drawing.columns, (lower - upper) / drawing.profiles])
    lines = border_lines(drawing.labels) * scale
    is_many = len(lines) > MOST_VECTORS
    thin = 0.9 if len(lines) < 4000 else 0.45
    strokes = [(PAPER, thin)] if is_many else [(INK, 2.4 * thin), (PAPER, thin)]
    for colour, width in strokes:
        axes.add_collection(
            LineCollection(lines, colors=colour, linewidths=width, capstyle="round", rasterized=is_many), autolim=False
        )


def _draw_pits(axes: Axes, drawing: Drawing, numbers: Sequence[int]) -> None:
    left, right, lower, upper = _extent(drawing)
    x = drawing.pits[:, 0] * (right - left) / drawing.columns
    y = drawing.pits[:, 1] * (lower - upper) / drawing.profiles
    halo = [withStroke(linewidth=2.2, foreground=PAPER)]
    size = 8.5 if len(numbers) <= 60 else 6.5 if len(numbers) <= 150 else 5
    for row in numbers:
        axes.text(
            x[row],
            y[row],
            str(row + 1),
            fontsize=size,
            fontweight="bold",
            ha="center",
            va="center_baseline",
            path_effects=halo,
            zorder=4,
        )
    others = np.setdiff1d(np.arange(len(x)), numbers)
    if 0 < len(others) <= MOST_MARKS:
        size = 18.0 if len(others) <= 400 else max(0.5, 7200 / len(others))
        axes.scatter(
            x[others],
            y[others],
            s=size,
            marker="v" if drawing.side == "D" else "^",
            c=PAPER,
            edgecolors=INK,
            linewidths=0.5 if size > 3 else 0.2,
            zorder=3,
        )


def _legend(axes: Axes, drawing: Drawing) -> None:
    """Names the two colours of points that are not present, where there are such points."""
    masked = drawing.masked if drawing.masked is not None else np.zeros_like(drawing.present)
    told = [(MASKED, "masked")] if masked.any() else []
    if (~drawing.present & ~masked).any():
        told.append((NOT_MEASURED, "not measured"))
    if told:
        patches = [Patch(facecolor=colour, edgecolor=INK, linewidth=0.4) for colour, _ in told]
        axes.legend(
            patches,
            [text for _, text in told],
            loc="lower right",
            ncol=2,
            frameon=False,
            bbox_to_anchor=(1.0, 1.0),
            fontsize=8,
            borderaxespad=0.2,
            handlelength=1.2,
            handleheight=0.9,
            columnspacing=1.2,
        )


def kind_of_file(name: str | Path) -> str:
    """What a picture file is by the end of its name: png, svg or pdf. Raises LabError for another end."""
    kind = Path(name).suffix.lower()
    if kind not in FORMATS:
        raise LabError(f'"{name}": a picture file ends with one of {" ".join(FORMATS)}')
    return kind[1:]


def save(figure: Figure, name: str | Path) -> None:
    """Writes a figure as PNG, SVG or PDF, by the end of the name; the same figure gives the same bytes.

    Raises LabError for another end of the name, and with status 6 where the file cannot be written.
    """
    replace_file(name, as_bytes(figure, kind_of_file(name)))


def as_bytes(figure: Figure, kind: str) -> bytes:
    """A figure as the bytes of a file of this kind: png, svg or pdf."""
    metadata = {
        "png": {"Software": "hilldale-lab"},
        "svg": {"Date": None, "Creator": "hilldale-lab"},
        "pdf": {"CreationDate": None, "Creator": "hilldale-lab", "Producer": "matplotlib"},
    }[kind]
    out = io.BytesIO()
    with matplotlib.rc_context(STYLE):
        figure.savefig(out, format=kind, dpi=DOTS, metadata=metadata)
    return out.getvalue()
