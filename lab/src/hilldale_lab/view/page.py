"""The page of a surface that is made to be touched: what it shows, and the numbers that its script works on."""

from __future__ import annotations

import json
from dataclasses import dataclass
from fractions import Fraction
from pathlib import Path
from typing import Any

import matplotlib
import numpy as np
from markupsafe import Markup

from hilldale_lab.drawing import MICROMETRES, Drawing, drawing_of
from hilldale_lab.pages import Mark, counted, marks, picture_uri, proved_text, render, shown_rows, source
from hilldale_lab.picture import MASKED, NOT_MEASURED, height_figure, size_of
from hilldale_lab.program import find
from hilldale_lab.surface import Surface
from hilldale_lab.units import Kind
from hilldale_lab.values import Value
from hilldale_lab.view.pack import planes, runs
from hilldale_lab.view.regions import MOST_REGIONS, WHOLE, SideData, percent_text, side_data

STILL_PERCENT = 5_000  # thousandths, of the picture without script


def view_page(surface: Surface, most: int = MOST_REGIONS) -> str:
    """The page as HTML, which needs nothing from elsewhere. most: the regions that it has at most."""
    drawing = drawing_of(surface)
    surface.ask("info", *(line for side in "DH" for line in (f"tree {side}", f"prune {side} 100%")))
    sides = {side: side_data(surface, side, most) for side in ("D", "H")}
    info, program = surface.info(), find()
    least, greatest = (Value("height", Fraction(height), Kind.HEIGHT, surface.scales) for height in drawing.range)
    return render(
        "view/view.html",
        css=source("report/base.css") + source("view/view.css"),
        code=source("view/view.js"),
        name=Path(surface.name).name,
        columns=drawing.columns,
        profiles=drawing.profiles,
        present=info.present,
        least=least.symbol_text(),
        greatest=greatest.symbol_text(),
        warnings=surface.warnings,
        gradient=_gradient(),
        keys=_keys(drawing),
        **_axes(drawing),
        still=_still(surface, sides["D"]),
        data=_json({"most": most, **_data(drawing, sides)}),
        surface_sha256=surface.sha256,
        program_sha256=program.sha256,
        proved=proved_text(program),
        neighbours=surface.setting,
        script="\n".join(surface.edits),
    )


def _json(data: dict[str, Any]) -> Markup:
    """Data as JSON that cannot end the element that it stands in."""
    return Markup(json.dumps(data, separators=(",", ":")).replace("<", "\\u003c"))


def _states(drawing: Drawing) -> np.ndarray:
    """0 where a point is present, 1 where it is masked, 2 where it is not measured."""
    masked = drawing.masked if drawing.masked is not None else np.zeros_like(drawing.present)
    return np.where(drawing.present, 0, np.where(masked, 1, 2))


def _data(drawing: Drawing, sides: dict[str, SideData]) -> dict[str, Any]:
    """All that the script works on."""
    least, greatest = drawing.range
    area = abs(drawing.dx * drawing.dy) * MICROMETRES**2
    return {
        "columns": drawing.columns,
        "profiles": drawing.profiles,
        "least": least,
        "greatest": greatest,
        "step": _fraction(drawing.step * MICROMETRES),
        "area": _fraction(area),
        "states": runs(_states(drawing)),
        "heights": planes(drawing.steps[drawing.present], least),
        "colours": _colours(),
        "absent": [_rgb(MASKED), _rgb(NOT_MEASURED)],
        "sides": {side: data.json for side, data in sides.items()},
    }


def _fraction(value: Fraction) -> list[str]:
    return [str(value.numerator), str(value.denominator)]


def _rgb(colour: str) -> list[int]:
    return [int(colour[at : at + 2], 16) for at in (1, 3, 5)]


def _colours() -> list[list[int]]:
    return np.rint(np.array(matplotlib.colormaps["viridis"].colors) * 255).astype(int).tolist()


def _gradient() -> str:
    """The colours from the least height, at the bottom, to the greatest."""
    stops = ",".join("#" + "".join(f"{part:02x}" for part in colour) for colour in _colours()[::15])
    return f"linear-gradient(to top,{stops})"


@dataclass(frozen=True)
class HeightMark:
    """A height beside the colour bar, in percent from below, and beside the tree, in percent from above."""

    text: str
    bar: str
    tree: str


def _axes(drawing: Drawing) -> dict[str, Any]:
    """The marks of all axes, the shape of the map, and whether it is stretched."""
    width, height, is_stretched = size_of(drawing)
    least, greatest = (steps * drawing.step * MICROMETRES for steps in drawing.range)
    heights = [
        HeightMark(mark.text, mark.place, f"{100 - (9 + 0.82 * float(mark.place)):.4f}")
        for mark in marks(least, greatest, least, greatest)
    ]
    return {
        "x_marks": _point_marks(drawing.dx, drawing.columns),
        "y_marks": _point_marks(drawing.dy, drawing.profiles),
        "height_marks": heights,
        "aspect": f"{width:.4f} / {height:.4f}",
        "stretched": is_stretched,
    }


def _point_marks(scale: Fraction, points: int) -> list[Mark]:
    """Marks in micrometres from the first point on; points are counted where the scale is not above 0."""
    unit = scale * MICROMETRES if scale > 0 else Fraction(1)
    return marks(Fraction(0), unit * (points - 1), -unit / 2, unit * (points - Fraction(1, 2)))


def _keys(drawing: Drawing) -> list[dict[str, str]]:
    states = _states(drawing)
    told = [(1, MASKED, "masked"), (2, NOT_MEASURED, "not measured")]
    return [{"colour": colour, "text": text} for state, colour, text in told if (states == state).any()]


def _still(surface: Surface, dales: SideData) -> dict[str, Any]:
    """What stands on the page where its script does not run: the dales at 5%."""
    percent = percent_text(max(STILL_PERCENT, min(dales.first, WHOLE)))
    regions = surface.regions("D", percent)
    chosen = shown_rows(regions)
    kept = len(regions)
    rows = [
        [
            row + 1,
            regions.table.x[row],
            regions.table.y[row],
            *(regions.value(row, name).number() for name in ("height", "depth", "area")),
            regions.table.points[row],
        ]
        for row in chosen
    ]
    figure = height_figure(drawing_of(surface, "D", percent), chosen)
    return {
        "picture": picture_uri(figure),
        "rows": rows,
        "alt": f"Height map with the borders of {counted(kept, 'dales')}",
        "caption": f"{counted(kept, 'dales')} kept at {percent}, heights in µm.",
        "shown": "" if len(rows) == kept else f"The {len(rows)} of greatest depth of {kept} are shown.",
    }
