"""What the pages for a browser share: templates, pictures within a page, marks of axes, and which rows are shown."""

from __future__ import annotations

import base64
import io
from dataclasses import dataclass
from fractions import Fraction
from pathlib import Path

import jinja2
import numpy as np
from markupsafe import Markup
from matplotlib.figure import Figure

from hilldale_lab.picture import as_bytes
from hilldale_lab.program import Program
from hilldale_lab.regions import Regions
from hilldale_lab.ticks import ticks

FOLDER = Path(__file__).parent
LARGE_PICTURE = 250_000  # bytes, from which on a picture is written with 256 colours
MOST_ROWS = 200  # of a table of regions


def source(name: str) -> Markup:
    """The text of a file of this package, as it goes into a page."""
    return Markup((FOLDER / name).read_text(encoding="utf-8"))


def render(template: str, /, **values: object) -> str:
    """A page of this template. What is filled in is escaped."""
    loader = jinja2.FileSystemLoader(str(FOLDER))
    environment = jinja2.Environment(
        loader=loader, autoescape=True, trim_blocks=False, undefined=jinja2.StrictUndefined, keep_trailing_newline=True
    )
    return environment.get_template(template).render(**values)


def picture_uri(figure: Figure) -> str:
    """A figure as a picture that stands within the page."""
    data = as_bytes(figure, "png")
    if len(data) > LARGE_PICTURE:
        data = _with_256_colours(data)
    return "data:image/png;base64," + base64.b64encode(data).decode("ascii")


def _with_256_colours(png: bytes) -> bytes:
    """The same picture with a palette, which takes a third of the room."""
    from PIL import Image

    out = io.BytesIO()
    with Image.open(io.BytesIO(png)) as image:
        palette = image.convert("RGB").quantize(256, method=Image.Quantize.FASTOCTREE, dither=Image.Dither.NONE)
        palette.save(out, format="PNG", optimize=True)
    return out.getvalue()


@dataclass(frozen=True)
class Mark:
    """A mark of an axis: its text, and its place from the first value to the last, in percent for a style sheet."""

    text: str
    place: str


def marks(least: Fraction, greatest: Fraction, first: Fraction, last: Fraction, wanted: int = 6) -> list[Mark]:
    """Marks from least to greatest, placed between first and last."""
    span = last - first or Fraction(1)
    return [Mark(text, f"{float((value - first) / span * 100):.4f}") for value, text in ticks(least, greatest, wanted)]


def proved_text(program: Program) -> str:
    """Whether the program was proved on this machine, in words."""
    return "proved on this machine" if program.is_proved_here else "without a record that it was proved on this machine"


def counted(count: int, many: str) -> str:
    """A number of things by their word, such as `24 dales` or `1 dale`."""
    return f"{count} {many.removesuffix('s') if count == 1 else many}"


def shown_rows(regions: Regions) -> list[int]:
    """The rows of a table of regions that a page shows: all, or the 200 of greatest depth, in position order."""
    if len(regions) <= MOST_ROWS:
        return list(range(len(regions)))
    return sorted(np.argsort(-regions.table["depth"], kind="stable")[:MOST_ROWS].tolist())
