"""`hilldale-lab picture`: a surface as a picture file, or as text."""

from __future__ import annotations

import argparse
import sys

import numpy as np

from hilldale_lab.commands.common import add_program, add_surface, open_surface
from hilldale_lab.drawing import drawing_of
from hilldale_lab.errors import LabError
from hilldale_lab.job import Job
from hilldale_lab.letters import MOST_REGIONS, WIDEST, WIDEST_WITH_HEIGHTS, inner_points, text_picture
from hilldale_lab.program import LineRefused
from hilldale_lab.surface import Surface

UNPRUNED = "0%"
EPILOG = """Without -o the picture is text, for a surface of at most 200 points a profile: a letter for each point by
its region, a capital at its pit or peak, a dot where no height is present. With a percent the passes of the borders are
marked: + where the pass is the saddle of the two regions, * where a lower way leads around."""


def add_parser(commands: argparse._SubParsersAction) -> None:
    """The words of `picture`."""
    parser = commands.add_parser(
        "picture", help="draw a surface with its hills and dales", epilog=EPILOG, allow_abbrev=False
    )
    add_surface(parser)
    side = parser.add_mutually_exclusive_group()
    kept = "%s that a pruning at this percent keeps, such as 5%%%%; all of them without a percent"
    side.add_argument("--dales", metavar="P", nargs="?", const="", help=kept % "the dales")
    side.add_argument("--hills", metavar="P", nargs="?", const="", help=kept % "the hills")
    parser.add_argument("--tree", action="store_true", help="the change tree of the kept regions, in place of the map")
    parser.add_argument("--numbers", action="store_true", help="number the kept pits or peaks, in position order")
    parser.add_argument("--borders", action="store_true", help="in text: only the points beside another region")
    parser.add_argument("--job", metavar="JOB", help="a job or a script whose edits come first")
    parser.add_argument("-o", dest="output", metavar="F", help="the picture file: .png, .svg or .pdf")
    add_program(parser)


def run(arguments: argparse.Namespace) -> int:
    """Draws the picture."""
    if arguments.output:
        from hilldale_lab.picture import kind_of_file

        kind_of_file(arguments.output)
    elif arguments.tree or arguments.numbers:
        raise LabError("--tree and --numbers are drawn in a picture file: add -o F.png")
    surface = edited_surface(arguments.surface, arguments.job, None if arguments.output else WIDEST)
    side = "D" if arguments.hills is None else "H"
    percent = arguments.dales if arguments.hills is None else arguments.hills
    if arguments.output:
        draw(surface, side, percent, arguments)
    else:
        print(letters(surface, side, percent, arguments), end="")
    return 0


def edited_surface(name: str, job_name: str | None, widest: int | None = None) -> Surface:
    """A surface after the edits of a job or a script. Raises LabError where a line is refused (status 1), with its
    number, or where a profile has more points than `widest`."""
    job = Job.read(job_name) if job_name else None
    surface = open_surface(name, job.options if job else None)
    if widest is not None and surface.columns > widest:
        raise LabError(f"a profile of {surface.columns} points is too wide for text: -o F.png makes a picture file")
    if job is None:
        return surface
    try:
        job.apply(surface)
        surface.present()
    except LineRefused as error:
        raise LabError(f"{job_name}: {error.line}", 1) from error
    return surface


def letters(surface: Surface, side: str, percent: str | None, arguments: argparse.Namespace) -> str:
    """The picture as text. percent: None or empty where nothing is pruned."""
    pruning = surface.pruning(side, percent or UNPRUNED)
    labels = surface.labels(side, percent or UNPRUNED)
    if len(pruning.kept) > MOST_REGIONS:
        told = f"{len(pruning.kept)} regions are more than {MOST_REGIONS}, so that letters come again"
        print(f"hilldale-lab: {told}: -o F.png tells them apart", file=sys.stderr)
    passes = []
    if percent:
        borders = surface.lines(side, percent)
        passes = [
            (int(row[5]), int(row[6]), bool(is_saddle)) for row, is_saddle in zip(borders.table, borders.is_saddle)
        ]
    heights = None
    if surface.columns <= WIDEST_WITH_HEIGHTS and not arguments.job:
        there = surface.map.measured.tolist()
        heights = [
            [str(height) if is_there else "." for height, is_there in zip(*rows)]
            for rows in zip(surface.map.steps.tolist(), there)
        ]
    inner = inner_points(labels, surface.setting) if arguments.borders else None
    return text_picture(labels, pruning.kept[:, :2], passes, heights, inner)


def draw(surface: Surface, side: str, percent: str | None, arguments: argparse.Namespace) -> None:
    """Writes the picture file. Without a side the map has no regions."""
    from hilldale_lab.picture import height_figure, save
    from hilldale_lab.tree import tree_figure_of

    is_plain = arguments.dales is None and arguments.hills is None
    if arguments.tree:
        figure = tree_figure_of(surface, side, percent or UNPRUNED, arguments.numbers)
    else:
        drawing = drawing_of(surface, None if is_plain else side, percent or UNPRUNED)
        numbers = numbered(surface, side, percent or UNPRUNED) if arguments.numbers and not is_plain else ()
        figure = height_figure(drawing, numbers, title=title_of(surface, side, percent, is_plain))
    save(figure, arguments.output)


def numbered(surface: Surface, side: str, percent: str) -> list[int]:
    """The rows of the kept regions that are numbered: all, or the 200 largest, where they are more."""
    from hilldale_lab.picture import MOST_NUMBERS

    points = surface.pruning(side, percent).kept[:, 3]
    if len(points) > MOST_NUMBERS:
        print(f"hilldale-lab: the {MOST_NUMBERS} largest of {len(points)} are numbered", file=sys.stderr)
    return sorted(np.argsort(-points, kind="stable")[:MOST_NUMBERS].tolist())


def title_of(surface: Surface, side: str, percent: str | None, is_plain: bool) -> str:
    """What stands above the map."""
    if is_plain:
        return surface.name
    word = "dales" if side == "D" else "hills"
    return f"{surface.name}: {word} kept at {percent}" if percent else f"{surface.name}: all {word}"
