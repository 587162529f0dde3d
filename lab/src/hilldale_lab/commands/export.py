"""`hilldale-lab export`: a surface as GSF, X3P or text."""

from __future__ import annotations

import argparse
from pathlib import Path

from hilldale_lab import surface_file
from hilldale_lab.errors import LabError
from hilldale_lab.formats.write import WRITERS
from hilldale_lab.formats.field import length_unit


def add_parser(commands: argparse._SubParsersAction[argparse.ArgumentParser]) -> None:
    """Adds the words of the command."""
    parser = commands.add_parser(
        "export",
        help="write a surface as GSF, X3P or text",
        allow_abbrev=False,
        description="Writes a surface file as OUT: GSF, X3P or text, by its ending .gsf, .x3p, .txt or .csv. "
        "A point without a height is NaN, or not valid in X3P.",
    )
    parser.add_argument("surface", metavar="SURFACE")
    parser.add_argument("-o", dest="out", metavar="OUT", required=True)
    parser.add_argument(
        "--unit", default="um", metavar="U", help="the unit of a text's heights: m, mm, um, nm or pm; um without it"
    )


def run(arguments: argparse.Namespace) -> int:
    """Exports a surface. Gives 0."""
    ending = Path(arguments.out).suffix.lower()
    if ending not in WRITERS:
        raise LabError(f"{arguments.out}: the ending is none of {', '.join(WRITERS)}")
    unit = length_unit(arguments.unit)
    if unit is None:
        raise LabError(f"--unit takes a unit of length, as um, and not {arguments.unit}")
    surface = surface_file.read(arguments.surface)
    data, rounding = WRITERS[ending](surface, arguments.unit, unit)
    surface_file.replace_file(arguments.out, data)
    told = (
        "no height is rounded"
        if rounding == 0
        else f"heights are rounded to floats, by at most {float(rounding):.3g} m"
    )
    print(f"{arguments.out}: {surface.columns} by {surface.profiles} points, {surface.missing} missing, {told}")
    return 0
