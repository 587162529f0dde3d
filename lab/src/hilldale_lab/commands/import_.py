"""`hilldale-lab import`: surface files of any instrument's files."""

from __future__ import annotations

import argparse
import os
import sys
from fractions import Fraction
from pathlib import Path

from hilldale_lab import surface_file
from hilldale_lab.decimals import decimal_text, parse_decimal, short_text
from hilldale_lab.errors import InputRefused, LabError, one_line
from hilldale_lab.formats import Imported, Options, import_file
from hilldale_lab.formats.field import read_length

DESCRIPTION = """Makes a surface file, which hilldale reads, of each FILE: SUR (MountainsMap), SDF, X3P, GSF, GWY, PLUx,
AL3D, OPD, text, and what Gwyddion reads if its reader is built. No height is rounded without --step. Missing points
stay missing. If a file does not name its units, you are asked for them."""
MICROMETRE = Fraction(1, 10**6)


def add_parser(commands: argparse._SubParsersAction[argparse.ArgumentParser]) -> None:
    """Adds the words of the command."""
    parser = commands.add_parser(
        "import",
        help="make a surface file of any instrument's file, exactly",
        description=DESCRIPTION,
        allow_abbrev=False,
    )
    parser.add_argument("files", nargs="+", metavar="FILE")
    parser.add_argument(
        "-o",
        dest="out",
        metavar="OUT",
        help="the surface file, or with several FILEs a folder; else FILE with the ending .sdf",
    )
    add_options(parser)


def add_options(parser: argparse.ArgumentParser) -> None:
    """Adds what the user may say of a file; `options_of` reads it."""
    add = parser.add_argument
    add("--unit", metavar="U", help="the unit of the heights, such as um; or how many metres the number 1 is")
    add("--dx", metavar="D", help="the distance of points, such as 1um; a number alone is metres")
    add("--dy", metavar="D", help="the distance of profiles")
    add("--step", metavar="S", help="round heights to whole steps of S, such as 1pm; prints the greatest rounding")
    add(
        "--missing",
        metavar="V",
        action="append",
        default=[],
        help="a number that marks missing points; `none`: no number does",
    )
    add(
        "--crop",
        nargs=4,
        type=int,
        metavar=("COLUMN", "PROFILE", "COLUMNS", "PROFILES"),
        help="take a part: the first column and profile, from 0, and how many of each",
    )
    add("--channel", metavar="C", help="the channel, by its number from 1 or its name")
    add("--skip", type=int, metavar="N", help="how many lines of a text stand before the numbers")
    add("--separator", choices=("comma", "semicolon", "tab", "blank"), help="what separates the numbers of a text")
    add("--xyz", action="store_true", help="each line of a text is a point: x, y and z")
    add("--xy-unit", metavar="U", help="the unit of x and y of a list of points")
    add("--keep-masked", action="store_true", help="take the heights of masked points of a GWY file, too")
    add("--reader", choices=("own", "gwyddion"), help="which reader is right where two disagree")


def options_of(arguments: argparse.Namespace) -> Options:
    """What the words say of the files. Raises LabError for a word that has not its form."""
    if arguments.crop is not None and (min(arguments.crop[:2]) < 0 or min(arguments.crop[2:]) < 1):
        raise LabError("--crop takes the first column and profile, from 0, and how many of each")
    if arguments.skip is not None and arguments.skip < 0:
        raise LabError("--skip takes how many lines come before the numbers")
    marks = [mark for mark in arguments.missing if mark != "none"]
    numbers = [parse_decimal(mark) for mark in marks]
    if None in numbers:
        raise LabError(f"--missing takes a number or `none`, and not {marks[numbers.index(None)]}")
    lengths = {
        name: None
        if text is None
        else read_length(text if text[:1].isdigit() or text[:1] == "." else f"1{text}", f"--{name}")
        for name, text in (
            ("unit", arguments.unit),
            ("xy-unit", arguments.xy_unit),
            ("dx", arguments.dx),
            ("dy", arguments.dy),
            ("step", arguments.step),
        )
    }
    return Options(
        lengths["unit"],
        lengths["dx"],
        lengths["dy"],
        None if arguments.crop is None else tuple(arguments.crop),
        tuple(number for number in numbers if number is not None),
        "none" in arguments.missing,
        lengths["step"],
        arguments.channel,
        arguments.skip,
        arguments.separator,
        lengths["xy-unit"],
        arguments.xyz,
        arguments.keep_masked,
        arguments.reader,
    )


def out_path(file: str, out: str | None, is_several: bool) -> Path:
    """Where the surface file of a file goes: never onto the file itself. Raises LabError."""
    if not Path(file).name:
        raise InputRefused(file, "", "it is no file")
    name = Path(file).with_suffix(".sdf").name
    if out is not None and (is_several or os.path.isdir(out)):
        path = Path(out) / name
    else:
        path = Path(out) if out is not None else Path(file).with_name(name)
    if path.exists() and os.path.exists(file) and os.path.samefile(path, file):
        if out is not None:
            raise LabError(f"{file}: the file to write is the one that is read: give it another name")
        path = path.with_suffix(".surface.sdf")
    return path


def report(file: str, out: Path, imported: Imported) -> str:
    """What was read, in a few lines."""
    surface = imported.surface
    lines = [
        f"{one_line(file)}: {imported.format}, {surface.columns} by {surface.profiles} points, "
        f"{surface.missing} missing"
    ]
    if imported.channel:
        lines.append(f"  channel {one_line(imported.channel)}")
    lines.append(
        f"  a step is {decimal_text(surface.step)} m; {decimal_text(surface.dx)} m from point to point, "
        f"{decimal_text(surface.dy)} m from profile to profile"
    )
    if surface.least is not None and surface.greatest is not None:
        least, greatest = (
            short_text(height * surface.step / MICROMETRE) for height in (surface.least, surface.greatest)
        )
        span = short_text((surface.greatest - surface.least) * surface.step / MICROMETRE)
        lines.append(
            f"  heights from {surface.least} to {surface.greatest} steps, {least} to {greatest} um, "
            f"a range of {span} um"
        )
    lines.append(
        f"  rounded by at most {short_text(imported.rounding)} m" if imported.rounding else "  no height is rounded"
    )
    lines += [f"  note: {warning}" for warning in imported.warnings]
    return "\n".join([*lines, f"  written to {one_line(str(out))}"])


def run(arguments: argparse.Namespace) -> int:
    """Imports each file. Gives 0, or 3 where one was refused, after the others were imported."""
    options = options_of(arguments)
    is_several = len(arguments.files) > 1
    if is_several and arguments.out is not None and not os.path.isdir(arguments.out):
        raise LabError(f"several files go into a folder, and {arguments.out} is none")
    outs = [out_path(file, arguments.out, is_several) for file in arguments.files]
    twice = next((str(out) for out in outs if outs.count(out) > 1), None)
    if twice is not None:
        raise LabError(f"two files would be written to {twice}")
    status = 0
    for file, out in zip(arguments.files, outs):
        try:
            imported = import_file(file, options)
            surface_file.write(out, imported.surface)
            print(report(file, out, imported))
        except InputRefused as error:
            print(f"hilldale-lab: {error}", file=sys.stderr)
            status = error.status
    return status
