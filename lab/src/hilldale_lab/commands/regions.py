"""`hilldale-lab regions SURFACE D 5% [--at HEIGHT] [-o CSV|XLSX]`: a table of the regions that a pruning keeps."""

from __future__ import annotations

import argparse
import csv
import io
import sys
from collections.abc import Sequence
from pathlib import Path

from hilldale_lab.commands.common import add_program, add_surface, open_surface
from hilldale_lab.errors import LabError
from hilldale_lab.job import Job
from hilldale_lab.packages import require
from hilldale_lab.regions import Column, Regions
from hilldale_lab.surface_file import replace_file

DESCRIPTION = """Prints a table of the dales (D) or hills (H) that a pruning keeps: the program's whole numbers, and
beside them the same in um, um2 and um3. Columns marked `lab's own` are measured by hilldale-lab, and unproved."""
OWN = "lab's own: "


def add_parser(commands: argparse._SubParsersAction) -> None:
    """Adds the command's words."""
    parser = commands.add_parser(
        "regions", help="a table of hills or dales", description=DESCRIPTION, allow_abbrev=False
    )
    add_surface(parser)
    parser.add_argument("side", metavar="SIDE", choices=("D", "H"), help="D for dales, H for hills")
    parser.add_argument("percent", metavar="PERCENT", help="the percentage of the pruning, such as 5%%")
    parser.add_argument("--at", metavar="HEIGHT", help="a height C, such as '-1.2 um' or '-0.3 um from mean'")
    parser.add_argument("--job", metavar="JOB", help="a job whose edits come first")
    parser.add_argument("-o", dest="output", metavar="FILE", help="write the table to FILE.csv or FILE.xlsx")
    add_program(parser)


def run(arguments: argparse.Namespace) -> int:
    """Prints the table, or writes it."""
    suffix = Path(arguments.output or "").suffix.lower()
    if arguments.output and suffix not in (".csv", ".xlsx"):
        raise LabError(f"{arguments.output}: a table is written as .csv or .xlsx")
    if suffix == ".xlsx":
        require("openpyxl")
    job = Job.read(arguments.job) if arguments.job else None
    surface = open_surface(arguments.surface, job.options if job else None)
    if job:
        job.apply(surface)
    regions = surface.regions(arguments.side, arguments.percent, arguments.at)
    if suffix == ".xlsx":
        replace_file(arguments.output, xlsx(regions))
    elif suffix == ".csv":
        replace_file(arguments.output, csv_text(regions.columns()).encode())
    else:
        sys.stdout.write(plain_text(regions.columns()))
        if arguments.at:
            print(f"{OWN}{regions.mean_area_reaching().name}: {regions.mean_area_reaching()}")
    return 0


def heading(column: Column) -> str:
    """The heading of a column, which says where it is the lab's own."""
    return f"{OWN}{column.heading}" if column.own else column.heading


def csv_text(columns: Sequence[Column]) -> str:
    """A table with `,` between its fields and `.` as decimal mark."""
    out = io.StringIO()
    writer = csv.writer(out, lineterminator="\n")
    writer.writerow([heading(column) for column in columns])
    writer.writerows(zip(*(column.texts for column in columns)))
    return out.getvalue()


def plain_text(columns: Sequence[Column]) -> str:
    """A table in columns of equal width; a star marks the headings of the lab's own."""
    cells = [[f"{column.heading}{'*' if column.own else ''}", *column.texts] for column in columns]
    widths = [max(map(len, texts)) for texts in cells]
    lines = ("  ".join(text.rjust(width) for text, width in zip(row, widths)) for row in zip(*cells))
    return "".join(f"{line}\n" for line in lines) + "* lab's own, unproved\n"


def xlsx(regions: Regions) -> bytes:
    """A workbook with numbers as numbers, and the whole numbers of the program beside them."""
    import openpyxl

    book = openpyxl.Workbook(write_only=True)
    sheet = book.create_sheet(f"{regions.side} {regions.percent}".replace("%", " percent"))
    columns = regions.columns()
    sheet.append([heading(column) for column in columns])
    for row in zip(*(column.texts for column in columns)):
        sheet.append([_cell(text) for text in row])
    out = io.BytesIO()
    book.save(out)
    return out.getvalue()


def _cell(text: str) -> int | float | str:
    """The cell of a text: a whole number, the nearest float of a decimal, or a word."""
    try:
        return int(text)
    except ValueError:
        try:
            return float(text)
        except ValueError:
            return text
