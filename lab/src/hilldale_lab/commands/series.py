"""`hilldale-lab series TABLE.csv -o F.html`: what the files of a table have in common, and which do not pass."""

from __future__ import annotations

import argparse
from pathlib import Path

from hilldale_lab.errors import LabError
from hilldale_lab.surface_file import replace_file

DESCRIPTION = """Writes a page of a table that `batch` made: mean, least, greatest and standard deviation of each
parameter, a run chart with its limits, and a histogram; and the files that do not pass, with links to their reports."""


def add_parser(commands: argparse._SubParsersAction) -> None:
    """Adds the command's words."""
    parser = commands.add_parser("series", help="a page of a table", description=DESCRIPTION, allow_abbrev=False)
    parser.add_argument("table", metavar="TABLE", help="a .csv of `batch`")
    parser.add_argument("-o", dest="output", metavar="F", required=True, help="the page: .html")
    parser.add_argument("--reports", metavar="FOLDER", help="where `batch --reports` wrote (the folder of the table)")


def run(arguments: argparse.Namespace) -> int:
    """Writes the page."""
    page, table = Path(arguments.output), Path(arguments.table)
    if page.suffix.lower() != ".html":
        raise LabError(f"{page}: the page of a series ends with .html")
    from hilldale_lab.report.series import series_page
    from hilldale_lab.series import read_folder

    folder = read_folder(table)
    reports = Path(arguments.reports) if arguments.reports else table.parent
    replace_file(page, series_page(folder, table, page, reports).encode())
    print(f"{page}: {len(folder.rows)} files, {len(folder.series)} parameters")
    return 0
