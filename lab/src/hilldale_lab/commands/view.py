"""`hilldale-lab view`: one page to look at a surface in a browser."""

from __future__ import annotations

import argparse
import os
import tempfile
import webbrowser
from pathlib import Path

from hilldale_lab.commands.common import add_program, add_surface
from hilldale_lab.commands.picture import edited_surface
from hilldale_lab.surface_file import replace_file


def add_parser(commands: argparse._SubParsersAction) -> None:
    """The words of `view`."""
    parser = commands.add_parser("view", help="write one page to look at a surface in a browser", allow_abbrev=False)
    add_surface(parser)
    parser.add_argument("--job", metavar="JOB", help="a job or a script whose edits come first")
    parser.add_argument("-o", dest="output", metavar="F.html", help="write the page there, and open no browser")
    add_program(parser)


def run(arguments: argparse.Namespace) -> int:
    """Writes the page, and opens it unless its name was given or there is no screen."""
    from hilldale_lab.view import view_page

    surface = edited_surface(arguments.surface, arguments.job)
    page = view_page(surface)
    stem = Path(surface.name).name
    name = Path(arguments.output or Path(tempfile.mkdtemp(prefix="hilldale-view-")) / f"{stem}.html")
    replace_file(name, page.encode())
    if not arguments.output:
        print(f"the page is {name}")
        if os.environ.get("DISPLAY") or os.environ.get("WAYLAND_DISPLAY"):
            webbrowser.open(name.absolute().as_uri())
    return 0
