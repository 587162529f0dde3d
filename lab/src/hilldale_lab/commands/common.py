"""Words that several commands take."""

from __future__ import annotations

import argparse
import sys
from collections.abc import Mapping
from typing import Any

from hilldale_lab import program
from hilldale_lab.reading import read
from hilldale_lab.surface import Surface


class _UseProgram(argparse.Action):
    """Makes all calls use the program that is named."""

    def __call__(
        self, parser: argparse.ArgumentParser, namespace: argparse.Namespace, value: Any, option: Any = None
    ) -> None:
        program.set_program(value)
        setattr(namespace, self.dest, value)


def add_program(parser: argparse.ArgumentParser) -> None:
    """Adds `--program PATH`."""
    parser.add_argument(
        "--program",
        metavar="PATH",
        action=_UseProgram,
        help=f"the program hilldale (else that of {program.VARIABLE}, of the checkout, or in the PATH)",
    )


def add_surface(parser: argparse.ArgumentParser) -> None:
    """Adds the name of a surface."""
    parser.add_argument("surface", metavar="SURFACE", help="a surface file, or any file that `import` reads")


def open_surface(name: str, options: Mapping[str, Any] | None = None) -> Surface:
    """Reads the surface, and tells on the standard error what its reader warns of. options: what a job says of its
    file. Raises LabError where it cannot be read."""
    surface = read(name, **dict(options or {}))
    for warning in surface.warnings:
        print(f"hilldale-lab: note: {warning}", file=sys.stderr)
    return surface
