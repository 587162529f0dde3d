"""`hilldale-lab check SURFACE CERT`: the program's verdict on a certificate, in words."""

from __future__ import annotations

import argparse
from pathlib import Path

from hilldale_lab.commands.common import add_program, add_surface, open_surface
from hilldale_lab.errors import LabError

DESCRIPTION = """Lets the program check a certificate against a surface, and says in words what was accepted: kind,
side, percent, neighbours, how many are kept, and the digest of the surface. The status is 4 if it is refused."""


def add_parser(commands: argparse._SubParsersAction) -> None:
    """Adds the command's words."""
    parser = commands.add_parser("check", help="a verdict in words", description=DESCRIPTION, allow_abbrev=False)
    add_surface(parser)
    parser.add_argument("certificate", metavar="CERT", help="a saddle certificate or a pruning certificate")
    add_program(parser)


def run(arguments: argparse.Namespace) -> int:
    """Prints the verdict. Gives 4 where the certificate is refused."""
    surface = open_surface(arguments.surface)
    try:
        certificate = Path(arguments.certificate).read_bytes()
    except OSError as error:
        raise LabError(f"cannot read {arguments.certificate}: {error.strerror}", 5) from error
    verdict = surface.check(certificate)
    print(verdict.words())
    return 0 if verdict.accepted else 4
