"""`hilldale-lab script JOB SURFACE`: the script that a job becomes."""

from __future__ import annotations

import argparse
import sys

from hilldale_lab.commands.common import add_program, add_surface, open_surface
from hilldale_lab.job import Job

DESCRIPTION = """Prints the script that the program runs for a job: whole steps instead of units, and a line `mask` for
each row of points that a mask of the job takes. `hilldale run` gives the same answers with it."""


def add_parser(commands: argparse._SubParsersAction) -> None:
    """Adds the command's words."""
    parser = commands.add_parser("script", help="the script of a job", description=DESCRIPTION, allow_abbrev=False)
    parser.add_argument("job", metavar="JOB", help="a job of TOML (its name ends with .toml), or a script")
    add_surface(parser)
    add_program(parser)


def run(arguments: argparse.Namespace) -> int:
    """Prints the script."""
    job = Job.read(arguments.job)
    sys.stdout.write(job.script(open_surface(arguments.surface, job.options)))
    return 0
