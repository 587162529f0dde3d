"""`hilldale-lab ask SURFACE JOB`: the values of a job, one a line."""

from __future__ import annotations

import argparse
import sys

from hilldale_lab.commands.common import add_program, add_surface, open_surface
from hilldale_lab.job import Job

DESCRIPTION = """Prints the values that a job asks for, one a line: the name, the value in its unit, and the
program's exact fraction. Limits are compared exactly. The status is 1 if one is not met or a line is refused."""


def add_parser(commands: argparse._SubParsersAction) -> None:
    """Adds the command's words."""
    parser = commands.add_parser("ask", help="the values of a job", description=DESCRIPTION, allow_abbrev=False)
    add_surface(parser)
    parser.add_argument("job", metavar="JOB", help="a job of TOML (its name ends with .toml), or a script")
    add_program(parser)


def run(arguments: argparse.Namespace) -> int:
    """Prints the values. Gives 1 where a limit is not met."""
    job = Job.read(arguments.job)
    result = job.ask(open_surface(arguments.surface, job.options))
    sys.stdout.write(result.text)
    return 1 if result.passed is False else 0
