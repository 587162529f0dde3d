"""`hilldale-lab lint JOB`: the mistakes of a job or a script."""

from __future__ import annotations

import argparse

from hilldale_lab.job import read_text
from hilldale_lab.lint import lint

DESCRIPTION = """Names each mistake of a job or a script, with its line and what was probably meant. The status is 1 if
there is one. lint reads no surface, so a point outside it, or a height out of range, shows only when the job runs."""


def add_parser(commands: argparse._SubParsersAction) -> None:
    """Adds the command's words."""
    parser = commands.add_parser("lint", help="mistakes of a job", description=DESCRIPTION, allow_abbrev=False)
    parser.add_argument("job", metavar="JOB", help="a job of TOML (its name ends with .toml), or a script")


def run(arguments: argparse.Namespace) -> int:
    """Prints the mistakes, one a line. Gives 1 where there is one."""
    mistakes = lint(read_text(arguments.job), arguments.job)
    for mistake in mistakes:
        print(f"{arguments.job}: {mistake}")
    return 1 if mistakes else 0
