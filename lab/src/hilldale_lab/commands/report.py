"""`hilldale-lab report`: one file with the verdict, values and pictures of a job, and what a customer checks it by."""

from __future__ import annotations

import argparse
from pathlib import Path

from hilldale_lab.commands.common import add_program, add_surface, open_surface
from hilldale_lab.errors import LabError
from hilldale_lab.job import Job
from hilldale_lab.packages import require
from hilldale_lab.surface_file import replace_file

DESCRIPTION = """Writes a report, and beside it the files by which a customer checks it: the surface that was judged,
the questions, a certificate of each pruning, and tables of all regions. The status is 1 if a limit is not met."""


def add_parser(commands: argparse._SubParsersAction) -> None:
    """The words of `report`."""
    parser = commands.add_parser(
        "report", help="write a report of a surface", description=DESCRIPTION, allow_abbrev=False
    )
    add_surface(parser)
    parser.add_argument("job", metavar="JOB", help="a job of TOML (its name ends with .toml), or a script")
    parser.add_argument("-o", dest="output", metavar="F", required=True, help="the report: .html or .pdf")
    parser.add_argument("--alone", action="store_true", help="write no files beside it")
    add_program(parser)


def run(arguments: argparse.Namespace) -> int:
    """Writes the report. Gives 1 where a limit is not met."""
    output = Path(arguments.output)
    if output.suffix.lower() not in (".html", ".pdf"):
        raise LabError(f'"{output}": a report ends with .html or .pdf')
    if output.suffix.lower() == ".pdf":
        require("weasyprint")
    from hilldale_lab.report.make import made_report, page_bytes

    job = Job.read(arguments.job)
    result = job.ask(open_surface(arguments.surface, job.options))
    page, files = made_report(job, result, output.stem, arguments.alone)
    for file in files:
        replace_file(output.with_name(file.name), file.data)
    replace_file(output, page_bytes(page, output.suffix.lower()[1:]))
    word = {True: "PASS", False: "FAIL", None: "no limits"}[result.passed]
    print(f"{word}: {output}" + "".join(f"\n{output.with_name(file.name)}" for file in files))
    return 1 if result.passed is False else 0
