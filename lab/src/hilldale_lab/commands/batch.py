"""`hilldale-lab batch JOB FILES.. -o TABLE`: a row for each file."""

from __future__ import annotations

import argparse
import os
import sys
import time
from collections import Counter

from hilldale_lab.batch import Tell, by_processes, make_table, processors
from hilldale_lab.commands.common import add_program
from hilldale_lab.errors import LabError
from hilldale_lab.job import Job

DESCRIPTION = """Asks one job of each file and writes a table with a row for each, in their order. A file that is no
surface gets a row with the reason. After a fault of the machine or Ctrl-C, the finished rows are in TABLE.partial, and
--resume goes on from there. The status is 1 if a limit is not met or a file is refused."""
BAR = 30


def add_parser(commands: argparse._SubParsersAction) -> None:
    """Adds the command's words."""
    parser = commands.add_parser("batch", help="one job for many files", description=DESCRIPTION, allow_abbrev=False)
    parser.add_argument("job", metavar="JOB", help="a job of TOML (its name ends with .toml), or a script")
    parser.add_argument("files", metavar="FILE", nargs="+", help="surface files, or files that `import` reads")
    parser.add_argument("-o", dest="output", metavar="TABLE", required=True, help=".csv, .xlsx or .parquet")
    where = parser.add_mutually_exclusive_group()
    where.add_argument("--workers", metavar="N", type=int, help="files at once (default: as many as processors)")
    where.add_argument("--dask", metavar="ADDRESS", help="a scheduler of dask.distributed, as tcp://10.0.0.1:8786")
    parser.add_argument("--resume", action="store_true", help="go on from TABLE.partial")
    parser.add_argument("--excel", action="store_true", help="a CSV with semicolons and decimal commas")
    parser.add_argument("--reports", metavar="FOLDER", help="write a report there of each file that FAILs")
    add_program(parser)


def run(arguments: argparse.Namespace) -> int:
    """Writes the table. Gives 1 where a row does not pass."""
    if arguments.workers is not None and arguments.workers < 1:
        raise LabError("--workers takes a number from 1 on")
    job = Job.read(arguments.job)
    if arguments.dask:
        from hilldale_lab.dask_workers import by_dask

        workers = by_dask(arguments.dask, arguments.reports)
    else:
        workers = by_processes(arguments.workers or processors(), arguments.reports)
    if arguments.reports:
        os.makedirs(arguments.reports, exist_ok=True)
    table, tell = arguments.output, progress()
    try:
        rows = make_table(job, arguments.files, table, workers, arguments.resume, arguments.excel, tell)
    except KeyboardInterrupt:
        end_line()
        print(f"hilldale-lab: stopped: --resume goes on from {table}.partial", file=sys.stderr)
        raise
    finally:
        end_line()
    counts = Counter(row[2] for row in rows)
    told = ", ".join(f"{counts[word]} {word}" for word in ("pass", "FAIL", "no limits", "refused") if counts[word])
    print(f"{table}: {len(rows)} file{'s' * (len(rows) != 1)}: {told}")
    return 1 if counts["FAIL"] or counts["refused"] else 0


def progress() -> Tell:
    """What draws a bar on a terminal, and elsewhere nothing."""
    begun, before = time.monotonic(), -1

    def tell(done: int, total: int) -> None:
        nonlocal before
        if not sys.stderr.isatty():
            return
        before = done if before < 0 else before
        seconds, new = time.monotonic() - begun, done - before
        rest = f", {new / seconds:.1f} a second, {seconds / new * (total - done):.0f} s left" if new and seconds else ""
        bar = "#" * (BAR * done // max(total, 1))
        print(f"\r[{bar:.<{BAR}}] {done} of {total}{rest}\033[K", end="", file=sys.stderr, flush=True)

    return tell


def end_line() -> None:
    """Leaves the line of the bar."""
    if sys.stderr.isatty():
        print(file=sys.stderr)
