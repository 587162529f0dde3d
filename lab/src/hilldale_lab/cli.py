"""The words of hilldale-lab: `hilldale-lab COMMAND ..`."""

from __future__ import annotations

import argparse
import errno
import importlib
import io
import os
import sys
import traceback
from collections.abc import Sequence
from types import ModuleType

from hilldale_lab.errors import LabError, MissingPackage, one_line
from hilldale_lab.packages import BASE, debian_name, require

# Each command, the module of `commands` that it is, and what it does. Only the module that is asked for is imported.
COMMANDS = {
    "import": ("import_", "make a surface file of any instrument's file, exactly"),
    "export": ("export", "write a surface as GSF, X3P or text"),
    "ask": ("ask", "ask the program for numbers of a surface"),
    "script": ("script", "make the program's script of a job"),
    "lint": ("lint", "look for mistakes in a job or a script"),
    "regions": ("regions", "a table of hills or dales"),
    "check": ("check", "check a certificate, with the verdict in words"),
    "picture": ("picture", "draw a surface with its hills and dales"),
    "report": ("report", "write a report of a surface"),
    "view": ("view", "write one page to look at a surface in a browser"),
    "batch": ("batch", "do one job on a folder of files"),
    "series": ("series", "compare the surfaces of a series"),
}
DEFECT = 70
OUTPUT_FAULTS = (errno.EPIPE, errno.ENOSPC, errno.EFBIG, errno.EDQUOT, errno.EIO)
DESCRIPTION = """Files of instruments, questions, pictures and reports around hilldale.
hilldale's numbers are proved; hilldale-lab is not, and shows the program's exact fractions."""


def command_module(name: str) -> ModuleType:
    """The module of a command. Raises MissingPackage where it needs a package that is not installed."""
    module = f"hilldale_lab.commands.{COMMANDS[name][0]}"
    try:
        return importlib.import_module(module)
    except ModuleNotFoundError as error:
        missing = (error.name or "").partition(".")[0]
        if missing == "hilldale_lab":
            raise LabError(f"the command {name} is not in this version") from error
        raise MissingPackage([debian_name(missing)]) from error


def parser_for(name: str | None) -> argparse.ArgumentParser:
    """The parser of the words, with the options of one command; of the others it knows the names."""
    parser = argparse.ArgumentParser(
        prog="hilldale-lab",
        description=DESCRIPTION,
        allow_abbrev=False,
        formatter_class=argparse.RawDescriptionHelpFormatter,
    )
    commands = parser.add_subparsers(dest="command", required=True, metavar="COMMAND")
    for command, (_, what) in COMMANDS.items():
        if command == name:
            command_module(command).add_parser(commands)
        else:
            commands.add_parser(command, help=what)
    return parser


def main(words: Sequence[str] | None = None) -> int:
    """Does what the words say. Gives the exit status: 0 where all is done, else that of the fault."""
    words = list(sys.argv[1:] if words is None else words)
    name = words[0] if words and words[0] in COMMANDS else None
    try:
        require(*BASE)
        _open_output()
        arguments = parser_for(name).parse_args(words)
        status = int(command_module(arguments.command).run(arguments))
        sys.stdout.flush()
        return status
    except LabError as error:
        print(f"hilldale-lab: {error}", file=sys.stderr)
        return error.status
    except MemoryError:
        print("hilldale-lab: not enough memory", file=sys.stderr)
        return 7
    except OSError as error:
        return _fault_status(error)
    except KeyboardInterrupt:
        return 130
    except Exception:
        # Python would end with 1, which says that a limit is not met.
        traceback.print_exc()
        print("hilldale-lab: this is a defect of hilldale-lab: please report the lines above", file=sys.stderr)
        return DEFECT


def _open_output() -> None:
    """Makes the output take any text, whatever the locale has signs for. Raises LabError where it is closed."""
    if sys.stdout is None:
        raise LabError("the standard output is closed", 6)
    if isinstance(sys.stdout, io.TextIOWrapper):
        sys.stdout.reconfigure(errors="backslashreplace")


def _fault_status(error: OSError) -> int:
    """Tells a fault of the system, but not that a reader of the output went away. Gives the status: 6 of the output, 5
    of anything else."""
    if error.filename is not None or error.errno not in OUTPUT_FAULTS:
        print(f"hilldale-lab: {one_line(str(error.filename or ''))}: {error.strerror or error}", file=sys.stderr)
        return 5
    if not isinstance(error, BrokenPipeError):
        print(f"hilldale-lab: cannot write the standard output: {error.strerror}", file=sys.stderr)
    # What is left of the output is dropped. Else Python would try again at its end, and end with another status.
    os.dup2(os.open(os.devnull, os.O_WRONLY), sys.stdout.fileno())
    return 6
