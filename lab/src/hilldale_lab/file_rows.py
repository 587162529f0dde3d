"""The row of a table that a job gives for one file: its columns are those of the job, whatever the file holds."""

from __future__ import annotations

import errno
import hashlib
import os
from collections.abc import Callable
from dataclasses import dataclass
from fractions import Fraction

from hilldale_lab.answers import UnknownAnswer, line_words, script_lines
from hilldale_lab.asked import Asked
from hilldale_lab.errors import InputRefused, LabError, MissingPackage, one_line
from hilldale_lab.job import Job, Result, Row
from hilldale_lab.labels import Disagreement
from hilldale_lab.levels import Level, rounding_of
from hilldale_lab.limits import Limit
from hilldale_lab.percents import percent_text
from hilldale_lab.program import InputTooLong, LineRefused, ProgramFault, SurfaceRefused
from hilldale_lab.questions import PRUNED_AT
from hilldale_lab.reading import read
from hilldale_lab.surface_file import replace_file
from hilldale_lab.units import HEIGHTS, PARAMETERS, Kind, kind_of
from hilldale_lab.values import Value

DIGITS = 12
NAME_BYTES = 200
FIRST = ("file", "sha256", "verdict", "status", "reason")
LAST = ("warnings",)
OWN = "lab's own: "
NUMBER_COMMANDS = ("param", "feature", "height", "perc")
OF_THE_FILE = (LineRefused, SurfaceRefused, InputTooLong)
OF_THE_LAB = (UnknownAnswer, Disagreement, MissingPackage)
OF_THE_MACHINE = (errno.ENOMEM, errno.EMFILE, errno.ENFILE, errno.ENOSPC, errno.EDQUOT)


@dataclass(frozen=True)
class TableColumn:
    """A column of a table. heading: with its unit. kind: `text`, `number` (a decimal), `fraction` or `whole`."""

    heading: str
    kind: str = "text"


@dataclass(frozen=True)
class Wanted:
    """A value that a job asks for, as the table has it. level: its height C where that counts from the mean of each
    file."""

    name: str
    kind: Kind
    limit: Limit | None = None
    level: Level | None = None
    own: bool = False
    asked: str = ""

    @property
    def columns(self) -> list[TableColumn]:
        """The value, the exact answer, and where the job has them C, the limit and its verdict."""
        name = OWN + self.name if self.own else self.name
        found = [
            TableColumn(_with_unit(name, self.kind.unit.name), "number"),
            TableColumn(_with_unit(f"{name} exact", self.kind.raw), "fraction"),
        ]
        if self.level is not None:
            found += [TableColumn(f"{name}: C in steps", "whole"), TableColumn(f"{name}: C exact in steps", "fraction")]
        if self.limit is not None:
            found += [TableColumn(f"{name} limit"), TableColumn(f"{name} verdict")]
        return found

    def cells(self, row: Row, mean: Callable[[], Fraction | None]) -> list[str]:
        """What a file gives for these columns."""
        value = row.value
        shown = value.shown
        found = [
            "" if shown is None else value.number(DIGITS),
            "none" if value.exact is None else fraction_text(value),
        ]
        if self.level is not None:
            of_mean = mean()
            exact = None if of_mean is None else self.level.steps(value.scales, of_mean)
            rounding = rounding_of(self.asked)
            whole = "" if exact is None else str(self.level.whole(value.scales, of_mean, rounding))
            found += [whole, "" if exact is None else f"{exact.numerator}/{exact.denominator}"]
        if self.limit is not None:
            found += [self.limit.text, "pass" if row.passed else "FAIL"]
        return found


def _with_unit(name: str, unit: str) -> str:
    return f"{name} {unit}" if unit.startswith("per ") else f"{name} in {unit}" if unit else name


def exact_heading(heading: str, following: str) -> tuple[str, str, str] | None:
    """The name, the unit and the program's unit of the value in a column with this heading, if the following one is
    that of its exact answer; else None."""
    name, found, raw = following.rpartition(" exact")
    if not found or not heading.startswith(name) or name.endswith(": C"):
        return None
    return name, _unit_of(heading[len(name) :]), _unit_of(raw)


def _unit_of(text: str) -> str:
    return text.removeprefix(" in ").strip()


def fraction_text(value: Value) -> str:
    """The exact answer without its unit, which the heading has."""
    assert value.exact is not None
    return f"{value.exact.numerator}/{value.exact.denominator}"


def wanted_of(job: Job) -> list[Wanted]:
    """The values of a job in their order. Raises LabError where a line of a script asks for none that is known."""
    if not job.is_script:
        return [_wanted(asked, job) for asked in job.asked]
    found: dict[str, Wanted] = {}
    for number, line in script_lines(job.text):
        command, *words = line_words(line) or [""]
        if command in NUMBER_COMMANDS and words:
            name = line if command == "perc" else f"{words[0]} at {words[1]} steps" if words[1:] else words[0]
            name = f"{name} (line {number})" if name in found else name
            found[name] = Wanted(name, Kind.NUMBER if command == "perc" else kind_of(words[0]))
    return list(found.values())


def _wanted(asked: Asked, job: Job) -> Wanted:
    level = asked.level
    if asked.name not in PARAMETERS and asked.name not in HEIGHTS:
        word, _, given = asked.name.split(";")[3].partition(":")
        level = Level.parse(given) if word in ("Closed", "Open") else None
    counts = level if level is not None and level.from_mean else None
    name = name_of(asked, job.percent)
    return Wanted(name, asked.kind, job.limits.get(asked.key), counts, asked.is_reaching, asked.name)


def name_of(asked: Asked, percent: str) -> str:
    """The name of the value that an asked one gives. percent: that of the job."""
    if asked.name not in PARAMETERS and asked.name not in HEIGHTS:
        return asked.name
    percent = percent_text(asked.percent or percent)
    name = asked.name if asked.name in HEIGHTS or percent == PRUNED_AT else f"{asked.name} at {percent}"
    if asked.level is None:
        return name
    return f"{name} {'reaching' if asked.is_reaching else 'at'} {asked.level.shown}"


def columns_of(job: Job) -> list[TableColumn]:
    """The columns of a job's table, which no file changes."""
    values = [column for wanted in wanted_of(job) for column in wanted.columns]
    return [*map(TableColumn, FIRST), *values, *map(TableColumn, LAST)]


@dataclass(frozen=True)
class Done:
    """What became of a file. cells: its row. fault: why there is none: a fault of the machine, and its status."""

    file: str
    cells: list[str]
    fault: str = ""
    status: int = 0


def report_name(file: str, sha256: str) -> str:
    """The name of the report of a file: its own, as far as a name may be long, with the first digits of its digest."""
    name = one_line(os.path.basename(file))[:80].encode()[:NAME_BYTES].decode(errors="ignore")
    return f"{name}-{sha256[:8]}.html"


def ask_file(job: Job, file: str, place: str | None = None, reports: str | None = None) -> Done:
    """Reads a file once, and asks. file: its name in the table. place: where it is, if elsewhere. reports: the folder
    for a report where a limit is not kept. Raises nothing, since what is raised in another process need not come
    whole."""
    at = file if place is None else place
    try:
        result = job.ask(read(at, **dict(job.options)))
        cells = _answered(job, file, result)
        if reports is not None and result.passed is False:
            _write_report(job, result, os.path.join(reports, report_name(file, result.surface.sha256)))
        return Done(file, cells)
    except LabError as error:
        if _is_fault(error):
            return Done(file, [], f"{one_line(file)}: {error}", error.status)
        return Done(file, _refused(job, file, at, error.status, _reason(error)))
    except MemoryError:
        return Done(file, [], f"{one_line(file)}: not enough memory", 7)
    except OSError as error:
        return Done(file, [], f"{one_line(file)}: {error.strerror or error}", 5)
    except Exception as error:  # a reader that fails on one file of ten thousand leaves the others
        reason = f"hilldale-lab failed: {type(error).__name__}: {error}"
        return Done(file, _refused(job, file, at, 2, reason))


def _write_report(job: Job, result: Result, path: str) -> None:
    """Writes a report that stands alone. Raises LabError."""
    from hilldale_lab.report.make import made_report

    page, _ = made_report(job, result, os.path.basename(path), is_alone=True)
    replace_file(path, page.encode())


def _is_fault(error: LabError) -> bool:
    """Whether a fault is one of the machine, the program or the lab, and not of the file."""
    if isinstance(error, ProgramFault):
        return not isinstance(error, OF_THE_FILE)
    cause = error.__cause__
    if isinstance(error, OF_THE_LAB) or error.status == 6:
        return True
    return isinstance(cause, OSError) and cause.errno in OF_THE_MACHINE


def _reason(error: LabError) -> str:
    """Why a file has no values, without its name, which differs from machine to machine."""
    if isinstance(error, InputRefused):
        return ": ".join(text for text in (error.place, error.found, error.advice) if text)
    if isinstance(error.__cause__, OSError):
        return f"it cannot be read: {error.__cause__.strerror}"
    return str(error)


def _answered(job: Job, file: str, result: Result) -> list[str]:
    surface = result.surface
    verdict = {True: "pass", False: "FAIL", None: "no limits"}[result.passed]
    failed = next((row for row in result.rows if row.passed is False), None)
    reason = (
        ""
        if failed is None or failed.limit is None
        else f"{failed.name}: {failed.value.text()} (limit {failed.limit.text})"
    )
    values = [
        cell
        for wanted, row in zip(wanted_of(job), result.rows, strict=True)
        for cell in wanted.cells(row, surface.mean)
    ]
    status = "1" if failed else "0"
    first = [file, surface.sha256, verdict, status, reason]
    return [one_line(cell) for cell in (*first, *values, "; ".join(surface.warnings))]


def _refused(job: Job, file: str, place: str, status: int, reason: str) -> list[str]:
    rest = [""] * (len(columns_of(job)) - len(FIRST))
    return [one_line(cell) for cell in (file, digest_of(place), "refused", str(status), reason)] + rest


def digest_of(place: str) -> str:
    """The sha256 of a file; empty where it cannot be read."""
    try:
        if not os.path.isfile(place):
            return ""
        with open(place, "rb") as file:
            return hashlib.file_digest(file, "sha256").hexdigest()
    except (OSError, ValueError):
        return ""
