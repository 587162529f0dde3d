"""A series of surfaces: what the rows of a table have in common, as numbers, and which of them do not pass."""

from __future__ import annotations

import csv
import io
import math
from collections import Counter
from collections.abc import Sequence
from dataclasses import dataclass
from fractions import Fraction
from pathlib import Path

from hilldale_lab.decimals import parse_decimal
from hilldale_lab.errors import LabError
from hilldale_lab.file_rows import FIRST, OWN, exact_heading
from hilldale_lab.limits import Limit
from hilldale_lab.table import FORMULA_SIGNS
from hilldale_lab.values import rounded_text

BOM = "\ufeff"


@dataclass(frozen=True)
class Reading:
    """A value of one file. place: of its row, from 1. value: in the unit of the table. exact: the program's answer."""

    place: int
    file: str
    value: Fraction
    exact: str
    is_failed: bool


@dataclass(frozen=True)
class Series:
    """The values of a parameter. unit: as the heading has it. limit: its text, or empty. failures: rows
    that do not keep it. missing: rows without a value."""

    name: str
    unit: str
    exact_unit: str
    limit: str
    failures: int
    readings: Sequence[Reading]
    missing: int
    own: bool

    @property
    def mean(self) -> Fraction:
        """The mean of the values."""
        return sum((reading.value for reading in self.readings), Fraction(0)) / len(self.readings)

    @property
    def least(self) -> Reading:
        """The first of the least values."""
        return min(self.readings, key=lambda reading: reading.value)

    @property
    def greatest(self) -> Reading:
        """The first of the greatest values."""
        return max(self.readings, key=lambda reading: reading.value)

    @property
    def variance(self) -> Fraction | None:
        """The sum of the squares of the deviations from the mean, over the count less one; None of one value."""
        if len(self.readings) < 2:
            return None
        mean = self.mean
        return sum(((reading.value - mean) ** 2 for reading in self.readings), Fraction(0)) / (len(self.readings) - 1)

    @property
    def deviation(self) -> str:
        """The standard deviation with six digits; `none` of one value."""
        variance = self.variance
        return "none" if variance is None else root_text(variance)

    def limit_values(self) -> list[Fraction]:
        """The bounds of the limit in the unit of the table; those in steps or points have none."""
        bounds = Limit.parse(self.limit.split(" and ")).bounds if self.limit else ()
        return [bound.amount * Fraction(10) ** bound.kind.exponent for _, bound in bounds if not bound.raw]


def root_text(square: Fraction, digits: int = 6) -> str:
    """The square root of a number as a decimal with so many digits, by whole numbers alone."""
    scale = 10 ** (digits + max(0, len(str(square.denominator)) - len(str(square.numerator))) + 2)
    return rounded_text(Fraction(math.isqrt(square.numerator * scale**2 // square.denominator), scale), digits)


@dataclass(frozen=True)
class FileRow:
    """What the first columns of a row tell."""

    place: int
    file: str
    sha256: str
    verdict: str
    status: str
    reason: str


@dataclass(frozen=True)
class Folder:
    """The rows of a table, and a series for each of its parameters."""

    rows: Sequence[FileRow]
    series: Sequence[Series]

    @property
    def counts(self) -> Counter[str]:
        """How many rows have which verdict."""
        return Counter(row.verdict for row in self.rows)


def read_folder(path: str | Path) -> Folder:
    """Reads a table of `batch`, plain or for a spreadsheet. Raises LabError where it is none."""
    try:
        text = Path(path).read_bytes().decode("utf-8")
    except OSError as error:
        raise LabError(f"cannot read {path}: {error.strerror}", 5) from error
    except UnicodeDecodeError as error:
        raise LabError(f"{path} is no table of batch: a series is made of a .csv") from error
    is_excel = text.startswith(BOM)
    try:
        lines = list(csv.reader(io.StringIO(text.removeprefix(BOM)), delimiter=";" if is_excel else ",", strict=True))
    except csv.Error as error:
        raise LabError(f"{path} is no table of batch: {error}") from error
    if not lines or tuple(lines[0][: len(FIRST)]) != FIRST or any(len(line) != len(lines[0]) for line in lines):
        raise LabError(f"{path} is no table of batch: its first columns are not {', '.join(FIRST)}")
    if is_excel:
        lines = [lines[0], *([_plain(cell) for cell in line] for line in lines[1:])]
    rows = [FileRow(place, *line[: len(FIRST)]) for place, line in enumerate(lines[1:], 1)]
    return Folder(
        rows, [_series(lines, at) for at in range(len(lines[0]) - 1) if exact_heading(*lines[0][at : at + 2])]
    )


def _plain(cell: str) -> str:
    """A cell as it stands in a table that is not for a spreadsheet."""
    if cell.startswith('="'):
        return cell[2:-1]
    return cell[1:] if cell.startswith("'") and cell[1:].startswith(FORMULA_SIGNS) else cell


def _series(lines: Sequence[Sequence[str]], at: int) -> Series:
    """The series of the column at this place, and of those that go with it."""
    head = lines[0]
    found = exact_heading(head[at], head[at + 1])
    assert found is not None
    name, unit, exact_unit = found
    limit_at = head.index(f"{name} limit") if f"{name} limit" in head else None
    verdict_at = head.index(f"{name} verdict") if f"{name} verdict" in head else None
    verdicts = ["" if verdict_at is None else line[verdict_at] for line in lines]
    readings = []
    for place, line in enumerate(lines[1:], 1):
        value = parse_decimal(line[at].replace(",", "."))
        if value is not None:
            readings.append(Reading(place, line[0], value, line[at + 1], verdicts[place] == "FAIL"))
    limit = "" if limit_at is None else next((line[limit_at] for line in lines[1:] if line[limit_at]), "")
    missing = len(lines) - 1 - len(readings)
    failures, own = verdicts.count("FAIL"), name.startswith(OWN)
    return Series(name.removeprefix(OWN), unit, exact_unit, limit, failures, readings, missing, own)
