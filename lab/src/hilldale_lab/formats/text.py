"""Text: tables of numbers and lists of x, y and z, as MountainsMap, Gwyddion and spreadsheets write them.

A line is a profile, or a point of a list. Fields are separated by `;`, tabs, commas or blanks; the decimal mark is a
point or a comma. `***`, `NaN`, `BAD` and an empty field mark a missing point. Comments of Gwyddion's export tell its
units. Every number is read by its digits.
"""

from __future__ import annotations

import re
from dataclasses import dataclass
from fractions import Fraction

import numpy as np
from numpy.typing import NDArray

from hilldale_lab.decimals import Decimals, NotDecimal, TooManySteps, read_decimals, token_bounds, which_bound
from hilldale_lab.formats.field import Field, Options, Source, length_unit, scale_of
from hilldale_lab.formats.points import grid_of_points
from hilldale_lab.formats.text_lines import BLANKS, MARK_NAMES, Lines, decoded, lines_of

NAME = "text"
MISSING = re.compile(rb"\*+|[+-]?nan|bad|#n/a|n/a", re.IGNORECASE)
NUMBER = re.compile(rb"[+-]?([0-9]+[.,]?[0-9]*|[.,][0-9]+)([eE][+-]?[0-9]+)?")

BEGINS_NUMBER = np.zeros(256, np.bool_)
BEGINS_NUMBER[list(b"0123456789+-.,")] = True


def recognises(source: Source) -> bool:
    """Whether the file is a text."""
    return bool(source.data.strip()) and decoded(source) is not None


@dataclass(frozen=True)
class Table:
    """The fields of a text: where those that are not empty stand, and the line, the row and the column of each."""

    text: NDArray[np.uint8]
    starts: NDArray[np.int64]
    ends: NDArray[np.int64]
    rows: NDArray[np.int64]
    columns: NDArray[np.int64]
    shape: tuple[int, int]
    row_lines: NDArray[np.int64]

    def word(self, index: int) -> str:
        """A field as it stands, at most 40 characters of it."""
        return self.text[self.starts[index] : self.ends[index]].tobytes().decode("utf-8", "replace")[:40]

    def place(self, index: int) -> str:
        """Where a field stands, as `line 3, column 2`."""
        return f"line {self.row_lines[self.rows[index]]}, column {self.columns[index] + 1}"


def read(source: Source, options: Options) -> Field:
    """The surface; heights are whole multiples of the greatest power of ten that divides all. Raises InputRefused."""
    lines = lines_of(source, options.skip or 0, options.separator)
    table = _table(source, lines)
    numbers, measured_at = _numbers(source, lines, table)
    notes = []
    has_commas = lines.separator != "," and b"," in lines.data
    if lines.separator != BLANKS or has_commas:
        notes.append(
            f"{MARK_NAMES[lines.separator]} separate the numbers" + (", with decimal commas" if has_commas else "")
        )
    if options.is_xyz:
        return grid_of_points(source, table.shape, numbers, table.rows[measured_at], table.columns[measured_at], notes)
    power = numbers.last_power()
    try:
        steps = numbers.steps(power)
    except TooManySteps as error:
        raise source.refuse(
            "the numbers", "they reach beyond 2^53 steps of their last place", "export fewer digits"
        ) from error
    values, measured = np.zeros(table.shape, np.int64), np.zeros(table.shape, np.bool_)
    values[table.rows[measured_at], table.columns[measured_at]] = steps
    measured[table.rows[measured_at], table.columns[measured_at]] = True
    found = Field(values, measured, None, None, None, Fraction(10) ** power, notes=notes)
    _take_comments(found, lines.comments)
    found.notes += _looks_like_points(found)
    return found


def _table(source: Source, lines: Lines) -> Table:
    """The fields, where each stands. Raises InputRefused where the lines have different numbers of fields."""
    text = np.frombuffer(lines.data, np.uint8)
    is_end = text == ord("\n")
    is_apart = text <= 32
    if lines.separator == BLANKS:
        starts, ends = token_bounds(text, is_apart)
        line_of = which_bound(np.flatnonzero(is_end), starts)
        counts = np.bincount(line_of, minlength=1)
        firsts = np.cumsum(counts) - counts
        columns = np.arange(len(starts)) - firsts[line_of]
    else:
        is_mark = text == ord(lines.separator)
        starts, ends = token_bounds(text, is_apart | is_mark)
        marks = np.flatnonzero(is_mark | is_end)
        field_of = which_bound(marks, starts)
        _check_apart(source, lines, text, starts, ends, field_of)
        line_ends = np.flatnonzero(is_end[marks])
        line_of = which_bound(line_ends, field_of)
        firsts = np.concatenate(([0], line_ends[:-1] + 1))
        counts, columns = _counted(line_ends - firsts + 1, firsts, field_of, line_of)
    return _aligned(source, lines, Table(text, starts, ends, line_of, columns, (0, 0), np.zeros(0, np.int64)), counts)


def _check_apart(
    source: Source, lines: Lines, text: NDArray, starts: NDArray, ends: NDArray, field_of: NDArray
) -> None:
    """Refuses a blank within a field."""
    twice = np.flatnonzero(field_of[1:] == field_of[:-1])
    if len(twice):
        at = int(twice[0])
        word = text[starts[at] : ends[at + 1]].tobytes().decode("utf-8", "replace")[:40]
        line = lines.first + lines.data.count(b"\n", 0, int(starts[at]))
        raise source.refuse(
            f"line {line}",
            f'"{word}" has a blank in it, and {MARK_NAMES[lines.separator]} separate',
            _header_advice(lines) or "is it a header? --skip takes lines away",
        )


def _counted(fields: NDArray, firsts: NDArray, field_of: NDArray, line_of: NDArray) -> tuple[NDArray, NDArray]:
    """How many fields each line has, 0 where it is empty, and the column of each token. A separator that ends every
    line counts for none."""
    columns = field_of - firsts[line_of]
    tokens = np.bincount(line_of, minlength=len(fields))
    filled = (tokens > 0) | (fields > 1)
    last = np.where(tokens > 0, columns[np.maximum(np.cumsum(tokens) - 1, 0)], -1) if len(columns) else tokens - 1
    if (fields[filled] > 1).all() and (last[filled] < fields[filled] - 1).all():
        fields = fields - 1
    return np.where(filled, fields, 0), columns


def _aligned(source: Source, lines: Lines, table: Table, counts: NDArray) -> Table:
    """The table with its rows numbered, once all lines are found to be of one length."""
    filled = np.flatnonzero(counts)
    if not len(filled):
        raise source.refuse("", "there are no numbers")
    width = int(counts[filled[0]])
    other = filled[counts[filled] != width]
    if len(other):
        line, first = lines.first + int(other[0]), lines.first + int(filled[0])
        raise source.refuse(
            f"line {line}",
            f"{counts[other[0]]} numbers, and line {first} has {width}",
            _header_advice(lines) or "is it a list or a header? --skip takes lines away",
        )
    if width == 1:
        for line in range(int(filled[0]), int(filled[-1])):
            if not counts[line] and lines.first + line not in lines.comment_lines:
                raise source.refuse(
                    f"line {lines.first + line}", "it is empty, in a single column", "write NaN for a missing point"
                )
    row_of_line = np.cumsum(counts > 0) - 1
    return Table(
        table.text,
        table.starts,
        table.ends,
        row_of_line[table.rows],
        table.columns,
        (len(filled), width),
        filled + lines.first,
    )


def _header_advice(lines: Lines) -> str:
    """What to do where the first lines hold no numbers; empty where they do."""
    count = 0
    for line in lines.data.split(b"\n")[:1000]:
        words = re.split(rb"[;\t ]+" if lines.separator != "," else rb"[,\t ]+", line.strip())
        numeric = sum(bool(NUMBER.fullmatch(word) or MISSING.fullmatch(word) or not word) for word in words)
        if line.strip() and numeric == len(words):
            break
        count += 1
    return f"the first lines are no numbers: --skip {lines.first - 1 + count}" if 0 < count < 1000 else ""


def _numbers(source: Source, lines: Lines, table: Table) -> tuple[Decimals, NDArray[np.int64]]:
    """The numbers, and which tokens they are; the others mark missing points. Raises InputRefused."""
    heads = table.text[table.starts]
    is_word = ~BEGINS_NUMBER[heads]
    second = table.text[np.minimum(table.starts + 1, len(table.text) - 1)]
    is_word |= ((heads == ord("+")) | (heads == ord("-"))) & (second >= ord("A"))
    for index in np.flatnonzero(is_word).tolist():
        word = table.text[table.starts[index] : table.ends[index]].tobytes()
        if not MISSING.fullmatch(word):
            raise _no_number(source, lines, table, index)
    there = np.flatnonzero(~is_word)
    text = _with_points(source, lines, table)
    try:
        return read_decimals(text, table.starts[there], table.ends[there]), there
    except NotDecimal as error:
        raise _no_number(source, lines, table, int(there[error.index])) from error
    except TooManySteps as error:
        raise source.refuse(
            "the numbers", "one has more digits than 2^53 steps can tell", "export fewer digits"
        ) from error


def _no_number(source: Source, lines: Lines, table: Table, index: int) -> Exception:
    advice = _header_advice(lines) if index < table.shape[1] else ""
    return source.refuse(table.place(index), f'"{table.word(index)}" is no number', advice)


def _with_points(source: Source, lines: Lines, table: Table) -> NDArray[np.uint8]:
    """The text with decimal points: commas become points where they are the decimal mark. Raises InputRefused where
    both stand in numbers."""
    if lines.separator == "," or b"," not in lines.data:
        return table.text
    if b"." in lines.data:
        commas, points = (_first_with(table, mark) for mark in b",.")
        if commas is not None and points is not None:
            other, mine = sorted((commas, points))
            raise source.refuse(
                table.place(mine),
                f'"{table.word(mine)}" and "{table.word(other)}" in '
                f"{table.place(other)} have different decimal marks",
            )
    return np.where(table.text == ord(","), np.uint8(ord(".")), table.text)


def _first_with(table: Table, mark: int) -> int | None:
    """The first field that holds a byte."""
    at = np.flatnonzero(table.text == mark)
    index = np.searchsorted(table.starts, at[0], "right") - 1 if len(at) else -1
    return int(index) if index >= 0 and at[0] < table.ends[index] else None


def _take_comments(found: Field, comments: dict[str, str]) -> None:
    """The units and sizes that the comments of Gwyddion's export tell."""
    unit = length_unit(comments.get("value units", ""))
    found.unit = None if unit is None else unit * found.number
    found.channel = comments.get("channel", "")
    profiles, columns = found.values.shape
    for key, size, axis in (("width", columns, "dx"), ("height", profiles, "dy")):
        number, _, name = comments.get(key, "").rpartition(" ")
        length, metres = scale_of(number), length_unit(name)
        if length is not None and metres is not None:
            setattr(found, axis, length * metres / size)


def _looks_like_points(found: Field) -> list[str]:
    """A warning where the table may be a list of x, y and z."""
    profiles, columns = found.values.shape
    if columns != 3 or profiles < 9 or not found.measured[:, :2].all():
        return []
    distinct = [len(np.unique(found.values[:, axis])) for axis in (0, 1)]
    if max(distinct) < profiles and distinct[0] * distinct[1] <= 2 * profiles and min(distinct) > 1:
        return [f"3 columns of {profiles} lines look like x, y and z: where they are, give --xyz"]
    return []
