"""Numbers that a file lists, one a line, with nothing but them."""

from __future__ import annotations

import numpy as np
from numpy.typing import NDArray

from hilldale_lab.decimals import NotDecimal, TooManySteps, read_decimals, token_bounds, which_bound
from hilldale_lab.formats.field import Source

MISSING = (b"nan", b"+nan", b"-nan")


def listed_numbers(source: Source, data: bytes) -> tuple[NDArray[np.int64], NDArray[np.bool_], int]:
    """The decimals of the lines, each of which ends with a line feed, as whole multiples of a power of ten; which of them
    are measured, neither empty nor NaN; and the power. Raises InputRefused."""
    text = np.frombuffer(data, np.uint8)
    ends_of_lines = np.flatnonzero(text == ord("\n"))
    starts, ends = token_bounds(text, text <= 32)
    line_of = which_bound(ends_of_lines, starts)
    twice = np.flatnonzero(line_of[1:] == line_of[:-1])
    if len(twice):
        raise source.refuse(f"datum {int(line_of[twice[0]]) + 1}", "two numbers with a blank between them")
    heads = text[starts]
    is_word = heads >= ord("A")
    is_word |= ((heads == ord("+")) | (heads == ord("-"))) & (text[np.minimum(starts + 1, len(text) - 1)] >= ord("A"))
    for index in np.flatnonzero(is_word).tolist():
        word = text[starts[index] : ends[index]].tobytes()
        if word.lower() not in MISSING:
            raise _no_decimal(source, word, int(line_of[index]))
    there = np.flatnonzero(~is_word)
    values, measured = np.zeros(len(ends_of_lines), np.int64), np.zeros(len(ends_of_lines), np.bool_)
    measured[line_of[there]] = True
    try:
        numbers = read_decimals(text, starts[there], ends[there])
        power = numbers.last_power()
        values[line_of[there]] = numbers.steps(power)
    except NotDecimal as error:
        index = int(there[error.index])
        word = text[starts[index] : ends[index]].tobytes()
        raise _no_decimal(source, word, int(line_of[index])) from error
    except TooManySteps as error:
        raise source.refuse(
            "the data", "heights beyond 2^53 steps of their last place", "write fewer digits"
        ) from error
    return values, measured, power


def _no_decimal(source: Source, word: bytes, line: int) -> Exception:
    return source.refuse(f"datum {line + 1}", f'"{word[:40].decode("latin-1")}" is no decimal')
