"""Binary SDF of ISO 25178-71: `bBCR-1.0` and `bISO-1.0`.

Layout: as in Gwyddion's sdfile.c (2.62), with the header of 8 bytes more that some `bISO-1.0` files have. The standard
names no order of bytes: it is the one that the length of the file goes with, little endian where both do. The marks of
missing points are the least number of the signed types and the greatest of the unsigned ones, and NaN. No file of a
maker was tried.
"""

from __future__ import annotations

import struct
from fractions import Fraction

import numpy as np

from hilldale_lab.formats.field import Field, Options, Source, decimal_of_float, table_of

NAME = "binary SDF"
VERSIONS = (b"bBCR-1.0", b"bISO-1.0")
HEADER, LONG_HEADER = 81, 89
KINDS = ("u1", "u2", "u4", "f4", "i1", "i2", "i4", "f8")


def recognises(source: Source) -> bool:
    """Whether the file begins as a binary SDF does."""
    return source.data[:8] in VERSIONS


def read(source: Source, options: Options) -> Field:
    """The surface. Raises InputRefused."""
    data = source.data
    if len(data) < HEADER:
        raise source.refuse("the header", f"{len(data)} bytes, and it has {HEADER}", "the file was cut off")
    compression, kind, check = data[78:81]
    if compression or check:
        raise source.refuse("bytes 78 to 80", f"Compression {compression} and CheckType {check}", "export it without")
    if kind >= len(KINDS):
        raise source.refuse("byte 79", f"DataType {kind} is none")
    order, start = _order(data, np.dtype(KINDS[kind]).itemsize)
    columns, profiles = struct.unpack_from(order + "HH", data, 42)
    scales = [_scale(source, order, at) for at in (46, 54, 62)]
    values = table_of(source, "the data", order + KINDS[kind], columns, profiles, data, start)
    found = Field(values, np.ones(values.shape, np.bool_), scales[2], scales[0], scales[1])
    found.keys += [
        (key, _text(data, at, size))
        for key, at, size in (("ManufacID", 8, 10), ("CreateDate", 18, 12), ("ModDate", 30, 12))
    ]
    if values.dtype.kind != "f" and not options.no_marks:
        _take_marks_away(source, found, options)
    return found


def _order(data: bytes, size: int) -> tuple[str, int]:
    """The order of bytes that goes with the length of the file, and where the data begin."""
    starts = (HEADER, LONG_HEADER) if data[:8] == b"bISO-1.0" else (HEADER,)
    for start in starts:
        for order in "<>":
            columns, profiles = struct.unpack_from(order + "HH", data, 42)
            if columns * profiles * size + start == len(data):
                return order, start
    little, big = (
        (struct.unpack_from(order + "H", data, 42)[0] * struct.unpack_from(order + "H", data, 44)[0]) * size
        for order in "<>"
    )
    return (">" if little + HEADER > len(data) >= big + HEADER else "<"), HEADER


def _scale(source: Source, order: str, at: int) -> Fraction:
    number = decimal_of_float(struct.unpack_from(order + "d", source.data, at)[0])
    if number is None or number <= 0:
        raise source.refuse(f"byte {at}", "a scale that is no number above 0")
    return number


def _text(data: bytes, at: int, size: int) -> str:
    text = data[at : at + size].split(b"\0")[0].decode("latin-1").strip()
    return "".join(c if " " <= c <= "~" else "?" for c in text)


def _take_marks_away(source: Source, found: Field, options: Options) -> None:
    limits = np.iinfo(found.values.dtype)
    mark = limits.min if limits.min < 0 else limits.max
    here = found.values == mark
    if limits.bits == 8 and here.any() and Fraction(int(mark)) not in options.missing:
        raise source.refuse(
            "the data",
            f"{int(np.count_nonzero(here))} points hold {mark}: readers disagree on whether " "they are missing",
            f"say which: --missing {mark}, or --missing none",
        )
    found.measured &= ~here
