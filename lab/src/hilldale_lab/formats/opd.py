"""OPD of Wyko and Veeco: named blocks, and heights in waves of light, column by column and from the last profile up.

Layout: Gwyddion's opdfile.c (2.62). No file of the maker was tried.
"""

from __future__ import annotations

import struct
from dataclasses import dataclass
from fractions import Fraction

import numpy as np

from hilldale_lab.formats.field import Field, Options, Source, choose_channel, decimal_of_float, table_of

NAME = "OPD of Wyko"
MAGIC = b"\x01\x00Directory"
BLOCK = 24
ARRAY, SHORT, FLOAT = 3, 6, 7
HEIGHTS = ("OPD", "SAMPLE_DATA", "RAW_DATA", "RAW DATA", "Raw")
KINDS = {4: "<f4", 2: "<i2", 1: "<u1"}
BAD_FLOAT, BAD_SHORT = 1e38, 32766
NANOMETRE, MILLIMETRE = Fraction(1, 10**9), Fraction(1, 1000)


def recognises(source: Source) -> bool:
    """Whether the file begins as an OPD does."""
    return source.data.startswith(MAGIC)


@dataclass(frozen=True)
class Block:
    """A block: its name, its kind, and where it stands."""

    name: str
    kind: int
    at: int
    size: int


def read(source: Source, options: Options) -> Field:
    """The heights, or the block of them that is named. Raises InputRefused."""
    blocks = _blocks(source)
    heights = [block for block in blocks if block.name in HEIGHTS and block.kind == ARRAY]
    block = heights[choose_channel(source, [block.name for block in heights], options.channel)]
    if block.size < 6:
        raise source.refuse(f"the block {block.name}", "it is too short for its sizes")
    columns, profiles, size = struct.unpack_from("<HHH", source.data, block.at)
    if size not in KINDS:
        raise source.refuse(f"the block {block.name}", f"numbers of kind {size}, and not 1, 2 or 4")
    inside = memoryview(source.data)[block.at + 6 : block.at + block.size]
    stored = table_of(source, f"the block {block.name}", KINDS[size], profiles, columns, inside, 0)
    values = stored.T[::-1]
    measured = np.ones(values.shape, np.bool_)
    if size > 1 and not options.no_marks:
        measured = values < (BAD_FLOAT if size == 4 else BAD_SHORT)
    wave, pixel, aspect, parts = (
        _number(source, blocks, *key)
        for key in (("Wavelength", FLOAT, None), ("Pixel_size", FLOAT, None), ("Aspect", FLOAT, 1), ("Mult", SHORT, 1))
    )
    return Field(
        values, measured, wave * NANOMETRE / parts, pixel * MILLIMETRE, pixel * MILLIMETRE * aspect, channel=block.name
    )


def _blocks(source: Source) -> list[Block]:
    """The blocks that the directory names; they follow each other."""
    data = source.data
    if len(data) < 2 + BLOCK:
        raise source.refuse("the directory", "it is not whole", "the file was cut off")
    size = struct.unpack_from("<I", data, 2 + 18)[0]
    if size // BLOCK < 1 or 2 + size > len(data):
        raise source.refuse("the directory", f"{size} bytes that are not there", "the file was cut off")
    found, at = [], 2 + size
    for index in range(1, size // BLOCK):
        name, kind, length = struct.unpack_from("<16sHI", data, 2 + BLOCK * index)
        if at + length > len(data):
            raise source.refuse(
                f"byte {2 + BLOCK * index}", "a block that ends beyond the file", "the file was cut off"
            )
        if length:
            found.append(Block(name.split(b"\0")[0].decode("latin-1").strip(), kind, at, length))
        at += length
    return found


def _number(source: Source, blocks: list[Block], name: str, kind: int, default: int | None) -> Fraction:
    """A number above 0 that a block of this kind holds."""
    block = next((block for block in blocks if block.name == name), None)
    if block is None and default is not None:
        return Fraction(default)
    form, size = ("<f", 4) if kind == FLOAT else ("<h", 2)
    if block is None or block.kind != kind or block.size < size:
        raise source.refuse(f"the block {name}", "it is missing, or of another kind")
    value = struct.unpack_from(form, source.data, block.at)[0]
    number = decimal_of_float(np.float32(value)) if kind == FLOAT else Fraction(value)
    if number is None or number <= 0:
        raise source.refuse(f"the block {name}", f"{value} is no number above 0")
    return number
