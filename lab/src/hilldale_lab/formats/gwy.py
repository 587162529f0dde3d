"""GWY: the own files of Gwyddion, of version 2 (`GWYP`).

Layout: the public description in Gwyddion's user guide ("Gwyddion Native Data Files"): objects of named components,
little endian. A channel is `/N/data`, its mask `/N/mask`; a masked point is one without a height, as Gwyddion's own
readers leave them. Tried on what Gwyddion 2.62 writes.
"""

from __future__ import annotations

import re
import struct
from dataclasses import dataclass
from fractions import Fraction
from typing import Any

import numpy as np
from numpy.typing import NDArray

from hilldale_lab.formats.field import Field, Options, Source, choose_channel, decimal_of_float, length_unit

NAME = "GWY of Gwyddion"
MAGIC = b"GWYP"
DEEPEST = 32
SIZES = {"b": 1, "c": 1, "i": 4, "q": 8, "d": 8}
ARRAYS = {"C": "<i1", "I": "<i4", "Q": "<i8", "D": "<f8"}


def recognises(source: Source) -> bool:
    """Whether the file begins as a GWY does."""
    return source.data[:4] in (MAGIC, b"GWYO", b"GWYQ")


@dataclass(frozen=True)
class Thing:
    """An object of a GWY: its name and its components, each a number, text, table of numbers or another one."""

    name: str
    parts: dict[str, Any]


def read(source: Source, options: Options) -> Field:
    """The channel, or the one that is named. Raises InputRefused."""
    if source.data[:4] != MAGIC:
        raise source.refuse(
            "byte 0", f"version {source.data[:4].decode('latin-1')}, and not GWYP", "save it by Gwyddion 2"
        )
    top, _ = _Reader(source).thing(4, len(source.data), 0)
    fields = {
        int(key.split("/")[1]): part
        for key, part in top.parts.items()
        if re.fullmatch("/[0-9]{1,9}/data", key) and isinstance(part, Thing) and part.name == "GwyDataField"
    }
    numbers = sorted(fields)
    titles = [str(top.parts.get(f"/{number}/data/title", "")) for number in numbers]
    index = choose_channel(source, titles, options.channel)
    mask = top.parts.get(f"/{numbers[index]}/mask")
    return _field(source, fields[numbers[index]], mask, titles[index], options)


def _field(source: Source, data: Thing, mask: Any, title: str, options: Options) -> Field:
    values = _table(source, data, "data")
    measured = np.isfinite(values)
    notes = []
    if isinstance(mask, Thing):
        masked = _table(source, mask, "mask") > 0
        if masked.shape != values.shape:
            raise source.refuse("the mask", "it has another size than the data")
        count = int(np.count_nonzero(masked))
        if count and options.keep_masked:
            notes.append(f"{count} masked points are kept as heights")
        elif count:
            notes.append(f"{count} masked points are taken as missing: --keep-masked keeps them as heights")
            measured &= ~masked
    lateral = _unit(data, "si_unit_xy")
    profiles, columns = values.shape
    dx, dy = (_distance(source, data, key, size, lateral) for key, size in (("xreal", columns), ("yreal", profiles)))
    return Field(values, measured, _unit(data, "si_unit_z"), dx, dy, channel=title, notes=notes)


def _table(source: Source, data: Thing, what: str) -> NDArray[np.float64]:
    columns, profiles, values = (data.parts.get(key) for key in ("xres", "yres", "data"))
    if not isinstance(columns, int) or not isinstance(profiles, int) or not isinstance(values, np.ndarray):
        raise source.refuse(what, "no size or no numbers")
    if columns < 1 or profiles < 1 or columns * profiles != len(values) or values.dtype != np.dtype("<f8"):
        raise source.refuse(what, f"{columns} by {profiles} points are named, and {len(values)} numbers are there")
    return values.reshape(profiles, columns)


def _unit(data: Thing, key: str) -> Fraction | None:
    unit = data.parts.get(key)
    return length_unit(str(unit.parts.get("unitstr", ""))) if isinstance(unit, Thing) else None


def _distance(source: Source, data: Thing, key: str, size: int, unit: Fraction | None) -> Fraction | None:
    length = decimal_of_float(data.parts[key]) if isinstance(data.parts.get(key), float) else None
    if length is None or length <= 0:
        raise source.refuse("the data", f"{key} is no number above 0")
    return None if unit is None else length * unit / size


class _Reader:
    """Reads objects; each stays within the one around it."""

    def __init__(self, source: Source) -> None:
        self.source, self.data = source, source.data

    def fault(self, at: int, found: str) -> Exception:
        return self.source.refuse(f"byte {at}", found, "the file was cut off, or it is damaged")

    def word(self, at: int, end: int) -> tuple[str, int]:
        """A text that a byte of 0 ends, and where it ends."""
        stop = self.data.find(b"\0", at, end)
        if stop < 0:
            raise self.fault(at, "a text that does not end")
        return self.data[at:stop].decode("utf-8", "replace"), stop + 1

    def whole(self, at: int, end: int) -> int:
        if at + 4 > end:
            raise self.fault(at, "a number that is not whole")
        return struct.unpack_from("<I", self.data, at)[0]

    def thing(self, at: int, end: int, depth: int) -> tuple[Thing, int]:
        """An object and where it ends."""
        if depth > DEEPEST:
            raise self.fault(at, "objects within objects, too deep")
        name, at = self.word(at, end)
        stop = at + 4 + self.whole(at, end)
        if stop > end:
            raise self.fault(at, f"an object {name[:40]} that ends beyond what is around it")
        at += 4
        parts: dict[str, Any] = {}
        while at < stop:
            key, at = self.word(at, stop)
            parts[key], at = self.part(at, stop, depth)
        return Thing(name, parts), stop

    def part(self, at: int, end: int, depth: int) -> tuple[Any, int]:
        """A component behind its name, and where it ends."""
        kind = chr(self.data[at]) if at < end else ""
        at += 1
        if kind in SIZES:
            if at + SIZES[kind] > end:
                raise self.fault(at, "a number that is not whole")
            return (
                struct.unpack_from("<" + kind.replace("b", "?").replace("c", "b"), self.data, at)[0],
                at + SIZES[kind],
            )
        if kind == "s":
            return self.word(at, end)
        if kind == "o":
            return self.thing(at, end, depth + 1)
        if kind in ARRAYS:
            return self.table(at, end, ARRAYS[kind])
        if kind in "SO" and kind:
            return self.several(at, end, kind, depth)
        raise self.fault(at - 1, f"a component of an unknown kind {kind!r}")

    def table(self, at: int, end: int, kind: str) -> tuple[NDArray, int]:
        count, at = self.whole(at, end), at + 4
        stop = at + count * np.dtype(kind).itemsize
        if stop > end:
            raise self.fault(at, f"{count} numbers that are not there")
        return np.frombuffer(self.data, kind, count, at), stop

    def several(self, at: int, end: int, kind: str, depth: int) -> tuple[list[Any], int]:
        count, at = self.whole(at, end), at + 4
        if count > end - at:
            raise self.fault(at, f"{count} parts that are not there")
        found = []
        for _ in range(count):
            part, at = self.word(at, end) if kind == "S" else self.thing(at, end, depth + 1)
            found.append(part)
        return found, at
