"""X3P of ISO 25178-72 (and ISO 5436-2): a zip with an XML, and the points in a binary part or in the XML.

Layout: the standard as the openGPS project publishes it, and Gwyddion's opengps.c (2.62). Points are little endian;
a bit of the valid points is set where a point is measured, the lowest bit of a byte first. The checksums of MD5 are
compared where the file has them. No file of a maker was tried.
"""

from __future__ import annotations

import hashlib
import re
from fractions import Fraction

import numpy as np
from numpy.typing import NDArray

from hilldale_lab.decimals import parse_decimal
from hilldale_lab.formats.archive import Archive, Leaves, leaves_of
from hilldale_lab.formats.field import Field, Options, Source, choose_channel, scale_of, table_of
from hilldale_lab.formats.lists import listed_numbers

NAME = "X3P"
KINDS = {"I": "<i2", "L": "<i4", "F": "<f4", "D": "<f8"}
AXES, LINK = "Record1/Axes/", "Record3/DataLink/"
DATUM = "Record3/DataList/Datum"
NO_CHECKSUM = "0" * 32


def recognises(source: Source) -> bool:
    """Whether the file is a zip with a part main.xml."""
    return source.data[:4] == b"PK\x03\x04" and b"main.xml" in source.data


def read(source: Source, options: Options) -> Field:
    """The surface, or the one of its layers that is named. Raises InputRefused."""
    archive = Archive(source)
    main = archive.part("main.xml", "the zip")
    leaves = leaves_of(source, main, DATUM)
    columns, profiles, layers = (_size(source, leaves, name) for name in ("SizeX", "SizeY", "SizeZ"))
    _check_axes(source, leaves)
    values, measured, power, notes = _points(source, archive, leaves, columns, profiles * layers)
    layer = choose_channel(source, ["" for _ in range(layers)], options.channel)
    part = np.s_[layer * profiles : (layer + 1) * profiles]
    number = Fraction(10) ** power
    found = Field(
        values[part],
        measured[part],
        _unit(source, leaves) * number,
        *(_distance(source, leaves, axis, size) for axis, size in (("CX", columns), ("CY", profiles))),
        number,
        notes=notes,
    )
    found.channel = f"{layer + 1} of {layers}" if layers > 1 else ""
    _check_main(source, archive, main, found)
    offset = parse_decimal(leaves.texts.get(AXES + "CZ/Offset", "0"))
    if offset:
        found.keys.append(("ZOffset", leaves.texts[AXES + "CZ/Offset"]))
        found.notes.append(f"the heights are as stored, without the offset of {leaves.texts[AXES + 'CZ/Offset']} m")
    return found


def _size(source: Source, leaves: Leaves, name: str) -> int:
    text = leaves.texts.get("Record3/MatrixDimension/" + name, "1" if name == "SizeZ" else "")
    if not re.fullmatch("[0-9]{1,9}", text) or int(text) < 1:
        raise source.refuse(f"main.xml, {name}", f"no whole number above 0: {text[:40]}")
    return int(text)


def _check_axes(source: Source, leaves: Leaves) -> None:
    kind = leaves.texts.get("Record1/FeatureType", "")
    if kind not in ("SUR", "PRF"):
        raise source.refuse("main.xml, FeatureType", f"{kind[:20] or 'nothing'}, and not SUR or PRF: no surface")
    for axis, wanted in (("CX", "I"), ("CY", "I"), ("CZ", "A")):
        found = leaves.texts.get(f"{AXES}{axis}/AxisType", wanted)
        if found != wanted and not (kind == "PRF" and axis == "CY"):
            raise source.refuse(f"main.xml, {axis}", f"the axis is of type {found[:20]}, and not {wanted}")


def _distance(source: Source, leaves: Leaves, axis: str, size: int) -> Fraction | None:
    """The metres of an increment; None where it is absent. Along an axis of one point it is of no account."""
    text = leaves.texts.get(f"{AXES}{axis}/Increment")
    number = scale_of(text)
    if text is not None and number is None and size > 1:
        raise source.refuse(f"main.xml, {axis}", f"the increment is {text[:40]}")
    return number


def _unit(source: Source, leaves: Leaves) -> Fraction:
    """The metres of the number 1: the increment of Z, which floats may be without."""
    text = leaves.texts.get(AXES + "CZ/Increment")
    if text is None and leaves.texts.get(AXES + "CZ/DataType", "") in ("F", "D"):
        return Fraction(1)
    number = scale_of(text)
    if number is None:
        raise source.refuse("main.xml, CZ", f"the increment is {(text or 'absent')[:40]}")
    return number


def _points(
    source: Source, archive: Archive, leaves: Leaves, columns: int, profiles: int
) -> tuple[NDArray, NDArray, int, list[str]]:
    """The points of all layers, which of them are measured, the power of ten of the number 1, and what to tell."""
    link, kind = leaves.texts.get(LINK + "PointDataLink"), leaves.texts.get(AXES + "CZ/DataType", "")
    if link is None:
        return *_listed(source, leaves, columns, profiles), []
    if kind not in KINDS:
        raise source.refuse(
            "main.xml, CZ", f"the type of the points is {kind[:20] or 'absent'}, and none of I, L, F, D"
        )
    data, notes = archive.part(link, "PointDataLink"), []
    _check(source, data, leaves.texts.get(LINK + "MD5ChecksumPointData"), link, notes)
    values = table_of(source, link, KINDS[kind], columns, profiles, data, 0)
    if values.nbytes != len(data):
        raise source.refuse(link, f"{len(data)} bytes, and {columns} by {profiles} points have {values.nbytes}")
    measured = np.ones(values.shape, np.bool_)
    valid_link = leaves.texts.get(LINK + "ValidPointsLink")
    if valid_link is not None:
        valid = archive.part(valid_link, "ValidPointsLink")
        _check(source, valid, leaves.texts.get(LINK + "MD5ChecksumValidPoints"), valid_link, notes)
        if len(valid) != (values.size + 7) // 8:
            raise source.refuse(
                valid_link, f"{len(valid)} bytes, and {values.size} points have {(values.size + 7) // 8}"
            )
        bits = np.unpackbits(np.frombuffer(valid, np.uint8), count=values.size, bitorder="little")
        measured = bits.astype(np.bool_).reshape(values.shape)
    return values, measured, 0, notes


def _listed(source: Source, leaves: Leaves, columns: int, profiles: int) -> tuple[NDArray, NDArray, int]:
    """The points of the XML: an empty datum is no measured point; of several numbers the last is the height."""
    data = re.sub(rb"(?m)^.*;", b"", leaves.lines) if b";" in leaves.lines else leaves.lines
    count = data.count(b"\n")
    if count != columns * profiles:
        raise source.refuse("main.xml, DataList", f"{count} data, and {columns} by {profiles} points are named")
    values, measured, power = listed_numbers(source, data)
    return values.reshape(profiles, columns), measured.reshape(profiles, columns), power


def _check(source: Source, data: bytes, named: str | None, what: str, notes: list[str]) -> None:
    """Compares the checksum of a part with the one that is named."""
    wanted = (named or "").strip().lower()
    if wanted in ("", NO_CHECKSUM):
        notes.append(f"{what} has no checksum")
    elif hashlib.md5(data, usedforsecurity=False).hexdigest() != wanted:
        raise source.refuse(what, "its MD5 is another than the file names", "the file is damaged: get it anew")


def _check_main(source: Source, archive: Archive, main: bytes, found: Field) -> None:
    """Compares the checksum of main.xml, which stands in md5checksum.hex."""
    if "md5checksum.hex" not in archive.names():
        found.notes.append("main.xml has no checksum")
        return
    named = archive.part("md5checksum.hex", "the zip")[:32].decode("latin-1")
    _check(source, main, named, "main.xml", found.notes)
