"""Surface files as hilldale reads them: ASCII SDF of ISO 25178-71, with whole numbers or decimals, exactly."""

from __future__ import annotations

import os
import re
from collections.abc import Iterator
from dataclasses import dataclass, field
from fractions import Fraction
from pathlib import Path

import numpy as np
from numpy.typing import NDArray

from hilldale_lab.decimals import (
    NotDecimal,
    TooManySteps,
    decimal_text,
    parse_decimal,
    read_decimals,
    token_bounds,
)
from hilldale_lab.errors import InputRefused, LabError
from hilldale_lab.height_map import HeightMap

MOST_POINTS = 4_194_304
MOST_IN_A_LINE = 65_535
MOST_BYTES = 268_435_456
MOST_STEPS = 2**53
MOST_KEYS = 240
VERSIONS = ("aBCR-1.0", "aISO-1.0")
DECIMAL_TYPES = (3, 7)
# What stands for a point without a height while numbers are read; no height has this number.
UNMEASURED = -(2**63)
NAMED_KEYS = ("NumPoints", "NumProfiles", "Xscale", "Yscale", "Zscale", "Compression", "DataType", "CheckType")
KEPT_KEYS = ("ManufacID", "CreateDate", "ModDate", "Zresolution")
BLANKS = (b" ", b"\t", b"\r", b"\n", b"")
IS_BLANK = np.isin(np.arange(256, dtype=np.uint8), list(b" \t\r\n"))
IS_WHOLE = np.isin(np.arange(256, dtype=np.uint8), list(b"+-0123456789"))


@dataclass(frozen=True)
class Header:
    """The header of an ASCII SDF file: its version, its keys in order, the line of each, and where the data begin."""

    version: str
    keys: tuple[tuple[str, str], ...]
    lines: dict[str, int] = field(repr=False)
    data_at: int
    data_line: int

    def text(self, key: str) -> str | None:
        """The value of a key, whatever its case, or None where it is absent."""
        return next((value for name, value in self.keys if name.lower() == key.lower()), None)

    def place(self, key: str) -> str:
        """Where a key stands, as `line 3`."""
        return f"line {self.lines[key.lower()]}" if key.lower() in self.lines else "the header"


def read(path: str | os.PathLike[str]) -> HeightMap:
    """The surface of a file that hilldale reads. Its steps are hilldale's: of the types 3 and 7 the last written place.

    Raises InputRefused where hilldale refuses the file, and OSError where it cannot be read.
    """
    name = os.fspath(path)
    if os.path.getsize(path) > MOST_BYTES:
        raise InputRefused(name, "", f"there are more than {MOST_BYTES} bytes")
    return parse(Path(path).read_bytes(), name)


def parse(data: bytes, name: str) -> HeightMap:
    """The surface that these bytes of a file give. Raises InputRefused."""
    header = read_header(data, name)
    if header.version not in VERSIONS:
        raise InputRefused(
            name,
            "line 1",
            f"{header.version} is no version that hilldale reads",
            "make a surface file of it: hilldale-lab import",
        )
    return surface_of(header, data, name, is_written_places=True)


def read_header(data: bytes, name: str) -> Header:
    """The header of an ASCII SDF file of any version. Raises InputRefused."""
    end = data.find(b"\n")
    version = data[: end if end >= 0 else None][:64].strip(b" \t\r").decode("latin-1")
    if not re.fullmatch(r"a(BCR|ISO)-[0-9]+\.[0-9]+", version):
        raise InputRefused(name, "line 1", "no version of ASCII SDF")
    keys: list[tuple[str, str]] = []
    lines: dict[str, int] = {}
    for number, line, end in _lines(data, end + 1):
        text = line.strip(b" \t\r")
        if text == b"*":
            return Header(version, tuple(keys), lines, end, number + 1)
        if not text or text.startswith(b";"):
            continue
        key, is_key, value = (part.decode("latin-1") for part in text.partition(b"="))
        key, value = key.strip(" \t\r"), value.strip(" \t\r")
        if not is_key or not key or len(line) > 1024:
            raise InputRefused(name, f"line {number}", f'"{text[:40].decode("latin-1")}" is no `Key = value`')
        if key.lower() in lines:
            raise InputRefused(name, f"line {number}", f"the key {key} stood in line {lines[key.lower()]} before")
        keys.append((key, value))
        lines[key.lower()] = number
    raise InputRefused(name, "the header", "no line `*` ends it")


def _lines(data: bytes, at: int) -> Iterator[tuple[int, bytes, int]]:
    """The lines from line 2 on: the number, the line, and where the next one begins."""
    number = 2
    while 0 < at < len(data):
        end = data.find(b"\n", at)
        stop = len(data) if end < 0 else end
        yield number, data[at:stop], min(stop + 1, len(data))
        at, number = stop + 1, number + 1


def surface_of(header: Header, data: bytes, name: str, is_written_places: bool) -> HeightMap:
    """The surface of a file with this header. Where the places are as written, a step is the last one that a datum has;
    else the greatest power of ten that divides all. Raises InputRefused."""
    columns, profiles = (_whole(header, key, name, least=1) for key in ("NumPoints", "NumProfiles"))
    kind = _whole(header, "DataType", name, least=0)
    for key in ("Compression", "CheckType"):
        if header.text(key) is not None and _whole(header, key, name, least=0):
            raise InputRefused(name, header.place(key), f"{key} = {header.text(key)} is not read", "export it without")
    dx, dy, unit = (scale(header, key, name) for key in ("Xscale", "Yscale", "Zscale"))
    steps, power = _data(data, header, columns * profiles, kind in DECIMAL_TYPES, is_written_places, name)
    table = steps.reshape(profiles, columns)
    measured = table != UNMEASURED
    table[~measured] = 0
    kept = tuple(key for key in header.keys if key[0].lower() not in {name.lower() for name in NAMED_KEYS})
    return HeightMap(table, measured, unit * Fraction(10) ** power, dx, dy, kept)


def _whole(header: Header, key: str, name: str, least: int) -> int:
    text = header.text(key)
    if text is None:
        raise InputRefused(name, "the header", f"the key {key} is missing")
    if not re.fullmatch(r"[+-]?[0-9]{1,30}", text) or int(text) < least:
        raise InputRefused(name, header.place(key), f"{key} = {text[:40]} is no whole number of at least {least}")
    return int(text)


def scale(header: Header, key: str, name: str) -> Fraction:
    """The decimal that a key of the header gives. Raises InputRefused."""
    text = header.text(key)
    number = None if text is None else parse_decimal(text)
    if number is None:
        raise InputRefused(name, header.place(key), f"{key} is no decimal: {(text or 'absent')[:40]}")
    return number


def _data(
    data: bytes, header: Header, count: int, is_decimal: bool, is_written_places: bool, name: str
) -> tuple[NDArray[np.int64], int]:
    """The heights, UNMEASURED where a point has none, and the power of ten that a step is. Raises InputRefused."""
    end = _data_end(data, header.data_at)
    if count > (end - header.data_at + 1) // 2:
        raise InputRefused(name, "the data", f"{count} points are named, and {end - header.data_at} bytes are there")
    text = np.frombuffer(data, np.uint8, end - header.data_at, header.data_at)
    starts, ends = token_bounds(text, IS_BLANK[text])
    if len(starts) != count:
        raise InputRefused(name, "the data", f"{len(starts)} data are there, and the header names {count} points")
    if not is_decimal:
        found = whole_numbers(data[header.data_at : end], count)
        if found is not None:
            return found, 0
    is_bad = (ends - starts == 3) & (text[starts] == ord("B"))
    is_bad[is_bad] = [text[at : at + 3].tobytes() == b"BAD" for at in starts[is_bad].tolist()]
    try:
        numbers = read_decimals(text, starts[~is_bad], ends[~is_bad])
        written = int(numbers.exponents.min(initial=0))
        power = written if is_written_places else numbers.last_power()
        steps = np.full(count, UNMEASURED)
        steps[~is_bad] = numbers.steps(power)
    except NotDecimal as error:
        index = int(np.flatnonzero(~is_bad)[error.index])
        token = text[starts[index] : ends[index]][:40].tobytes().decode("latin-1")
        raise InputRefused(name, f"datum {index + 1}", f'"{token}" is no number or BAD') from error
    except TooManySteps as error:
        raise InputRefused(name, "the data", "heights are beyond 2^53 steps", "export fewer digits") from error
    if not is_decimal and written < 0:
        raise InputRefused(name, "the data", "decimals, and DataType is one of whole numbers", "write DataType = 7")
    return steps, power


def _data_end(data: bytes, start: int) -> int:
    """Where the token `*` after the data stands, or the end of the file."""
    at = data.find(b"*", start)
    while at >= 0:
        if data[at - 1 : at] in BLANKS and data[at + 1 : at + 2] in BLANKS:
            return at
        at = data.find(b"*", at + 1)
    return len(data)


def whole_numbers(data: bytes, count: int) -> NDArray[np.int64] | None:
    """The whole numbers of a text that has nothing else but BAD, or None where it is not so simple."""
    if re.search(rb"BAD[^ \t\r\n]", data):
        return None
    marked = data.replace(b"BAD", b"-9223372036854775808")
    text = np.frombuffer(marked, np.uint8)
    blank = IS_BLANK[text]
    sign = (text == ord("-")) | (text == ord("+"))
    if not (blank | IS_WHOLE[text]).all() or (sign[1:] & ~blank[:-1]).any() or (sign[:-1] & blank[1:]).any():
        return None
    if sign[-1:].any():
        return None
    numbers = np.fromstring(marked, np.int64, sep=" ")
    is_bad = numbers == UNMEASURED
    # The least number of 64 bits stands for BAD, and where it stands itself it would pass for one.
    if len(numbers) != count or np.count_nonzero(is_bad) != data.count(b"BAD"):
        return None
    return None if (~is_bad & (np.abs(numbers) > MOST_STEPS)).any() else numbers


def encode(surface: HeightMap, version: str = "aISO-1.0") -> bytes:
    """The bytes of a surface file, with DataType 6, or 7 where a height needs more than 32 bits.

    Raises LabError where the surface is none that hilldale reads: too many points, a scale that is no decimal of 38
    digits, a height beyond 2^53 steps, too many or too long keys.
    """
    if surface.measured.size > MOST_POINTS or max(surface.measured.shape) > MOST_IN_A_LINE:
        raise LabError(
            f"{surface.columns} by {surface.profiles} points are more than hilldale reads: it reads "
            f"{MOST_POINTS} in all and {MOST_IN_A_LINE} in a line"
        )
    least, greatest = surface.least or 0, surface.greatest or 0
    if max(-least, greatest) > MOST_STEPS:
        raise LabError(f"heights from {least} to {greatest} steps are beyond 2^53")
    kind = 6 if -(2**31) <= least and greatest < 2**31 else 7
    lines = [version, *_header_lines(surface, kind), "*"]
    table = np.where(surface.measured, surface.steps, UNMEASURED)
    rows = "\n".join(" ".join(map(str, row)) for row in table.tolist()).replace(str(UNMEASURED), "BAD")
    return ("\n".join(lines) + "\n" + rows + "\n*\n").encode("latin-1")


def _header_lines(surface: HeightMap, kind: int) -> Iterator[str]:
    given = {key.lower(): value for key, value in surface.keys}
    scales = {}
    for key, number in (("Xscale", surface.dx), ("Yscale", surface.dy), ("Zscale", surface.step)):
        text = decimal_text(number)
        if text is None:
            raise LabError(f"{key} is no decimal of at most 38 digits: {number}")
        scales[key] = text
    known = {
        "ManufacID": given.get("manufacid", "hilldale-lab"),
        "CreateDate": given.get("createdate", "000000000000"),
        "ModDate": given.get("moddate", "000000000000"),
        "NumPoints": surface.columns,
        "NumProfiles": surface.profiles,
        **scales,
        "Zresolution": given.get("zresolution", "-1"),
        "Compression": 0,
        "DataType": kind,
        "CheckType": 0,
    }
    kept = {key.lower() for key in known}
    further = [(key, value) for key, value in surface.keys if key.lower() not in kept]
    if len({key.lower() for key, _ in further}) < len(further) or len(further) > MOST_KEYS:
        raise LabError(f"a key of the header comes twice, or there are more than {MOST_KEYS} further ones")
    for key, value in [*known.items(), *further]:
        if not re.fullmatch(r"[!-:<>-~]([ -<>-~]{0,62}[!-<>-~])?", key) or "\n" in str(value) or len(str(value)) > 896:
            raise LabError(f"the key {key} or its value has not the form of a header line")
        yield f"{key} = {value}".rstrip()


def write(path: str | os.PathLike[str], surface: HeightMap) -> None:
    """Writes a surface file; an older one of that name is replaced when the new one is whole. Raises as `encode`."""
    replace_file(path, encode(surface))


def replace_file(path: str | os.PathLike[str], data: bytes) -> None:
    """Writes a file whole beside the old one, and then puts it in its place; nobody may do more with it than with the
    old one. What is no file, as a pipe, is written as it stands. Raises LabError, with status 6, where it cannot be
    written."""
    target = Path(os.path.realpath(path))
    try:
        if target.exists() and not target.is_file():
            target.write_bytes(data)
            return
        allowed = target.stat().st_mode & 0o666 if target.exists() else 0o666
        beside = target.with_name(f"{target.name}.new{os.getpid()}")
        beside.unlink(missing_ok=True)
        try:
            with open(os.open(beside, os.O_WRONLY | os.O_CREAT | os.O_EXCL, allowed), "wb") as file:
                file.write(data)
            os.replace(beside, target)
        finally:
            beside.unlink(missing_ok=True)
    except OSError as error:
        raise LabError(f"cannot write {os.fspath(path)}: {error.strerror}", status=6) from error
