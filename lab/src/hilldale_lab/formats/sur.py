"""SUR: surfaces of MountainsMap, of 16 and 32 bits, compressed by zlib or not, and series of them.

Layout: the header of 512 bytes as in Gwyddion's surffile.c (2.62); the blocks of a compressed file (their number, then
the length of each and its compressed length, then the blocks), the mark of a missing point, two below the least value
where the flag of special points is set, and series, whose surfaces have a header each, as in HyperSpy's sur.py (1.7.3).
Compressed files of a maker that come with HyperSpy were tried; the other order of bytes is Gwyddion's and untried.
"""

from __future__ import annotations

import struct
import zlib
from fractions import Fraction

import numpy as np

from hilldale_lab.formats.field import Field, Options, Source, choose_channel, decimal_of_float, length_unit, table_of

NAME = "SUR of MountainsMap"
PLAIN, COMPRESSED = b"DIGITAL SURF", b"DSCOMPRESSED"
HEADER = 512
# Where each stands in the header.
FORMAT, OBJECTS, TYPE, TITLE, SPECIAL, WIDE, BITS, LEAST, SIZES = 12, 14, 18, 20, 86, 94, 98, 100, 108
SPACINGS, UNITS, LENGTH_UNITS, RATIOS, INVERTED, COMMENTS, OFFSET = 120, 180, 228, 276, 290, 334, 474
# Kinds of objects that are no surface.
OTHERS = {
    3: "a binary image",
    10: "an image of intensities",
    12: "a picture",
    14: "a force curve",
    20: "a spectrum",
    21: "a map of spectra",
}
MACINTOSH = 0x0101
MOST_OBJECTS = 10_000


def recognises(source: Source) -> bool:
    """Whether the file begins as a SUR does."""
    return source.data[:12] in (PLAIN, COMPRESSED)


def read(source: Source, options: Options) -> Field:
    """The surface, or the one of a series that is named. Raises InputRefused."""
    if len(source.data) < HEADER:
        raise source.refuse("the header", f"{len(source.data)} bytes, and it has {HEADER}", "the file was cut off")
    starts = _starts(source)
    count = len(starts)
    titles = [_text(source, start + TITLE, 30) for start in starts]
    index = choose_channel(source, titles, options.channel)
    found = _surface(source, starts[index], options)
    found.channel = f"{index + 1} of {count} {titles[index]}".strip() if count > 1 else titles[index]
    return found


def _starts(source: Source) -> list[int]:
    """Where the surfaces of the file begin, at least as many as its header names."""
    count = struct.unpack_from(_order(source, 0) + "H", source.data, OBJECTS)[0]
    starts, end = [0], _end(source, 0)
    while source.data[end : end + 12] in (PLAIN, COMPRESSED) and len(starts) < MOST_OBJECTS:
        starts.append(end)
        end = _end(source, end)
    if len(starts) < count:
        raise source.refuse(
            f"byte {end}", f"{count} surfaces are named, and {len(starts)} are there", "the file was cut off"
        )
    return starts


def _order(source: Source, start: int) -> str:
    return ">" if struct.unpack_from("<H", source.data, start + FORMAT)[0] == MACINTOSH else "<"


def _text(source: Source, at: int, size: int) -> str:
    return source.data[at : at + size].split(b"\0")[0].decode("latin-1").strip()


def _points(source: Source, start: int) -> tuple[str, int, int, int]:
    """The kind of the numbers, the columns, the profiles, and where the points begin."""
    data = source.data
    if len(data) < start + HEADER:
        raise source.refuse(f"byte {start}", "the header ends too early", "the file was cut off")
    order = _order(source, start)
    bits = struct.unpack_from(order + "h", data, start + BITS)[0]
    columns, profiles = struct.unpack_from(order + "ii", data, start + SIZES)
    comment, private = struct.unpack_from(order + "HH", data, start + COMMENTS)
    if bits not in (16, 32):
        raise source.refuse(f"byte {start + BITS}", f"points of {bits} bits, and not 16 or 32")
    return f"{order}i{bits // 8}", columns, profiles, start + HEADER + comment + private


def _end(source: Source, start: int) -> int:
    """Where an object ends. A map of spectra has several numbers for each point."""
    kind, columns, profiles, at = _points(source, start)
    if source.data[start : start + 12] == COMPRESSED:
        return _blocks(source, at)[1]
    wide = max(struct.unpack_from(_order(source, start) + "i", source.data, start + WIDE)[0], 1)
    return at + table_of(source, "the points", kind, columns * wide, profiles, source.data, at).nbytes


def _blocks(source: Source, at: int) -> tuple[list[tuple[int, int, int]], int]:
    """The compressed blocks, each as its place, its length here and unfolded, and where the last one ends."""
    data = source.data
    count = struct.unpack_from("<I", data, at)[0] if len(data) >= at + 4 else 0
    if not 1 <= count <= (len(data) - at - 4) // 8:
        raise source.refuse(f"byte {at}", f"{count} compressed blocks", "the file was cut off, or it is damaged")
    blocks, place = [], at + 4 + 8 * count
    for index in range(count):
        unfolded, size = struct.unpack_from("<II", data, at + 4 + 8 * index)
        blocks.append((place, size, unfolded))
        place += size
    if place > len(data):
        raise source.refuse(f"byte {at}", "the compressed blocks end beyond the file", "the file was cut off")
    return blocks, place


def _unfolded(source: Source, at: int, wanted: int) -> bytes:
    """The points of a compressed surface: no more than are wanted are ever unfolded."""
    blocks, _ = _blocks(source, at)
    if sum(unfolded for _, _, unfolded in blocks) != wanted:
        raise source.refuse(
            f"byte {at}", f"the compressed blocks unfold to other than the {wanted} bytes of the points"
        )
    parts = []
    for place, size, unfolded in blocks:
        worker = zlib.decompressobj()
        try:
            part = worker.decompress(source.data[place : place + size], max(unfolded, 1))
        except zlib.error as error:
            raise source.refuse(f"byte {place}", f"a compressed block is damaged: {error}") from error
        if len(part) != unfolded or worker.unconsumed_tail:
            raise source.refuse(f"byte {place}", f"a compressed block unfolds to other than its {unfolded} bytes")
        parts.append(part)
    return b"".join(parts)


def _surface(source: Source, start: int, options: Options) -> Field:
    data, order = source.data, _order(source, start)
    what, wide = (struct.unpack_from(order + form, data, start + at)[0] for form, at in (("h", TYPE), ("i", WIDE)))
    if wide not in (0, 1) or what in OTHERS:
        raise source.refuse(
            f"byte {start + TYPE}", f"{OTHERS.get(what, 'several numbers for each point')}, and no surface"
        )
    kind, columns, profiles, at = _points(source, start)
    if data[start : start + 12] == COMPRESSED:
        wanted = columns * profiles * np.dtype(kind).itemsize
        # zlib makes a thousandth of what repeats itself, and never less.
        if columns < 1 or profiles < 1 or wanted > 1100 * len(data):
            raise source.refuse(f"byte {start + SIZES}", f"{columns} by {profiles} points, in {len(data)} bytes")
        values = table_of(source, "the points", kind, columns, profiles, _unfolded(source, at, wanted), 0)
    else:
        values = table_of(source, "the points", kind, columns, profiles, data, at)
    spacings = np.frombuffer(data, order + "f4", 3, start + SPACINGS).astype(np.float32)
    scales = [_scale(source, start, axis, spacings[axis]) for axis in range(3)]
    found = Field(values, np.ones(values.shape, np.bool_), scales[2], scales[0], scales[1])
    found.spacing = decimal_of_float(spacings[2]) or Fraction(1)
    _tell_marks(found, data, order, start, options)
    _tell_more(source, found, order, start)
    return found


def _scale(source: Source, start: int, axis: int, spacing: np.float32) -> Fraction | None:
    """The metres of one step of an axis, by the shortest decimal of its float of 32 bits; None where its unit is none
    of a length."""
    name = _text(source, start + UNITS + 16 * axis, 16).replace("\u00e6m", "\u00b5m")
    number = decimal_of_float(spacing)
    if number is None or number <= 0:
        raise source.refuse(f"byte {start + SPACINGS + 4 * axis}", f"the spacing of {'XYZ'[axis]} is {spacing}")
    unit = length_unit(name)
    return None if unit is None else number * unit


def _tell_marks(found: Field, data: bytes, order: str, start: int, options: Options) -> None:
    """Takes the marks of missing points away, or tells of such numbers where the file says that it has none."""
    special = struct.unpack_from(order + "h", data, start + SPECIAL)[0]
    least, greatest = struct.unpack_from(order + "ii", data, start + LEAST)
    if options.no_marks:
        return
    here = found.values == least - 2
    count = int(np.count_nonzero(here))
    if special:
        found.measured &= ~here
    elif count:
        found.notes.append(
            f"{count} points hold {least - 2}, the mark of a missing point, and the file says that it "
            f"has none: where they are missing, give --missing {least - 2}"
        )
    inside = found.values[found.measured]
    beyond = int(np.count_nonzero((inside < least) | (inside > greatest)))
    if beyond:
        found.notes.append(f"{beyond} points lie outside the {least} to {greatest} that the file names")


def _tell_more(source: Source, found: Field, order: str, start: int) -> None:
    offset = decimal_of_float(np.frombuffer(source.data, order + "f4", 1, start + OFFSET).astype(np.float32)[0])
    if offset:
        found.keys.append(("ZOffset", f"{float(offset)!r} {_text(source, start + UNITS + 32, 16)}".strip()))
        found.notes.append(f"the heights are as stored, without the offset of Z that the file names, {float(offset)!r}")
    step, whole = (length_unit(_text(source, start + at + 32, 16)) for at in (UNITS, LENGTH_UNITS))
    ratio = decimal_of_float(np.frombuffer(source.data, order + "f4", 1, start + RATIOS + 8).astype(np.float32)[0])
    if step and whole and ratio not in (1, step / whole):
        found.notes.append(f"the file names a ratio of {ratio} of its units of Z, which is not used")
    inverted = struct.unpack_from(order + "h", source.data, start + INVERTED)[0]
    if inverted:
        found.notes.append(f"the file says that it was inverted or flipped ({inverted}): the heights are as stored")
