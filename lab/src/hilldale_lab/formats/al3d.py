"""AL3D of Alicona: tags of text, and floats of 32 bits in metres.

Layout: Gwyddion's alicona.c (2.62). No file of the maker was tried.
"""

from __future__ import annotations

from fractions import Fraction

import numpy as np

from hilldale_lab.decimals import parse_decimal
from hilldale_lab.formats.field import Field, Options, Source, scale_of, table_of

NAME = "AL3D of Alicona"
MAGIC = b"AliconaImaging\0\r\n"
TAG, KEY, VALUE = 52, 20, 30


def recognises(source: Source) -> bool:
    """Whether the file begins as an AL3D does."""
    return source.data.startswith(MAGIC)


def read(source: Source, options: Options) -> Field:
    """The depth image. Raises InputRefused."""
    tags = _tags(source)
    columns, profiles, start = (_whole(source, tags, key) for key in ("Cols", "Rows", "DepthImageOffset"))
    if not start:
        raise source.refuse("the header", "there is no depth image")
    # A line is filled up to a multiple of 8 bytes.
    wide = (columns + 1) // 2 * 2
    values = table_of(source, "the depth image", "<f4", wide, profiles, source.data, start)[:, :columns]
    measured = np.isfinite(values)
    mark = tags.get("InvalidPixelValue", "")
    if mark.lower() not in ("", "nan"):
        if parse_decimal(mark) is None:
            raise source.refuse("the tag InvalidPixelValue", f"no number: {mark}")
        if not options.no_marks:
            measured &= values != np.float32(float(mark))
    dx, dy = (_distance(source, tags, key) for key in ("PixelSizeXMeter", "PixelSizeYMeter"))
    return Field(values, measured, Fraction(1), dx, dy, channel="Depth")


def _tags(source: Source) -> dict[str, str]:
    """The tags of the header; the second one tells how many more there are."""
    data, found = source.data, {}
    count, at = 2, len(MAGIC)
    while count:
        tag = data[at : at + TAG]
        if len(tag) < TAG or tag[-2:] != b"\r\n":
            raise source.refuse(f"byte {at}", "a tag that is not whole", "the file was cut off, or it is damaged")
        key, value = (part.split(b"\0")[0].decode("latin-1").strip() for part in (tag[:KEY], tag[KEY : KEY + VALUE]))
        found.setdefault(key, value)
        at, count = at + TAG, count - 1
        if len(found) == 2 and not count and key == "TagCount":
            count = min(_whole(source, found, "TagCount"), len(data) // TAG)
    return found


def _whole(source: Source, tags: dict[str, str], key: str) -> int:
    text = tags.get(key, "")
    if not text.isdecimal() or len(text) > 10:
        raise source.refuse(f"the tag {key}", f"no whole number: {text or 'absent'}")
    return int(text)


def _distance(source: Source, tags: dict[str, str], key: str) -> Fraction:
    number = scale_of(tags.get(key))
    if number is None:
        raise source.refuse(f"the tag {key}", f"no number above 0: {tags.get(key, 'absent')}")
    return number
