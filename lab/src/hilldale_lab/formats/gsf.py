"""GSF: Gwyddion Simple Field 1.0, a text header and floats of 32 bits.

Layout: the public description in Gwyddion's user guide ("Gwyddion Simple Field"). Tried on what Gwyddion 2.62 writes.
"""

from __future__ import annotations

from fractions import Fraction

import numpy as np

from hilldale_lab.formats.field import Field, Options, Source, length_unit, scale_of, table_of

NAME = "GSF of Gwyddion"
MAGIC = b"Gwyddion Simple Field 1.0\n"


def recognises(source: Source) -> bool:
    """Whether the file begins as a GSF does."""
    return source.data.startswith(MAGIC)


def read(source: Source, options: Options) -> Field:
    """The surface. Raises InputRefused."""
    end = source.data.find(b"\0")
    if end < 0:
        raise source.refuse("the header", "it does not end", "the file was cut off")
    header = source.data[len(MAGIC) : end].decode("utf-8", "replace")
    keys = {key.strip(): value.strip() for key, _, value in (line.partition("=") for line in header.split("\n"))}
    columns, profiles = (_size(source, keys, key) for key in ("XRes", "YRes"))
    start = (end // 4 + 1) * 4
    values = table_of(source, "the data", "<f4", columns, profiles, source.data, start)
    if start + values.nbytes != len(source.data):
        raise source.refuse(
            "the data", f"{len(source.data) - start} bytes, and {columns} by {profiles} points have {values.nbytes}"
        )
    lateral = length_unit(keys.get("XYUnits", ""))
    dx, dy = (_distance(source, keys, key, size, lateral) for key, size in (("XReal", columns), ("YReal", profiles)))
    unit = length_unit(keys.get("ZUnits", ""))
    found = Field(values, np.isfinite(values), unit, dx, dy, channel=keys.get("Title", ""))
    if unit is None:
        found.notes.append(f"the values have the unit \"{keys.get('ZUnits', '')}\", which is none of a length")
    return found


def _size(source: Source, keys: dict[str, str], key: str) -> int:
    text = keys.get(key, "")
    if not text.isdecimal() or len(text) > 9:
        raise source.refuse(f"the header, {key}", f"no whole number: {text[:40] or 'absent'}")
    return int(text)


def _distance(source: Source, keys: dict[str, str], key: str, size: int, unit: Fraction | None) -> Fraction | None:
    """The metres from one point to the next: the whole length by the number of points. None where it is not told."""
    if key not in keys or unit is None or not size:
        return None
    length = scale_of(keys[key])
    if length is None:
        raise source.refuse(f"the header, {key}", f"no number above 0: {keys[key][:40]}")
    return length * unit / size
