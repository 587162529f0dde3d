"""PLUx of Sensofar: a zip with an XML and floats of 32 bits in micrometres.

Layout: Gwyddion's sensofarx.c (2.62), where FOV_X and FOV_Y are the micrometres from point to point. No file of the
maker was tried.
"""

from __future__ import annotations

import re
from fractions import Fraction

import numpy as np

from hilldale_lab.formats.archive import Archive, Leaves, leaves_of
from hilldale_lab.formats.field import Field, Options, Source, choose_channel, scale_of, table_of

NAME = "PLUx of Sensofar"
MICROMETRE = Fraction(1, 10**6)


def recognises(source: Source) -> bool:
    """Whether the file is a zip with a part index.xml."""
    return source.data[:4] == b"PK\x03\x04" and b"index.xml" in source.data


def read(source: Source, options: Options) -> Field:
    """The layer, or the one that is named. Raises InputRefused."""
    archive = Archive(source)
    leaves = leaves_of(source, archive.part("index.xml", "the zip"))
    columns, profiles = (_size(source, leaves, key) for key in ("IMAGE_SIZE_X", "IMAGE_SIZE_Y"))
    layers = sorted(
        (path for path in leaves.texts if re.fullmatch("LAYER_[0-9]{1,6}/FILENAME_Z", path)),
        key=lambda path: int(path[6:-11]),
    )
    index = choose_channel(source, [path.partition("/")[0] for path in layers], options.channel)
    name = leaves.texts[layers[index]]
    data = archive.part(name, layers[index])
    values = table_of(source, name, "<f4", columns, profiles, data, 0)
    if values.nbytes != len(data):
        raise source.refuse(name, f"{len(data)} bytes, and {columns} by {profiles} points have {values.nbytes}")
    dx, dy = (_distance(source, leaves, key) for key in ("FOV_X", "FOV_Y"))
    return Field(values, np.isfinite(values), MICROMETRE, dx, dy, channel=layers[index].partition("/")[0])


def _size(source: Source, leaves: Leaves, key: str) -> int:
    text = leaves.texts.get("GENERAL/" + key, "")
    if not re.fullmatch("[0-9]{1,9}", text):
        raise source.refuse(f"index.xml, {key}", f"no whole number: {text[:40] or 'absent'}")
    return int(text)


def _distance(source: Source, leaves: Leaves, key: str) -> Fraction:
    number = scale_of(leaves.texts.get("GENERAL/" + key))
    if number is None:
        raise source.refuse(
            f"index.xml, {key}", f"no number above 0: {leaves.texts.get('GENERAL/' + key, 'absent')[:40]}"
        )
    return number * MICROMETRE
