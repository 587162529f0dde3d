"""ASCII SDF of other programs, of any version: without the `*` at its end, with header lines of other kinds.

Layout: ISO 25178-71, and the exports of Gwyddion (sdfile.c, 2.62: `aBCR-0.0`, no `*` at the end).
"""

from __future__ import annotations

import re

from hilldale_lab import surface_file
from hilldale_lab.errors import InputRefused
from hilldale_lab.formats.field import Field, Options, Source

NAME = "ASCII SDF"


def recognises(source: Source) -> bool:
    """Whether line 1 is a version of ASCII SDF."""
    return re.match(rb"\s*a(BCR|ISO)-[0-9]", source.data[:64].removeprefix(b"\xef\xbb\xbf")) is not None


def read(source: Source, options: Options) -> Field:
    """The surface; a step is the greatest power of ten of Zscale, at most 1, that divides all. Raises InputRefused."""
    data = source.data.removeprefix(b"\xef\xbb\xbf").lstrip()
    try:
        header = surface_file.read_header(data, source.name)
        surface = surface_file.surface_of(header, data, source.name, is_written_places=False)
    except InputRefused as error:
        if error.place == "line 1":
            raise source.refuse("line 1", error.found, error.advice) from error
        raise
    # An SDF says in Zscale what a step is: its numbers are what stands in the data.
    scale = surface_file.scale(header, "Zscale", source.name)
    number = surface.step / scale if scale else surface.step
    if surface.step <= 0 or surface.dx <= 0 or surface.dy <= 0:
        raise source.refuse("the header", "a scale that is not above 0")
    found = Field(surface.steps, surface.measured, surface.step, surface.dx, surface.dy, number)
    found.keys += [(key, value) for key, value in surface.keys if key.isprintable()]
    found.notes += _sizes_exchanged(data, header.data_at, surface.columns, surface.profiles)
    return found


def _sizes_exchanged(data: bytes, at: int, columns: int, profiles: int) -> list[str]:
    """A warning where the data stand in as many lines as a profile has points, and each has one for each profile."""
    lines = [line for line in data[at:].partition(b"*")[0].split(b"\n") if line.strip()]
    if (
        columns != profiles
        and profiles > 1
        and len(lines) == columns
        and all(len(line.split()) == profiles for line in lines[:9])
    ):
        return [
            f"the data stand in {columns} lines of {profiles}: are NumPoints = {columns} and NumProfiles = {profiles} "
            "exchanged?"
        ]
    return []
