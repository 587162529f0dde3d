"""Any file that holds a surface, as a Surface."""

from __future__ import annotations

import argparse
import hashlib
import os
from collections.abc import Mapping
from pathlib import Path

from hilldale_lab import surface_file
from hilldale_lab.asked import meant
from hilldale_lab.errors import LabError
from hilldale_lab.surface import Surface

# The words of `import` that say what a file does not tell, and what stands where one is not said.
OPTIONS: dict[str, object] = {
    "unit": None,
    "dx": None,
    "dy": None,
    "step": None,
    "missing": [],
    "crop": None,
    "channel": None,
    "skip": None,
    "separator": None,
    "xyz": False,
    "xy_unit": None,
    "keep_masked": False,
    "reader": None,
}
OF_SURFACE_FILES = ("crop", "step", "channel")


def read(path: str | os.PathLike[str], **options: object) -> Surface:
    """Reads a surface file of the program, which is sent as it stands, or any file that `hilldale-lab import` reads.

    options: what the file does not tell, by the words of `import`, as unit="um", dx="1 um", crop=(0, 0, 512, 512). A
    surface file tells all: of these words only crop, step and channel change how it is read, and a warning names the others.
    Raises InputRefused where the file holds no surface, LabError where an option is none, or (status 5) the file cannot
    be read.
    """
    name = os.fspath(path)
    given = words_of(options)
    try:
        with open(path, "rb") as file:
            first = file.readline(64).strip(b" \t\r\n").decode("latin-1")
        if first not in surface_file.VERSIONS:
            return _imported(name, given)
        unused = [key for key in options if key not in OF_SURFACE_FILES]
        kept = {key: options[key] for key in options if key in OF_SURFACE_FILES}
        surface = _imported(name, words_of(kept)) if kept else _surface_file(name)
    except OSError as error:
        raise LabError(f"cannot read {name}: {error.strerror}", 5) from error
    if unused:
        surface.warnings.append(f"a surface file tells its units itself: not used are {', '.join(unused)}")
    return surface


def _surface_file(name: str) -> Surface:
    data = Path(name).read_bytes()
    return Surface.from_map(surface_file.parse(data, name), name, data, hashlib.sha256(data).hexdigest())


def words_of(options: Mapping[str, object]) -> argparse.Namespace:
    """The options as the command `import` takes them. Raises LabError for one that it does not know."""
    for key in options:
        if key.replace("-", "_") not in OPTIONS:
            raise LabError(f"{key} says nothing of how a file is read{meant(key, tuple(OPTIONS))}")
    given = OPTIONS | {key.replace("-", "_"): value for key, value in options.items()}
    for key in ("unit", "dx", "dy", "step", "xy_unit", "channel"):
        given[key] = None if given[key] is None else str(given[key])
    marks = given["missing"]
    given["missing"] = [str(mark) for mark in (marks if isinstance(marks, (list, tuple)) else [marks])]
    crop = given["crop"]
    if crop is not None and not (
        isinstance(crop, (list, tuple)) and len(crop) == 4 and all(type(number) is int for number in crop)
    ):
        raise LabError("crop is four whole numbers: the first column and profile, and how many of each")
    return argparse.Namespace(**given)


def _imported(name: str, given: argparse.Namespace) -> Surface:
    from hilldale_lab.commands.import_ import options_of
    from hilldale_lab.formats import import_file

    imported = import_file(name, options_of(given))
    surface = Surface.from_map(imported.surface, name, None, imported.sha256, imported.warnings)
    surface.imported = imported
    return surface
