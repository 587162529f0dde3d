"""Files of instruments and other programs: a reader for each format, and which one a file needs."""

from __future__ import annotations

import hashlib
import os
from dataclasses import replace
from pathlib import Path
from types import ModuleType

from hilldale_lab.errors import InputRefused, one_line
from hilldale_lab.formats import al3d, gsf, gwy, gwyddion, opd, plux, sdf_binary, sdf_text, sur, text, x3p
from hilldale_lab.formats.convert import Imported, convert
from hilldale_lab.formats.field import Field, Options, Source
from hilldale_lab.formats.text_lines import decoded
from hilldale_lab.height_map import HeightMap

# In this order a file is looked at.
READERS: tuple[ModuleType, ...] = (sur, sdf_binary, x3p, plux, gsf, gwy, al3d, opd)
TEXT_READERS: tuple[ModuleType, ...] = (sdf_text, text)
MOST_BYTES = 4 << 30

__all__ = ["Imported", "Options", "import_file"]


def import_file(path: str | os.PathLike[str], options: Options = Options()) -> Imported:
    """The surface of any file that a reader knows.

    Raises InputRefused, with the place, what stands there and what to do.
    """
    source = read_source(path)
    sha256 = hashlib.sha256(source.data).hexdigest()
    reader = None if options.reader == "gwyddion" else reader_of(source)
    if reader is None:
        found, name, by = gwyddion.read(source, options)
    else:
        if reader in TEXT_READERS:
            source = replace(source, data=decoded(source) or b"")
        found, name, by = reader.read(source, options), reader.NAME, "hilldale-lab"
        if reader in READERS and options.reader is None:
            gwyddion.compare(source, found, options)
    surface, rounding, warnings = convert(source, found, options)
    keys = (*_plain(surface.keys), *_origin(source, name, by, found, sha256))
    surface = HeightMap(surface.steps, surface.measured, surface.step, surface.dx, surface.dy, keys)
    return Imported(surface, name, by, found.channel, tuple(one_line(text) for text in warnings), rounding, sha256)


def read_source(path: str | os.PathLike[str]) -> Source:
    """The bytes of a file. Raises InputRefused where it cannot be read."""
    name = os.fspath(path)
    try:
        if not os.path.isfile(path):
            raise InputRefused(name, "", "it is no file" if os.path.exists(path) else "there is no such file")
        if os.path.getsize(path) > MOST_BYTES:
            raise InputRefused(name, "", f"it has more than {MOST_BYTES} bytes")
        return Source(Path(path), name, Path(path).read_bytes())
    except (OSError, ValueError) as error:
        raise InputRefused(name, "", f"it cannot be read: {getattr(error, 'strerror', None) or error}") from error


def reader_of(source: Source) -> ModuleType | None:
    """The reader that knows the file by what stands in it, or None."""
    if not source.data:
        raise source.refuse("", "it is empty")
    return next((reader for reader in (*READERS, *TEXT_READERS) if reader.recognises(source)), None)


def _plain(keys: tuple[tuple[str, str], ...]) -> tuple[tuple[str, str], ...]:
    """The keys that a surface file takes, each once, with their values in ASCII."""
    kept: dict[str, tuple[str, str]] = {}
    for key, value in keys:
        plain = "".join(c if " " <= c <= "~" else "?" for c in value).strip()[:800]
        if (
            key.isascii()
            and key.isprintable()
            and 0 < len(key.strip()) <= 64
            and not key.startswith(";")
            and "=" not in key
        ):
            kept.setdefault(key.strip().lower(), (key.strip(), plain))
    return tuple(kept.values())[:200]


def _origin(source: Source, name: str, by: str, found: Field, sha256: str) -> tuple[tuple[str, str], ...]:
    """The keys that tell what a surface was made of."""
    keys = [
        ("Source", one_line(os.path.basename(source.name))),
        ("SourceSHA256", sha256),
        ("SourceFormat", name),
        ("Reader", by),
        ("Channel", one_line(found.channel)),
    ]
    return tuple((key, value.encode("ascii", "backslashreplace").decode()[:800]) for key, value in keys if value)
