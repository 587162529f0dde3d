"""Files that Gwyddion reads: by a small program over its library, which runs on its own (folder gwyddion, GPL)."""

from __future__ import annotations

import os
import shutil
import struct
import subprocess
import tempfile
from dataclasses import dataclass
from fractions import Fraction
from pathlib import Path

import numpy as np

from hilldale_lab.errors import InputRefused
from hilldale_lab.formats.field import Field, Options, Source, choose_channel, decimal_of_float, length_unit

PROGRAM = "hilldale-gwyddion"
MAGIC = b"hilldale-gwyddion 1\n"
SECONDS = 120


@dataclass(frozen=True)
class Channel:
    """A channel that Gwyddion read: its title, its size, its whole lengths, its units and its numbers."""

    title: str
    columns: int
    profiles: int
    lengths: tuple[float, float]
    units: tuple[str, str]
    values: np.ndarray
    measured: np.ndarray


def find() -> str | None:
    """The program, or None where it is not built."""
    named = os.environ.get("HILLDALE_GWYDDION")
    if named is not None:
        return named if named and os.access(named, os.X_OK) else None
    here = Path(__file__).resolve().parents[3] / "gwyddion" / PROGRAM
    return str(here) if os.access(here, os.X_OK) else shutil.which(PROGRAM)


def read(source: Source, options: Options) -> tuple[Field, str, str]:
    """The channel that is named, the format and the reader. Raises InputRefused."""
    program = find()
    if program is None:
        raise source.refuse(
            "",
            "no reader here knows it",
            "export it as SUR, X3P, GSF or text; or build the reader over Gwyddion: make -C lab/gwyddion",
        )
    module, version, channels = _channels(program, source)
    usable = [channel.title for channel in channels]
    channel = channels[choose_channel(source, usable, options.channel)]
    lateral, unit = length_unit(channel.units[0]), length_unit(channel.units[1])
    distances = [
        decimal_of_float(length / size) for length, size in zip(channel.lengths, (channel.columns, channel.profiles))
    ]
    dx, dy = (None if lateral is None or number is None or number <= 0 else number * lateral for number in distances)
    found = Field(channel.values, channel.measured, unit, dx, dy, Fraction(1), channel.title)
    if unit is None:
        found.notes.append(f'the values have the unit "{channel.units[1]}", which is none of a length')
    return found, f"{module} of Gwyddion", f"Gwyddion {version}"


def compare(source: Source, found: Field, options: Options) -> None:
    """Refuses a file of which Gwyddion tells another number of missing points, until the user says who is right.
    Where its reader is not built, or doesn't know the file, nothing is compared."""
    program = find()
    if program is None:
        return
    try:
        _, _, channels = _channels(program, source)
    except InputRefused:
        return
    alike = [channel for channel in channels if (channel.profiles, channel.columns) == found.values.shape]
    mine = int(found.measured.size - np.count_nonzero(found.measured))
    theirs = {int(channel.measured.size - np.count_nonzero(channel.measured)) for channel in alike}
    if alike and mine not in theirs:
        told = " or ".join(map(str, sorted(theirs)))
        raise source.refuse(
            "",
            f"{mine} points are missing, and by Gwyddion {told}",
            "say which is right: --reader own, or --reader gwyddion",
        )


def _channels(program: str, source: Source) -> tuple[str, str, list[Channel]]:
    """What the program tells of a file: the module, the version, and the channels."""
    with tempfile.TemporaryDirectory(prefix="hilldale-") as folder:
        out = Path(folder) / "channels"
        command = [program, os.path.abspath(source.path), str(out)]
        environment = {**os.environ, "HOME": folder, "LC_ALL": "C"}
        try:
            done = subprocess.run(command, capture_output=True, timeout=SECONDS, env=environment, check=False)
        except (subprocess.TimeoutExpired, OSError) as error:
            raise source.refuse("", f"Gwyddion's reader failed: {error}") from error
        if done.returncode or not out.exists():
            told = done.stderr.decode("utf-8", "replace").strip().splitlines()
            raise source.refuse("", f"Gwyddion doesn't read it: {told[-1][:200] if told else done.returncode}")
        return _parse(source, out.read_bytes())


def _parse(source: Source, data: bytes) -> tuple[str, str, list[Channel]]:
    """The channels of the program's output."""
    if not data.startswith(MAGIC):
        raise source.refuse("", "Gwyddion's reader is of another version", "build it anew: make -C lab/gwyddion")
    words, at = [], len(MAGIC)
    for _ in range(2):
        end = data.index(b"\0", at)
        words.append(data[at:end].decode("utf-8", "replace"))
        at = end + 1
    count, at = struct.unpack_from("<I", data, at)[0], at + 4
    channels = []
    for _ in range(count):
        channel, at = _channel(data, at)
        channels.append(channel)
    return words[0], words[1], channels


def _channel(data: bytes, at: int) -> tuple[Channel, int]:
    texts = []
    for _ in range(3):
        end = data.index(b"\0", at)
        texts.append(data[at:end].decode("utf-8", "replace"))
        at = end + 1
    columns, profiles, width, height = struct.unpack_from("<IIdd", data, at)
    at += 24
    count = columns * profiles
    values = np.frombuffer(data, "<f8", count, at).reshape(profiles, columns)
    masked = np.frombuffer(data, "u1", count, at + 8 * count).reshape(profiles, columns)
    measured = (masked == 0) & np.isfinite(values)
    return Channel(texts[0], columns, profiles, (width, height), (texts[1], texts[2]), values, measured), at + 9 * count
