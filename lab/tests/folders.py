"""A folder of files as a laboratory has it, with all that goes wrong in one, and the job that is done with it."""

from __future__ import annotations

import os
from pathlib import Path

import numpy as np
from surfaces import map_of

from hilldale_lab import surface_file

JOB = """\
parameters = [
  "Sa", "Smr at 0.05 um from mean", "Sda reaching -1 nm", "FC;D;Wolfprune:5%;Closed:0 um from mean;Count;Sum",
]

[limits]
S10z = "<= 1.99 um"
"Sda 0 um from mean" = "1 .. 900000 um2"
"""
ODD = "it's odd, name.sdf"


def surface(seed: int, columns: int = 24, profiles: int = 16) -> bytes:
    """A surface file with heights of its own."""
    y, x = np.mgrid[:profiles, :columns]
    heights = 900 * np.sin((x + seed) / 3) * np.cos(y / 4)
    return surface_file.encode(
        map_of(np.rint(heights).astype(np.int64) + np.random.default_rng(seed).integers(0, 200, x.shape))
    )


def make_folder(folder: Path, count: int) -> list[str]:
    """Writes so many surfaces, and files that are none, and gives their names in the order of a table."""
    folder.mkdir()
    for number in range(count):
        (folder / f"part-{number:03}.sdf").write_bytes(surface(number, 20 + number % 9))
    (folder / ODD).write_bytes(surface(777))
    (folder / "broken.sdf").write_text("no surface\n")
    (folder / "empty.sdf").write_bytes(b"")
    (folder / "a folder.sdf").mkdir()
    names = sorted(os.listdir(folder))
    return [os.path.join(folder.name, name) for name in names]
