"""The files that lie beside a report: what a customer checks it by, and the whole table of regions."""

from __future__ import annotations

import hashlib
import re
from collections.abc import Iterable, Sequence
from dataclasses import dataclass
from shlex import quote

from hilldale_lab import surface_file
from hilldale_lab.regions import Column, Regions
from hilldale_lab.surface import Surface

SIDES_OF = {"Spd": "H", "S5p": "H", "S5v": "D", "S10z": "DH", "Sda": "D", "Sha": "H"}
SIDE_OF_TYPE = {"D": "D", "V": "D", "H": "H", "P": "H"}
WORDS = {"D": "dales", "H": "hills"}


@dataclass(frozen=True)
class Beside:
    """A file beside a report: its name without a folder, what it is, and its bytes."""

    name: str
    what: str
    data: bytes

    @property
    def sha256(self) -> str:
        """The digest of its bytes."""
        return hashlib.sha256(self.data).hexdigest()


def prunings_of(questions: Iterable[str]) -> list[tuple[str, str]]:
    """Side and percent of each pruning that the questions of a script rest on, dales first."""
    found = set()
    for line in questions:
        words = line.split()
        if len(words) > 1 and words[0] == "param":
            found |= {(side, "5%") for side in SIDES_OF.get(words[1], "")}
        for side, percent in re.findall(r"FC;([DHPV]);Wolfprune:([0-9.]+%)", line):
            found.add((SIDE_OF_TYPE[side], percent))
    return sorted(found)


def customer_files(
    surface: Surface, name: str, questions: Sequence[str], shown: Sequence[tuple[str, str]]
) -> list[Beside]:
    """The files by which a customer checks the values: the surface as it was judged, the questions, and certificates.

    name: that of the report, without its end. shown: side and percent of each table.
    """
    files = [
        Beside(
            f"{name}.checked.sdf",
            "the surface as it was judged: what was masked is BAD in it",
            surface_file.encode(surface.present()),
        )
    ]
    if questions:
        setting = [] if surface.setting == 8 else [f"neighbours {surface.setting}"]
        script = "".join(f"{line}\n" for line in (*setting, *questions))
        files.append(Beside(f"{name}.questions.txt", "the questions of the results, for that file", script.encode()))
    for side, percent in sorted({*prunings_of(questions), *shown}):
        what = f"the certificate of the {WORDS[side]} kept at {percent}"
        certificate = surface.audit(side, percent).encode()
        files.append(Beside(f"{name}.{WORDS[side]}-{percent[:-1]}.certificate", what, certificate))
    return files


def table_file(regions: Regions, columns: Sequence[Column], name: str) -> Beside:
    """All rows of the table of regions, as CSV with a line of headings and the numbers that the map shows."""
    headings = [f"lab's own: {column.heading}" if column.own else column.heading for column in columns]
    rows = zip(*(column.texts for column in columns))
    numbered = (",".join((str(number), *row)) for number, row in enumerate(rows, 1))
    text = "\n".join((",".join(("number", *headings)), *numbered)) + "\n"
    word = WORDS[regions.side]
    return Beside(f"{name}.{word}.csv", f"the table of all kept {word}", text.encode())


def check_commands(files: Sequence[Beside]) -> str:
    """What a customer calls in the folder of these files; nothing where there are none."""
    if not files:
        return ""
    surface, *others = (file.name for file in files)
    lines = [f"sha256sum {quote(surface.removesuffix('.checked.sdf'))}.*"]
    lines += [f"hilldale check {quote(surface)} {quote(name)}" for name in others if name.endswith(".certificate")]
    lines += [f"hilldale run {quote(surface)} {quote(name)}" for name in others if name.endswith(".questions.txt")]
    return "\n".join(lines)
