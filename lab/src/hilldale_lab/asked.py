"""One asked value of a job, as a user writes it: `S10z`, `Sda -350 nm`, `S10z at 2%`, a notation."""

from __future__ import annotations

import difflib
import re
from dataclasses import dataclass

from hilldale_lab.errors import LabError
from hilldale_lab.levels import Level
from hilldale_lab.percents import percent_text
from hilldale_lab.questions import PRUNED_AT, Questions, Waiting
from hilldale_lab.units import HEIGHTS, PARAMETERS, WITH_HEIGHT, Kind, kind_of
from hilldale_lab.values import Value

NAMES = (*PARAMETERS, *HEIGHTS)
_PERCENT = re.compile(r"\s+at\s+([0-9.]+\s*%)(?=\s|$)")
REACHING = "reaching"


def meant(word: str, known: list[str] | tuple[str, ...]) -> str:
    """What was probably meant by a word, as ` (meant: S10z?)`; nothing where no known word is like it."""
    lower = {name.lower(): name for name in known}
    close = difflib.get_close_matches(word.lower(), lower, n=1, cutoff=0.5)
    return f" (meant: {lower[close[0]]}?)" if close else ""


@dataclass(frozen=True)
class Asked:
    """A value that a job asks for.

    text: as written. name: a parameter or a notation. level: the height C, or None. percent: of the pruning, or None
    for the job's. is_reaching: the lab's own mean area of the closed regions that reach C (`Sda reaching -350 nm`).
    """

    text: str
    name: str
    level: Level | None
    percent: str | None
    is_reaching: bool

    @classmethod
    def parse(cls, text: str) -> Asked:
        """Reads the name, the height and the percent. Raises LabError, with what was probably meant."""
        if not isinstance(text, str) or not text.strip():
            raise LabError(f"{text!r} is no parameter: write a text such as 'S10z' or 'Sda -350 nm'")
        if text.strip().startswith("FC"):
            return cls(text, _notation(text), None, None, False)
        percent = _PERCENT.search(text)
        rest = _PERCENT.sub("", text, count=1).split(maxsplit=1)
        name, height = rest[0], rest[1] if len(rest) > 1 else ""
        if name not in NAMES:
            raise LabError(f"{name} is no parameter{meant(name, NAMES)}: they are {', '.join(NAMES)}, and notations")
        is_reaching = name in ("Sda", "Sha") and height.startswith(REACHING)
        height = re.sub(rf"^(at|{REACHING})\b\s*", "", height).strip()
        if bool(height) != (name in WITH_HEIGHT):
            raise LabError(f"{name} takes no height" if height else f"{name} needs a height, as '{name} at -350 nm'")
        if percent and name in HEIGHTS:
            raise LabError(f"{name} has no pruning, so no percent")
        level = Level.parse(height) if height else None
        return cls(text, name, level, percent_text(percent[1]) if percent else None, is_reaching)

    @property
    def key(self) -> tuple[str, str, str | None, bool]:
        """What two ways to write the same value have in common."""
        level = " ".join(self.level.text.split()) if self.level else ""
        return self.name, level, self.percent, self.is_reaching

    @property
    def kind(self) -> Kind:
        """What the value measures."""
        return kind_of(self.name)

    def ask(self, questions: Questions, percent: str = PRUNED_AT) -> Waiting[Value]:
        """Adds it to the questions that wait. percent: where the asked value names none."""
        if self.name in HEIGHTS:
            return questions.height(self.name, self.level)
        if self.name not in PARAMETERS:
            return questions.feature(self.name)
        percent = self.percent or percent
        if self.is_reaching:
            assert self.level is not None
            return questions.reaching(self.name, self.level, percent)
        return questions.param(self.name, self.level, percent)


PARTS = (
    "FC",
    ("H", "D", "P", "V"),
    "Wolfprune:",
    ("All", "Top:", "Bot:", "Closed:", "Open:"),
    ("lpvh", "Count", "AreaE"),
    ("Mean", "Max", "Min", "Sum", "Density"),
)


def _notation(text: str) -> str:
    """A notation with whole parts; its height may have a unit. Raises LabError where the program would refuse it."""
    parts = [part.strip() for part in text.split(";")]
    fault = notation_fault(parts)
    if fault:
        raise LabError(fault)
    return ";".join(parts)


def notation_fault(parts: list[str], takes_units: bool = True, has_statistic: bool = True) -> str | None:
    """What is wrong with the parts of a notation, in the program's order, and what was probably meant; or None. The
    statistic is the sixth part, which the notations of `hist` and `perc` lack."""
    count, word = (6, "six") if has_statistic else (5, "five")
    for number, part in enumerate(parts[:count], 1):
        fault = _part_fault(number, part, takes_units)
        if fault:
            return f"part {number} of the notation, {part!r}, {fault}"
    if len(parts) != count:
        return f"a notation has {word} parts here, with ; between them, and these are {len(parts)}"
    kind, significance, attribute = parts[1], parts[3].partition(":")[0], parts[4]
    taken = {
        "H": ("All", "Top", "Closed", "Open"),
        "D": ("All", "Bot", "Closed", "Open"),
        "P": ("All", "Top"),
        "V": ("All", "Bot"),
    }[kind]
    if significance not in taken:
        return f"part 4 of the notation, {parts[3]!r}, does not go with the type {kind}: it takes {', '.join(taken)}"
    if kind in "PV" and attribute == "AreaE":
        return f"part 5 of the notation, 'AreaE', does not go with the type {kind}"
    return None


def _part_fault(number: int, part: str, takes_units: bool) -> str | None:
    """What is wrong with one part, or None."""
    known = PARTS[number - 1]
    if number == 3:
        try:
            word, _, percent = part.partition(":")
            percent_text(percent)
            return (
                None if word == "Wolfprune" and not re.search(r"\s", percent) else "is no pruning such as Wolfprune:5%"
            )
        except LabError:
            return "is no pruning such as Wolfprune:5%"
    if number == 4:
        return _significance_fault(part, takes_units)
    if part in known if isinstance(known, tuple) else part == known:
        return None
    names = known if isinstance(known, tuple) else (known,)
    return f"is none of {', '.join(names)}{meant(part, names)}"


def _significance_fault(part: str, takes_units: bool) -> str | None:
    word, colon, given = part.partition(":")
    if word == "All" and not colon:
        return None
    if word in ("Top", "Bot"):
        is_count = re.fullmatch(r"[0-9]{1,7}", given) and int(given)
        return None if is_count else f"has no number from 1 to 9999999 after {word}:"
    if word in ("Closed", "Open"):
        if re.fullmatch(r"[+-]?[0-9]+", given) and -(2**63) <= int(given) < 2**63:
            return None
        if not takes_units:
            return f"has no whole number of steps after {word}:"
        try:
            Level.parse(given)
            return None
        except LabError as error:
            return f"has no height after {word}: ({error})"
    names = ("All", "Top:5", "Bot:5", "Closed:0", "Open:0")
    return f"is none of {', '.join(names)}{meant(part, names)}"
