"""Mistakes of a job or a script: each with its line, and what was probably meant. No surface is needed."""

from __future__ import annotations

import re
from collections.abc import Sequence

from hilldale_lab.answers import EDITS, QUESTIONS, is_skipped
from hilldale_lab.asked import meant, notation_fault
from hilldale_lab.elements import MOST, NAME
from hilldale_lab.errors import LabError
from hilldale_lab.job import JobReader, Mistake
from hilldale_lab.percents import percent_text
from hilldale_lab.units import HEIGHTS, PARAMETERS, WITH_HEIGHT

COMMANDS = (*EDITS, *QUESTIONS)
COUNT_LIMIT = 4_294_967_295
KEPT_EDITS = 32
# The words of each line after its command, by what they are; `element`, `param` and `height` have further rules.
FORMS = {
    "set": "X Y Z",
    "bad": "X Y",
    "add": "X0 Y0 X1 Y1 D",
    "mask": "X0 Y0 X1 Y1",
    "unmask": "X0 Y0 X1 Y1",
    "dilate": "NAME",
    "erode": "NAME",
    "open": "NAME",
    "close": "NAME",
    "neighbours": "A",
    "undo": "K",
    "elements": "",
    "info": "",
    "dales": "",
    "hills": "",
    "label": "S X Y",
    "saddle": "S X Y X Y",
    "tree": "S",
    "prune": "S P",
    "lines": "S P",
    "audit": "S P",
    "fill": "S P",
    "param": "NAME C",
    "height": "NAME C",
    "feature": "WORD",
    "hist": "N WORD",
    "perc": "V WORD",
    "element": "NAME W H ENTRIES",
}
OPTIONAL = ("param", "height")


def lint(text: str, name: str) -> list[Mistake]:
    """The mistakes of a job, in the order of lines: of TOML where the name ends with `.toml`, else of a script."""
    if not name.lower().endswith(".toml"):
        return ScriptReader(text).mistakes
    reader = JobReader(text, name)
    reader.job()
    return sorted(reader.mistakes, key=lambda mistake: mistake.line)


class ScriptReader:
    """Reads a script line by line, and keeps each mistake."""

    def __init__(self, text: str) -> None:
        self.mistakes: list[Mistake] = []
        self.elements: set[str] = set()
        self.edits = 0
        for number, line in enumerate(text.split("\n"), 1):
            if not is_skipped(line):
                fault = self._fault(line)
                if fault:
                    self.mistakes.append(Mistake(number, fault))

    def _fault(self, line: str) -> str | None:
        if len(line.encode()) > 4096:
            return "it is longer than 4096 bytes"
        command, *words = re.split(r"[ \t\r]+", line.strip(" \t\r"))
        if command not in COMMANDS:
            return _unknown(command, line.strip())
        fault = _count_fault(command, words) or self._words_fault(command, words)
        if fault is None:
            fault = self._sense_fault(command, words)
        if fault is None:
            self._keep(command, words)
        return fault

    def _words_fault(self, command: str, words: Sequence[str]) -> str | None:
        for form, word in zip(FORMS[command].split(), words):
            fault = _word_fault(form, word, command)
            if fault:
                return fault
        return _element_fault(words) if command == "element" else None

    def _sense_fault(self, command: str, words: Sequence[str]) -> str | None:
        if command in ("mask", "unmask", "add"):
            x0, y0, x1, y1 = map(int, words[:4])
            return (
                f"the rectangle is empty (meant: {min(x0, x1)} {min(y0, y1)} {max(x0, x1)} {max(y0, y1)}?)"
                if x1 < x0 or y1 < y0
                else None
            )
        if command in ("dilate", "erode", "open", "close") and words[0] not in self.elements:
            near = meant(words[0], sorted(self.elements))
            return f"no element is called {words[0]}{near}: define it by a line `element` before"
        if command == "undo" and int(words[0]) > self.edits:
            return f"only {self.edits} edits are kept here, and {words[0]} are to be undone"
        if command in OPTIONAL:
            return _parameter_fault(command, words)
        if command in ("feature", "hist", "perc"):
            parts = words[-1].split(";")
            return notation_fault(parts, takes_units=False, has_statistic=command == "feature")
        return None

    def _keep(self, command: str, words: Sequence[str]) -> None:
        if command == "element":
            self.elements.add(words[0])
        elif command == "undo":
            self.edits -= int(words[0])
        elif command in EDITS and command != "neighbours":
            self.edits = min(self.edits + 1, KEPT_EDITS)


def _unknown(command: str, line: str) -> str:
    if command in PARAMETERS or command in HEIGHTS:
        return f"{command} is no command (meant: {'param' if command in PARAMETERS else 'height'} {line}?)"
    if command.startswith("FC;"):
        return f"a notation is no command (meant: feature {line}?)"
    if command.startswith("\ufeff"):
        return "a byte order mark stands before the first line: save the script without one"
    return f"no command is {command!r}{meant(command, COMMANDS)}"


def _count_fault(command: str, words: Sequence[str]) -> str | None:
    forms = FORMS[command].split()
    least = len(forms) - (command in OPTIONAL)
    most = len(forms)
    if command == "element":
        return None if len(words) >= 3 else "`element` takes a name, a width, a height, and a number for each point"
    if least <= len(words) <= most:
        return None
    units = " (a script counts heights in whole steps; units go into a job of TOML)" if _has_unit(words) else ""
    takes = " ".join([command, *forms]) if forms else f"{command} alone"
    return f"{command} has {len(words)} words behind it, and takes `{takes}`{units}"


def _has_unit(words: Sequence[str]) -> bool:
    return bool(words) and words[-1] in ("nm", "um", "µm", "mm", "m", "steps", "pm")


def _word_fault(form: str, word: str, command: str) -> str | None:
    """What is wrong with a word, by what stands in its place: a count (X, Y, W, H, K), a whole number (Z, D, C, V)
    .."""
    if form == "S":
        return None if word in ("D", "H") else f"a side is D or H, and not {word!r}{_side_meant(word)}"
    if form == "P":
        return _percent_fault(word)
    if form == "A":
        return None if word in ("4", "6", "8") else f"neighbours are 4, 6 or 8, and not {word!r}"
    if form == "N":
        is_bin = re.fullmatch(r"[0-9]+", word) and 1 <= int(word) <= 64
        return None if is_bin else f"the number of bins is from 1 to 64, and not {word!r}"
    if form in ("Z", "D", "C", "V"):
        return _whole_fault(word, command)
    if form == "NAME" and command not in OPTIONAL:
        return (
            None if NAME.fullmatch(word) else f"{word!r} is no name of an element: letters, digits, _ and -, at most 32"
        )
    if re.fullmatch(r"[XYWHK][01]?", form):
        is_count = re.fullmatch(r"[0-9]+", word) and int(word) <= COUNT_LIMIT
        return None if is_count else f"{word!r} is no count: digits alone"
    return None


def _side_meant(word: str) -> str:
    letter = word[:1].upper()
    return f" (meant: {letter}?)" if letter in ("D", "H") else ""


def _percent_fault(word: str) -> str | None:
    try:
        percent_text(word)
        return None
    except LabError as error:
        return f"{word!r} is no percent (meant: {word}%?)" if re.fullmatch(r"[0-9]+(\.[0-9]+)?", word) else str(error)


def _whole_fault(word: str, command: str) -> str | None:
    if re.fullmatch(r"[+-]?[0-9]+", word):
        return None if -(2**63) <= int(word) < 2**63 else f"{word} does not fit 64 bits"
    if word.endswith("%") and command == "param":
        return f"{word!r} is no height: the percent of a parameter is 5%, and another one needs a notation"
    return f"{word!r} is no whole number of steps; a height with a unit goes into a job of TOML"


def _parameter_fault(command: str, words: Sequence[str]) -> str | None:
    name = words[0]
    own, other = (PARAMETERS, HEIGHTS) if command == "param" else (HEIGHTS, PARAMETERS)
    if name not in own:
        if name in other:
            return f"{name} is asked by the other line (meant: {'height' if command == 'param' else 'param'} {name}?)"
        return f"no parameter is {name!r}{meant(name, tuple(own) + tuple(other))}"
    if (len(words) > 1) != (name in WITH_HEIGHT):
        return f"{name} takes no height" if len(words) > 1 else f"{name} needs a height C, a whole number of steps"
    return None


def _element_fault(words: Sequence[str]) -> str | None:
    width, height, entries = int(words[1]), int(words[2]), words[3:]
    if len(entries) != width * height:
        return f"an element of {width} by {height} has {width * height} entries, and here are {len(entries)}"
    for entry in entries:
        if entry != "-" and not (re.fullmatch(r"[+-]?[0-9]+", entry) and abs(int(entry)) <= COUNT_LIMIT):
            return f"{entry!r} is no entry: a whole number of steps, or - for none"
    if not (width % 2 and height % 2):
        return "an element has an odd width and an odd height"
    if max(width, height) > MOST:
        return f"an element is at most {MOST} wide and high"
    return "an element has a number at its centre" if entries[len(entries) // 2] == "-" else None
