"""Jobs: a TOML file, or a plain script of the program, that says what is done with a surface and asked of it."""

from __future__ import annotations

import os
import re
import tomllib
from collections.abc import Callable, Mapping
from dataclasses import dataclass, field
from fractions import Fraction
from pathlib import Path
from typing import Any

from hilldale_lab import program
from hilldale_lab.answers import EDITS, QUESTIONS, Info, Number, Refused, command_of, parse_with_text, script_lines
from hilldale_lab.asked import Asked, meant
from hilldale_lab.errors import LabError
from hilldale_lab.levels import Level
from hilldale_lab.limits import Limit
from hilldale_lab.masks import length
from hilldale_lab.percents import percent_text
from hilldale_lab.questions import PRUNED_AT, Questions, Waiting
from hilldale_lab.reading import words_of
from hilldale_lab.surface import Surface
from hilldale_lab.units import Kind, kind_of
from hilldale_lab.values import Value

TOP_KEYS = (
    "title",
    "percent",
    "neighbours",
    "regions",
    "at",
    "parameters",
    "limits",
    "mask",
    "filter",
    "preparation",
    "import",
)
RULES = ("rectangle", "above", "below", "outliers", "circle", "polygon")
FILTERS = ("dilate", "erode", "open", "close")
SIDES_OF = {"dales": "D", "hills": "H"}


@dataclass(frozen=True)
class Mistake:
    """A mistake of a job: the line, from 1, or 0 for the whole file, and what is wrong with it."""

    line: int
    text: str

    def __str__(self) -> str:
        return f"line {self.line}: {self.text}" if self.line else self.text


@dataclass(frozen=True)
class Mask:
    """A mask of a job: its rule, what the rule takes, whether it is what lies outside, and why."""

    rule: str
    given: Any
    outside: bool = False
    why: str = ""

    def apply(self, surface: Surface) -> None:
        """Adds its lines to the script of the surface."""
        if self.why:
            surface.line(f"; {' '.join(self.why.split())}")
        if self.rule == "rectangle":
            surface.mask(*self.given)
        elif self.rule == "circle":
            surface.mask_circle(*self.given, outside=self.outside)
        elif self.rule == "polygon":
            surface.mask_polygon(self.given, outside=self.outside)
        else:
            {"above": surface.mask_above, "below": surface.mask_below, "outliers": surface.mask_outliers}[self.rule](
                self.given
            )


@dataclass(frozen=True)
class MaskDone:
    """A mask that was made: what it was, why, and how many points it took that were present before."""

    what: str
    why: str
    points: int


@dataclass(frozen=True)
class Row:
    """A value of a job. asked: as the job writes it. note: how C became whole steps. lines: those of the script."""

    asked: str
    value: Value
    limit: Limit | None = None
    passed: bool | None = None
    note: str = ""
    lines: tuple[str, ...] = ()

    @property
    def name(self) -> str:
        """The name of the value."""
        return self.value.name

    def __str__(self) -> str:
        own = "  lab's own, unproved" if self.value.own else ""
        verdict = "" if self.limit is None else f"  {self.limit.text}  {'pass' if self.passed else 'FAIL'}"
        return f"{self.name}  {self.value}{own}{verdict}"


@dataclass(frozen=True)
class Result:
    """What a job gave. script: what the program ran, whole. text: the values, and of a plain script all answers, a line
    each. passed: whether all limits are kept; None without limits. masks: what was masked, and why."""

    rows: list[Row]
    script: str
    surface: Surface
    text: str
    masks: list[MaskDone] = field(default_factory=list)

    @property
    def passed(self) -> bool | None:
        """Whether all limits are kept; None where the job has none."""
        found = [row.passed for row in self.rows if row.passed is not None]
        return all(found) if found else None


@dataclass(frozen=True)
class Job:
    """What is done with a surface and asked of it.

    name, text: of the file. is_script: a plain script, whose lines are run as they stand. sides: of which regions a
    report tells. at: the height C at which they are measured. asked, limits: by the text of each asked value.
    preparation: what was done before, as the report states it. options: how the file of the surface is read (`import`).
    """

    name: str
    text: str
    is_script: bool
    title: str = ""
    percent: str = PRUNED_AT
    neighbours: int = 8
    sides: tuple[str, ...] = ("D",)
    at: Level | None = None
    asked: tuple[Asked, ...] = ()
    limits: Mapping[tuple, Limit] = field(default_factory=dict)
    masks: tuple[Mask, ...] = ()
    filters: tuple[tuple[str, str], ...] = ()
    preparation: Mapping[str, str] = field(default_factory=dict)
    options: Mapping[str, Any] = field(default_factory=dict)

    @classmethod
    def read(cls, path: str | os.PathLike[str]) -> Job:
        """Reads a job: TOML where its name ends with `.toml`, else a script. Raises LabError for its first mistake."""
        return cls.from_text(read_text(path), os.fspath(path))

    @classmethod
    def from_text(cls, text: str, name: str = "job.toml") -> Job:
        """The job of a text. Raises LabError for its first mistake, with its line."""
        if not name.lower().endswith(".toml"):
            return cls(name, text, True)
        reader = JobReader(text, name)
        job = reader.job()
        if reader.mistakes:
            raise LabError(f"{name}: {reader.mistakes[0]}")
        return job

    def apply(self, surface: Surface) -> list[MaskDone]:
        """Adds its edits to the surface: neighbours, masks, filters. Gives what was masked."""
        if self.is_script:
            surface.line(*edits_of(self.text))
            return []
        if self.title:
            surface.line(f"; {' '.join(self.title.split())}")
        if self.neighbours != 8:
            surface.neighbours(self.neighbours)
        done = [_apply_mask(mask, surface) for mask in self.masks]
        for command, words in self.filters:
            getattr(surface, command)(words)
        return done

    def ask(self, surface: Surface) -> Result:
        """Edits the surface and asks for the values, in one call of the program; the mean is asked before, where a height
        counts from it. Raises LineRefused where a line is refused."""
        if self.is_script:
            return self._run_script(surface)
        done = self.apply(surface)
        questions, waiting = self._questions(surface)
        script = surface.script(*questions.script_lines())
        lines_of = [found.lines for found in waiting]
        questions.send()
        surface.present()
        rows = []
        for asked, found, (note, lines) in zip(self.asked, waiting, lines_of):
            value, limit = found.value, self.limits.get(asked.key)
            passed = None if limit is None else limit.passes(value)
            rows.append(Row(asked.text, value, limit, passed, note or "", tuple(lines)))
        return Result(rows, script, surface, "".join(f"{row}\n" for row in rows), done)

    def _questions(self, surface: Surface) -> tuple[Questions, list[Waiting[Value]]]:
        """The questions that wait. `info` is always asked, so that the script shows the scales, and edits are judged."""
        questions = surface.questions()
        questions.answer("info", Info)
        return questions, [asked.ask(questions, self.percent) for asked in self.asked]

    def script(self, surface: Surface) -> str:
        """The script that the program runs for this job."""
        if self.is_script:
            return self.text
        self.apply(surface)
        return surface.script(*self._questions(surface)[0].script_lines())

    def _run_script(self, surface: Surface) -> Result:
        ran = program.find().run(surface.sdf(), self.text.encode())
        rows: list[Row] = []
        told: list[str] = []
        answers = parse_with_text(ran.output, self.text)
        for (number, line), (answer, text) in zip(script_lines(self.text), answers):
            if isinstance(answer, Refused):
                raise program.LineRefused(f"line {number} refused: {answer.text}", number, line)
            if isinstance(answer, Number):
                rows.append(_row_of(answer, line, surface))
                told.append(f"{rows[-1]}\n")
            elif command_of(line) not in EDITS:
                told.append(text)
        self.apply(surface)
        return Result(rows, self.text, surface, "".join(told))


def edits_of(script: str) -> list[str]:
    """The lines of a script without its questions: a comment stands in the place of each, so that lines keep their
    numbers."""
    lines = [line.rstrip("\r") for line in script.rstrip("\n").split("\n")]
    return [";" if command_of(line) in QUESTIONS else line for line in lines]


def _row_of(answer: Number, line: str, surface: Surface) -> Row:
    command, name, *height = answer.question.split(" ")
    if command == "perc":
        return Row(line, Value(answer.question, answer.value, Kind.NUMBER, surface.scales), lines=(line,))
    shown = f"{name} at {height[0]} steps" if height else name
    return Row(line, Value(shown, answer.value, kind_of(name), surface.scales), lines=(line,))


def _apply_mask(mask: Mask, surface: Surface) -> MaskDone:
    before, first = surface.replayed().measured, len(surface.edits)
    mask.apply(surface)
    points = int((before & ~surface.replayed().measured).sum())
    what = next(
        (text[2:] for text in surface.edits[first:] if text.startswith("; ") and text[2:] != mask.why),
        f"rectangle {' '.join(map(str, mask.given))}" if mask.rule == "rectangle" else mask.rule,
    )
    return MaskDone(what, mask.why, points)


def read_text(path: str | os.PathLike[str]) -> str:
    """The text of a job. Raises LabError where it cannot be read or is no UTF-8."""
    try:
        return Path(path).read_bytes().decode("utf-8-sig")
    except OSError as error:
        raise LabError(f"cannot read {os.fspath(path)}: {error.strerror}", 5) from error
    except UnicodeDecodeError as error:
        raise LabError(f"{os.fspath(path)} is no text in UTF-8: save it as such") from error


def number_of(given: object) -> Fraction:
    """A number that TOML gives, by its digits. Raises LabError where it is none above 0."""
    try:
        number = None if isinstance(given, bool) else Fraction(str(given))
    except (ValueError, ZeroDivisionError):
        number = None
    if number is None or number <= 0:
        raise LabError(f"{given!r} is no number above 0")
    return number


class KeyFault(LabError):
    """A mistake at one key of a table."""

    def __init__(self, key: str, message: str) -> None:
        super().__init__(message)
        self.key = key


class JobReader:
    """Reads a job of TOML, and keeps each mistake with its line."""

    def __init__(self, text: str, name: str) -> None:
        self.text, self.name = text, name
        self.lines = text.split("\n")
        self.mistakes: list[Mistake] = []

    def job(self) -> Job:
        """The job. Where there are mistakes, what they spoil is left out."""
        try:
            tables = tomllib.loads(self.text.replace("\r\n", "\n"))
        except tomllib.TOMLDecodeError as error:
            place = re.search(r"\(at line ([0-9]+), column [0-9]+\)", str(error))
            self._mistake(int(place[1]) if place else len(self.lines), str(error).split(" (at ")[0])
            return Job(self.name, self.text, False)
        for key in tables:
            if key not in TOP_KEYS:
                self._mistake(self._line(key), f"no key of a job is {key!r}{meant(key, TOP_KEYS)}")
        return self._job_of(tables)

    def _job_of(self, tables: dict[str, Any]) -> Job:
        take = self._take
        limits, asked = self._limits_and_asked(tables)
        return Job(
            self.name,
            self.text,
            False,
            title=take(tables, "title", _text_of, ""),
            percent=take(tables, "percent", percent_text, PRUNED_AT),
            neighbours=take(tables, "neighbours", _neighbours_of, 8),
            sides=take(tables, "regions", _sides_of, ("D",)),
            at=take(tables, "at", Level.parse, None),
            asked=tuple(asked),
            limits=limits,
            masks=self._each(tables, "mask", _mask_of),
            filters=self._each(tables, "filter", _filter_of),
            preparation=take(tables, "preparation", _texts_of, {}),
            options=take(tables, "import", _options_of, {}),
        )

    def _mistake(self, line: int, text: str) -> None:
        self.mistakes.append(Mistake(line, text))

    def _line(self, key: str, table: str | None = None, place: int = 0) -> int:
        """The line of a key, or of the head of a table: of those named `table`, the one at this place."""
        heads = (
            [0]
            if table is None
            else [
                number
                for number, line in enumerate(self.lines)
                if re.match(rf"\s*\[+\s*[\"']?{re.escape(table)}[\"']?\s*\]", line)
            ]
        )
        start = heads[place] if place < len(heads) else 0
        form = rf"\s*(?:\[+\s*)?[\"']?{re.escape(key)}[\"']?\s*[\]=.]"
        for number in range(start, len(self.lines)):
            if re.match(form, self.lines[number]):
                return number + 1
        return start + 1 if table else 0

    def _take(self, table: Mapping[str, Any], key: str, read: Callable[[Any], Any], default: Any) -> Any:
        if key not in table:
            return default
        try:
            return read(table[key])
        except LabError as error:
            self._mistake(self._line(key), f"{key}: {error}")
            return default

    def _each(self, tables: Mapping[str, Any], key: str, read: Callable[[Any], Any]) -> tuple[Any, ...]:
        found = []
        given = tables.get(key, [])
        if not isinstance(given, list):
            self._mistake(self._line(key), f"{key} stands in double brackets: [[{key}]]")
            return ()
        for place, table in enumerate(given):
            try:
                found.append(read(table))
            except LabError as error:
                inner = error.key if isinstance(error, KeyFault) else key
                self._mistake(self._line(inner, key, place), f"{key}: {error}")
        return tuple(found)

    def _limits_and_asked(self, tables: Mapping[str, Any]) -> tuple[dict[tuple, Limit], list[Asked]]:
        names = tables.get("parameters", [])
        if not isinstance(names, list):
            self._mistake(self._line("parameters"), "parameters is a list of texts, such as ['S10z', 'Sda -350 nm']")
            names = []
        given = tables.get("limits", {})
        if not isinstance(given, dict):
            self._mistake(self._line("limits"), "limits is a table: [limits]")
            given = {}
        found: dict[tuple, Asked] = {}
        for name in names:
            asked = self._asked(name, "parameters")
            if asked is not None:
                found.setdefault(asked.key, asked)
        limits = {}
        for name, text in given.items():
            asked = self._asked(name, "limits")
            try:
                limit = Limit.parse(text)
                if asked is not None:
                    limit.check_kind(name, asked.kind)
                    limits[found.setdefault(asked.key, asked).key] = limit
            except LabError as error:
                self._mistake(self._line(name, "limits"), f"{name}: {error}")
        return limits, list(found.values())

    def _asked(self, name: object, where: str) -> Asked | None:
        try:
            return Asked.parse(name)
        except LabError as error:
            line = self._line(name, "limits") if where == "limits" else self._line_of_text(str(name), where)
            self._mistake(line, str(error))
            return None

    def _line_of_text(self, text: str, key: str) -> int:
        first = max(self._line(key), 1)
        for number in range(first - 1, len(self.lines)):
            if f'"{text}"' in self.lines[number] or f"'{text}'" in self.lines[number]:
                return number + 1
        return first


def _text_of(given: object) -> str:
    if not isinstance(given, str):
        raise LabError(f"{given!r} is no text: put it between quotes")
    return given


def _neighbours_of(given: object) -> int:
    if given not in (4, 6, 8) or isinstance(given, bool):
        raise LabError(f"{given!r} is none of 4, 6 and 8")
    return int(given)


def _sides_of(given: object) -> tuple[str, ...]:
    words = [given] if isinstance(given, str) else given
    if not isinstance(words, list) or not words or not all(word in tuple(SIDES_OF) for word in words):
        raise LabError(f"{given!r} is neither 'dales' nor 'hills', nor a list of them")
    return tuple(dict.fromkeys(SIDES_OF[word] for word in words))


def _table_of(given: object) -> dict[str, Any]:
    if not isinstance(given, dict):
        raise LabError("it is a table, in single brackets")
    return given


def _options_of(given: object) -> dict[str, Any]:
    """What a job says of how the file of a surface is read. Raises LabError."""
    options = _table_of(given)
    words_of(options)
    return options


def _texts_of(given: object) -> dict[str, str]:
    return {key: str(text) for key, text in _table_of(given).items()}


def _mask_of(given: object) -> Mask:
    """The mask of a table with one rule. Raises LabError."""
    table = _table_of(given)
    for key in table:
        if key not in (*RULES, "why", "outside"):
            raise KeyFault(key, f"no rule of a mask is {key!r}{meant(key, (*RULES, 'why', 'outside'))}")
    rules = [key for key in RULES if key in table]
    if len(rules) != 1:
        raise LabError(f"it has one of {', '.join(RULES)}, and here are {len(rules)}")
    rule, outside = rules[0], table.get("outside", False)
    if not isinstance(outside, bool) or outside and rule not in ("circle", "polygon"):
        raise KeyFault("outside", "outside is true or false, and goes with circle and polygon")
    try:
        return Mask(rule, _rule_of(rule, table[rule]), outside, _text_of(table.get("why", "")))
    except LabError as error:
        raise KeyFault(rule, str(error)) from error


def _rule_of(rule: str, given: Any) -> Any:
    if rule in ("above", "below"):
        return Level.parse(given)
    if rule == "outliers":
        return number_of(given)
    if rule == "rectangle":
        if not isinstance(given, list) or len(given) != 4 or not all(type(n) is int and n >= 0 for n in given):
            raise LabError("a rectangle is four whole numbers: first column, first profile, last column, last profile")
        if given[2] < given[0] or given[3] < given[1]:
            raise LabError("the last column and profile of a rectangle are at least the first ones")
        return tuple(given)
    if rule == "circle":
        if not isinstance(given, list) or len(given) != 3:
            raise LabError("a circle is three lengths: x and y of its centre, and its radius")
        return tuple(_length_of(part) for part in given)
    if not isinstance(given, list) or len(given) < 3 or not all(isinstance(c, list) and len(c) == 2 for c in given):
        raise LabError("a polygon is a list of at least three corners, each a list of x and y")
    return [tuple(_length_of(part) for part in corner) for corner in given]


def _length_of(given: object) -> str | int | Fraction:
    if isinstance(given, bool) or not isinstance(given, (str, int, float)):
        raise LabError(f"{given!r} is no length: write it as '120 um', or as a number of points")
    made = given if isinstance(given, (str, int)) else Fraction(str(given))
    length(made, Fraction(1))
    return made


def _filter_of(given: object) -> tuple[str, str]:
    table = _table_of(given)
    if len(table) != 1 or next(iter(table)) not in FILTERS:
        name = next((key for key in table if key not in FILTERS), "")
        raise LabError(f"it has one of {', '.join(FILTERS)}, as open = 'flat 3x3'{meant(name, FILTERS)}")
    command, words = next(iter(table.items()))
    if not re.fullmatch(r"\s*(flat\s+[0-9]+\s*x\s*[0-9]+|ball\s+.+\s[0-9]+\s*x\s*[0-9]+)\s*", _text_of(words)):
        raise LabError(f"{words!r} is no element: write 'flat 3x3' or 'ball 1 mm 7x7'")
    return command, words
