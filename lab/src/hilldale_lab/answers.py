"""The grammar of the program's answers: each line that it prints, and nothing else, read into a class of its own.

Positions are a column and a profile, from 0. Heights and local heights are whole steps, areas numbers of points.
"""

from __future__ import annotations

import re
from collections.abc import Callable, Iterator
from dataclasses import dataclass, field
from fractions import Fraction
from typing import Union

import numpy as np
from numpy.typing import NDArray

from hilldale_lab.errors import LabError

SIDES = ("D", "H")
REGION_WORDS = {"D": "dale", "H": "hill"}
BORDER_WORDS = {"D": "ridge", "H": "course"}
Table = NDArray[np.int64]
Point = tuple[int, int]


class UnknownAnswer(LabError):
    """The program printed a line that is no answer to what was asked."""


@dataclass(frozen=True)
class Accepted:
    """`line N ok`: an edit was made."""

    number: int


@dataclass(frozen=True)
class Refused:
    """`line N refused: TEXT`."""

    number: int
    text: str


@dataclass(frozen=True)
class Elements:
    """The elements in the order of first naming: name, width and height in points."""

    elements: tuple[tuple[str, int, int], ...]


@dataclass(frozen=True)
class Info:
    """What the surface is. places: for the types 3 and 7, else None. least, greatest: None where no point is present.

    The scales are the texts of the file, in metres; a step is Zscale over 10 to the power of places.
    """

    columns: int
    profiles: int
    type: int
    places: int | None
    present: int
    least: int | None
    greatest: int | None
    x_scale: str
    y_scale: str
    z_scale: str

    @property
    def step(self) -> Fraction:
        """The metres of one step."""
        return Fraction(self.z_scale) / 10 ** (self.places or 0)


@dataclass(frozen=True, eq=False)
class RegionList:
    """All dales or hills in position order: rows of column, profile, height, points."""

    side: str
    table: Table


@dataclass(frozen=True)
class Label:
    """The pit or peak in whose region a point lies."""

    side: str
    point: Point
    pit: Point


@dataclass(frozen=True)
class TreeSaddle:
    """A saddle of the change tree, and the lowest pit (highest peak) of each class that it joins."""

    x: int
    y: int
    height: int
    pits: tuple[Point, ...]


@dataclass(frozen=True)
class Tree:
    """The change tree: the lowest saddle first, of hills the highest."""

    side: str
    saddles: tuple[TreeSaddle, ...]


@dataclass(frozen=True, eq=False)
class Pruning:
    """A pruning. gone: rows of column, profile, local height, column and profile of the nearest saddle, and of the pit
    that takes over, in the order in which they go. kept: rows of column, profile, height, points, in position order."""

    side: str
    percent: str
    gone: Table
    kept: Table


@dataclass(frozen=True, eq=False)
class Borders:
    """The borders of a pruning: rows of the columns and profiles of both pits, pairs, and column, profile and height of
    the pass. is_saddle: whether the pass is the saddle of the two."""

    side: str
    percent: str
    table: Table
    is_saddle: NDArray[np.bool_]


@dataclass(frozen=True)
class Fill:
    """The fill volume of each kept pit in position order, in steps times points; None without a nearest saddle."""

    side: str
    percent: str
    volumes: tuple[tuple[int, int, int | None], ...]


@dataclass(frozen=True)
class Number:
    """The value of a line `param`, `height`, `feature` or `perc`; None where the program answers `none`.

    question: the answer without the value.
    """

    question: str
    value: Fraction | None

    @property
    def text(self) -> str:
        """The value as the program prints it."""
        return "none" if self.value is None else f"{self.value.numerator}/{self.value.denominator}"


@dataclass(frozen=True)
class Histogram:
    """How many features each bin has; None where no feature remains."""

    question: str
    counts: tuple[int, ...] | None


@dataclass(frozen=True)
class SaddleCertificate:
    """A certificate of a saddle. text: all its lines. saddle: column, profile, height, or None without a path."""

    text: str = field(repr=False)
    side: str
    neighbours: int
    start: Point
    end: Point
    saddle: tuple[int, int, int] | None


@dataclass(frozen=True)
class PruningCertificate:
    """A certificate of a pruning. text: all its lines. kept: the number of lines without a PARENT."""

    text: str = field(repr=False)
    side: str
    percent: str
    neighbours: int
    points: int
    kept: int


Answer = Union[
    Accepted,
    Refused,
    Elements,
    Info,
    RegionList,
    Label,
    Tree,
    Pruning,
    Borders,
    Fill,
    Number,
    Histogram,
    SaddleCertificate,
    PruningCertificate,
]


@dataclass(frozen=True)
class CheckAnswer:
    """What `check` prints. rule, point: the first rule that fails, and where; line: the first without its form."""

    text: str
    rule: int | None = None
    point: Point | None = None
    line: int | None = None

    @property
    def is_accepted(self) -> bool:
        """Whether the certificate holds of the surface."""
        return self.rule is None and self.line is None


def parse_check(output: bytes) -> CheckAnswer:
    """The answer of `check`. Raises UnknownAnswer."""
    text = output.decode("utf-8", "replace")
    match = re.fullmatch(
        r"certificate (?:accepted|unreadable: line ([0-9]+)|refused: rule ([0-9]+) at ([0-9]+) ([0-9]+))\n", text
    )
    if match is None:
        raise UnknownAnswer(f"unknown answer {text[:120]!r} of the program to a check")
    line, rule, x, y = (None if word is None else int(word) for word in match.groups())
    return CheckAnswer(text.rstrip("\n"), rule, None if rule is None else (x, y), line)


def is_skipped(line: str) -> bool:
    """Whether a line of a script prints nothing: it has no words, or is a comment, and is not too long."""
    text = line.strip(" \t\r")
    return (not text or text.startswith(";")) and len(line.encode()) <= 4096


def script_lines(script: str) -> Iterator[tuple[int, str]]:
    """The lines of a script that are answered: number, from 1, and text without blanks at its ends."""
    for number, line in enumerate(script.split("\n"), 1):
        if not is_skipped(line):
            yield number, line.strip(" \t\r")


def line_words(line: str) -> list[str]:
    """The words of a line of a script, as the program parts them: no other blank than these three does."""
    return re.findall(r"[^ \t\r]+", line)


def command_of(line: str) -> str:
    """The first word of a line of a script; nothing where it has none."""
    return next(iter(line_words(line)), "")


def parse(output: bytes, script: str) -> list[Answer]:
    """The answers to a script, one for each line that is not skipped. Raises UnknownAnswer for any other line."""
    return [answer for answer, _ in parse_with_text(output, script)]


def parse_with_text(output: bytes, script: str) -> list[tuple[Answer, str]]:
    """The answers to a script, each with the program's own lines. Raises UnknownAnswer."""
    lines = _Lines(output)
    answers = []
    for number, text in script_lines(script):
        first = lines.at
        answers.append((_answer(lines, number, text), lines.since(first)))
    if not lines.is_at_end:
        raise lines.unknown("nothing more was asked")
    return answers


class _Lines:
    """The lines of an output, read from the front."""

    def __init__(self, output: bytes) -> None:
        self.output = output
        self.ends = np.flatnonzero(np.frombuffer(output, np.uint8) == 10)
        self.at = 0
        if output and (not len(self.ends) or self.ends[-1] != len(output) - 1):
            raise UnknownAnswer("the program's last line has no end")

    @property
    def is_at_end(self) -> bool:
        return self.at == len(self.ends)

    def _start(self, line: int) -> int:
        return int(self.ends[line - 1]) + 1 if line else 0

    def peek(self) -> bytes:
        """The next line, or nothing at the end."""
        return b"" if self.is_at_end else self.output[self._start(self.at) : int(self.ends[self.at])]

    def take(self, form: str) -> re.Match[str]:
        """The next line, which has this form. Raises UnknownAnswer."""
        match = re.fullmatch(form, self.peek().decode("latin-1"))
        if match is None:
            raise self.unknown(form)
        self.at += 1
        return match

    def block(self, count: int, form: str) -> bytes:
        """The next lines, so many, which all have this form. Raises UnknownAnswer."""
        if count > len(self.ends) - self.at:
            raise UnknownAnswer(f"the program answered fewer lines than the {count} that it told")
        start = self._start(self.at)
        self.at += count
        text = self.output[start : self._start(self.at)]
        if not re.fullmatch(f"(?:{form}\n)*+".encode("ascii"), text):
            raise UnknownAnswer(f"the program's lines have not the form {form}")
        return text

    def table(self, count: int, form: str, columns: int) -> Table:
        """The numbers of the next lines, a row for each. Raises UnknownAnswer."""
        text = self.block(count, form).translate(_LETTERS_TO_BLANKS)
        if not count:
            return np.zeros((0, columns), np.int64)
        return np.fromstring(text, np.int64, sep=" ").reshape(count, columns)

    def since(self, first: int) -> str:
        """The text of the lines from `first` on that were taken."""
        return self.output[self._start(first) : self._start(self.at)].decode("utf-8", "replace")

    def unknown(self, expected: str) -> UnknownAnswer:
        line = self.peek()[:120].decode("utf-8", "replace")
        return UnknownAnswer(f"unknown answer {line!r} of the program, where this stands: {expected}")


REFUSALS = "|".join(
    (
        "line too long",
        "unknown command",
        "wrong number of words",
        "word [0-9]+ has not its form",
        "[0-9]+ [0-9]+ is outside",
        "empty rectangle",
        "height out of range at [0-9]+ [0-9]+",
        "[0-9]+ [0-9]+ is not present",
        "both points are in one region",
        "no element of this name",
        "element size is even",
        "element is wider than 15",
        "element has no origin",
        "only [0-9]+ edits kept",
        "part [1-7] has not its form",
        "part [1-7] does not go with the type",
        "unknown parameter",
        "the parameter needs a height",
        "the parameter takes no height",
    )
)
_LETTERS_TO_BLANKS = bytes(ord(" ") if chr(c).isalpha() or c == 10 else c for c in range(256))
_WHOLE = r"-?[0-9]+"
_POINT = r"[0-9]+ [0-9]+"
_SIDE = r"([DH])"
_PERCENT = r"([0-9]{1,3}(?:\.[0-9]{1,3})?%)"
_VALUE = r"(none|-?[0-9]+/[1-9][0-9]*)"


def _answer(lines: _Lines, number: int, text: str) -> Answer:
    """The answer to the line of this number. Raises UnknownAnswer."""
    if lines.peek().startswith(b"line "):
        match = lines.take(rf"line {number} (?:(ok)|refused: ({REFUSALS}))")
        if not match[1]:
            return Refused(number, match[2])
        if command_of(text) not in EDITS:
            raise UnknownAnswer(f"the program answered {match[0]!r} to {text[:80]!r}")
        return Accepted(number)
    reader = READERS.get(command_of(text))
    if reader is None:
        raise lines.unknown(f"line {number} ok, or line {number} refused")
    return reader(lines)


def _value(text: str) -> Fraction | None:
    return None if text == "none" else Fraction(text)


def _read_elements(lines: _Lines) -> Elements:
    count = int(lines.take(r"elements ([0-9]+)")[1])
    rows = (lines.take(r"element ([A-Za-z0-9_-]{1,32}) ([0-9]+) ([0-9]+)") for _ in range(count))
    return Elements(tuple((row[1], int(row[2]), int(row[3])) for row in rows))


def _read_info(lines: _Lines) -> Info:
    lines.take("info")
    size = lines.take(r"size ([0-9]+) ([0-9]+)")
    kind = int(lines.take(r"type ([0-7])")[1])
    places = int(lines.take(r"places ([0-9]+)")[1]) if kind in (3, 7) else None
    present = int(lines.take(r"present ([0-9]+)")[1])
    extent = lines.take(rf"range (?:none|({_WHOLE}) ({_WHOLE}))")
    least, greatest = (None if text is None else int(text) for text in extent.groups())
    scales = lines.take(r"scales (\S+) (\S+) (\S+)")
    return Info(int(size[1]), int(size[2]), kind, places, present, least, greatest, *scales.groups())


def _read_regions(side: str) -> Callable[[_Lines], RegionList]:
    word = REGION_WORDS[side]

    def read(lines: _Lines) -> RegionList:
        count = int(lines.take(rf"{word}s ([0-9]+)")[1])
        return RegionList(side, lines.table(count, rf"{word} {_POINT} {_WHOLE} [0-9]+", 4))

    return read


def _read_label(lines: _Lines) -> Label:
    match = lines.take(rf"label {_SIDE} ([0-9]+) ([0-9]+) in ([0-9]+) ([0-9]+)")
    x, y, pit_x, pit_y = (int(word) for word in match.groups()[1:])
    return Label(match[1], (x, y), (pit_x, pit_y))


def _read_tree(lines: _Lines) -> Tree:
    head = lines.take(rf"tree {_SIDE} ([0-9]+)")
    text = lines.block(int(head[2]), rf"saddle {_POINT} {_WHOLE} [0-9]+(?: {_POINT}){{2,}}")
    return Tree(head[1], tuple(_tree_saddle(line) for line in text.splitlines()))


def _tree_saddle(line: bytes) -> TreeSaddle:
    x, y, height, count, *pits = (int(word) for word in line.split()[1:])
    if len(pits) != 2 * count:
        raise UnknownAnswer(f"the program's saddle at {x} {y} tells {count} pits and names {len(pits) // 2}")
    return TreeSaddle(x, y, height, tuple(zip(pits[::2], pits[1::2])))


def _read_pruning(lines: _Lines) -> Pruning:
    head = lines.take(rf"prune {_SIDE} {_PERCENT} ([0-9]+) ([0-9]+)")
    form = rf"step {_POINT} local [0-9]+ saddle {_POINT} into {_POINT}"
    gone = lines.table(int(head[3]), form, 7)
    kept = lines.table(int(head[4]), rf"{REGION_WORDS[head[1]]} {_POINT} {_WHOLE} [0-9]+", 4)
    return Pruning(head[1], head[2], gone, kept)


def _read_borders(lines: _Lines) -> Borders:
    head = lines.take(rf"lines {_SIDE} {_PERCENT} ([0-9]+)")
    count, first = int(head[3]), lines.at
    form = rf"{BORDER_WORDS[head[1]]} {_POINT} {_POINT} pairs [0-9]+ pass {_POINT} {_WHOLE} (?:saddle|around)"
    table = lines.table(count, form, 8)
    last_letters = np.frombuffer(lines.output, np.uint8)[lines.ends[first : first + count] - 1]
    return Borders(head[1], head[2], table, last_letters == ord("e"))


def _read_fill(lines: _Lines) -> Fill:
    head = lines.take(rf"fill {_SIDE} {_PERCENT} ([0-9]+)")
    text = lines.block(int(head[3]), rf"volume {_POINT} (?:none|[0-9]+/1)").decode("ascii")
    rows = (line.split(" ") for line in text.splitlines())
    volumes = ((int(x), int(y), None if value == "none" else int(value[:-2])) for _, x, y, value in rows)
    return Fill(head[1], head[2], tuple(volumes))


def _read_number(form: str) -> Callable[[_Lines], Number]:
    def read(lines: _Lines) -> Number:
        match = lines.take(rf"({form}) {_VALUE}")
        return Number(match[1], _value(match[2]))

    return read


def _read_histogram(lines: _Lines) -> Histogram:
    match = lines.take(r"(hist [0-9]+ \S+)( none|(?: [0-9]+)+)")
    counts = None if match[2] == " none" else tuple(int(word) for word in match[2].split())
    return Histogram(match[1], counts)


def _read_certificate(lines: _Lines) -> SaddleCertificate:
    first = lines.at
    head = lines.take(rf"certificate {_SIDE} ([468])")
    start = lines.take(r"from ([0-9]+) ([0-9]+)")
    end = lines.take(r"to ([0-9]+) ([0-9]+)")
    at = lines.take(rf"saddle (?:none|([0-9]+) ([0-9]+) ({_WHOLE}))")
    saddle = None if at[1] is None else (int(at[1]), int(at[2]), int(at[3]))
    for word in ("cut",) if saddle is None else ("path", "cut"):
        lines.block(int(lines.take(rf"{word} ([0-9]+)")[1]), _POINT)
    lines.take("end")
    text = lines.since(first)
    return SaddleCertificate(
        text, head[1], int(head[2]), (int(start[1]), int(start[2])), (int(end[1]), int(end[2])), saddle
    )


def _read_audit(lines: _Lines) -> PruningCertificate:
    first = lines.at
    head = lines.take(rf"pruning {_SIDE} {_PERCENT} ([468])")
    points = int(lines.take(r"points ([0-9]+)")[1])
    text = lines.block(points, r"[0-9]+ (?:-|[0-9]+) (?:-|[0-9]+)")
    lines.take("end")
    kept = len(re.findall(rb"(?m)^[0-9]+ - ", text))
    return PruningCertificate(lines.since(first), head[1], head[2], int(head[3]), points, kept)


HEIGHT_EDITS = ("set", "bad", "add", "dilate", "erode", "open", "close")
MASKS = ("mask", "unmask")
EDITS = (*HEIGHT_EDITS, *MASKS, "element", "neighbours", "undo")
READERS: dict[str, Callable[[_Lines], Answer]] = {
    "elements": _read_elements,
    "info": _read_info,
    "dales": _read_regions("D"),
    "hills": _read_regions("H"),
    "label": _read_label,
    "saddle": _read_certificate,
    "tree": _read_tree,
    "prune": _read_pruning,
    "lines": _read_borders,
    "audit": _read_audit,
    "fill": _read_fill,
    "param": _read_number(rf"param \S+(?: {_WHOLE})?"),
    "height": _read_number(rf"height \S+(?: {_WHOLE})?"),
    "feature": _read_number(r"feature \S+"),
    "perc": _read_number(rf"perc {_WHOLE} \S+"),
    "hist": _read_histogram,
}
QUESTIONS = tuple(READERS)
