"""A measured surface: edits as the lines of a script, and questions that the proved program answers."""

from __future__ import annotations

import hashlib
import os
import re
from collections.abc import Sequence
from fractions import Fraction
from pathlib import Path
from typing import TypeVar

import numpy as np
from numpy.typing import ArrayLike, NDArray

from hilldale_lab import labels as labelling
from hilldale_lab import masks, program, surface_file
from hilldale_lab import regions as regions_of
from hilldale_lab.answers import (
    EDITS,
    HEIGHT_EDITS,
    MASKS,
    Answer,
    Borders,
    Fill,
    Info,
    Pruning,
    Refused,
    Tree,
    UnknownAnswer,
    command_of,
    is_skipped,
    line_words,
    parse,
    script_lines,
)
from hilldale_lab.certificates import Verdict, verdict
from hilldale_lab.decimals import parse_decimal
from hilldale_lab.elements import NAME, element
from hilldale_lab.errors import LabError
from hilldale_lab.height_map import HeightMap
from hilldale_lab.levels import Level, Rounding
from hilldale_lab.percents import percent_text
from hilldale_lab.questions import Questions
from hilldale_lab.regions import Regions
from hilldale_lab.units import Scales
from hilldale_lab.values import Value

Self = TypeVar("Self", bound="Surface")
Height = str | int | Level


class Surface:
    """A surface, its edits, and what the proved program answers of it.

    map: the heights as read (HeightMap). scales: metres of a point's distances and of a step. name: of the file, or
    `array`. sha256: of the file that was read, or of the text that is sent. warnings: of the reader.
    Each edit gives the surface itself, so that edits can be chained. They are refused, by the program, at the next
    question: then `LineRefused` is raised, and `remove` takes the line away.
    """

    def __init__(
        self,
        z: ArrayLike,
        dx: object,
        dy: object,
        step: object,
        *,
        measured: ArrayLike | None = None,
        rounding: str = "refuse",
    ) -> None:
        """A surface of an array with a row for each profile.

        z: whole steps where its numbers are whole; metres where they are floats, NaN where nothing is measured.
        dx, dy, step: metres, as a text `1e-6`, a Fraction, an int, or a float that is read by its shortest decimal.
        measured: where z holds, by default everywhere that it is no NaN and not masked.
        rounding: `refuse` refuses floats that are no whole steps, `nearest` rounds them.
        Raises LabError for another shape, a height beyond 2^53 steps, or a scale that is none.
        """
        scales = Scales(_metres(dx, "dx"), _metres(dy, "dy"), _metres(step, "step"))
        steps, there = _steps_of(z, scales.step, measured, rounding)
        self._begin(HeightMap(steps, there, scales.step, scales.dx, scales.dy), "array", None, ())

    def _begin(self, map_: HeightMap, name: str, source: bytes | None, warnings: Sequence[str]) -> None:
        if map_.step < 0:
            raise LabError(
                f"{name}: Zscale is below 0, so that what is high in steps is low in metres: turn the heights round"
            )
        self.map, self.name, self.warnings = map_, name, list(warnings)
        self.scales = Scales(map_.dx, map_.dy, map_.step)
        self.imported: object | None = None
        self._source = source
        self._sha256: str | None = None
        self._lines: list[str] = []
        self._forget()

    @classmethod
    def from_map(
        cls: type[Self],
        map_: HeightMap,
        name: str = "map",
        source: bytes | None = None,
        sha256: str | None = None,
        warnings: Sequence[str] = (),
    ) -> Self:
        """The surface of a height map. source: the bytes of a surface file that holds it, which are sent as they
        are."""
        surface = cls.__new__(cls)
        surface._begin(map_, name, source, warnings)
        surface._sha256 = sha256
        return surface

    @property
    def sha256(self) -> str:
        """The digest of the file that was read; of an array, of the surface file that is sent."""
        if self._sha256 is None:
            self._sha256 = hashlib.sha256(self.sdf()).hexdigest()
        return self._sha256

    @property
    def profiles(self) -> int:
        """How many profiles there are."""
        return self.map.profiles

    @property
    def columns(self) -> int:
        """How many points a profile has."""
        return self.map.columns

    def sdf(self) -> bytes:
        """The surface file that the program is sent: the one that was read, or one of the same heights."""
        if self._source is None:
            self._source = surface_file.encode(self.map)
        return self._source

    # -- edits

    @property
    def edits(self) -> tuple[str, ...]:
        """The lines of the script so far, comments too."""
        return tuple(self._lines)

    def line(self: Self, *lines: str) -> Self:
        """Adds edits as lines of a script (`set`, `mask`, `open`, `neighbours`, `undo` ..), or comments."""
        for text in lines:
            if "\n" in text:
                raise LabError(f"{text!r} is more than one line")
        self._lines += lines
        self._forget()
        return self

    def remove(self: Self, count: int = 1) -> Self:
        """Takes the last lines off the script again, as one that was refused."""
        del self._lines[len(self._lines) - count :]
        self._forget()
        return self

    def _forget(self) -> None:
        self._answers: dict[str, Answer] = {}
        self._mean: tuple[Fraction | None] | None = None
        self._present: HeightMap | None = None
        self._labels: dict[tuple[str, str], NDArray[np.int32]] = {}
        self._regions: dict[tuple[str, str, int | None], Regions] = {}

    def mask(self: Self, x0: int, y0: int, x1: int, y1: int) -> Self:
        """Masks the points from column x0 and profile y0 to column x1 and profile y1."""
        return self.line(f"mask {x0} {y0} {x1} {y1}")

    def unmask(self: Self, x0: int, y0: int, x1: int, y1: int) -> Self:
        """Takes the masks of these points away."""
        return self.line(f"unmask {x0} {y0} {x1} {y1}")

    def mask_where(self: Self, points: ArrayLike, why: str = "") -> Self:
        """Masks the points where a bool array of the map's shape is true, by a line for each run. why: a comment."""
        chosen = np.asarray(points)
        if chosen.dtype != np.bool_ or chosen.shape != self.map.steps.shape:
            raise LabError(f"a mask is a bool array of the shape {self.map.steps.shape}")
        comment = [f"; {why}: {np.count_nonzero(chosen)} points"] if why else []
        return self.line(*comment, *masks.mask_lines(chosen))

    def mask_above(self: Self, at: Height) -> Self:
        """Masks what is higher than a height, such as `5 um` or `2 um from mean`."""
        level = Level.parse(at)
        steps = level.steps(self.scales, self.mean() if level.from_mean else None)
        note = level.note(self.scales, self.mean() if level.from_mean else None, Rounding.DOWN)
        return self.mask_where(masks.above(self.replayed(), steps), f"above {note}")

    def mask_below(self: Self, at: Height) -> Self:
        """Masks what is lower than a height."""
        level = Level.parse(at)
        steps = level.steps(self.scales, self.mean() if level.from_mean else None)
        note = level.note(self.scales, self.mean() if level.from_mean else None, Rounding.UP)
        return self.mask_where(masks.below(self.replayed(), steps), f"below {note}")

    def mask_outliers(self: Self, times: str | int | float | Fraction) -> Self:
        """Masks what is further from the median of the heights than so many times the median absolute deviation."""
        many = Fraction(str(times))
        why = f"further from the median than {times} times the median absolute deviation"
        return self.mask_where(masks.outliers(self.replayed(), many), why)

    def mask_circle(self: Self, x: masks.Length, y: masks.Length, radius: masks.Length, outside: bool = False) -> Self:
        """Masks the points at most a radius from a centre, each as `120 um` or in points; or those outside."""
        chosen = masks.circle(self.map.steps.shape, self.scales, x, y, radius)
        where = f"circle round {x}, {y} of radius {radius}"
        return self.mask_where(~chosen if outside else chosen, f"outside the {where}" if outside else where)

    def mask_polygon(self: Self, corners: Sequence[tuple[masks.Length, masks.Length]], outside: bool = False) -> Self:
        """Masks the points in a polygon, its border too, or those outside. corners: x and y of each, as of a circle."""
        chosen = masks.polygon(self.map.steps.shape, self.scales, corners)
        where = "polygon " + " ".join(f"({x}, {y})" for x, y in corners)
        return self.mask_where(~chosen if outside else chosen, f"outside the {where}" if outside else where)

    def set(self: Self, x: int, y: int, height: int) -> Self:
        """Makes the height of a point so many steps."""
        return self.line(f"set {x} {y} {height}")

    def bad(self: Self, x: int, y: int) -> Self:
        """Makes a point unmeasured."""
        return self.line(f"bad {x} {y}")

    def add(self: Self, x0: int, y0: int, x1: int, y1: int, steps: int) -> Self:
        """Adds so many steps to the present points of a rectangle."""
        return self.line(f"add {x0} {y0} {x1} {y1} {steps}")

    def element(self: Self, name: str, rows: Sequence[Sequence[int | None]]) -> Self:
        """Defines an element: rows of whole steps, None where it has no number."""
        if not NAME.fullmatch(name) or not rows or len({len(row) for row in rows}) != 1:
            raise LabError("an element has a name of letters, digits, _ and -, and rows of one length")
        entries = " ".join("-" if entry is None else str(entry) for row in rows for entry in row)
        return self.line(f"element {name} {len(rows[0])} {len(rows)} {entries}")

    def _filter(self: Self, command: str, words: str) -> Self:
        made = element(words, self.scales)
        if made is None:
            return self.line(f"{command} {words}")
        name, line = made
        defined = (text for text in reversed(self._lines) if line_words(text)[:2] == ["element", name])
        return self.line(*([] if next(defined, None) == line else [line]), f"{command} {name}")

    def dilate(self: Self, by: str) -> Self:
        """Dilates by an element: `flat 3x3`, `ball 1 mm 7x7`, or the name of one that was defined."""
        return self._filter("dilate", by)

    def erode(self: Self, by: str) -> Self:
        """Erodes by an element, as `dilate` takes it."""
        return self._filter("erode", by)

    def open(self: Self, by: str) -> Self:
        """Opens by an element, as `dilate` takes it."""
        return self._filter("open", by)

    def close(self: Self, by: str) -> Self:
        """Closes by an element, as `dilate` takes it."""
        return self._filter("close", by)

    def neighbours(self: Self, setting: int) -> Self:
        """Sets the neighbours of a point: 4, 6 or 8."""
        return self.line(f"neighbours {setting}")

    def undo(self: Self, count: int = 1) -> Self:
        """Goes back over the last edits, as the line `undo` of a script."""
        return self.line(f"undo {count}")

    # -- the present map

    @property
    def setting(self) -> int:
        """The setting of the neighbours: 4, 6 or 8."""
        words = [line_words(text) for _, text in script_lines(self._text([]))]
        found = [line[1] for line in words if len(line) == 2 and line[0] == "neighbours"]
        return int(found[-1]) if found and found[-1] in ("4", "6", "8") else 8

    def _kept_edits(self) -> list[list[str]]:
        """The words of the edits that no `undo` takes back. Raises LineRefused where a line has not its form."""
        kept: list[list[str]] = []
        for _, text in script_lines(self._text([])):
            words, command = line_words(text), command_of(text)
            is_edit = command in HEIGHT_EDITS or command in MASKS
            if command in ("undo", *MASKS) and not re.fullmatch(r"undo [0-9]+|(un)?mask( [0-9]+){4}", " ".join(words)):
                self.ask("info")
            elif is_edit:
                kept.append(words)
            elif command == "undo" and int(words[1]):
                del kept[-int(words[1]) :]
        return kept

    def present(self) -> HeightMap:
        """The present map: heights after the edits, measured where a point has one and is not masked.

        Raises LineRefused where an edit is refused.
        """
        present, info = self.replayed(), self.info()
        found = int(np.count_nonzero(present.measured)), present.least, present.greatest
        if found != (info.present, info.least, info.greatest):
            raise labelling.Disagreement("the present points of the lab are not those of the program")
        return present

    def replayed(self) -> HeightMap:
        """The present map as the lab replays the masks, not yet compared with the program's."""
        if self._present is None:
            kept = self._kept_edits()
            heights = self._edited() if any(words[0] in HEIGHT_EDITS for words in kept) else self.map
            there = heights.measured.copy()
            for word, *corners in (words for words in kept if words[0] in MASKS):
                x0, y0, x1, y1 = map(int, corners)
                inside = slice(y0, y1 + 1), slice(x0, x1 + 1)
                there[inside] = heights.measured[inside] if word == "unmask" else False
            steps = np.where(there, heights.steps, 0)
            self._present = HeightMap(steps, there, self.map.step, self.map.dx, self.map.dy, self.map.keys)
        return self._present

    def _edited(self) -> HeightMap:
        """The heights after the edits, as the program saves them."""
        script = self._text([])
        ran, saved = program.find().edited(self.sdf(), script.encode())
        self._judged(ran, script)
        heights = surface_file.parse(saved, self.name)
        if heights.step != self.map.step:
            raise labelling.Disagreement("the program saved other steps than it read")
        return heights

    def save(self, path: str | os.PathLike[str], masks_as_bad: bool = False) -> None:
        """Saves the edited surface, by the program. A saved file keeps no masks: masked points have their heights in
        it, or, with masks_as_bad, are unmeasured. Raises a ProgramFault where a line is refused or the file not
        written."""
        lines: list[str] = []
        if masks_as_bad:
            heights = self._edited()
            masked = heights.measured & ~self.present().measured
            lines = [f"bad {x} {y}" for y, x in np.argwhere(masked).tolist()]
        self._run(self._text(lines), save=Path(path).absolute())

    # -- questions

    def script(self, *lines: str) -> str:
        """The script that is sent: the edits, and then these lines."""
        return self._text(lines)

    def _text(self, lines: Sequence[str]) -> str:
        return "".join(f"{line}\n" for line in (*self._lines, *lines))

    def _run(self, script: str, save: Path | None = None) -> list[Answer]:
        return self._judged(program.find().run(self.sdf(), script.encode(), save), script)

    def _judged(self, ran: program.Ran, script: str) -> list[Answer]:
        """The answers of a call. Raises LineRefused where an edit is refused, and UnknownAnswer."""
        answers = parse(ran.output, script)
        if (ran.status == 1) != any(isinstance(answer, Refused) for answer in answers):
            raise UnknownAnswer(f"the program ended with {ran.status}, and its answers say otherwise")
        edits = self._text([]).count("\n")
        for (number, text), answer in zip(script_lines(script), answers):
            if isinstance(answer, Refused) and number <= edits:
                raise program.LineRefused(f"line {number} refused: {answer.text}", number, text)
        return answers

    def ask(self, *lines: str) -> list[Answer]:
        """The answers to lines of a script after the edits, in one call; those that were asked before are remembered.

        Comments may stand among the lines, and have no answer. A refused question is a `Refused`.
        Raises LineRefused where an edit is refused, and LabError where a line does not ask.
        """
        asked = [text for text in lines if not is_skipped(text)]
        for text in asked:
            if "\n" in text or command_of(text) in EDITS:
                raise LabError(f"{text!r} is no question")
        new = list(dict.fromkeys(text for text in asked if text not in self._answers))
        if new:
            sent = list(dict.fromkeys(text for text in lines if is_skipped(text) or text in new))
            self._answers.update(zip(new, self._run(self._text(sent))[-len(new) :]))
        return [self._answers[text] for text in asked]

    def regions_from(self, side: str, percent: str, at: int | None, answers: Sequence[Answer]) -> Regions:
        """The regions that the answers to `regions.questions` give; those that were made before are remembered."""
        key = side, percent, at
        if key not in self._regions:
            self._regions[key] = regions_of.build(self.present(), self.setting, self.scales, answers, at)
        return self._regions[key]

    def questions(self) -> Questions:
        """Questions that wait, so that one call of the program answers all of them."""
        return Questions(self)

    def param(self, name: str, at: Height | None = None, percent: str = "5%") -> Value:
        """A feature parameter (Spd, S5p, S5v, S10z, Sda, Sha), at a height C where it takes one."""
        return self.questions().param(name, at, percent).value

    def height(self, name: str, at: Height | None = None) -> Value:
        """A height parameter (Sp, Sv, Sa, or Smr at a height C)."""
        return self.questions().height(name, at).value

    def feature(self, notation: str) -> Value:
        """The value of a notation; `Closed:` and `Open:` may take a height with a unit."""
        return self.questions().feature(notation).value

    def perc(self, above: str | int, notation: str) -> Value:
        """The share of the attributes of a notation of five parts that is greater than a number, as `50 nm`."""
        return self.questions().perc(above, notation).value

    def hist(self, bins: int, notation: str) -> tuple[int, ...] | None:
        """How many features of a notation of five parts each bin has; None where there are none."""
        return self.questions().hist(bins, notation).value

    def info(self) -> Info:
        """What the program tells of the present surface."""
        return self.questions().answer("info", Info).value

    def mean(self) -> Fraction | None:
        """The mean of the present heights in steps, by the program: the greatest less Sp. None where there is none."""
        if self._mean is None:
            self._mean = (self.questions().mean().value,)
        return self._mean[0]

    def pruning(self, side: str, percent: str) -> Pruning:
        """Which dales (D) or hills (H) go in a pruning, and which are kept."""
        return self.questions().answer(f"prune {side} {percent_text(percent)}", Pruning).value

    def tree(self, side: str) -> Tree:
        """The change tree."""
        return self.questions().answer(f"tree {side}", Tree).value

    def lines(self, side: str, percent: str) -> Borders:
        """The borders between the regions that a pruning keeps."""
        return self.questions().answer(f"lines {side} {percent_text(percent)}", Borders).value

    def fill(self, side: str, percent: str) -> Fill:
        """The fill volumes of the kept regions."""
        return self.questions().answer(f"fill {side} {percent_text(percent)}", Fill).value

    def certificate(self, side: str, start: tuple[int, int], end: tuple[int, int]) -> str:
        """The certificate of the saddle of the pits in whose dales two points lie."""
        return self.questions().certificate(side, start, end).value

    def audit(self, side: str, percent: str) -> str:
        """The certificate of which pits a pruning keeps."""
        return self.questions().audit(side, percent).value

    def regions(self, side: str, percent: str = "5%", at: Height | None = None) -> Regions:
        """The regions that a pruning keeps, with a table and labels, and what is measured of them at a height C."""
        return self.questions().regions(side, percent, at).value

    def dales(self, percent: str = "5%", at: Height | None = None) -> Regions:
        """The dales that a pruning keeps."""
        return self.regions("D", percent, at)

    def hills(self, percent: str = "5%", at: Height | None = None) -> Regions:
        """The hills that a pruning keeps."""
        return self.regions("H", percent, at)

    def labels(self, side: str, percent: str = "5%") -> NDArray[np.int32]:
        """For each point the row of `pruning(..).kept` of its region, -1 where it is not present; compared with the
        program's pits and areas. Raises Disagreement."""
        key = side, percent_text(percent)
        if key not in self._labels:
            self._labels[key] = labelling.labels(self.present(), self.pruning(*key), self.setting)
        return self._labels[key]

    def check(self, certificate: bytes | str) -> Verdict:
        """The program's verdict on a certificate of the present map: masked points are unmeasured there."""
        text = certificate.encode() if isinstance(certificate, str) else certificate
        sent = surface_file.encode(self.present()) if self._lines else self.sdf()
        return verdict(program.find().check(sent, text).output, text, self.name, self.sha256)

    def __repr__(self) -> str:
        return f"Surface({self.name}: {self.columns} points by {self.profiles} profiles, {len(self._lines)} lines)"


def _metres(given: object, name: str) -> Fraction:
    number = given if isinstance(given, Fraction) else parse_decimal(str(given))
    if number is None or number <= 0:
        raise LabError(f"{name} is a number of metres above 0, and not {given!r}")
    return number


def _steps_of(
    z: ArrayLike, step: Fraction, measured: ArrayLike | None, rounding: str
) -> tuple[NDArray[np.int64], NDArray[np.bool_]]:
    """The whole steps of an array, and where it is measured. Raises LabError."""
    heights = np.asanyarray(z)
    if heights.ndim != 2 or not heights.size or heights.dtype.kind not in "iuf":
        raise LabError("heights are an array of two dimensions, whole steps or metres, with a row for each profile")
    there = np.ones(heights.shape, np.bool_) if measured is None else np.array(measured, np.bool_)
    if there.shape != heights.shape:
        raise LabError(f"`measured` has the shape {there.shape}, and the heights {heights.shape}")
    there &= ~np.ma.getmaskarray(heights)
    numbers = np.ma.getdata(heights)
    if numbers.dtype.kind == "f":
        there &= ~np.isnan(numbers)
    numbers = np.where(there, numbers, 0)
    if numbers.dtype.kind == "f":
        numbers = _whole_steps(numbers, step, rounding)
    if max(-int(numbers.min()), int(numbers.max())) > surface_file.MOST_STEPS:
        raise LabError("heights are beyond 2^53 steps")
    return numbers.astype(np.int64), there


def _whole_steps(metres: NDArray[np.floating], step: Fraction, rounding: str) -> NDArray[np.floating]:
    """The nearest whole steps. Raises LabError where a height is none but for the last bits of its float."""
    if not np.isfinite(metres).all():
        raise LabError("a height is infinite")
    size = float(step)
    whole = np.rint(metres.astype(np.float64) / size)
    doubt = 2 * np.spacing(np.abs(metres)).astype(np.float64)
    far = (np.abs(whole * size - metres) > doubt) | (doubt > size / 4)
    if rounding != "nearest" and far.any():
        y, x = np.argwhere(far)[0].tolist()
        raise LabError(
            f"the height at {x} {y} is no whole number of steps, or has too few digits: another step, or rounding='nearest'"
        )
    return whole
