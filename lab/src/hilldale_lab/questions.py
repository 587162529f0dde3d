"""Questions that wait: one call of the program answers all of them, and each gives a value in its unit."""

from __future__ import annotations

import math
from collections.abc import Callable, Sequence
from dataclasses import dataclass, replace
from fractions import Fraction
from typing import TYPE_CHECKING, Any, Generic, TypeVar

from hilldale_lab import regions as regions_of
from hilldale_lab.answers import (
    SIDES,
    Answer,
    Histogram,
    Info,
    Number,
    PruningCertificate,
    Refused,
    SaddleCertificate,
    UnknownAnswer,
)
from hilldale_lab.errors import LabError
from hilldale_lab.levels import Level, Rounding, rounding_of
from hilldale_lab.percents import percent_text
from hilldale_lab.program import LineRefused
from hilldale_lab.regions import Regions
from hilldale_lab.units import HEIGHTS, PARAMETERS, WITH_HEIGHT, Kind, kind_of
from hilldale_lab.values import Quantity, Value

if TYPE_CHECKING:
    from hilldale_lab.surface import Surface

T = TypeVar("T")
MEAN_LINES = ("info", "height Sp")
PRUNED_AT = "5%"
Asked = tuple[str | None, list[str]]


@dataclass(eq=False)
class Waiting(Generic[T]):
    """A question that waits for its answer. `value` sends all that wait, where that was not done."""

    questions: Questions
    asked: Callable[[Fraction | None], Asked]
    read: Callable[[Sequence[Answer]], T]
    needs_mean: bool = False
    answers: list[Answer] | None = None

    @property
    def value(self) -> T:
        """The answer. Raises LineRefused where the program refuses the question, or a line of the script."""
        if self.answers is None:
            self.questions.send()
        assert self.answers is not None
        for answer in self.answers:
            if isinstance(answer, Refused):
                lines = self.asked(self.questions.mean_of_surface() if self.needs_mean else None)[1]
                text = lines[self.answers.index(answer)]
                raise LineRefused(f"line {answer.number} refused: {answer.text}", answer.number, text)
        return self.read(self.answers)

    @property
    def lines(self) -> Asked:
        """A comment, or None, and the lines of the script that ask. C from the mean asks the program for the mean."""
        return self.asked(self.questions.mean_of_surface() if self.needs_mean else None)


class Questions:
    """Questions of one surface that wait. Each method gives a `Waiting`, whose `value` is what `Surface` gives at
    once."""

    def __init__(self, surface: Surface) -> None:
        self.surface = surface
        self.waiting: list[Waiting[Any]] = []

    def mean_of_surface(self) -> Fraction | None:
        """The mean of the present heights in steps, asked where it is not known."""
        return self.surface.mean()

    @property
    def needs_mean(self) -> bool:
        """Whether a height C that waits counts from the mean."""
        return any(waiting.needs_mean for waiting in self.waiting)

    def asked(self) -> list[Asked]:
        """All that is asked: of each question a comment, or None, and its lines."""
        found = [(None, list(MEAN_LINES))] if self.needs_mean else []
        return found + [waiting.lines for waiting in self.waiting]

    def script_lines(self) -> list[str]:
        """The lines of a script that ask all of it, with comments; none comes twice."""
        lines: dict[str, None] = {}
        for note, asked in self.asked():
            if note and any(line not in lines for line in asked):
                lines[f"; {note}"] = None
            lines.update(dict.fromkeys(asked))
        return list(lines)

    def send(self) -> None:
        """Sends all that wait, in one call of the program; in two where a height C counts from the mean."""
        asked = self.asked()
        self.surface.ask(*self.script_lines())
        for waiting, (_, lines) in zip(self.waiting, asked[len(asked) - len(self.waiting) :]):
            waiting.answers = self.surface.ask(*lines)
        self.waiting = []

    def _add(
        self, asked: Callable[[Fraction | None], Asked], read: Callable[[Sequence[Answer]], T], needs_mean: bool = False
    ) -> Waiting[T]:
        waiting = Waiting(self, asked, read, needs_mean)
        self.waiting.append(waiting)
        return waiting

    def _fixed(self, lines: list[str], read: Callable[[Sequence[Answer]], T]) -> Waiting[T]:
        return self._add(lambda _: (None, lines), read)

    def answer(self, line: str, kind: type[T]) -> Waiting[T]:
        """The answer to one line, of this class."""

        def read(answers: Sequence[Answer]) -> T:
            if not isinstance(answers[0], kind):
                raise UnknownAnswer(f"{line!r} was answered by another kind of answer")
            return answers[0]

        return self._fixed([line], read)

    def _number(self, name: str, lines: Callable[[Fraction | None], Asked], needs_mean: bool = False) -> Waiting[Value]:
        def read(answers: Sequence[Answer]) -> Value:
            return Value(name, total(answers), kind, self.surface.scales)

        kind = kind_of(_bare(name))
        return self._add(lines, read, needs_mean)

    def param(self, name: str, at: str | int | Level | None = None, percent: str = PRUNED_AT) -> Waiting[Value]:
        """A feature parameter. At another percent than 5% it is asked by its notation, and S10z is the sum of two."""
        if name not in PARAMETERS:
            raise LabError(f"{name} is no feature parameter: they are {', '.join(PARAMETERS)}")
        percent = percent_text(percent)
        shown = name if percent == PRUNED_AT else f"{name} at {percent}"
        if (at is not None) != (name in WITH_HEIGHT):
            raise LabError(f"{name} {'needs' if at is None else 'takes no'} height C")
        if percent == PRUNED_AT:
            return self._at_level(shown, name, at, lambda words: [f"param {words}"])
        return self._at_level(shown, name, at, lambda words: [f"feature {word}" for word in notations(words, percent)])

    def reaching(self, name: str, at: str | int | Level, percent: str = PRUNED_AT) -> Waiting[Value]:
        """The lab's own Sda (or Sha): the mean area of the closed regions that reach C, without those that do not."""
        side = {"Sda": "D", "Sha": "H"}[name]
        found = self.regions(side, percent, at)
        shown = name if percent_text(percent) == PRUNED_AT else f"{name} at {percent_text(percent)}"
        label = f"{shown} reaching {Level.parse(at).shown}"
        self.waiting.remove(found)
        return self._add(
            found.asked, lambda answers: replace(found.read(answers).mean_area_reaching(), name=label), found.needs_mean
        )

    def height(self, name: str, at: str | int | Level | None = None) -> Waiting[Value]:
        """A height parameter: Sp, Sv, Sa, or Smr at a height C."""
        if name not in HEIGHTS:
            raise LabError(f"{name} is no height parameter: they are {', '.join(HEIGHTS)}")
        if (at is not None) != (name in WITH_HEIGHT):
            raise LabError(f"{name} {'needs' if at is None else 'takes no'} height C")
        return self._at_level(name, name, at, lambda words: [f"height {words}"])

    def _at_level(
        self, shown: str, name: str, at: str | int | Level | None, lines: Callable[[str], list[str]]
    ) -> Waiting[Value]:
        if at is None:
            return self._number(shown, lambda _: (None, lines(name)))
        level, rounding, scales = Level.parse(at), rounding_of(name), self.surface.scales

        def asked(mean: Fraction | None) -> Asked:
            whole = level.whole(scales, mean, rounding)
            note = (
                None
                if level.quantity.raw and not level.from_mean
                else f"{name} at {level.note(scales, mean, rounding)}"
            )
            return note, lines(f"{name} {whole}")

        return self._number(f"{shown} at {level.shown}", asked, level.from_mean)

    def feature(self, notation: str) -> Waiting[Value]:
        """The value of a notation. Its height, as in `Closed:-350 nm`, may have a unit, and count from the mean."""
        parts = [part.strip() for part in notation.split(";")]
        word, separator, given = parts[3].partition(":") if len(parts) > 3 else ("", "", "")
        name = ";".join(parts)
        if word not in ("Closed", "Open") or not separator:
            return self._number(name, lambda _: (None, [f"feature {name}"]))
        level, rounding, scales = Level.parse(given), rounding_of(notation), self.surface.scales

        def asked(mean: Fraction | None) -> Asked:
            whole = level.whole(scales, mean, rounding)
            note = f"{word} at {level.note(scales, mean, rounding)}"
            is_plain = level.quantity.raw and not level.from_mean
            return None if is_plain else note, [f"feature {';'.join([*parts[:3], f'{word}:{whole}', *parts[4:]])}"]

        return self._number(name, asked, level.from_mean)

    def perc(self, above: str | int, notation: str) -> Waiting[Value]:
        """The share of the attributes that is greater than a number, as `50 nm`, `12 um2` or a plain number."""
        quantity = Quantity.parse(str(above))
        attribute = kind_of(notation)
        if quantity.kind is Kind.NUMBER:
            least = math.floor(quantity.amount)
        elif quantity.kind is attribute:
            least = math.floor(quantity.exact(self.surface.scales))
        else:
            raise LabError(f"{above!r} is no measure of {notation}")
        name = f"perc {above} {notation}"
        return self._fixed(
            [f"perc {least} {notation}"], lambda answers: Value(name, total(answers), Kind.NUMBER, self.surface.scales)
        )

    def hist(self, bins: int, notation: str) -> Waiting[tuple[int, ...] | None]:
        """How many features each bin has."""

        def read(answers: Sequence[Answer]) -> tuple[int, ...] | None:
            assert isinstance(answers[0], Histogram)
            return answers[0].counts

        return self._fixed([f"hist {bins} {notation}"], read)

    def mean(self) -> Waiting[Fraction | None]:
        """The mean of the present heights in steps."""

        def read(answers: Sequence[Answer]) -> Fraction | None:
            info, above = answers
            assert isinstance(info, Info) and isinstance(above, Number)
            return None if info.greatest is None or above.value is None else info.greatest - above.value

        return self._fixed(list(MEAN_LINES), read)

    def certificate(self, side: str, start: tuple[int, int], end: tuple[int, int]) -> Waiting[str]:
        """The certificate of a saddle."""
        line = f"saddle {_side(side)} {start[0]} {start[1]} {end[0]} {end[1]}"
        return self._text(line, SaddleCertificate)

    def audit(self, side: str, percent: str) -> Waiting[str]:
        """The certificate of a pruning."""
        return self._text(f"audit {_side(side)} {percent_text(percent)}", PruningCertificate)

    def _text(self, line: str, kind: type[SaddleCertificate] | type[PruningCertificate]) -> Waiting[str]:
        def read(answers: Sequence[Answer]) -> str:
            if not isinstance(answers[0], kind):
                raise UnknownAnswer(f"{line!r} was answered by no certificate")
            return answers[0].text

        return self._fixed([line], read)

    def regions(self, side: str, percent: str = PRUNED_AT, at: str | int | Level | None = None) -> Waiting[Regions]:
        """The regions that a pruning keeps, with their table and labels."""
        percent, surface = percent_text(percent), self.surface
        level = None if at is None else Level.parse(at)
        rounding = Rounding.DOWN if _side(side) == "D" else Rounding.UP

        def whole(mean: Fraction | None) -> int | None:
            return None if level is None else level.whole(surface.scales, mean, rounding)

        def asked(mean: Fraction | None) -> Asked:
            note = None if level is None else f"regions at {level.note(surface.scales, mean, rounding)}"
            return note, regions_of.questions(side, percent, whole(mean))

        def read(answers: Sequence[Answer]) -> Regions:
            mean = surface.mean() if level is not None and level.from_mean else None
            return surface.regions_from(side, percent, whole(mean), answers)

        return self._add(asked, read, level is not None and level.from_mean)


def _side(side: str) -> str:
    if side not in SIDES:
        raise LabError(f"a side is D for dales or H for hills, and not {side!r}")
    return side


def _bare(name: str) -> str:
    """The parameter of a shown name: `Sda` of `Sda at 2% at -350 nm`."""
    return name.split(" ")[0] if not name.startswith("FC;") else name


def total(answers: Sequence[Answer]) -> Fraction | None:
    """The value, of several their sum; None where one of them is none."""
    values = []
    for answer in answers:
        if not isinstance(answer, Number):
            raise UnknownAnswer("a value was asked for, and the answer is none")
        values.append(answer.value)
    return None if None in values else sum(values, Fraction(0))


def notations(words: str, percent: str) -> list[str]:
    """The notations that a parameter stands for at a percent; of S10z the two whose sum it is."""
    name, _, at = words.partition(" ")
    told = {
        "Spd": ["FC;H;Wolfprune:{};All;Count;Density"],
        "S5p": ["FC;H;Wolfprune:{};Top:5;lpvh;Mean"],
        "S5v": ["FC;D;Wolfprune:{};Bot:5;lpvh;Mean"],
        "Sda": [f"FC;D;Wolfprune:{{}};Closed:{at};AreaE;Mean"],
        "Sha": [f"FC;H;Wolfprune:{{}};Closed:{at};AreaE;Mean"],
    }
    told["S10z"] = told["S5p"] + told["S5v"]
    return [notation.format(percent) for notation in told[name]]
