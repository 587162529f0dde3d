"""Limits of a value, such as `<= 5.0 um`, held against the exact fraction."""

from __future__ import annotations

import operator
import re
from collections.abc import Callable, Sequence
from dataclasses import dataclass
from fractions import Fraction

from hilldale_lab.errors import LabError
from hilldale_lab.units import Kind
from hilldale_lab.values import Quantity, Value

OPERATORS: dict[str, Callable[[Fraction, Fraction], bool]] = {
    "<=": operator.le,
    ">=": operator.ge,
    "<": operator.lt,
    ">": operator.gt,
}
KIND_WORDS = {
    Kind.HEIGHT: "a height",
    Kind.AREA: "an area",
    Kind.VOLUME: "a volume",
    Kind.DENSITY: "a density",
    Kind.HEIGHT_DENSITY: "a height per area",
    Kind.LENGTH: "a length",
    Kind.NUMBER: "a number without a unit",
}


@dataclass(frozen=True)
class Limit:
    """What a value has to keep to. text: as it was given. bounds: comparisons, all of which hold for a pass."""

    text: str
    bounds: tuple[tuple[str, Quantity], ...]

    @classmethod
    def parse(cls, given: str | Sequence[str]) -> Limit:
        """Reads `<= 5.0 um`, `2000 .. 3000 um2` (both ends pass), or a list of such. Raises LabError for another
        form."""
        texts = list(given) if isinstance(given, (list, tuple)) else [given]
        bounds = [bound for text in texts for bound in _bounds(text)]
        if not bounds:
            raise LabError("a limit is a text such as '<= 5.0 um' or '2000 .. 3000 um2', or a list of such")
        return cls(" and ".join(" ".join(text.split()) for text in texts), tuple(bounds))

    def check_kind(self, name: str, kind: Kind) -> None:
        """Raises LabError where the limit measures something else than the value of this name and kind."""
        for _, quantity in self.bounds:
            if quantity.kind is not kind:
                raise LabError(
                    f"{name} is {KIND_WORDS[kind]}, and its limit {quantity.text!r} {KIND_WORDS[quantity.kind]}"
                )

    def passes(self, value: Value) -> bool:
        """Whether the exact value keeps to the limit. No value keeps to none. Raises LabError as `check_kind`."""
        self.check_kind(value.name, value.kind)
        exact = value.exact
        return exact is not None and all(
            OPERATORS[sign](exact, quantity.exact(value.scales)) for sign, quantity in self.bounds
        )


def _bounds(text: object) -> list[tuple[str, Quantity]]:
    if not isinstance(text, str):
        raise LabError(f"{text!r} is no limit: write a text such as '<= 5.0 um'")
    match = re.fullmatch(r"\s*(<=|>=|<|>)(.*)", text, re.S)
    if match:
        return [(match[1], Quantity.parse(match[2]))]
    least, dots, greatest = text.partition("..")
    if not dots:
        raise LabError(f"{text!r} is no limit: it begins with <=, >=, < or >, or has .. between two numbers")
    upper = Quantity.parse(greatest)
    lower = Quantity.parse(least)
    if lower.kind is Kind.NUMBER and upper.kind is not Kind.NUMBER:
        unit = re.sub(r"^[-+0-9./eE\s]*", "", greatest.strip())
        lower = Quantity.parse(f"{least.strip()} {unit}")
    return [(">=", lower), ("<=", upper)]
