#!/usr/bin/env python3
"""verify.py SURFACE CERT: checks a saddle certificate or a pruning certificate against a surface file, by
docs/FORMATS.md alone. The surface file is taken to have its form: `hilldale dales SURFACE` refuses one that has not."""
from __future__ import annotations

import re
import sys
from array import array
from typing import BinaryIO, Callable, Iterator, Optional, Sequence, Tuple, Union

BLANKS = b" \t\r"
Point = Tuple[int, int]  # column and profile
Points = Tuple[Sequence[int], Sequence[int]]  # their columns, and their profiles
Fault = Tuple[int, Union[int, Point]]  # the number of a rule, and the point or its index
Below = Callable[[int, int], bool]
Near = Callable[[int], Iterator[int]]


class Unreadable(Exception):
    """The number of the first line of a certificate that has not its form."""


def whole(word: bytes, form: bytes = rb"[+-]?[0-9]+") -> int | None:
    """The whole number of a word, or None; leading zeros may be as many as they like."""
    if not re.fullmatch(form, word):
        return None
    digits = word.lstrip(b"+-").lstrip(b"0")[:39] or b"0"
    return -int(digits) if word[:1] == b"-" else int(digits)


def decimal(word: bytes) -> tuple[int, int]:
    """The value of a decimal in units of its last place, and how many places it has."""
    sign, before, after, power = re.fullmatch(rb"([+-]?)([0-9]*)\.?([0-9]*)(?:[eE]([+-]?[0-9]{1,3}))?", word).groups()
    places = len(after) - int(power or 0)
    value = whole(sign + before + after) * 10 ** max(-places, 0)
    return value, max(places, 0)


class Surface:
    """The heights by index, and which points are present."""

    def __init__(self, name: str) -> None:
        with open(name, "rb") as file:
            keys, line = {}, file.readline()
            while (line := file.readline().strip(BLANKS + b"\n")) != b"*":
                if line[:1] != b";" and b"=" in line:
                    key, value = line.split(b"=", 1)
                    keys[key.strip(BLANKS).lower()] = value.strip(BLANKS)
            self.points, self.profiles = whole(keys[b"numpoints"]), whole(keys[b"numprofiles"])
            self.count = self.points * self.profiles
            self.heights, self.present, places = array("q"), bytearray(), 0
            for line in file:
                for word in line.split()[: self.count - len(self.heights)]:
                    value, more = (0, 0) if word == b"BAD" else decimal(word)
                    if more > places:
                        self.heights = array("q", (height * 10 ** (more - places) for height in self.heights))
                        places = more
                    self.present.append(word != b"BAD")
                    self.heights.append(value * 10 ** (places - more))
        if len(self.heights) < self.count:
            raise ValueError
        of_points = [h for h, there in zip(self.heights, self.present) if there]
        self.span = max(of_points) - min(of_points) if of_points else 0

    def under(self, side: bytes, setting: int) -> tuple[Below, Near]:
        """Whether a point is below another one, and the neighbours of a point in position order."""
        heights, present, points, profiles = self.heights, self.present, self.points, self.profiles
        steps = [(y, x) for y in (-1, 0, 1) for x in (-1, 0, 1) if (y, x) != (0, 0)]
        steps = [(y, x) for y, x in steps if setting == 8 or x * y == 0 or setting == 6 and x == y]

        def below(p: int, q: int) -> bool:
            return (heights[p], p) < (heights[q], q) if side == b"D" else (heights[q], q) < (heights[p], p)

        def near(p: int) -> Iterator[int]:
            row, column = divmod(p, points)
            for y, x in steps:
                if 0 <= row + y < profiles and 0 <= column + x < points and present[p + y * points + x]:
                    yield p + y * points + x

        return below, near


class Lines:
    """The lines of a certificate, by their words."""

    def __init__(self, file: BinaryIO, points: int) -> None:
        self.file, self.points, self.number = file, points, 0

    def need(self, holds: object) -> None:
        if not holds:
            raise Unreadable(self.number)

    def words(self, count: int | None, *head: bytes) -> list[bytes]:
        """The words of the next line after its head: so many, or any number for None."""
        line = self.file.readline()
        self.number += 1
        self.need(line)
        found = re.findall(rb"[^ \t\r]+", line[:-1] if line[-1:] == b"\n" else line)
        self.need(found[: len(head)] == list(head) and count in (None, len(found) - len(head)))
        return found[len(head):]

    def value(self, word: bytes, form: bytes, least: int, greatest: int) -> int:
        value = whole(word, form)
        self.need(value is not None and least <= value <= greatest)
        return value

    def count(self, word: bytes) -> int:
        return self.value(word, rb"[0-9]+", 0, 2**32 - 1)

    def point(self, *head: bytes) -> Point:
        """The column and the profile of a point."""
        x, y = self.words(2, *head)
        return self.count(x), self.count(y)

    def all_points(self, key: bytes) -> Points:
        columns, profiles = array("q"), array("q")
        for _ in range(self.count(self.words(1, key)[0])):
            x, y = self.point()
            columns.append(x)
            profiles.append(y)
        return columns, profiles

    def end(self) -> None:
        self.words(0, b"end")
        while line := self.file.readline():
            self.number += 1
            self.need(not line.strip(BLANKS + b"\n"))

    def saddle_certificate(self, side: bytes, setting: bytes) -> tuple:
        self.need(side in (b"D", b"H") and setting in (b"4", b"6", b"8"))
        start, goal, saddle, path = self.point(b"from"), self.point(b"to"), None, ((), ())
        found = self.words(None, b"saddle")
        if found != [b"none"]:
            self.need(len(found) == 3)
            x, y = self.count(found[0]), self.count(found[1])
            saddle = (x, y), self.value(found[2], rb"[+-]?[0-9]+", -(2**63), 2**63 - 1)
            path = self.all_points(b"path")
        cut = self.all_points(b"cut")
        self.end()
        return side, int(setting), start, goal, saddle, path, cut

    def pruning_certificate(self, side: bytes, percent: bytes, setting: bytes) -> tuple:
        self.need(side in (b"D", b"H") and setting in (b"4", b"6", b"8"))
        form = re.fullmatch(rb"([0-9]{1,3})(?:\.([0-9]{1,3}))?%", percent)
        self.need(form)
        thousandths = int(form[1]) * 1000 + int((form[2] or b"0").ljust(3, b"0"))
        self.need(thousandths <= 100000)
        lines = array("q"), array("q"), array("q")
        for _ in range(self.count(self.words(1, b"points")[0])):
            index, *others = self.words(3)
            numbers = [self.count(index)] + [-1 if word == b"-" else self.count(word) for word in others]
            for column, number in zip(lines, numbers):
                column.append(number)
        self.end()
        return side, thousandths, int(setting), *lines


def saddle_faults(
    surface: Surface, side: bytes, setting: int, start: Point, goal: Point, saddle: Optional[Tuple[Point, int]],
    path: Points, cut: Points,
) -> Iterator[Fault]:
    """Each rule of a saddle certificate that fails and where, in order."""
    below, near = surface.under(side, setting)
    top, height = saddle or (None, None)

    def there(at: Point) -> bool:
        return at[0] < surface.points and at[1] < surface.profiles and surface.present[index(at)]

    def index(at: Point) -> int:
        return at[1] * surface.points + at[0]

    for at in [start, goal, *([top] if saddle else [])]:
        if not there(at):
            yield 1, at
    yield from ((1, at) for points in (path, cut) for at in zip(*points) if not there(at))
    path, cut = ([index(at) for at in zip(*points)] for points in (path, cut))
    start, goal, top = index(start), index(goal), top and index(top)
    yield from ((2, p) for p in (start, goal) if any(below(q, p) for q in near(p)))
    yield from ((2, p) for p in [goal] if p == start)
    if saddle:
        yield from ((3, p) for p in [top] if surface.heights[p] != height)
        yield from ((4, p) for p in ([] if path else [start]))
        yield from ((4, p) for p, end in ((path[0], start), (path[-1], goal)) if p != end)
        yield from ((5, q) for p, q in zip(path, path[1:]) if q not in near(p))
        yield from ((6, p) for p in [top] if p not in path)
        yield from ((7, p) for p in path if below(top, p))
    members = bytearray(surface.count)
    for p in cut:
        members[p] = True
    yield from ((8, q) for p, q in zip(cut, cut[1:]) if q <= p)
    yield from ((9, p) for p in (start, goal) if members[p] != (p == start))
    yield from ((10, p) for p in cut if saddle and not below(p, top))
    yield from ((11, q) for p in cut for q in near(p) if not members[q] and not (saddle and not below(q, top)))


def pruning_faults(
    surface: Surface, side: bytes, thousandths: int, setting: int,
    points: Sequence[int], parents: Sequence[int], cuts: Sequence[int],
) -> Iterator[Fault]:
    """Each rule of a pruning certificate that fails and where, in order. A line is known by its place."""
    below, near = surface.under(side, setting)
    heights, present, count = surface.heights, surface.present, surface.count
    place = array("q", [-1]) * count

    def within(c: int, x: int) -> bool:
        rise = heights[x] - heights[c] if side == b"D" else heights[c] - heights[x]
        return rise * 100000 < thousandths * surface.span

    def line_of(p: int) -> int:
        return place[p] if p < count else -1

    for k, p in enumerate(points):
        if p >= count or not present[p] or place[p] != -1:
            yield 12, p
        place[p] = k
    yield from ((13, p) for p in range(count) if present[p] and place[p] == -1)
    for k, (p, parent) in enumerate(zip(points, parents)):
        if parent != -1 and (not 0 <= line_of(parent) < k or parent not in near(p)):
            yield 14, p
    for p, parent, cut in zip(points, parents, cuts):
        if parent == -1 and (cut != p or any(below(q, p) for q in near(p))):
            yield 15, p
    for p, cut in zip(points, cuts):
        if cut != -1 and (line_of(cut) == -1 or parents[place[cut]] != -1 or below(p, cut)):
            yield 16, p
    for p, cut in zip(points, cuts):
        yield from ((17, q) for q in (near(p) if cut != -1 else ()) if within(cut, q) and cuts[place[q]] != cut)
    highest = array("q", points)
    for k, (p, parent) in enumerate(zip(points, parents)):
        if parent != -1:
            above = highest[place[parent]]
            highest[k] = above if below(p, above) else p
            if not within(p, highest[k]) and not any(below(q, p) for q in near(p)):
                yield 18, p


def faults(surface: Surface, file: BinaryIO) -> Iterator[Fault]:
    """The rules that fail of the certificate in a file, and where; first of all it is read."""
    lines = Lines(file, surface.points)
    kind, *head = lines.words(None) or [b""]
    lines.need((kind, len(head)) in ((b"certificate", 2), (b"pruning", 3)))
    if kind == b"pruning":
        return pruning_faults(surface, *lines.pruning_certificate(*head))
    return saddle_faults(surface, *lines.saddle_certificate(*head))


def cannot_read(error: OSError, name: str) -> int:
    print("read fault")
    print(f'verify.py: cannot read "{name}": {error.strerror}', file=sys.stderr)
    return 5


def main(names: list[str]) -> int:
    if len(names) != 2:
        print("usage: verify.py SURFACE CERT", file=sys.stderr)
        return 2
    try:
        surface = Surface(names[0])
    except OSError as error:
        return cannot_read(error, names[0])
    except (AttributeError, KeyError, TypeError, ValueError, OverflowError):
        print("surface not read: `hilldale dales` tells why")
        return 3
    try:
        with open(names[1], "rb") as file:
            rule, at = next(faults(surface, file), (0, None))
    except OSError as error:
        return cannot_read(error, names[1])
    except Unreadable as line:
        print(f"certificate unreadable: line {line}")
        return 4
    if not rule:
        print("certificate accepted")
        return 0
    x, y = at if isinstance(at, tuple) else (at % surface.points, at // surface.points)
    print(f"certificate refused: rule {rule} at {x} {y}")
    return 4


if __name__ == "__main__":
    sys.exit(main(sys.argv[1:]))
