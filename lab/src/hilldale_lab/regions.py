"""The regions that a pruning keeps: what the program tells of each, and beside it what the lab measures."""

from __future__ import annotations

from collections.abc import Sequence
from dataclasses import dataclass, field
from fractions import Fraction

import numpy as np
from numpy.typing import NDArray

from hilldale_lab import labels as labelling
from hilldale_lab import measures
from hilldale_lab.answers import Borders, Fill, Info, Number, Pruning
from hilldale_lab.errors import LabError
from hilldale_lab.height_map import HeightMap
from hilldale_lab.labels import Disagreement
from hilldale_lab.units import Kind, Scales
from hilldale_lab.values import Value, exact_texts, leading_power, rounded_text

SIGNS = {"D": 1, "H": -1}
FIELDS = np.dtype(
    [
        ("x", np.int64),
        ("y", np.int64),
        ("height", np.int64),
        ("points", np.int64),
        ("depth", np.int64),
        ("has_saddle", np.bool_),
        ("saddle_x", np.int64),
        ("saddle_y", np.int64),
        ("saddle_height", np.int64),
        ("volume", object),
        ("sum_x", np.int64),
        ("sum_y", np.int64),
        ("points_at", np.int64),
        ("reaches", np.bool_),
        ("closed", np.bool_),
    ]
)


@dataclass(frozen=True)
class Column:
    """A column of a table of regions: a heading with its unit, whether it is the lab's own, and a text for each
    region."""

    heading: str
    own: bool
    texts: list[str]


@dataclass(frozen=True, eq=False)
class Regions:
    """The dales (side D) or hills (H) that a pruning keeps.

    table: a record array with a row for each, in position order. The program tells x, y (column and profile of the
    pit), height (steps), points, has_saddle, saddle_x, saddle_y, saddle_height (the nearest saddle; -1, -1 and 0
    without one) and volume (int, steps times points, or None). depth is the local height (lpvh) in steps, from the
    program's saddle. The lab's own are sum_x, sum_y (of columns and profiles of its points) and, where `at` is a height
    C in steps, points_at (points at most C high), reaches (the pit is) and closed (no edge point is).
    """

    side: str
    percent: str
    neighbours: int
    at: int | None
    scales: Scales
    pruning: Pruning = field(repr=False)
    labels: NDArray[np.int32] = field(repr=False)
    table: np.recarray = field(repr=False)

    def __len__(self) -> int:
        return len(self.table)

    def value(self, row: int, name: str) -> Value:
        """A number of a region: height, depth, saddle_height, area, volume, and the lab's own x, y, centroid_x,
        centroid_y, area_at, diameter_at, diameter. Raises LabError for another name."""
        region = self.table[row]
        told = {"height": Kind.HEIGHT, "depth": Kind.HEIGHT, "saddle_height": Kind.HEIGHT, "volume": Kind.VOLUME}
        if name in told:
            number = region[name]
            is_none = number is None or name == "saddle_height" and not region["has_saddle"]
            return Value(name, None if is_none else Fraction(int(number)), told[name], self.scales)
        if name == "area":
            return Value(name, Fraction(int(region["points"])), Kind.AREA, self.scales)
        if name == "area_at":
            return Value(name, Fraction(int(region["points_at"])), Kind.AREA, self.scales, own=True)
        return Value(name, self._length(region, name), Kind.LENGTH, self.scales, own=True)

    def _length(self, region: np.record, name: str) -> Fraction:
        points = int(region["points"])
        lengths = {
            "x": lambda: int(region["x"]) * self.scales.dx,
            "y": lambda: int(region["y"]) * self.scales.dy,
            "centroid_x": lambda: Fraction(int(region["sum_x"]), points) * self.scales.dx,
            "centroid_y": lambda: Fraction(int(region["sum_y"]), points) * self.scales.dy,
            "diameter": lambda: measures.equivalent_diameter(points * self.scales.area),
            "diameter_at": lambda: measures.equivalent_diameter(int(region["points_at"]) * self.scales.area),
        }
        if name not in lengths:
            raise LabError(f"nothing is told of regions by the name {name}")
        return lengths[name]()

    def mean_area_reaching(self) -> Value:
        """The mean area of the regions that are closed at C and reach C: the lab's own Sda (Sha). Raises LabError
        without a C."""
        if self.at is None:
            raise LabError("the mean area of regions that reach a height needs the height")
        mean = measures.mean_of_reaching(self.table["points"], self.table["closed"], self.table["reaches"])
        name = "Sda" if self.side == "D" else "Sha"
        return Value(f"{name} of those that reach {self.at} steps", mean, Kind.AREA, self.scales, own=True)

    def columns(self) -> list[Column]:
        """The table for a reader: whole numbers as the program tells them, and each in its unit, exactly."""
        table = self.table
        found = [_whole("column", table["x"]), _whole("profile", table["y"])]
        for name, heading, kind in (
            ("height", "height", Kind.HEIGHT),
            ("depth", "depth", Kind.HEIGHT),
            ("points", "area", Kind.AREA),
            ("volume", "volume", Kind.VOLUME),
        ):
            raw = "points" if name == "points" else f"{heading} in {kind.raw}"
            found += [_whole(raw, table[name]), self._measured(heading, table[name], kind)]
        found += self._own_columns()
        return found

    def _own_columns(self) -> list[Column]:
        table = self.table
        found = []
        if self.at is not None:
            found += [
                _whole("points at C", table["points_at"], own=True),
                self._measured("area at C", table["points_at"], Kind.AREA, own=True),
                self._diameters("diameter at C", table["points_at"]),
                _flags("reaches C", table["reaches"]),
                _flags("closed at C", table["closed"]),
            ]
        return [
            *found,
            self._centroids("centroid x", table["sum_x"], self.scales.dx),
            self._centroids("centroid y", table["sum_y"], self.scales.dy),
        ]

    def _measured(self, heading: str, numbers: NDArray, kind: Kind, own: bool = False) -> Column:
        return Column(f"{heading} in {kind.unit.name}", own, exact_texts(numbers.tolist(), kind.factor(self.scales)))

    def _diameters(self, heading: str, points: NDArray[np.int64]) -> Column:
        area, metres_in_um = self.scales.area, 10**6
        texts = {
            count: rounded_text(measures.equivalent_diameter(count * area) * metres_in_um)
            for count in set(points.tolist())
        }
        return Column(f"{heading} in um", True, [texts[count] for count in points.tolist()])

    def _centroids(self, heading: str, sums: NDArray[np.int64], spacing: Fraction) -> Column:
        """The mean positions, rounded to a thousandth of the distance of points, or finer."""
        in_um = spacing * 10**6
        places = max(0, 3 - leading_power(in_um))
        top, bottom = (2 * in_um * 10**places).as_integer_ratio()
        whole = [
            (total * top + bottom * points) // (2 * bottom * points)
            for total, points in zip(sums.tolist(), self.table["points"].tolist())
        ]
        return Column(f"{heading} in um", True, exact_texts(whole, Fraction(1, 10**places)))


def _whole(heading: str, numbers: NDArray, own: bool = False) -> Column:
    return Column(heading, own, ["none" if number is None else str(number) for number in numbers.tolist()])


def _flags(heading: str, flags: NDArray[np.bool_]) -> Column:
    return Column(heading, True, ["yes" if flag else "no" for flag in flags.tolist()])


def questions(side: str, percent: str, at: int | None) -> list[str]:
    """The lines of a script that ask for what `build` takes, in its order."""
    found = [
        "info",
        f"prune {side} {percent}",
        f"lines {side} {percent}",
        f"fill {side} {percent}",
        f"feature FC;{side};Wolfprune:{percent};All;lpvh;Sum",
    ]
    if at is not None:
        found.append(f"feature FC;{side};Wolfprune:{percent};Closed:{at};AreaE;Sum")
    return found


def build(surface: HeightMap, setting: int, scales: Scales, answers: Sequence[object], at: int | None) -> Regions:
    """The regions, from the present map and the answers to `questions`. Raises Disagreement where the lab's labels,
    depths or closed regions are not those of the program."""
    info, pruning, borders, fill, depth_sum, *closed_sum = answers
    assert isinstance(info, Info) and isinstance(pruning, Pruning)
    assert isinstance(borders, Borders) and isinstance(fill, Fill) and isinstance(depth_sum, Number)
    labels = labelling.labels(surface, pruning, setting)
    table = np.recarray(len(pruning.kept), FIELDS)
    for column, name in enumerate(("x", "y", "height", "points")):
        table[name] = pruning.kept[:, column]
    _set_saddles(table, borders, info)
    _compare("local heights", int(table["depth"].sum()), depth_sum)
    if [(x, y) for x, y, _ in fill.volumes] != list(zip(table["x"].tolist(), table["y"].tolist())):
        raise Disagreement("the program fills other pits than it keeps")
    table["volume"] = [volume for _, _, volume in fill.volumes]
    table["sum_x"], table["sum_y"] = measures.position_sums(labels, len(table))
    _set_at(table, surface, labels, pruning.side, at)
    for answer in closed_sum:
        assert isinstance(answer, Number)
        _compare("areas of closed regions", int(table["points"][table["closed"]].sum()), answer)
    return Regions(pruning.side, pruning.percent, setting, at, scales, pruning, labels, table)


def _compare(what: str, found: int, told: Number) -> None:
    if Fraction(found) != (told.value or 0):
        raise Disagreement(f"the {what} add up to {found} here, and to {told.text} by the program")


def _set_saddles(table: np.recarray, borders: Borders, info: Info) -> None:
    """The nearest saddle of each kept pit is the lowest pass of its borders."""
    sign, columns = SIGNS[borders.side], info.columns
    row_of = np.full(columns * info.profiles, -1)
    row_of[table["y"] * columns + table["x"]] = np.arange(len(table))
    pits = np.concatenate((borders.table[:, 0:2], borders.table[:, 2:4]))
    rows = row_of[pits[:, 1] * columns + pits[:, 0]]
    if (rows < 0).any():
        raise Disagreement("the program tells borders of a pit that it does not keep")
    passes = np.concatenate((borders.table[:, 5:8], borders.table[:, 5:8]))
    index = passes[:, 1] * columns + passes[:, 0]
    order = np.lexsort((sign * index, sign * passes[:, 2], rows))
    with_saddle, first = np.unique(rows[order], return_index=True)
    nearest = passes[order][first]
    table["has_saddle"], table["saddle_x"], table["saddle_y"], table["saddle_height"] = False, -1, -1, 0
    table["has_saddle"][with_saddle] = True
    for column, name in enumerate(("saddle_x", "saddle_y", "saddle_height")):
        table[name][with_saddle] = nearest[:, column]
    far = (info.greatest if borders.side == "D" else info.least) or 0
    table["depth"] = sign * (np.where(table["has_saddle"], table["saddle_height"], far) - table["height"])


def _set_at(table: np.recarray, surface: HeightMap, labels: NDArray[np.int32], side: str, at: int | None) -> None:
    table["points_at"], table["reaches"], table["closed"] = 0, False, False
    if at is not None:
        table["points_at"] = measures.points_at(surface, labels, len(table), side, at)
        table["reaches"] = SIGNS[side] * table["height"] <= SIGNS[side] * at
        table["closed"] = ~measures.is_open(surface, labels, len(table), side, at)
