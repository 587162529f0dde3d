"""Texts: separators, decimal marks, encodings, missing points, headers, lists of points; and random decimals."""

from __future__ import annotations

import random
import subprocess
from decimal import Decimal
from fractions import Fraction

import pytest
from hypothesis import HealthCheck, given, settings
from hypothesis import strategies as some

from hilldale_lab import surface_file
from hilldale_lab.errors import InputRefused
from hilldale_lab.formats import Options, import_file

MICRO = Fraction(1, 10**6)
SCALES = {"unit": MICRO, "dx": MICRO, "dy": MICRO}


def imported(tmp_path, text, encoding="utf-8", **options):
    data = text if isinstance(text, bytes) else text.encode(encoding)
    (tmp_path / "a.txt").write_bytes(data)
    return import_file(tmp_path / "a.txt", Options(**{**SCALES, **options}))


def numbers(found):
    """The heights in the file's numbers."""
    surface = found.surface
    return [
        [int(step) * surface.step / MICRO if there else None for step, there in zip(*rows)]
        for rows in zip(surface.steps.tolist(), surface.measured.tolist())
    ]


def fractions(rows):
    return [[None if text is None else Fraction(text) for text in row] for row in rows]


WANTED = fractions([["0.5", "-1.25", None, "3"], ["0", None, "2", "-6.172"]])


@pytest.mark.parametrize(
    "text",
    [
        "0.5 -1.25 NaN 3\n0 nan 2 -6.172\n",
        "0.5 -1.25 *** 3\n0 *** 2 -6.172",
        "  0.50\t-1.25\tBAD\t3\n0\t\t2\t-6.172\n",
        "0,5;-1,25;;3\n0;;2;-6,172\n",
        "0,5;-1,25;;3;\n0;;2;-6,172;\n",
        '"0,5";"-1,25";"";"3"\n"0";"***";"2";"-6,172"\n',
        '"0,5","-1,25","","3"\n"0","","2","-6,172"\n',
        "0.5,-1.25,,3\n0,,2,-6.172\n",
        "5e-1, -1.25, NaN, +3\n0, NaN, 2, -6172e-3\n",
        "0,5 -1,25 *** 3\n0 *** 2 -6,172\n",
        "# Channel: Topography\n#\n0.5 -1.25 NaN 3\n\n0 NaN 2 -6.172\n\n",
        ".5 -1.25 n/a 3.\n0 #N/A 2 -6.172\n",
    ],
)
@pytest.mark.parametrize("ends", ["\n", "\r\n", "\r"])
@pytest.mark.parametrize("encoding", ["utf-8", "utf-8-sig", "utf-16", "utf-16-le", "utf-16-be"])
def test_tables(tmp_path, text, ends, encoding):
    found = imported(tmp_path, text.replace("\n", ends), encoding)
    assert numbers(found) == WANTED
    assert found.surface.step == Fraction("1e-9") and found.rounding == 0


@pytest.mark.parametrize(
    "text, wanted",
    [
        ("5\n", [[5]]),
        ("5", [[5]]),
        ("1\n2\n3\n", [[1], [2], [3]]),
        ("1 2 3", [[1, 2, 3]]),
        ("7;\n8;\n", [[7], [8]]),
        ("1e3\t20\n", [[1000, 20]]),
        ("NaN NaN\n", [[None, None]]),
        (";;\n1;2;3\n", [[None] * 3, [1, 2, 3]]),
        ("1 2\n\n\n3 4\n", [[1, 2], [3, 4]]),
    ],
)
def test_small_tables(tmp_path, text, wanted):
    assert numbers(imported(tmp_path, text)) == wanted


@pytest.mark.parametrize(
    "text, place, told",
    [
        ("1 2 3\n4 5\n", "line 2", "2 numbers, and line 1 has 3"),
        ("1 2\n3 x\n", "line 2, column 2", '"x" is no number'),
        ("height\n1\n2\n", "line 1, column 1", "--skip 1"),
        ("Sample 7\nmade today\n1 2 3\n", "line 3", "--skip 2"),
        ("1;2\n3;4 5\n", "line 2", '"4 5" has a blank in it'),
        ("1,5;2\n3.5;4\n", "line 2, column 1", "different decimal marks"),
        ("1.5 2,5\n", "line 1", '"1.5 2" has a blank in it, and commas separate'),
        ("1,5\n2,5\n", "", "--separator"),
        ("1\n\n2\n", "line 2", "empty, in a single column"),
        ("1-2 3\n", "line 1, column 1", '"1-2" is no number'),
        ("1e 3\n", "line 1, column 1", "no number"),
        ("0x10 3\n", "line 1, column 1", "no number"),
        ("inf 3\n", "line 1, column 1", "no number"),
        ("1 ** 2 bad1\n", "line 1, column 4", "no number"),
        ("# only a comment\n", "", "no numbers"),
        ("12345678901234567890123.5 1\n", "the numbers", "fewer digits"),
        ("9007199254740993 0.5\n", "the numbers", "fewer digits"),
        ("1e30 1e-30\n", "the numbers", "fewer digits"),
    ],
)
def test_what_is_not_clear_is_refused(tmp_path, text, place, told):
    with pytest.raises(InputRefused) as refused:
        imported(tmp_path, text)
    assert refused.value.place == place
    assert told in str(refused.value)


def test_a_comma_is_what_the_user_says(tmp_path):
    assert numbers(imported(tmp_path, "1,5\n2,5\n", separator="comma")) == [[1, 5], [2, 5]]
    assert numbers(imported(tmp_path, "1,5\n2,5\n", separator="blank")) == fractions([["1.5"], ["2.5"]])


def test_lines_before_the_numbers_are_skipped(tmp_path):
    text = "MountainsMap\nX 1,000 mm\n0,5;1,5\n2,5;***\n"
    found = imported(tmp_path, text, skip=2)
    assert numbers(found) == fractions([["0.5", "1.5"], ["2.5", None]])
    with pytest.raises(InputRefused, match="line 4, column 2"):
        imported(tmp_path, text.replace("***", "**x"), skip=2)


@pytest.mark.parametrize("missing", ["unit", "dx", "dy"])
def test_units_are_asked_for(tmp_path, missing):
    with pytest.raises(InputRefused, match=f"--{missing}"):
        imported(tmp_path, "1 2\n", **{missing: None})


def test_the_comments_of_gwyddion_tell_its_units(tmp_path):
    text = "# Channel: Topo\n# Width: 4.00 \u00b5m\n# Height: 20 nm\n# Value units: m\n1e-9\t2e-9\n3e-9\t4e-9\n"
    surface = imported(tmp_path, text, unit=None, dx=None, dy=None).surface
    assert (surface.step, surface.dx, surface.dy) == (Fraction("1e-9"), Fraction("2e-6"), Fraction("1e-8"))
    assert surface.steps.tolist() == [[1, 2], [3, 4]]


def test_a_crop_is_taken(tmp_path):
    found = imported(tmp_path, "1 2 3\n4 5 6\n7 8 9\n", crop=(1, 0, 2, 2))
    assert numbers(found) == [[2, 3], [5, 6]]
    with pytest.raises(InputRefused, match="goes beyond"):
        imported(tmp_path, "1 2 3\n", crop=(1, 0, 3, 1))


def test_too_many_points_name_the_crop(tmp_path):
    line = "1 " * 70_000 + "\n"
    with pytest.raises(InputRefused, match="--crop COLUMN PROFILE COLUMNS PROFILES"):
        imported(tmp_path, line)
    assert imported(tmp_path, line, crop=(0, 0, 65_535, 1)).surface.columns == 65_535


def test_a_mark_that_repeats_is_told(tmp_path):
    rows = [[str(1000 + (17 * x + 5 * y) % 90) for x in range(30)] for y in range(30)]
    for at in range(0, 30, 7):
        rows[at][at] = "-9999"
    text = "\n".join(" ".join(row) for row in rows)
    found = imported(tmp_path, text)
    assert any(
        "5 points hold -9999, far below all others" in note and "--missing -9999" in note for note in found.warnings
    )
    found = imported(tmp_path, text, missing=(Fraction(-9999),))
    assert found.surface.missing == 5 and not any("-9999" in note for note in found.warnings)


def test_a_mark_with_places_is_a_number_of_the_file(tmp_path):
    found = imported(tmp_path, "0.25 -99.5 1\n", missing=(Fraction("-99.5"),))
    assert numbers(found) == fractions([["0.25", None, "1"]])
    assert any("no point holds 7" in note for note in imported(tmp_path, "1 2\n", missing=(Fraction(7),)).warnings)


@pytest.mark.parametrize(
    "unit, told",
    [(Fraction(1, 1000), "beyond 10 mm"), (Fraction(1, 10**15), "below 10 pm"), (Fraction(1), "Zscale is 1")],
)
def test_heights_of_a_wrong_unit_are_told(tmp_path, unit, told):
    assert any(told in note for note in imported(tmp_path, "1 20 300\n", unit=unit).warnings)


def points_text(order=random.Random(1)):
    points = [f"{x * 0.5:.2f} {y * 0.25:.2f} {10 * y + x}" for y in range(5) for x in range(4) if (x, y) != (2, 3)]
    order.shuffle(points)
    return "\n".join(points) + "\n"


def test_a_list_of_points(tmp_path):
    text = points_text()
    assert any("--xyz" in note for note in imported(tmp_path, text).warnings)
    found = imported(tmp_path, text, is_xyz=True, dx=None, dy=None, xy_unit=Fraction(1, 1000))
    wanted = [[None if (x, y) == (2, 3) else 10 * y + x for x in range(4)] for y in range(5)]
    assert numbers(found) == wanted
    assert (found.surface.dx, found.surface.dy) == (Fraction("5e-4"), Fraction("2.5e-4"))
    with pytest.raises(InputRefused, match="--xy-unit"):
        imported(tmp_path, text, is_xyz=True, dx=None, dy=None)


@pytest.mark.parametrize(
    "text, told",
    [
        ("0 0 1\n1 0 2\n2.4 0 3\n", "no even grid"),
        ("0 0 1\n1 0 2\n0 0 3\n1 1 4\n", "two points"),
        ("0 0\n1 1\n", "has 3"),
        ("0 NaN 1\n1 0 2\n", "no x or no y"),
    ],
)
def test_lists_that_are_no_grid_are_refused(tmp_path, text, told):
    with pytest.raises(InputRefused, match=told):
        imported(tmp_path, text, is_xyz=True, xy_unit=MICRO)


def test_the_locale_changes_nothing(tmp_path, root):
    (tmp_path / "a.txt").write_text("0.5 1.25\n")
    words = [root / "hilldale-lab", "import", "a.txt", "--unit", "um", "--dx", "1um", "--dy", "1um", "-o"]
    for name, locale in (("b.sdf", "C"), ("c.sdf", "de_DE.UTF-8")):
        done = subprocess.run(
            [*words, name],
            cwd=tmp_path,
            capture_output=True,
            text=True,
            env={"PATH": "/usr/bin:/bin", "LC_ALL": locale, "HILLDALE_GWYDDION": ""},
        )
        assert done.returncode == 0, done.stderr
    assert (tmp_path / "b.sdf").read_bytes() == (tmp_path / "c.sdf").read_bytes()


PLAIN = some.builds(
    lambda digits, places: str(Decimal(digits).scaleb(-places)), some.integers(-(10**9), 10**9), some.integers(0, 6)
)
ROWS = some.integers(1, 6).flatmap(
    lambda width: some.lists(
        some.lists(some.one_of(some.none(), PLAIN), min_size=width, max_size=width), min_size=1, max_size=6
    )
)


@settings(max_examples=60, suppress_health_check=[HealthCheck.function_scoped_fixture])
@given(ROWS, some.sampled_from([(" ", "."), (";", ","), ("\t", "."), (";", ".")]))
def test_random_decimals_come_back(tmp_path, program, rows, form):
    """Text to a surface file to `info` of the proved program, and back."""
    separator, mark = form
    text = "\n".join(
        separator.join("NaN" if field is None else field.replace(".", mark) for field in row) for row in rows
    )
    # In a single column a comma may be either, and is refused until it is told.
    found = imported(tmp_path, text, separator="semicolon" if mark == "," and len(rows[0]) == 1 else None)
    assert numbers(found) == fractions(rows)
    surface_file.write(tmp_path / "a.sdf", found.surface)
    (tmp_path / "info").write_text("info\n")
    told = subprocess.run(
        [program, "run", tmp_path / "a.sdf", tmp_path / "info"], capture_output=True, text=True
    ).stdout
    values = [Fraction(field) for row in rows for field in row if field is not None]
    words = {line.split()[0]: line.split()[1:] for line in told.splitlines()}
    assert words["size"] == [str(len(rows[0])), str(len(rows))] and words["present"] == [str(len(values))]
    step = Fraction(words["scales"][2]) / MICRO
    assert words["range"] == ([str(min(values) / step), str(max(values) / step)] if values else ["none"])
    back = surface_file.read(tmp_path / "a.sdf")
    assert [
        [int(s) * back.step / MICRO if there else None for s, there in zip(*line)]
        for line in zip(back.steps.tolist(), back.measured.tolist())
    ] == fractions(rows)


def test_a_step_is_that_of_the_points_that_are_left(tmp_path):
    text = "1.25 3\n0.5 -99.125\n"
    assert imported(tmp_path, text).surface.step == Fraction("1e-9")
    assert imported(tmp_path, text, missing=(Fraction("-99.125"),)).surface.step == Fraction("1e-8")
    found = imported(tmp_path, text, crop=(1, 0, 1, 1))
    assert found.surface.step == MICRO and numbers(found) == [[3]]
