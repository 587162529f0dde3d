"""Surface files: written, read back, and read by the proved program."""

from __future__ import annotations

import subprocess
from fractions import Fraction
from pathlib import Path

import numpy as np
import pytest

from hilldale_lab import surface_file
from hilldale_lab.errors import InputRefused, LabError
from hilldale_lab.height_map import HeightMap


def a_map(steps, measured=None, step="1e-9", keys=()):
    table = np.array(steps, np.int64)
    there = np.ones(table.shape, np.bool_) if measured is None else np.array(measured, np.bool_)
    return HeightMap(table, there, Fraction(step), Fraction("1e-6"), Fraction("2e-6"), keys)


def same(one: HeightMap, other: HeightMap) -> bool:
    return (
        (one.step, one.dx, one.dy) == (other.step, other.dx, other.dy)
        and np.array_equal(one.measured, other.measured)
        and np.array_equal(one.steps, other.steps)
    )


@pytest.mark.parametrize(
    "steps, measured",
    [
        ([[1]], None),
        ([[0]], [[False]]),
        ([[0, -5, 7]], [[True, True, False]]),
        ([[2**53], [-(2**53)]], None),
        ([[12, 0, -7], [0, 1, 2]], [[True, False, True], [False, True, True]]),
    ],
)
def test_what_is_written_is_read(tmp_path: Path, steps, measured):
    surface = a_map(steps, measured, keys=(("Source", "a b"),))
    surface = HeightMap(
        np.where(surface.measured, surface.steps, 0),
        surface.measured,
        *(surface.step, surface.dx, surface.dy, surface.keys),
    )
    surface_file.write(tmp_path / "a.sdf", surface)
    back = surface_file.read(tmp_path / "a.sdf")
    assert same(surface, back)
    assert ("Source", "a b") in back.keys


def test_the_program_reads_what_is_written(tmp_path: Path, program: str):
    surface_file.write(tmp_path / "a.sdf", a_map([[2**40, -3, 0], [1, 2, 3]], [[True, True, False], [True] * 3]))
    (tmp_path / "info").write_text("info\n")
    told = subprocess.run([program, "run", tmp_path / "a.sdf", tmp_path / "info"], capture_output=True, text=True)
    assert told.returncode == 0
    assert "size 3 2\n" in told.stdout and "present 5\n" in told.stdout
    assert f"range -3 {2**40}\n" in told.stdout


def test_decimals_have_the_places_that_are_written():
    text = (
        b"aBCR-1.0\nNumPoints = 3\nNumProfiles = 1\nXscale = 1\nYscale = 1\nZscale = 1e-6\nDataType = 7\n*\n"
        b"0.50 1.25e0 BAD\n*\n"
    )
    surface = surface_file.parse(text, "a")
    assert surface.step == Fraction("1e-8")
    assert surface.steps.tolist() == [[50, 125, 0]] and surface.measured.tolist() == [[True, True, False]]


@pytest.mark.parametrize(
    "old, new, place",
    [
        (b"aBCR-1.0", b"aBCR-0.0", "line 1"),
        (b"Xscale = 1", b"Xscale = 1,5", "line 4"),
        (b"1 2\n*", b"1 2 3\n*", "the data"),
        (b"1 2\n*", b"1 zwei\n*", "datum 2"),
        (b"NumPoints = 2", b"NumPoints = 400000000000", "the data"),
        (b"*\n1", b"1", "line 8"),
    ],
)
def test_what_is_refused_names_its_place(old, new, place):
    text = b"aBCR-1.0\nNumPoints = 2\nNumProfiles = 1\nXscale = 1\nYscale = 1\nZscale = 1\nDataType = 6\n*\n1 2\n*\n"
    surface_file.parse(text, "a")
    with pytest.raises(InputRefused) as refused:
        surface_file.parse(text.replace(old, new), "a")
    assert refused.value.place == place


@pytest.mark.parametrize("other", [b"2", b"BAD"])
@pytest.mark.parametrize("word", [b"-9223372036854775808", b"-99999999999999999999", b"BAD5", b"5BAD", b"BADBAD"])
def test_no_word_but_bad_is_a_missing_point(word, other):
    text = b"aBCR-1.0\nNumPoints = 2\nNumProfiles = 1\nXscale = 1\nYscale = 1\nZscale = 1\nDataType = 6\n*\n"
    with pytest.raises(InputRefused):
        surface_file.parse(text + word + b" " + other + b"\n*\n", "a")


def test_a_file_that_is_replaced_gives_no_more_rights(tmp_path: Path):
    kept = tmp_path / "a.csv"
    kept.write_text("old")
    kept.chmod(0o600)
    surface_file.replace_file(kept, b"new")
    assert kept.read_bytes() == b"new" and kept.stat().st_mode & 0o777 == 0o600
    assert list(tmp_path.iterdir()) == [kept]


def test_a_scale_that_is_no_decimal_is_not_written():
    with pytest.raises(LabError):
        surface_file.encode(a_map([[1]], step=Fraction(1, 3)))


@pytest.mark.parametrize("keys", [(("a", "1"), ("A", "2")), ((";a", "1"),), (("a=b", "1"),), (("", "1"),), (("a", "b\nc"),)])
def test_keys_that_are_none_are_not_written(keys):
    with pytest.raises(LabError):
        surface_file.encode(a_map([[1]], keys=keys))


@pytest.mark.parametrize("data, wanted", [(b"1 2 *", [[1, 2]]), (b"1 2\n*\n* 7", [[1, 2]]), (b"1 2", [[1, 2]])])
def test_where_the_data_end(data, wanted):
    head = b"aBCR-1.0\nNumPoints = 2\nNumProfiles = 1\nXscale = 1\nYscale = 1\nZscale = 1\nDataType = 6\n*\n"
    assert surface_file.parse(head + data, "a").steps.tolist() == wanted
    for wrong in (b"1 2*", b"1 *2 *", b"1 2 3 *"):
        with pytest.raises(InputRefused):
            surface_file.parse(head + wrong, "a")
