"""The words of import and export: what they print, write and refuse."""

from __future__ import annotations

import subprocess
import sys
from fractions import Fraction

import makers
import pytest

from hilldale_lab import surface_file
from hilldale_lab.cli import main
from hilldale_lab.errors import LabError


@pytest.fixture(autouse=True)
def alone(monkeypatch, tmp_path):
    monkeypatch.setenv("HILLDALE_GWYDDION", "")
    monkeypatch.chdir(tmp_path)


ROWS = [[1, None, 3], [-4, 5, 60]]


def test_what_is_printed(tmp_path, capsys):
    (tmp_path / "a.sur").write_bytes(makers.sur(ROWS))
    assert main(["import", "a.sur"]) == 0
    assert capsys.readouterr().out.splitlines() == [
        "a.sur: SUR of MountainsMap, 3 by 2 points, 1 missing",
        "  channel sample",
        "  a step is 1.234e-10 m; 5e-7 m from point to point, 4e-7 m from profile to profile",
        "  heights from -4 to 60 steps, -0.0004936 to 0.007404 um, a range of 0.0078976 um",
        "  no height is rounded",
        "  written to a.sdf",
    ]
    assert surface_file.read("a.sdf").steps.tolist() == [[1, 0, 3], [-4, 5, 60]]


def test_a_file_is_never_written_over_itself(tmp_path, capsys):
    data = makers.text_sdf(ROWS)
    (tmp_path / "a.sdf").write_bytes(data)
    assert main(["import", "a.sdf"]) == 0
    assert (tmp_path / "a.sdf").read_bytes() == data and (tmp_path / "a.surface.sdf").exists()
    assert main(["import", "a.sdf", "-o", "./a.sdf"]) == 2
    assert "give it another name" in capsys.readouterr().err


def test_several_files_go_into_a_folder(tmp_path, capsys):
    (tmp_path / "a.sur").write_bytes(makers.sur(ROWS))
    (tmp_path / "b.x3p").write_bytes(makers.x3p(ROWS))
    assert main(["import", "a.sur", "b.x3p", "-o", "out"]) == 2
    assert "several files go into a folder, and out is none" in capsys.readouterr().err
    (tmp_path / "out").mkdir()
    assert main(["import", "a.sur", "b.x3p", "-o", "out"]) == 0
    assert sorted(path.name for path in (tmp_path / "out").iterdir()) == ["a.sdf", "b.sdf"]
    (tmp_path / "a.x3p").write_bytes(makers.x3p(ROWS))
    assert main(["import", "a.sur", "a.x3p", "-o", "out"]) == 2
    assert "two files would be written to" in capsys.readouterr().err


@pytest.mark.parametrize("name", [".", "/", ".."])
def test_a_folder_is_refused(capsys, name):
    assert main(["import", name]) == 3
    assert capsys.readouterr().err == f"hilldale-lab: {name}: it is no file\n"


def test_one_refused_file_leaves_the_others(tmp_path, capsys):
    (tmp_path / "a.sur").write_bytes(makers.sur(ROWS))
    (tmp_path / "broken.sur").write_bytes(makers.sur(ROWS)[:520])
    (tmp_path / "out").mkdir()
    (tmp_path / "out" / "broken.sdf").write_text("old")
    assert main(["import", "broken.sur", "a.sur", "-o", "out"]) == 3
    told = capsys.readouterr()
    assert told.err == (
        "hilldale-lab: broken.sur: the points: 3 by 2 points are named, and 2 are there: the file was cut off, "
        "or its sizes are wrong\n"
    )
    assert (tmp_path / "out" / "a.sdf").exists() and (tmp_path / "out" / "broken.sdf").read_text() == "old"


@pytest.mark.parametrize(
    "words, told",
    [
        (["--crop", "0", "0", "0", "1"], "--crop takes"),
        (["--crop", "-1", "0", "2", "1"], "--crop takes"),
        (["--unit", "kg"], "--unit takes a length"),
        (["--dx", "0um"], "--dx takes a length"),
        (["--step", "-1"], "--step takes"),
        (["--missing", "x"], "--missing takes"),
        (["--skip", "-2"], "--skip takes"),
    ],
)
def test_words_that_have_not_their_form(tmp_path, capsys, words, told):
    (tmp_path / "a.txt").write_text("1 2\n")
    assert main(["import", "a.txt", *words]) == 2
    assert told in capsys.readouterr().err


@pytest.mark.parametrize(
    "unit, metres",
    [("um", "1e-6"), ("1e-6", "1e-6"), ("\u00b5m", "1e-6"), ("0.5 nm", "5e-10"), ("m", "1"), ("in", "0.0254")],
)
def test_units_and_lengths(tmp_path, unit, metres):
    (tmp_path / "a.txt").write_text("1 2\n")
    assert main(["import", "a.txt", "--unit", unit, "--dx", unit, "--dy", "2mm"]) == 0
    surface = surface_file.read("a.sdf")
    assert surface.step == surface.dx == Fraction(metres) and surface.dy == Fraction("0.002")


def test_rounding_is_printed(tmp_path, capsys):
    (tmp_path / "a.txt").write_text("1.26 2.5\n")
    assert main(["import", "a.txt", "--unit", "um", "--dx", "1um", "--dy", "1um", "--step", "100nm"]) == 0
    assert "  rounded by at most 4e-8 m\n" in capsys.readouterr().out
    assert surface_file.read("a.sdf").steps.tolist() == [[13, 25]]


@pytest.mark.parametrize("ending", ["x3p", "txt", "csv"])
def test_what_is_exported_comes_back(tmp_path, capsys, ending):
    (tmp_path / "a.sur").write_bytes(makers.sur([[1, None, 3], [-4, 5, 10**6], [2**31 - 1, -(2**31) + 2, 0]]))
    assert main(["import", "a.sur"]) == 0
    assert main(["export", "a.sdf", "-o", f"b.{ending}"]) == 0
    assert "no height is rounded" in capsys.readouterr().out
    assert main(["import", f"b.{ending}"]) == 0
    one, other = surface_file.read("a.sdf"), surface_file.read("b.sdf")
    assert (one.dx, one.dy) == (other.dx, other.dy)
    assert (one.measured == other.measured).all()
    assert [int(a) * one.step for a in one.steps.flat] == [int(a) * other.step for a in other.steps.flat]


def test_gsf_rounds_to_floats_and_tells(tmp_path, capsys):
    (tmp_path / "a.sur").write_bytes(makers.sur([[1, None, 3], [-4, 5, 10**6 + 1]]))
    assert main(["import", "a.sur"]) == 0
    assert main(["export", "a.sdf", "-o", "b.gsf"]) == 0
    assert "rounded to floats, by at most" in capsys.readouterr().out
    assert main(["import", "b.gsf"]) == 3
    assert "--step 1.234e-10" in capsys.readouterr().err
    assert main(["import", "b.gsf", "--step", "1.234e-10"]) == 0
    one, other = surface_file.read("a.sdf"), surface_file.read("b.sdf")
    assert (one.measured == other.measured).all() and (one.steps == other.steps).all()


def test_heights_of_more_than_32_bits_are_exported(tmp_path):
    (tmp_path / "a.txt").write_text(f"{2**53} {-(2**53)} 1\n")
    assert main(["import", "a.txt", "--unit", "pm", "--dx", "1um", "--dy", "1um"]) == 0
    assert main(["export", "a.sdf", "-o", "b.x3p"]) == 0
    assert main(["import", "b.x3p", "-o", "c.sdf"]) == 0
    assert surface_file.read("c.sdf").steps.tolist() == [[2**53, -(2**53), 1]]


@pytest.mark.parametrize(
    "words", [["a.sdf", "-o", "b.xyz"], ["a.sdf", "-o", "b.txt", "--unit", "kg"], ["missing.sdf", "-o", "b.txt"]]
)
def test_exports_that_are_refused(tmp_path, words):
    (tmp_path / "a.sdf").write_bytes(makers.text_sdf(ROWS, version="aISO-1.0"))
    assert main(["export", *words]) in (2, 5)
    assert not (tmp_path / words[2]).exists()


def test_an_output_that_cannot_be_written(tmp_path, capsys):
    (tmp_path / "a.sur").write_bytes(makers.sur(ROWS))
    assert main(["import", "a.sur", "-o", "missing/a.sdf"]) == 6
    assert "cannot write" in capsys.readouterr().err
    with pytest.raises(LabError):
        surface_file.replace_file("/dev/full", b"x" * 100_000)


def test_the_program_reads_what_is_imported(tmp_path, program):
    (tmp_path / "a.x3p").write_bytes(makers.x3p(ROWS))
    assert main(["import", "a.x3p"]) == 0
    (tmp_path / "info").write_text("info\n")
    told = subprocess.run([program, "run", "a.sdf", "info"], capture_output=True, text=True)
    assert told.returncode == 0 and "range -4 60\nscales 5e-7 4e-7 1.234e-10\n" in told.stdout


HIDDEN = "import sys; sys.modules.update(numpy=None, jinja2=None); from hilldale_lab.cli import main; sys.exit(main(sys.argv[1:]))"


@pytest.mark.parametrize("words", [["import", "a.sur"], ["--help"], []])
def test_missing_packages_are_named_in_one_line(tmp_path, root, words):
    done = subprocess.run(
        [sys.executable, "-P", "-c", HIDDEN, *words],
        env={"PYTHONPATH": str(root / "lab" / "src"), "PATH": "/usr/bin"},
        capture_output=True,
        text=True,
    )
    assert done.returncode == 2 and done.stdout == ""
    assert done.stderr == "hilldale-lab: not installed here: apt-get install python3-numpy python3-jinja2\n"
