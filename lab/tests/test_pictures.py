"""Pictures of surfaces: what stands in them is what the program answers, and the same surface gives the same bytes."""

from __future__ import annotations

import errno
import os
import subprocess
import sys
import time
from fractions import Fraction
from pathlib import Path

import matplotlib
import numpy as np
import pytest
from matplotlib.axis import Axis

import hilldale_lab as lab
from hilldale_lab.cli import main
from hilldale_lab.drawing import Drawing, drawing_of
from hilldale_lab.picture import MASKED, NOT_MEASURED, as_bytes, height_figure, save
from hilldale_lab.tree import tree_figure_of

SMALL = """\
  30  28  24  27  31  33  30  29    a a a a a b b b
  26  18  15  22  29  27  21  24    a a a a a b b b
  22  12   9  19  30  25  14  20    a a A a a b B b
  25  16  11  20  28  24  15  22    a a a a b b b b
  29  24  10  26  27  17  16  28    a c C c b b b b
"""


@pytest.fixture(autouse=True)
def use_program(program: str, monkeypatch: pytest.MonkeyPatch) -> None:
    monkeypatch.setenv("HILLDALE_PROGRAM", program)


@pytest.fixture
def pockets(root: Path) -> lab.Surface:
    return lab.read(root / "samples" / "pockets.sdf").mask(3, 9, 4, 9)


def rgb(colour: str) -> tuple[int, ...]:
    return tuple(int(colour[at : at + 2], 16) for at in (1, 3, 5))


def test_a_small_surface_as_text(root: Path, capsys: pytest.CaptureFixture) -> None:
    assert main(["picture", str(root / "samples" / "small.sdf")]) == 0
    assert capsys.readouterr().out == SMALL


def test_368_dales_are_told_apart(root: Path, capsys: pytest.CaptureFixture) -> None:
    assert main(["picture", str(root / "samples" / "ground.sdf")]) == 0
    words = capsys.readouterr().out.split()
    assert len({word for word in words if word.isupper()}) == 368


@pytest.mark.parametrize(
    "words, status, told",
    [
        (["{wide}"], 2, "a profile of 201 points is too wide for text: -o F.png"),
        (["{profile}", "--tree"], 2, "add -o F.png"),
        (["{profile}", "-o", "{folder}/a.gif"], 2, "ends with one of .png .svg .pdf"),
        (["{profile}", "--dales", "101%"], 2, "more than 100%"),
        (["{profile}", "--job", "{slip}"], 1, "slip.txt: line 1 refused: 9 9 is outside"),
        (["{profile}", "--job", "{word}"], 1, "word.txt: line 5 refused: unknown command"),
        (["{folder}/none.sdf"], 5, "none.sdf"),
        (["{profile}", "-o", "{folder}/none/a.png"], 6, "cannot write"),
    ],
)
def test_what_is_not_drawn(
    words: list[str], status: int, told: str, root: Path, tmp_path: Path, capsys: pytest.CaptureFixture
) -> None:
    places = {
        "profile": root / "samples" / "profile.sdf",
        "folder": tmp_path,
        "wide": tmp_path / "wide.sdf",
        "slip": tmp_path / "slip.txt",
        "word": tmp_path / "word.txt",
    }
    places["slip"].write_text("mask 0 0 9 9\n")
    places["word"].write_text("; a mask\ninfo\nmask 0 0 0 0\n\nmsak 1 0 1 0\n")
    places["wide"].write_bytes(lab.Surface(np.zeros((1, 201), int), 1, 1, 1).sdf())
    assert main(["picture", *(word.format(**places) for word in words)]) == status
    said = capsys.readouterr()
    assert told in said.err and not said.out


def test_a_script_edits_and_its_questions_are_passed_over(
    root: Path, tmp_path: Path, capsys: pytest.CaptureFixture
) -> None:
    script = tmp_path / "lines.txt"
    script.write_bytes(b"; a mask\nmask 2 0 2 0\n\nneighbours 4\r\n\tprune D 5%\r\n")
    assert main(["picture", str(root / "samples" / "profile.sdf"), "--job", str(script)]) == 0
    assert capsys.readouterr().out == " A a .\n"


def test_the_colours_of_points(pockets: lab.Surface, tmp_path: Path) -> None:
    from PIL import Image

    place = tmp_path / "pockets.png"
    assert main(["picture", pockets.name, "-o", str(place)]) == 0
    drawing = Drawing(
        pockets.map.steps,
        pockets.present().measured,
        pockets.scales.step,
        pockets.scales.dx,
        pockets.scales.dy,
        ~pockets.present().measured & pockets.map.measured,
    )
    figure = height_figure(drawing)
    place.write_bytes(as_bytes(figure, "png"))
    with Image.open(place) as image:
        picture = image.convert("RGB")
    least, greatest = drawing.range
    viridis = matplotlib.colormaps["viridis"]
    bad = np.argwhere(~pockets.map.measured)[0][::-1]
    for (column, profile), expected in (
        ((3, 9), rgb(MASKED)),
        (tuple(bad), rgb(NOT_MEASURED)),
        ((11, 11), None),
        ((0, 0), None),
    ):
        axes = figure.axes[0]
        x, y = axes.transData.transform((column * 5.0, profile * 5.0))
        found = picture.getpixel((int(x), picture.height - 1 - int(y)))
        share = (int(drawing.steps[profile, column]) - least) / (greatest - least)
        expected = expected or tuple(round(255 * part) for part in viridis(share)[:3])
        assert max(abs(a - b) for a, b in zip(found, expected)) <= 3


@pytest.mark.parametrize("side", "DH")
def test_the_numbers_and_marks_are_those_of_the_program(side: str, pockets: lab.Surface) -> None:
    kept = pockets.pruning(side, "5%").kept
    figure = height_figure(drawing_of(pockets, side, "5%"), range(len(kept)))
    placed = {text.get_text(): text.get_position() for text in figure.axes[0].texts}
    assert placed == {str(number): (x * 5.0, y * 5.0) for number, (x, y) in enumerate(kept[:, :2].tolist(), 1)}
    info = pockets.info()
    for axis, least, greatest in (
        (figure.axes[0].xaxis, 0, 23 * 5),
        (figure.axes[0].yaxis, 0, 15 * 5),
        (figure.axes[1].yaxis, Fraction(info.least, 1000), Fraction(info.greatest, 1000)),
    ):
        check_marks(axis, least, greatest)


def check_marks(axis: Axis, least: Fraction, greatest: Fraction) -> None:
    """The texts of an axis are the numbers at their places, and lie on the axis."""
    texts = axis.get_major_formatter().seq
    assert len(texts) >= 3
    assert [float(Fraction(text)) for text in texts] == list(axis.get_majorticklocs())
    assert all(least <= Fraction(text) <= greatest for text in texts)


@pytest.mark.parametrize("side", "DH")
def test_the_tree_has_the_heights_of_the_program(side: str, pockets: lab.Surface) -> None:
    kept = pockets.pruning(side, "5%").kept
    figure = tree_figure_of(pockets, side, "5%", numbers=True)
    leaves = {text.get_text(): text.xy[1] for text in figure.axes[0].texts}
    assert leaves == pytest.approx({str(n): height / 1000 for n, height in enumerate(kept[:, 2].tolist(), 1)})
    check_marks(figure.axes[0].yaxis, *(Fraction(height, 1000) for height in drawing_of(pockets).range))
    lines = figure.axes[0].collections[0].get_segments()
    saddles = {round(line[0][1] * 1000) for line in lines if line[0][1] == line[1][1]}
    regions = pockets.regions(side, "5%").table
    assert saddles <= {saddle.height for saddle in pockets.tree(side).saddles}
    assert {int(row.saddle_height) for row in regions if row.has_saddle} <= saddles and len(saddles) <= len(kept) - 1


@pytest.mark.parametrize("kind, date", [("png", b"tIME"), ("svg", b"dc:date"), ("pdf", b"CreationDate")])
def test_the_same_surface_gives_the_same_bytes(kind: str, date: bytes, pockets: lab.Surface) -> None:
    first, second = (as_bytes(height_figure(drawing_of(pockets, "D", "5%"), range(4)), kind) for _ in range(2))
    assert first == second and date not in first


def test_a_picture_that_cannot_be_written_leaves_the_old_one(
    pockets: lab.Surface, tmp_path: Path, monkeypatch: pytest.MonkeyPatch
) -> None:
    def fail(*_: object) -> None:
        raise OSError(errno.ENOSPC, os.strerror(errno.ENOSPC))

    place = tmp_path / "a.png"
    place.write_text("old")
    figure = height_figure(drawing_of(pockets))
    monkeypatch.setattr(os, "replace", fail)
    with pytest.raises(lab.LabError) as told:
        save(figure, place)
    assert told.value.status == 6 and place.read_text() == "old" and list(tmp_path.iterdir()) == [place]


CALLS = """
import locale, sys
from hilldale_lab.cli import main
try:
    locale.setlocale(locale.LC_ALL, "")
except locale.Error:
    pass
surface, job, folder = sys.argv[1:]
main(["picture", surface, "--hills", "5%", "--numbers", "-o", f"{folder}/picture.svg"])
main(["picture", surface, "--hills", "5%", "--tree", "--numbers", "-o", f"{folder}/tree.svg"])
main(["report", surface, job, "-o", f"{folder}/report.html"])
main(["view", surface, "-o", f"{folder}/view.html"])
"""


def test_a_locale_changes_nothing(root: Path, tmp_path: Path) -> None:
    job = tmp_path / "job.toml"
    job.write_text('[limits]\nS10z = "<= 2.5 um"\n')
    found = []
    for name in ("C.UTF-8", "de_DE.UTF-8"):
        folder = tmp_path / name
        folder.mkdir()
        environment = {**os.environ, "LC_ALL": name, "PYTHONPATH": str(root / "lab" / "src")}
        words = [sys.executable, "-P", "-c", CALLS, root / "samples" / "groove.sdf", job, folder]
        subprocess.run(words, check=True, env=environment, stdout=subprocess.DEVNULL)
        found.append({place.name: place.read_bytes() for place in folder.iterdir()})
    assert found[0] == found[1] and len(found[0]) == 9


@pytest.mark.parametrize("shape", [(1, 1), (1, 60_000), (3_000, 1), (64, 65_535)])
def test_odd_sizes(shape: tuple[int, int]) -> None:
    steps = np.arange(shape[0] * shape[1], dtype=np.int64).reshape(shape) % 97
    drawing = Drawing(steps, np.ones(shape, bool), Fraction(1, 10**9), Fraction(1, 10**6), Fraction(1, 10**6))
    began = time.monotonic()
    assert as_bytes(height_figure(drawing), "png").startswith(b"\x89PNG")
    assert time.monotonic() - began < 15


def test_nothing_is_present() -> None:
    drawing = Drawing(np.zeros((2, 2), np.int64), np.zeros((2, 2), bool), Fraction(1), Fraction(1), Fraction(1))
    assert as_bytes(height_figure(drawing), "png").startswith(b"\x89PNG")
