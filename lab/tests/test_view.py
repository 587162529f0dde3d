"""The page with the slider: at each percent it has the regions that the program keeps."""

from __future__ import annotations

import re
import tempfile
import time
import webbrowser
from pathlib import Path

import numpy as np
import pytest
from browser import needs_chromium, screenshot, states

import hilldale_lab as lab
from hilldale_lab.cli import main
from hilldale_lab.tree import joins_of
from hilldale_lab.view import view_page
from hilldale_lab.view.regions import percent_text, side_data
from surfaces import noise

PERCENTS = ("5%", "20%", "50%", "0%", "12.345%", "100%")
SAMPLES = ("pockets", "ground", "plateau")


@pytest.fixture(autouse=True)
def use_program(program: str, monkeypatch: pytest.MonkeyPatch) -> None:
    monkeypatch.setenv("HILLDALE_PROGRAM", program)


def told(surface: lab.Surface, side: str, percent: str) -> dict:
    """What the page has to tell, by the program's answers."""
    kept = surface.pruning(side, percent).kept
    regions = surface.regions(side, percent)
    rows = [[*row, depth] for row, depth in zip(kept.tolist(), regions.table["depth"].tolist())]
    joins = joins_of(surface.tree(side), kept[:, :2], surface.columns)
    return {
        "side": side,
        "percent": percent,
        "kept": len(kept),
        "regions": rows,
        "joins": [[join.height, *(leaf + 1 for leaf in join.members)] for join in joins],
    }


@needs_chromium
@pytest.mark.parametrize("sample", SAMPLES)
def test_the_slider_keeps_what_the_program_keeps(sample: str, root: Path, tmp_path: Path) -> None:
    surface = lab.read(root / "samples" / f"{sample}.sdf")
    if sample == "pockets":
        surface.mask(3, 9, 4, 9)
    page = tmp_path / "view.html"
    page.write_text(view_page(surface), encoding="utf-8")
    asked = [(side, percent) for side in "DH" for percent in PERCENTS]
    found = states(page, ",".join(side + percent.rstrip("%") for side, percent in asked))
    for (side, percent), state in zip(asked, found, strict=True):
        expected = told(surface, side, percent)
        assert {key: state[key] for key in expected} == expected
        assert state["texts"][0].startswith(f"{expected['kept']} ") and state["texts"][0].endswith(f"kept at {percent}")
        check_table(surface, side, percent, state["table"])


def check_table(surface: lab.Surface, side: str, percent: str, table: list[list[str]]) -> None:
    """The texts of the page's table are those of the lab's."""
    regions = surface.regions(side, percent)
    deepest = sorted(np.argsort(-regions.table.depth, kind="stable")[:200].tolist())
    for row, texts in zip(deepest, table, strict=True):
        region = regions.table[row]
        numbers = [regions.value(row, name).number() for name in ("height", "depth", "area")]
        assert texts == [str(row + 1), str(region.x), str(region.y), *numbers, str(region.points)]


@needs_chromium
@pytest.mark.parametrize(
    "point, where",
    [((11, 11), "Column 11, profile 11: -0.48 µm (-480 steps)"), ((3, 9), "Column 3, profile 9: masked")],
)
def test_what_is_pointed_at(point: tuple[int, int], where: str, root: Path, tmp_path: Path) -> None:
    surface = lab.read(root / "samples" / "pockets.sdf").mask(3, 9, 4, 9)
    page = tmp_path / "view.html"
    page.write_text(view_page(surface), encoding="utf-8")
    dales, hills = states(page, "D5,H5", point)
    assert dales["texts"][1] == hills["texts"][1] == where
    assert dales["texts"][2] == region_text(surface, "D", point, "Dale {}: pit at {} {}, depth")
    assert hills["texts"][2] == region_text(surface, "H", point, "Hill {}: peak at {} {}, height over saddle")


def region_text(surface: lab.Surface, side: str, point: tuple[int, int], words: str) -> str:
    """What is told of the region of a point at 5%, by the program's answers; nothing where it is not present."""
    label = surface.labels(side, "5%")[point[1], point[0]]
    if label < 0:
        return ""
    regions = surface.regions(side, "5%")
    row = regions.table[label]
    depth, area = (regions.value(label, name).symbol_text() for name in ("depth", "area"))
    begin = words.format(label + 1, row.x, row.y)
    return f"{begin} {depth} ({row.depth} steps), area {area} ({row.points} points)"


@needs_chromium
@pytest.mark.parametrize("width", [1280, 500])
def test_a_picture_of_the_page(width: int, root: Path, tmp_path: Path) -> None:
    page = tmp_path / "view.html"
    assert main(["view", str(root / "samples" / "pockets.sdf"), "-o", str(page)]) == 0
    picture = screenshot(page, width, 900, "#dales=5%")
    colours = {picture.getpixel((x, y)) for x in range(60, width // 3) for y in range(200, 520)}
    assert picture.getpixel((3, 3)) == (255, 255, 255)
    assert (26, 26, 26) in colours  # borders
    assert any(blue > red + 60 for red, _, blue in colours) and len(colours) > 40


@needs_chromium
def test_what_is_left_out(root: Path, tmp_path: Path) -> None:
    surface = lab.read(root / "samples" / "ground.sdf")
    data = side_data(surface, "D", most=20)
    assert (
        len(surface.pruning("D", percent_text(data.first)).kept)
        <= 20
        < len(surface.pruning("D", percent_text(data.first - 1)).kept)
    )
    page = tmp_path / "view.html"
    page.write_text(view_page(surface, most=20), encoding="utf-8")
    low, high = states(page, "D5,D50")
    assert len(low["regions"]) <= 20 and "more than 20 dales are kept" in low["texts"][3]
    assert low["percent"] != "5%"
    assert {key: low[key] for key in ("kept", "regions", "joins")} == {
        key: value for key, value in told(surface, "D", low["percent"]).items() if key in ("kept", "regions", "joins")
    }
    expected = told(surface, "D", "50%")
    assert {key: high[key] for key in expected} == expected


@needs_chromium
def test_heights_beyond_32_bits(tmp_path: Path) -> None:
    steps = np.array([[0, 2**53, -(2**53), 5], [7, -(2**53) + 1, 2**53 - 1, 2**40 + 1]], np.int64)
    surface = lab.Surface(steps, "1e-6", "1e-6", "1e-12")
    page = tmp_path / "view.html"
    page.write_text(view_page(surface), encoding="utf-8")
    (state,) = states(page, "H0", (2, 1))
    assert f"({steps[1, 2]} steps)" in state["texts"][1]
    assert state["regions"] == told(surface, "H", "0%")["regions"]


def test_the_page_is_whole_without_script(root: Path) -> None:
    surface = lab.read(root / "samples" / "pockets.sdf")
    page = view_page(surface)
    still = re.search(r"<noscript>(.*?)</noscript>", page, re.S)[1]
    regions = surface.regions("D", "5%")
    cells = re.findall(r"<td>(.*?)</td>", still)
    assert len(cells) == 7 * len(regions) and 'src="data:image/png' in still
    check_table(surface, "D", "5%", [cells[at : at + 7] for at in range(0, len(cells), 7)])


def test_nothing_from_elsewhere(root: Path) -> None:
    page = view_page(lab.read(root / "samples" / "small.sdf"))
    assert not re.findall(r"(?:https?:)?//[a-z]", re.sub(r"data:image/png;base64,[^\"]*", "", page))
    assert "default-src 'none'" in page


def test_names_and_edits_are_escaped(root: Path, tmp_path: Path) -> None:
    name = tmp_path / "a<b>&amp;.sdf"
    name.write_bytes((root / "samples" / "small.sdf").read_bytes())
    page = view_page(lab.read(name).line("; </pre><script>alert(1)</script>"))
    assert "a&lt;b&gt;&amp;amp;.sdf" in page and "<script>alert" not in page


def test_a_page_without_a_name(
    root: Path, tmp_path: Path, monkeypatch: pytest.MonkeyPatch, capsys: pytest.CaptureFixture
) -> None:
    opened = []
    monkeypatch.setattr(tempfile, "tempdir", str(tmp_path))
    monkeypatch.setattr(webbrowser, "open", opened.append)
    monkeypatch.setenv("DISPLAY", ":0")
    assert main(["view", str(root / "samples" / "small.sdf")]) == 0
    place = Path(capsys.readouterr().out.removeprefix("the page is ").rstrip("\n"))
    assert place.name == "small.sdf.html" and place.read_text(encoding="utf-8").startswith("<!doctype html>")
    assert opened == [place.as_uri()]


@needs_chromium
def test_a_large_surface_is_fluent(tmp_path: Path) -> None:
    surface = lab.Surface.from_map(noise(512))
    page = tmp_path / "view.html"
    page.write_text(view_page(surface), encoding="utf-8")
    began = time.monotonic()
    found = states(page, "D0,D60,H0,H60")
    assert time.monotonic() - began < 20
    assert all(state["kept"] <= 10_000 for state in found)
    for state in found:
        kept = surface.pruning(state["side"], state["percent"]).kept
        assert [row[:4] for row in state["regions"]] == kept.tolist()
