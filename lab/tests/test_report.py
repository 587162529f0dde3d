"""The report: each number on it is the program's, and it looks as it should in a browser, on a phone and in print."""

from __future__ import annotations

import hashlib
import html
import os
import re
import shutil
import subprocess
from fractions import Fraction
from pathlib import Path

import pytest
from browser import needs_chromium, pages_of, printed, screenshot
from surfaces import noise

from hilldale_lab import surface_file
from hilldale_lab.cli import main
from hilldale_lab.report.beside import Beside, check_commands

JOB = """\
title = "Bearing shell 12 <upper half>"
regions = ["dales", "hills"]
at = "-350 nm"
parameters = ["Sa", "Smr 0 um", "S10z at 2%"]

[limits]
S10z = "<= 0.6 um"
Spd = ">= 700 per mm2"
"Sda -350 nm" = "2000 .. {most} um2"

[[mask]]
rectangle = [3, 9, 4, 9]
why = "a grain of dust & no part of the surface"

[preparation]
Levelled = "plane by least squares"
"""
needs_weasyprint = pytest.mark.skipif(
    shutil.which("weasyprint") is None, reason="weasyprint is not installed: apt-get install weasyprint"
)


@pytest.fixture(autouse=True)
def use_program(program: str, monkeypatch: pytest.MonkeyPatch) -> None:
    monkeypatch.setenv("HILLDALE_PROGRAM", program)


@pytest.fixture
def shown(root: Path, tmp_path: Path) -> Path:
    """The report of the pockets, whose limits are kept."""
    (tmp_path / "job.toml").write_text(JOB.format(most=3000))
    place = tmp_path / "shell.html"
    assert main(["report", str(root / "samples" / "pockets.sdf"), str(tmp_path / "job.toml"), "-o", str(place)]) == 0
    return place


def asked(program: str, surface: Path, script: str, folder: Path) -> list[str]:
    """The answers of the program."""
    (folder / "asked.txt").write_text(script)
    return subprocess.run(
        [program, "run", surface, folder / "asked.txt"], capture_output=True, text=True, check=True
    ).stdout.splitlines()


def cells_of(table: str) -> list[list[str]]:
    """The texts of the rows of a table."""
    rows = re.findall(r"<tr>(.*?)</tr>", table, re.S)
    return [
        [
            html.unescape(
                re.sub(r"<svg.*?</svg>|<span class=\"small\">.*?</span>|<[^>]*>", "", cell, flags=re.S)
            ).strip()
            for cell in re.findall(r"<t[dh][^>]*>(.*?)</t[dh]>", row, re.S)
        ]
        for row in rows
    ]


def tables_of(page: str) -> list[list[list[str]]]:
    return [cells_of(table) for table in re.findall(r"<table.*?</table>", page, re.S)]


def test_the_results_are_the_answers_of_the_program(shown: Path, program: str, root: Path, tmp_path: Path) -> None:
    script = "mask 3 9 4 9\nheight Sa\nheight Smr 0\nfeature FC;H;Wolfprune:2%;Top:5;lpvh;Mean\nfeature FC;D;Wolfprune:2%;Bot:5;lpvh;Mean\nparam S10z\nparam Spd\nparam Sda -350\n"
    answers = [
        Fraction(line.split()[-1]) for line in asked(program, root / "samples" / "pockets.sdf", script, tmp_path)[1:]
    ]
    sa, smr, s5p, s5v, s10z, spd, sda = answers
    expected = {
        "Sa": (sa, 1000, "µm"),
        "Smr at 0 µm": (smr, 1, ""),
        "S10z at 2%": (s5p + s5v, 1000, "µm"),
        "S10z": (s10z, 1000, "µm"),
        "Spd": (spd, Fraction(25, 10**6), "1/mm²"),
        "Sda at -350 nm": (sda, Fraction(1, 25), "µm²"),
    }
    rows = tables_of(shown.read_text(encoding="utf-8"))[0][1:]
    assert [row[0] for row in rows] == list(expected)
    for name, number, unit, exact, _, _ in rows:
        value, parts, symbol = expected[name]
        assert unit == symbol and Fraction(exact.split()[0]) == value
        assert abs(Fraction(number) - value / parts) <= abs(value / parts) / 10**5 / 2
    assert {row[0]: (row[4], row[5]) for row in rows if row[4]} == {
        "S10z": ("≤ 0.6 µm", "pass"),
        "Spd": ("≥ 700 per mm²", "pass"),
        "Sda at -350 nm": ("2000 .. 3000 µm²", "pass"),
    }


def test_the_tables_are_the_answers_of_the_program(shown: Path, program: str, root: Path, tmp_path: Path) -> None:
    script = "mask 3 9 4 9\nprune D 5%\nprune H 5%\nfill D 5%\nfill H 5%\n"
    script += "".join(f"feature FC;{side};Wolfprune:5%;All;lpvh;Sum\n" for side in "DH")
    answers = [line.split() for line in asked(program, root / "samples" / "pockets.sdf", script, tmp_path)]
    for word, table, name in (("dale", 1, "dales"), ("hill", 2, "hills")):
        kept = [[int(part) for part in line[1:]] for line in answers if line[0] == word]
        volumes = {(line[1], line[2]): line[3] for line in answers if line[0] == "volume"}
        headings, *rows = tables_of(shown.read_text(encoding="utf-8"))[table]
        assert len(rows) == len(kept)
        depth = headings.index("Depth in µm" if word == "dale" else "Height over saddle in µm")
        told = next(line[2] for line in answers if line[0] == "feature" and line[1].startswith(f"FC;{word[0].upper()}"))
        assert sum(Fraction(row[depth]) for row in rows) == Fraction(told) / 1000
        csv = (shown.with_name(f"shell.{name}.csv")).read_text().splitlines()
        assert len(csv) == len(kept) + 1
        for number, (cells, (x, y, height, points)) in enumerate(zip(rows, kept), 1):
            row = dict(zip(headings, cells))
            assert [row["No."], row["Column"], row["Profile"], row["Points"]] == [
                str(part) for part in (number, x, y, points)
            ]
            assert (
                Fraction(row["Height in µm"]) == Fraction(height, 1000) and Fraction(row["Area in µm²"]) == points * 25
            )
            told = volumes[str(x), str(y)]
            assert (
                row["Volume in µm³"] == "none"
                if told == "none"
                else Fraction(row["Volume in µm³"]) == Fraction(told) * 25 / 1000
            )
            assert csv[number].split(",")[:3] == [str(number), str(x), str(y)]


def test_the_customer_checks_it(shown: Path, program: str, root: Path) -> None:
    page = html.unescape(shown.read_text(encoding="utf-8"))
    folder = shown.parent
    digests = dict(re.findall(r"<strong>(.*?)</strong>.*?<span class=\"digest\">(.*?)</span>", page))
    certificates = [name for name in digests if name.endswith(".certificate")]
    assert sorted(certificates) == [
        "shell.dales-2.certificate",
        "shell.dales-5.certificate",
        "shell.hills-2.certificate",
        "shell.hills-5.certificate",
    ]
    for name, digest in digests.items():
        assert hashlib.sha256((folder / name).read_bytes()).hexdigest() == digest
    commands = re.search(r"<pre>(sha256sum.*?)</pre>", page, re.S)[1].splitlines()[1:]
    said = [
        subprocess.run([program, *line.split()[1:]], cwd=folder, capture_output=True, text=True, check=True).stdout
        for line in commands
    ]
    assert said[:-1] == ["certificate accepted\n"] * 4
    exact = {row[3].split()[0] for row in tables_of(page)[0][1:] if "S10z at" not in row[0]}
    assert exact <= {line.split()[-1] for line in said[-1].splitlines()}
    verified = subprocess.run(
        ["/usr/bin/python3", root / "tools" / "verify.py", "shell.checked.sdf", certificates[0]],
        cwd=folder,
        capture_output=True,
        text=True,
        check=True,
    )
    assert verified.stdout == "certificate accepted\n"


def test_what_a_report_says(shown: Path, root: Path) -> None:
    page = shown.read_text(encoding="utf-8")
    assert "Bearing shell 12 &lt;upper half&gt;" in page and "a grain of dust &amp; no part" in page
    assert '<p class="word">PASS</p><p>All 3 limits are met.</p>' in page
    assert "Of 384 points 7 were not measured, and 2 are masked." in page
    assert "<dt>Levelled</dt><dd>plane by least squares</dd>" in page
    assert hashlib.sha256((root / "samples" / "pockets.sdf").read_bytes()).hexdigest() in page
    assert all(
        f'alt="{alt}' in page
        for alt in (
            "Height map with 4 dales",
            "Height map with 7 hills",
            "Change tree of 4 dales",
            "Histogram of heights",
        )
    )
    assert not re.findall(r"<script|https?:", re.sub(r"base64,[^\"]*", "", page)) and "default-src 'none'" in page


def test_a_limit_that_is_not_kept(root: Path, tmp_path: Path, capsys: pytest.CaptureFixture) -> None:
    (tmp_path / "job.toml").write_text(JOB.format(most=2500))
    words = [
        "report",
        str(root / "samples" / "pockets.sdf"),
        str(tmp_path / "job.toml"),
        "--alone",
        "-o",
        str(tmp_path / "r.html"),
    ]
    assert main(words) == 1
    page = (tmp_path / "r.html").read_text(encoding="utf-8")
    assert '<p class="word">FAIL</p><p>1 of 3 limits is not met: Sda at -350 nm.</p>' in page
    assert [row[5] for row in tables_of(page)[0][1:] if row[4]] == ["pass", "pass", "FAIL"]
    assert capsys.readouterr().out == f"FAIL: {tmp_path / 'r.html'}\n"
    assert sorted(place.name for place in tmp_path.iterdir()) == ["job.toml", "r.html"]


def test_a_script_is_a_job_too(root: Path, tmp_path: Path) -> None:
    words = [
        "report",
        str(root / "samples" / "seal.sdf"),
        str(root / "samples" / "seal.txt"),
        "-o",
        str(tmp_path / "seal.html"),
    ]
    assert main(words) == 0
    page = (tmp_path / "seal.html").read_text(encoding="utf-8")
    assert "NO LIMITS" in page and "3167/10 steps" in page
    script = (root / "samples" / "seal.txt").read_text()
    assert html.escape(script, quote=False) in page


def test_values_before_a_later_edit(root: Path, tmp_path: Path) -> None:
    script = tmp_path / "job.txt"
    script.write_text("param S10z\nparam Spd\nmask 3 9 4 9\nparam S10z\n")
    words = ["report", str(root / "samples" / "pockets.sdf"), str(script), "-o", str(tmp_path / "r.html")]
    assert main(words) == 0
    page = (tmp_path / "r.html").read_text(encoding="utf-8")
    assert [row[3] for row in tables_of(page)[0][1:]] == ["9429/4 steps", "1/377 per point", "9501/20 steps"]
    assert "2 of the values were asked before a later edit" in page
    assert (tmp_path / "r.questions.txt").read_text() == "param S10z\n"
    script.write_text("param S10z\nmask 3 9 4 9\n")
    assert main(words[:3] + ["-o", str(tmp_path / "s.html")]) == 0
    assert not (tmp_path / "s.questions.txt").exists() and "hilldale run" not in (tmp_path / "s.html").read_text()


@pytest.mark.parametrize("words, status", [(["-o", "r.txt"], 2), (["-o", "none/r.html"], 6)])
def test_reports_that_are_not_written(
    words: list[str], status: int, root: Path, tmp_path: Path, monkeypatch: pytest.MonkeyPatch
) -> None:
    monkeypatch.chdir(tmp_path)
    assert main(["report", str(root / "samples" / "seal.sdf"), str(root / "samples" / "seal.txt"), *words]) == status
    assert not list(tmp_path.iterdir())


@needs_weasyprint
def test_as_pdf(root: Path, tmp_path: Path) -> None:
    (tmp_path / "job.toml").write_text(JOB.format(most=3000))
    place = tmp_path / "shell.pdf"
    assert main(["report", str(root / "samples" / "pockets.sdf"), str(tmp_path / "job.toml"), "-o", str(place)]) == 0
    assert place.read_bytes().startswith(b"%PDF") and 4 <= pages_of(place.read_bytes()) <= 8


@needs_chromium
@pytest.mark.parametrize("sample", ["pockets", "seal", "groove"])
def test_in_a_browser_and_in_print(sample: str, root: Path, tmp_path: Path) -> None:
    (tmp_path / "job.toml").write_text('[limits]\nSa = "<= 1 nm"\nSpd = ">= 0 per mm2"\n')
    page = tmp_path / f"{sample}.html"
    assert (
        main(
            ["report", str(root / "samples" / f"{sample}.sdf"), str(tmp_path / "job.toml"), "--alone", "-o", str(page)]
        )
        == 1
    )
    for width in (1280, 500):
        picture = screenshot(page, width, 1500)
        left = (width - 800) // 2 + 20 if width > 800 else 16
        assert picture.getpixel((3, 3)) == (255, 255, 255)
        bar = [picture.getpixel((left + 3, y)) for y in range(120, 260)]
        assert (166, 54, 3) in bar  # the bar beside the verdict
        assert (166, 54, 3) in {
            picture.getpixel((x, y)) for x in range(left + 20, left + 80) for y in range(130, 260)
        }  # its shape
    assert 3 <= pages_of(printed(page).read_bytes()) <= 8


def test_100000_kept_dales(tmp_path: Path) -> None:
    surface_file.write(tmp_path / "noise.sdf", noise(1024))
    (tmp_path / "job.toml").write_text('percent = "0%"\n[limits]\nS10z = "<= 5 um"\n')
    before = os.times()
    words = ["report", str(tmp_path / "noise.sdf"), str(tmp_path / "job.toml"), "-o", str(tmp_path / "noise.html")]
    assert main(words) == 1
    took = sum(os.times()[:4]) - sum(before[:4])
    page = (tmp_path / "noise.html").read_text(encoding="utf-8")
    assert len(page) <= 3_000_000 and took < 30  # seconds of a processor, some 10 where nothing else is at work
    found = re.search(r"keeps (\d+) of \1 dales", page)
    assert (
        int(found[1]) > 100_000
        and f"The 200 of greatest depth of {found[1]} are shown; all stand in noise.dales.csv." in page
    )
    assert len((tmp_path / "noise.dales.csv").read_text().splitlines()) == int(found[1]) + 1


def test_names_with_blanks_stand_in_quotes() -> None:
    ends = ("checked.sdf", "questions.txt", "dales-5.certificate")
    assert check_commands([Beside(f"a part.{end}", "", b"") for end in ends]).splitlines() == [
        "sha256sum 'a part'.*",
        "hilldale check 'a part.checked.sdf' 'a part.dales-5.certificate'",
        "hilldale run 'a part.checked.sdf' 'a part.questions.txt'",
    ]
