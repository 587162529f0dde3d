"""The page of a series: its numbers are those of the table, and its links go to the reports."""

from __future__ import annotations

import csv
import html
import io
import os
import re
import statistics
from fractions import Fraction
from pathlib import Path
from urllib.parse import unquote

import pytest
from folders import JOB, ODD, make_folder

from hilldale_lab.cli import main
from hilldale_lab.file_rows import report_name
from hilldale_lab.series import _plain, read_folder, root_text
from hilldale_lab.table import _excel_cell


@pytest.fixture
def table(program: str, tmp_path: Path, monkeypatch: pytest.MonkeyPatch) -> Path:
    """The table of a folder, with the reports of what fails."""
    monkeypatch.setenv("HILLDALE_PROGRAM", os.path.abspath(program))
    monkeypatch.chdir(tmp_path)
    Path("job.toml").write_text(JOB)
    files = make_folder(tmp_path / "parts", 2)
    assert main(["batch", "job.toml", *files, "-o", "table.csv", "--reports", "the reports"]) == 1
    return Path("table.csv")


def test_the_page(table: Path, capsys: pytest.CaptureFixture[str]) -> None:
    assert main(["series", "table.csv", "-o", "pages.html", "--reports", "the reports"]) == 0
    page = Path("pages.html").read_text(encoding="utf-8")
    rows = list(csv.DictReader(io.StringIO(table.read_text(encoding="utf-8"))))
    values = [Fraction(row["S10z in um"]) for row in rows if row["S10z in um"]]
    assert len(values) == 3
    shown = page.split('<th scope="row">S10z</th>')[1].split("</tr>")[0]
    unit, files, mean, least, greatest, deviation, limit, failed = re.findall(r"<td[^>]*>(.*?)</td>", shown)
    assert (unit, int(files), html.unescape(limit)) == ("µm", 3, "<= 1.99 um")
    assert float(mean) == pytest.approx(float(statistics.mean(values)), rel=1e-5)
    assert float(deviation) == pytest.approx(float(statistics.stdev(values)), rel=1e-5)
    assert [float(least), float(greatest)] == pytest.approx([float(min(values)), float(max(values))], rel=1e-5)
    assert int(failed) == sum(row["S10z verdict"] == "FAIL" for row in rows)
    greatest_row = max((row for row in rows if row["S10z in um"]), key=lambda row: Fraction(row["S10z in um"]))
    assert f"({greatest_row['S10z exact in steps']} steps)" in page
    assert "Sda reaching -1 nm (lab&#39;s own, unproved)" in page
    links = {unquote(html.unescape(link)) for link in re.findall(r'href="([^"]*)"', page)}
    fails = [row for row in rows if row["verdict"] == "FAIL"]
    assert fails and len(links) == len(fails) == len(os.listdir("the reports"))
    assert all(Path(link).is_file() for link in links)
    report = next(link for link in links if Path(link).name.startswith(Path(fails[0]["file"]).name))
    assert "FAIL" in Path(report).read_text(encoding="utf-8").split("</title>")[0]
    assert "://" not in page


def test_a_table_for_a_spreadsheet_gives_the_same_numbers(table: Path) -> None:
    files = [f"parts/{name}" for name in sorted(os.listdir("parts"))]
    main(["batch", "job.toml", *files, "-o", "excel.csv", "--excel"])
    plain, excel = read_folder("table.csv"), read_folder("excel.csv")
    assert plain == excel
    assert any(row.file == f"parts/{ODD}" for row in plain.rows)


def test_a_table_of_one_file_and_of_none_with_values(table: Path) -> None:
    lines = table.read_text().splitlines(keepends=True)
    for kept in (lines[:1], lines[:2], lines[:1] + [line for line in lines if ODD in line]):
        Path("few.csv").write_text("".join(kept))
        assert main(["series", "few.csv", "-o", "few.html"]) == 0


@pytest.mark.parametrize("text", ["", "a,b\n1,2\n", "file,sha256,verdict,status,reason,warnings\nx\n"])
def test_what_is_no_table(text: str, tmp_path: Path, capsys: pytest.CaptureFixture[str]) -> None:
    (tmp_path / "table.csv").write_text(text)
    assert main(["series", str(tmp_path / "table.csv"), "-o", str(tmp_path / "page.html")]) == 2
    assert "is no table of batch" in capsys.readouterr().err


@pytest.mark.parametrize(
    ("square", "root"), [("4", "2"), ("1/4", "0.5"), ("2", "1.41421"), ("2/10000000000", "0.0000141421"), ("0", "0")]
)
def test_roots(square: str, root: str) -> None:
    assert root_text(Fraction(square)) == root


@pytest.mark.parametrize("text", ["'quoted'.sdf", "-a.sdf", "=1", "plain.sdf", ""])
def test_a_name_comes_back_from_a_spreadsheet(text: str) -> None:
    assert _plain(_excel_cell("text", text)) == text


def test_the_name_of_a_report_has_room_in_a_folder() -> None:
    name = report_name("\u8868" * 85, "0123456789")
    assert len(name.encode()) < 240 and name.endswith("\u8868-01234567.html")
