"""Jobs, their scripts and mistakes, and the commands."""

from __future__ import annotations

import os
import re
import subprocess
import sys
from fractions import Fraction
from pathlib import Path

import pytest
from hypothesis import HealthCheck, given, settings
from hypothesis import strategies as st

import hilldale_lab as lab
from hilldale_lab import cli
from hilldale_lab import program as programs
from hilldale_lab.answers import Number, Refused, parse, script_lines
from hilldale_lab.lint import lint
from hilldale_lab.units import kind_of

JOB = """title = "bearing shell 12"
parameters = ["S10z", "Spd", "Sda at -350 nm", "Sda reaching -450 nm", "S10z at 2%", "Smr -300 steps from mean",
  "FC;D;Wolfprune:2%;Bot:5;lpvh;Mean", "Sa", "Sda 100 nm"]

[limits]
S10z = "<= 0.47505 um"
Sa = ["> 80 nm", "< 0.1 um"]
"Sha 0.04 um" = "1000 .. 1100 um2"

[[mask]]
rectangle = [3, 9, 4, 9]
why = "a grain of dust"

[[mask]]
above = "5 um"

[preparation]
levelled = "plane by least squares"
"""
ASKED = """S10z  0.47505 um  (9501/20 steps)  <= 0.47505 um  pass
Spd  746.667 per mm2  (7/375 per point)
Sda at -350 nm  2562.5 um2  (205/2 points)
Sda reaching -450 nm  2575 um2  (103/1 points)  lab's own, unproved
S10z at 2%  0.3948 um  (1974/5 steps)
Smr at -300 steps from mean  0.965333  (362/375)
FC;D;Wolfprune:2%;Bot:5;lpvh;Mean  0.3374 um  (1687/5 steps)
Sa  0.0857492 um  (12058484/140625 steps)  > 80 nm and < 0.1 um  pass
Sda at 100 nm  none
Sha at 0.04 um  1112.5 um2  (89/2 points)  1000 .. 1100 um2  FAIL
"""


@pytest.fixture(autouse=True)
def _use_program(program: str, monkeypatch: pytest.MonkeyPatch) -> None:
    monkeypatch.setenv("HILLDALE_PROGRAM", os.path.abspath(program))


@pytest.fixture
def job(tmp_path: Path) -> Path:
    """The job as a file."""
    path = tmp_path / "job.toml"
    path.write_text(JOB, encoding="utf-8")
    return path


@pytest.fixture
def pockets(root: Path) -> Path:
    """The sample of the tutorial."""
    return root / "samples" / "pockets.sdf"


def test_a_job_is_asked(job: Path, pockets: Path, capsys: pytest.CaptureFixture[str]) -> None:
    assert cli.main(["ask", str(pockets), str(job)]) == 1
    assert capsys.readouterr().out == ASKED
    result = lab.Job.read(job).ask(lab.read(pockets))
    assert result.passed is False and [row.passed for row in result.rows].count(None) == 7
    assert [(mask.why, mask.points) for mask in result.masks] == [("a grain of dust", 2), ("", 0)]


def test_every_printed_number_is_the_programs(job: Path, pockets: Path, program: str) -> None:
    """Each fraction stands in what the program answers to the script, and each decimal is the nearest to it."""
    result = lab.Job.read(job).ask(lab.read(pockets))
    script = result.script
    ran = subprocess.run(
        [program, "run", pockets, "/dev/stdin"], input=script.encode(), capture_output=True, check=True
    )
    told = {answer.value for answer in parse(ran.stdout, script) if isinstance(answer, Number)}
    scales = lab.read(pockets).scales
    shown = 0
    for row, line in zip(result.rows, result.text.splitlines(), strict=True):
        match = re.match(r".*?  ([-0-9.]+)(?: [a-z0-9 ]+)?  \(([-0-9]+/[0-9]+)", line)
        if match is None:
            assert "  none" in line and row.value.exact is None and None in told
            continue
        exact = Fraction(match[2])
        parts = {"S10z at 2%": 2}.get(row.name, 1)
        assert (
            exact in told or row.value.own or parts == 2 and any(a + b == exact for a in told for b in told if a and b)
        )
        decimal = exact * kind_of(row.name.split(" ")[0]).factor(scales)
        places = len(match[1].partition(".")[2])
        assert abs(Fraction(match[1]) - decimal) <= Fraction(1, 2 * 10**places)
        shown += 1
    assert shown == 9


def test_two_ways_to_write_a_value_are_one(pockets: Path, tmp_path: Path) -> None:
    text = "parameters = ['Sda -350 nm', 'S10z', 'Sda at -350  nm']\n[limits]\n'Sda at -350 nm' = '> 1 um2'\n"
    rows = lab.Job.from_text(text).ask(lab.read(pockets)).rows
    assert [(row.name, row.passed) for row in rows] == [("Sda at -350 nm", True), ("S10z", None)]
    # Edits are judged also where nothing is asked.
    with pytest.raises(programs.LineRefused):
        lab.Job.from_text("[[mask]]\nrectangle = [3, 9, 44, 9]\n").ask(lab.read(pockets))


def test_the_script_of_a_job(job: Path, pockets: Path, capsys: pytest.CaptureFixture[str]) -> None:
    assert cli.main(["script", str(job), str(pockets)]) == 0
    script = capsys.readouterr().out
    assert script == lab.Job.read(job).ask(lab.read(pockets)).script
    for line in (
        "; a grain of dust",
        "mask 3 9 4 9",
        "; above 5 um = 5000 steps: 0 points",
        "; Sda at -350 nm = -350 steps",
        "param Sda -350",
        "; Smr at -300 steps from mean = -137263/375 steps, up to -366",
        "height Smr -366",
        "feature FC;H;Wolfprune:2%;Top:5;lpvh;Mean",
    ):
        assert f"{line}\n" in script
    again = lab.Job.from_text(script, "again.txt").ask(lab.read(pockets))
    assert {"S10z", "Sda at -350 steps", "Smr at -366 steps"} <= {row.name for row in again.rows}


def test_a_plain_script_is_a_job(tmp_path: Path, pockets: Path, capsys: pytest.CaptureFixture[str]) -> None:
    script = tmp_path / "job.txt"
    script.write_text(
        "; dust\r\nmask 3 9 4 9\r\nparam S10z\r\nhist 4 FC;H;Wolfprune:5%;All;lpvh\r\nlabel D 0 0\r\nperc 50 FC;H;Wolfprune:5%;All;lpvh\r\n"
    )
    assert cli.main(["ask", str(pockets), str(script)]) == 0
    assert capsys.readouterr().out == (
        "S10z  0.47505 um  (9501/20 steps)\nhist 4 FC;H;Wolfprune:5%;All;lpvh 2 0 1 4\nlabel D 0 0 in 6 4\n"
        "perc 50 FC;H;Wolfprune:5%;All;lpvh  0.571429  (4/7)\n"
    )
    script.write_text("mask 3 9 44 9\nparam S10z\n")
    assert cli.main(["ask", str(pockets), str(script)]) == 1
    assert capsys.readouterr().err == "hilldale-lab: line 1 refused: 44 9 is outside: mask 3 9 44 9\n"


def test_mistakes_of_a_job(tmp_path: Path, capsys: pytest.CaptureFixture[str]) -> None:
    text = (
        JOB.replace("title", "titel")
        .replace('"S10z", "Spd"', '"s10z", "Spd"')
        .replace('"<= 0.47505 um"', '"<= 0.47505 um2"')
        .replace("lpvh;Mean", "lpvh;mean")
        .replace("above", "abov")
        .replace("[3, 9, 4, 9]", "[3, 9, 4]")
    )
    path = tmp_path / "job.toml"
    path.write_text(text, encoding="utf-8")
    assert cli.main(["lint", str(path)]) == 1
    lines = [line.removeprefix(f"{path}: ") for line in capsys.readouterr().out.splitlines()]
    assert [line.partition(":")[0] for line in lines] == ["line 1", "line 2", "line 3", "line 6", "line 11", "line 15"]
    for line, meant in zip(
        lines, ["title?", "S10z?", "Mean?", "is a height", "four whole numbers", "above?"], strict=True
    ):
        assert meant in line
    with pytest.raises(lab.LabError, match=r"job.toml: line 1: no key of a job is 'titel' \(meant: title\?\)"):
        lab.Job.read(path)
    path.write_text("parameters = [\n  'S10z'\n  'Spd'\n]\n")
    assert cli.main(["lint", str(path)]) == 1
    assert capsys.readouterr().out.startswith(f"{path}: line 3: ")
    path.write_text(JOB, encoding="utf-8")
    assert cli.main(["lint", str(path)]) == 0 and capsys.readouterr().out == ""


@pytest.mark.parametrize(
    ("toml", "meant"),
    [
        ("percent = 5", "percent"),
        ("percent = '5'", "percent"),
        ("neighbours = 5", "4, 6 and 8"),
        ("parameters = 'S10z'", "a list"),
        ("parameters = [5]", "write a text"),
        ("parameters = ['Sda']", "needs a height"),
        ("parameters = ['S10z 5 um']", "takes no height"),
        ("parameters = ['Sa at 2%']", "no pruning"),
        ("parameters = ['Sda 5 um2']", "no height"),
        ("regions = 'dale'", "neither"),
        ("at = '5'\nregions = ['dales']\nlimits = 3", "a table"),
        ("[mask]\nabove = '5 um'", "double brackets"),
        ("[[mask]]\nwhy = 'x'", "one of"),
        ("[[mask]]\noutliers = -1", "above 0"),
        ("[[mask]]\ncircle = [1, 2]", "three lengths"),
        ("[[mask]]\npolygon = [[1, 2]]", "three corners"),
        ("[[mask]]\nabove = '5 um'\noutside = true", "outside"),
        ("[[mask]]\nrectangle = [4, 4, 3, 5]", "at least"),
        ("[[filter]]\nopn = 'flat 3x3'", "open?"),
        ("[[filter]]\nopen = 'flat 3'", "no element"),
        ("[limits]\nS10z = '5 um'", "no limit"),
        ("[limits]\nS10z = 5", "no limit"),
        ("import = 3", "a table"),
        ("[import]\nunits = 'um'", "unit?"),
        ("parameters = ['FC;D;Wolfprune:5;All;lpvh;Mean']", "part 3"),
        ("parameters = ['FC;D;Wolfprune:5%;All;lpvh']", "six parts"),
        ("a = ", "line 1"),
    ],
)
def test_each_mistake_of_a_job(toml: str, meant: str) -> None:
    mistakes = lint(f"# job\n{toml}\n", "job.toml")
    assert len(mistakes) == 1 and meant in str(mistakes[0]) or meant == "line 1" and mistakes[0].line == 2
    assert mistakes[0].line >= 2


@pytest.mark.parametrize(
    ("line", "meant"),
    [
        ("param s10z", "S10z?"),
        ("prune D 5", "5%?"),
        ("S10z", "param S10z?"),
        ("Sa", "height Sa?"),
        ("Prune D 5%", "prune?"),
        ("param Sa", "height Sa?"),
        ("height Spd", "param Spd?"),
        ("prune d 5%", "D?"),
        ("param Sda -350 nm", "job of TOML"),
        ("param Sda 5%", "notation"),
        ("mask 5 5 4 4", "4 4 5 5?"),
        ("open flat", "no element"),
        ("undo 1", "only 0"),
        ("param Sda", "needs a height"),
        ("param Spd 3", "takes no height"),
        ("FC;D", "feature FC;D?"),
        ("feature FC;D;Wolfprune:5%;Bot:5;lpvh;mean", "Mean?"),
        ("hist 4 FC;D;Wolfprune:5%;All;lpvh;Sum", "five parts"),
        ("neighbours 5", "4, 6 or 8"),
        ("element f 2 1 0 0", "odd"),
        ("element f 3 1 0 - 0", "centre"),
        ("set 1 1 1.5", "whole number"),
        ("\ufeffdales", "byte order mark"),
    ],
)
def test_each_mistake_of_a_script(line: str, meant: str) -> None:
    mistakes = lint(f"; a script\n{line}\n", "job.txt")
    assert [mistake.line for mistake in mistakes] == [2] and meant in mistakes[0].text


WORDS = st.sampled_from(
    [
        "D",
        "H",
        "d",
        "5%",
        "5",
        "100.0%",
        "101%",
        "05.50%",
        "0",
        "1",
        "2",
        "-1",
        "+3",
        "1.5",
        "S10z",
        "s10z",
        "Sda",
        "Sp",
        "Smr",
        "f",
        "g",
        "-",
        "4",
        "65",
        "x",
        "FC;D;Wolfprune:5%;All;lpvh;Mean",
        "FC;H;Wolfprune:5%;Top:5;lpvh",
        "FC;P;Wolfprune:5%;All;AreaE;Sum",
        "FC;D;Wolfprune:5%;Closed:1;Count",
        "FC;D;All",
        "99999999999999999999",
        "4294967296",
    ]
)
COMMANDS = st.sampled_from(
    [
        "set",
        "bad",
        "add",
        "mask",
        "unmask",
        "element",
        "elements",
        "open",
        "neighbours",
        "undo",
        "info",
        "dales",
        "hills",
        "label",
        "saddle",
        "tree",
        "prune",
        "lines",
        "audit",
        "fill",
        "param",
        "feature",
        "height",
        "hist",
        "perc",
        "plot",
        ";",
        "",
    ]
)
# What only the surface shows is refused by the program alone.
OF_THE_SURFACE = r"[0-9]+ [0-9]+ is (outside|not present)|both points are in one region|height out of range at .*"


def test_what_lint_passes_the_program_takes() -> None:
    surface = lab.Surface([[0, 5, 1], [3, 9, 2]], 1, 1, 1)

    @given(
        st.lists(
            st.builds(lambda command, words: " ".join([command, *words]), COMMANDS, st.lists(WORDS, max_size=6)),
            max_size=6,
        )
    )
    @settings(max_examples=250, deadline=None)
    def agree(lines: list[str]) -> None:
        script = "\n".join(["element f 3 1 0 0 0", *lines]) + "\n"
        answers = parse(programs.find().run(surface.sdf(), script.encode()).output, script)
        refused = {
            number
            for (number, _), answer in zip(script_lines(script), answers)
            if isinstance(answer, Refused) and not re.fullmatch(OF_THE_SURFACE, answer.text)
        }
        found = {mistake.line for mistake in lint(script, "script.txt")}
        commands = {number: text.split()[0] for number, text in script_lines(script)}
        # Which edits an `undo` can take back depends on those that the surface refuses.
        refused, found = ({number for number in some if commands[number] != "undo"} for some in (refused, found))
        # An empty rectangle is told by the program only where its corners are inside.
        assert refused <= found and {commands[number] for number in found - refused} <= {"mask", "unmask", "add"}

    agree()


def run_lab(root: Path, *words: str | Path, locale: str = "C") -> subprocess.CompletedProcess[str]:
    """Runs hilldale-lab as a user does."""
    environment = os.environ | {"LC_ALL": locale, "LANG": locale, "PYTHONPATH": str(root / "lab" / "src")}
    return subprocess.run(
        [sys.executable, "-P", "-m", "hilldale_lab", *map(str, words)],
        env=environment,
        capture_output=True,
        text=True,
        check=False,
    )


def test_no_locale_changes_an_output(root: Path, job: Path, pockets: Path, tmp_path: Path) -> None:
    outputs = []
    for locale in ("C", "de_DE.UTF-8"):
        table = tmp_path / f"{locale}.csv"
        runs = [
            run_lab(root, "ask", pockets, job, locale=locale),
            run_lab(root, "script", job, pockets, locale=locale),
            run_lab(root, "regions", pockets, "D", "5%", "--at", "-0.3 um from mean", locale=locale),
            run_lab(root, "regions", pockets, "H", "5%", "-o", table, locale=locale),
        ]
        assert [run.returncode for run in runs] == [1, 0, 0, 0], [run.stderr for run in runs]
        outputs.append([run.stdout for run in runs] + [table.read_text()])
    assert outputs[0] == outputs[1] and outputs[0][0] == ASKED


def test_a_table_of_regions(root: Path, pockets: Path, tmp_path: Path, capsys: pytest.CaptureFixture[str]) -> None:
    job = tmp_path / "dust.txt"
    job.write_text("mask 3 9 4 9\n")
    table = tmp_path / "dales.csv"
    assert cli.main(["regions", str(pockets), "D", "5%", "--at", "-450 nm", "--job", str(job), "-o", str(table)]) == 0
    head, *rows = [line.split(",") for line in table.read_text().splitlines()]
    dales = lab.read(pockets).mask(3, 9, 4, 9).dales("5%", "-450 nm")
    for row, region in zip(rows, dales.table, strict=True):
        told = dict(zip(head, row, strict=True))
        for name, number in (
            ("column", region.x),
            ("profile", region.y),
            ("height in steps", region.height),
            ("depth in steps", region.depth),
            ("points", region.points),
            ("volume in steps times points", region.volume),
            ("lab's own: points at C", region.points_at),
        ):
            assert int(told[name]) == number
        for name, number, factor in (
            ("height in um", region.height, Fraction(1, 1000)),
            ("area in um2", region.points, Fraction(25)),
            ("volume in um3", region.volume, Fraction(25, 1000)),
            ("lab's own: area at C in um2", region.points_at, Fraction(25)),
        ):
            assert Fraction(told[name]) == number * factor
    assert cli.main(["regions", str(pockets), "D", "5%", "--job", str(job)]) == 0
    assert "113" in capsys.readouterr().out
    openpyxl = pytest.importorskip("openpyxl")
    sheet = tmp_path / "dales.xlsx"
    assert cli.main(["regions", str(pockets), "D", "5%", "--job", str(job), "-o", str(sheet)]) == 0
    cells = list(openpyxl.load_workbook(sheet).active.iter_rows(values_only=True))
    assert cells[1][:4] == (6, 4, -432, -0.432) and len(cells) == 5
    assert cli.main(["regions", str(pockets), "D", "5%", "-o", str(tmp_path / "dales.txt")]) == 2


def test_a_check_in_words(pockets: Path, tmp_path: Path, capsys: pytest.CaptureFixture[str]) -> None:
    surface = lab.read(pockets)
    certificate = tmp_path / "kept.txt"
    certificate.write_text(surface.audit("H", "5%"))
    assert cli.main(["check", str(pockets), str(certificate)]) == 0
    told = capsys.readouterr().out
    for words in (
        "certificate accepted\nKind: pruning certificate\nSide: hills\nNeighbours: 8\nPercent: 5% of Sz\nKept: 1\n",
        surface.sha256,
    ):
        assert words in told
    certificate.write_text(surface.audit("H", "5%").replace("pruning H", "pruning D"))
    assert cli.main(["check", str(pockets), str(certificate)]) == 4
    assert capsys.readouterr().out.startswith("certificate refused: rule ")
    assert cli.main(["check", str(pockets), str(tmp_path / "none")]) == 5


def test_any_file_stands_for_a_surface(tmp_path: Path, capsys: pytest.CaptureFixture[str]) -> None:
    table = tmp_path / "table.csv"
    table.write_text("0,5;-1,25;;3\n0;;2;-6,172\n")
    job = tmp_path / "job.toml"
    job.write_text("parameters = ['Sp', 'S10z']\n[import]\nunit = 'um'\ndx = '5 um'\ndy = 5e-6\n")
    assert cli.main(["ask", str(table), str(job)]) == 0
    out = capsys.readouterr().out
    assert out.startswith("Sp  3.32033 um  (") and "S10z  " in out
    # A surface file tells its units itself, so that the job of its source changes no height.
    surface = tmp_path / "table.sdf"
    surface.write_bytes(lab.read(table, unit="um", dx="5 um", dy="5 um").sdf())
    assert cli.main(["ask", str(surface), str(job)]) == 0
    again = capsys.readouterr()
    assert again.out == out and "not used are unit, dx, dy" in again.err
    assert cli.main(["regions", str(table), "D", "5%"]) == 3
    assert "--unit" in capsys.readouterr().err


SCALARS = st.sampled_from(
    [
        "1",
        "-3",
        "0.5",
        "nan",
        "true",
        "1979-05-27",
        "'S10z'",
        "'5%'",
        "'-1 um'",
        "'<= 1 um'",
        "'1 .. 2'",
        "''",
        "'flat 3x3'",
        "'H'",
        "'dales'",
        "[]",
        "{}",
    ]
)
VALUES = st.recursive(
    SCALARS,
    lambda inner: st.lists(inner, max_size=4).map(lambda items: f"[{', '.join(items)}]")
    | st.dictionaries(st.sampled_from(["above", "circle", "why", "S10z", "unit", "open", "x"]), inner, max_size=3).map(
        lambda table: "{" + ", ".join(f"{key} = {value}" for key, value in table.items()) + "}"
    ),
    max_leaves=6,
)
KEYS = [
    "title",
    "percent",
    "neighbours",
    "regions",
    "at",
    "parameters",
    "limits",
    "mask",
    "filter",
    "preparation",
    "import",
    "other",
]


@given(st.dictionaries(st.sampled_from(KEYS), VALUES, max_size=4))
@settings(max_examples=300, deadline=None, suppress_health_check=[HealthCheck.function_scoped_fixture])
def test_no_job_ends_in_a_traceback(tables: dict[str, str]) -> None:
    text = "".join(f"{key} = {value}\n" for key, value in tables.items())
    mistakes = lint(text, "job.toml")
    assert all(mistake.line >= 1 for mistake in mistakes)
    try:
        lab.Job.from_text(text)
        assert not mistakes
    except lab.LabError:
        assert mistakes
