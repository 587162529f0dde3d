"""A table of many files: the same by however many workers, after each kill, and whatever the files are called."""

from __future__ import annotations

import csv
import io
import json
import os
import random
import signal
import subprocess
import time
from pathlib import Path

import pytest
from folders import JOB, ODD, make_folder, surface

from hilldale_lab import file_rows
from hilldale_lab.cli import main
from hilldale_lab.file_rows import ask_file, columns_of, name_of, wanted_of
from hilldale_lab.job import Job
from hilldale_lab.reading import read


@pytest.fixture(autouse=True)
def use_program(program: str, monkeypatch: pytest.MonkeyPatch) -> None:
    monkeypatch.setenv("HILLDALE_PROGRAM", os.path.abspath(program))


@pytest.fixture
def files(tmp_path: Path, monkeypatch: pytest.MonkeyPatch) -> list[str]:
    """The names of a folder's files, from the folder that the calls are made in, where the job is too."""
    monkeypatch.chdir(tmp_path)
    Path("job.toml").write_text(JOB)
    return make_folder(tmp_path / "parts", 7)


def batch(*words: str) -> int:
    return main(["batch", "job.toml", *words])


def rows_of(table: str | Path) -> list[dict[str, str]]:
    return list(csv.DictReader(io.StringIO(Path(table).read_text(encoding="utf-8"))))


def test_a_row_for_each_file_in_their_order(files: list[str], capsys: pytest.CaptureFixture[str]) -> None:
    assert batch(*files, "nothing.sdf", "-o", "table.csv", "--workers", "2") == 1
    rows = rows_of("table.csv")
    assert [row["file"] for row in rows] == [*files, "nothing.sdf"]
    assert capsys.readouterr().out.startswith("table.csv: 12 files: ")
    told = {Path(row["file"]).name: (row["status"], row["reason"]) for row in rows if row["verdict"] == "refused"}
    assert told.pop("broken.sdf")[0] == "3"
    assert told == {
        "a folder.sdf": ("5", "it cannot be read: Is a directory"),
        "empty.sdf": ("3", "it is empty"),
        "nothing.sdf": ("5", "it cannot be read: No such file or directory"),
    }
    assert not Path("table.csv.partial").exists()


def test_the_values_are_those_of_ask(files: list[str]) -> None:
    assert batch(f"parts/{ODD}", "-o", "table.csv") in (0, 1)
    (row,) = rows_of("table.csv")
    surface_ = read(f"parts/{ODD}")
    result = Job.read("job.toml").ask(surface_)
    assert row["sha256"] == surface_.sha256
    assert row["verdict"] == ("pass" if result.passed else "FAIL")
    for wanted, found in zip(wanted_of(Job.read("job.toml")), result.rows, strict=True):
        assert wanted.name == found.name
        own = "lab's own: " if found.value.own else ""
        exact = next(text for heading, text in row.items() if heading.startswith(f"{own}{found.name} exact"))
        assert exact == found.value.fraction.split(" ")[0]
    whole = [text for heading, text in row.items() if heading.endswith("C in steps")]
    assert len(whole) == 3
    assert f"height Smr {whole[0]}\n" in result.script and f"param Sda {whole[2]}\n" in result.script


@pytest.mark.parametrize(
    "asked", ["S10z at 2%", "Sda reaching 3 nm", "Sha -350 steps", "Smr -4", "FC;H;Wolfprune:2%;All;lpvh;Mean"]
)
def test_a_heading_is_the_name_that_ask_prints(asked: str, files: list[str]) -> None:
    for percent in ("5%", "3%"):
        job = Job.from_text(f'percent = "{percent}"\nparameters = ["{asked}"]\n')
        assert name_of(job.asked[0], job.percent) == job.ask(read(f"parts/{ODD}")).rows[0].name


def test_a_script_has_a_table_too(files: list[str]) -> None:
    Path("job.txt").write_text("param S10z\nset 0 0 9000\nparam S10z\nheight Smr 4\nprune D 5%\n")
    assert main(["batch", "job.txt", *files[:3], f"parts/{ODD}", "-o", "table.csv"]) == 1
    row = rows_of("table.csv")[-1]
    assert row["file"] == f"parts/{ODD}" and row["verdict"] == "no limits"
    assert row["S10z in um"] and row["S10z (line 3) in um"] and row["Smr at 4 steps"]
    assert row["S10z in um"] != row["S10z (line 3) in um"]


def test_any_count_of_workers_gives_the_same_bytes(files: list[str]) -> None:
    tables = []
    for workers in ("1", "4"):
        batch(*files, "-o", "table.csv", "--workers", workers)
        tables.append(Path("table.csv").read_bytes())
    assert tables[0] == tables[1]


def test_no_file_is_read_twice(files: list[str], monkeypatch: pytest.MonkeyPatch) -> None:
    seen: list[str] = []

    def counted(path: str, **options: object) -> object:
        seen.append(path)
        return read(path, **options)

    monkeypatch.setattr(file_rows, "read", counted)
    done = [ask_file(Job.read("job.toml"), file) for file in files]
    assert seen == files and all(len(row.cells) == len(columns_of(Job.read("job.toml"))) for row in done)


def started(table: str, files: list[str]) -> subprocess.Popen[bytes]:
    """A call of its own group, as a shell makes it."""
    root = Path(__file__).resolve().parents[2]
    words = [str(root / "hilldale-lab"), "batch", "job.toml", *files, "-o", table, "--workers", "2"]
    return subprocess.Popen(words, start_new_session=True, stdout=subprocess.PIPE, stderr=subprocess.PIPE)


def wait_for_rows(table: str, count: int) -> None:
    partial = Path(f"{table}.partial")
    for _ in range(3000):
        if partial.exists() and partial.read_bytes().count(b"\n") >= count:
            return
        time.sleep(0.01)
    raise AssertionError("no rows")


@pytest.mark.parametrize("ending", [signal.SIGKILL, signal.SIGINT, signal.SIGTERM])
def test_a_stopped_call_is_gone_on_with(files: list[str], ending: signal.Signals) -> None:
    many = [*files, *(f"parts/../{file}" for file in files), *(f"parts/../parts/../{file}" for file in files)]
    batch(*many, "-o", "whole.csv")
    Path("table.csv").write_text("old")
    call = started("table.csv", many)
    wait_for_rows("table.csv", random.randrange(1, 9))
    os.killpg(call.pid, ending) if ending == signal.SIGINT else call.send_signal(ending)
    _, told = call.communicate(timeout=60)
    if call.returncode in (0, 1):
        pytest.skip("the call was quicker than the signal")
    assert Path("table.csv").read_text() == "old"
    if ending == signal.SIGINT:
        assert call.returncode == 130 and told == b"hilldale-lab: stopped: --resume goes on from table.csv.partial\n"
    assert batch(*many, "-o", "table.csv", "--resume") == 1
    assert Path("table.csv").read_bytes() == Path("whole.csv").read_bytes()


def test_resume_asks_only_what_is_missing_or_was_changed(files: list[str], monkeypatch: pytest.MonkeyPatch) -> None:
    batch(*files, "-o", "whole.csv")
    monkeypatch.setattr("hilldale_lab.partial.Partial.remove", lambda _: None)
    batch(*files, "-o", "table.csv")
    partial = Path("table.csv.partial")
    lines = [json.loads(line) for line in partial.read_text().splitlines()]
    for line in lines:
        line[2][4] = "taken over"
    text = "".join(json.dumps(line) + "\n" for line in lines)
    partial.write_text(text[:-30])
    Path("parts/part-001.sdf").write_bytes(surface(99))
    batch(*files, "-o", "table.csv", "--resume")
    rows = {row["file"]: row for row in rows_of("table.csv")}
    assert rows["parts/part-001.sdf"]["reason"] != "taken over"
    assert rows["parts/part-001.sdf"]["sha256"] == file_rows.digest_of("parts/part-001.sdf")
    assert sum(row["reason"] == "taken over" for row in rows.values()) >= len(files) - 4
    partial.write_text(text)
    Path("job.toml").write_text(JOB.replace("1.99", "1.98"))
    batch(*files, "-o", "table.csv", "--resume")
    assert not any(row["reason"] == "taken over" for row in rows_of("table.csv"))


@pytest.mark.parametrize(("status", "line"), [(5, "read fault"), (7, ""), (9, "odd")])
def test_a_fault_of_the_machine_stops(
    files: list[str], status: int, line: str, monkeypatch: pytest.MonkeyPatch, capsys: pytest.CaptureFixture[str]
) -> None:
    Path("faulty").write_text(f"#!/bin/sh\necho '{line}'\nexit {status}\n")
    Path("faulty").chmod(0o755)
    monkeypatch.setenv("HILLDALE_PROGRAM", os.path.abspath("faulty"))
    Path("table.csv").write_text("old")
    assert batch("parts/part-003.sdf", "-o", "table.csv") == status
    assert capsys.readouterr().err.startswith("hilldale-lab: parts/part-003.sdf: ")
    assert Path("table.csv").read_text() == "old"


def test_a_worker_that_is_killed_stops_with_its_file(
    files: list[str], monkeypatch: pytest.MonkeyPatch, capsys: pytest.CaptureFixture[str]
) -> None:
    Path("killer").write_text("#!/bin/sh\nkill -9 $PPID\n")
    Path("killer").chmod(0o755)
    monkeypatch.setenv("HILLDALE_PROGRAM", os.path.abspath("killer"))
    assert batch("parts/part-003.sdf", "-o", "table.csv", "--workers", "1") == 7
    assert "a worker was ended" in (told := capsys.readouterr().err) and "parts/part-003.sdf" in told


def test_names_with_line_ends_and_bytes_that_are_no_text(files: list[str]) -> None:
    names = [os.fsdecode(b"parts/two\nlines.sdf"), os.fsdecode(b"parts/g\xfcte.sdf"), "parts/=1+1.sdf"]
    for name in names:
        Path(name).write_bytes(surface(5))
    batch(*names, "-o", "table.csv")
    assert [row["file"] for row in rows_of("table.csv")] == ["parts/two\\nlines.sdf", "parts/g\\udcfcte.sdf", names[2]]
    assert len(Path("table.csv").read_text().splitlines()) == 4
    batch(*names, "-o", "table.csv", "--resume")


def test_a_table_for_a_spreadsheet(files: list[str], monkeypatch: pytest.MonkeyPatch) -> None:
    monkeypatch.setenv("LC_ALL", "de_DE.UTF-8")
    Path("=1+1.sdf").write_bytes(surface(5))
    batch("=1+1.sdf", "-o", "plain.csv")
    batch("=1+1.sdf", "-o", "table.csv", "--excel")
    data = Path("table.csv").read_bytes()
    assert data.startswith(b"\xef\xbb\xbffile;sha256;")
    plain, row = rows_of("plain.csv")[0], next(csv.DictReader(io.StringIO(data.decode("utf-8-sig")), delimiter=";"))
    assert row["file"] == "'=1+1.sdf"
    assert row["Sa in um"] == plain["Sa in um"].replace(".", ",") and "," in row["Sa in um"]
    assert row["Sa exact in steps"] == f'="{plain["Sa exact in steps"]}"'


def test_a_workbook(files: list[str]) -> None:
    openpyxl = pytest.importorskip("openpyxl", reason="openpyxl is not installed: apt-get install python3-openpyxl")
    Path("=1+1.sdf").write_bytes(surface(5))
    batch("=1+1.sdf", *files, "-o", "table.csv")
    batch("=1+1.sdf", *files, "-o", "table.xlsx")
    sheet = openpyxl.load_workbook("table.xlsx").active
    head, first, *_ = sheet.iter_rows(values_only=True)
    row = rows_of("table.csv")[0]
    assert list(head) == list(row) and first[0] == "=1+1.sdf" and sheet["A2"].data_type == "s"
    assert first[head.index("Sa in um")] == float(row["Sa in um"])


def test_parquet(files: list[str], capsys: pytest.CaptureFixture[str]) -> None:
    pandas = pytest.importorskip("pandas", reason="pandas is not installed: apt-get install python3-pandas")
    if batch(*files, "-o", "table.parquet") == 2:
        assert "pyarrow" in capsys.readouterr().err
        pytest.skip("neither pyarrow nor fastparquet is installed, and Debian has none")
    assert list(pandas.read_parquet("table.parquet")["file"]) == files


@pytest.mark.parametrize(
    ("words", "told"),
    [
        (("-o", "table.txt"), "a table is written as"),
        (("-o", "table.xlsx", "--excel"), "--excel goes with .csv"),
        (("-o", "table.csv", "--workers", "0"), "from 1 on"),
    ],
)
def test_words_that_do_not_go(
    files: list[str], words: tuple[str, ...], told: str, capsys: pytest.CaptureFixture[str]
) -> None:
    assert batch(files[0], *words) == 2
    assert told in capsys.readouterr().err
