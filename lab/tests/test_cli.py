"""The statuses of hilldale-lab where its output cannot be written, is closed, or is read in part, and of a defect."""

from __future__ import annotations

import subprocess
from pathlib import Path

import pytest

from hilldale_lab import cli


def mistakes(folder: Path, lines: int) -> Path:
    """A script of which `lint` prints a line for each of its lines, and ends with 1."""
    (folder / "script.txt").write_text("plot\n" * lines)
    return folder / "script.txt"


@pytest.mark.parametrize("lines", [1, 20_000])
@pytest.mark.parametrize(
    "to, told",
    [
        (">/dev/full", "cannot write the standard output: No space left on device"),
        (">&-", "the standard output is closed"),
        (">/dev/null", None),
    ],
)
def test_an_output_that_takes_nothing(root: Path, tmp_path: Path, lines: int, to: str, told: str | None) -> None:
    call = ["sh", "-c", f'"$0" lint "$1" {to}', root / "hilldale-lab", mistakes(tmp_path, lines)]
    done = subprocess.run(call, capture_output=True, text=True, check=False)
    assert (done.returncode, done.stderr) == ((6, f"hilldale-lab: {told}\n") if told else (1, ""))


def test_an_output_that_is_read_in_part(root: Path, tmp_path: Path) -> None:
    call = ["sh", "-c", '{ "$0" lint "$1"; echo $? >"$2"; } | head -n 1', root / "hilldale-lab"]
    done = subprocess.run([*call, mistakes(tmp_path, 20_000), tmp_path / "status"], capture_output=True, check=False)
    assert (tmp_path / "status").read_text() == "6\n" and done.stderr == b""
    assert done.stdout.count(b"\n") == 1


def test_signs_that_the_locale_has_not(root: Path, tmp_path: Path) -> None:
    name = tmp_path / "\u8868.txt"
    name.write_text("plot\n")
    call = ["env", "LC_ALL=C", "PYTHONIOENCODING=latin-1", root / "hilldale-lab", "lint", name]
    done = subprocess.run(call, capture_output=True, check=False)
    assert done.returncode == 1 and done.stdout.startswith(str(tmp_path).encode() + b"/\\u8868.txt: line 1:")


def test_a_defect_is_no_verdict(monkeypatch: pytest.MonkeyPatch, capsys: pytest.CaptureFixture[str]) -> None:
    def broken(_: str) -> None:
        raise ZeroDivisionError("so far so good")

    monkeypatch.setattr(cli, "command_module", broken)
    assert cli.main(["lint", "script.txt"]) == 70
    told = capsys.readouterr().err
    assert "ZeroDivisionError: so far so good" in told and told.endswith("please report the lines above\n")
