"""The page of jobs: each command that it shows prints what stands below it."""

from __future__ import annotations

import os
import re
import subprocess
from pathlib import Path

import pytest


def blocks(root: Path) -> list[tuple[str, str]]:
    """The commands of the page and what they print."""
    page = (root / "docs" / "JOBS.md").read_text(encoding="utf-8")
    return re.findall(r"```sh\n(.*?)```\n\n```text\n(.*?)```", page, re.S)


def test_the_page_of_jobs(root: Path, program: str, tmp_path: Path) -> None:
    for name in ("hilldale-lab", "samples"):
        (tmp_path / name).symlink_to(root / name)
    (tmp_path / "hilldale").symlink_to(os.path.abspath(program))
    environment = os.environ | {"HILLDALE_PROGRAM": os.path.abspath(program)}
    found = blocks(root)
    assert len(found) >= 6
    for commands, shown in found:
        ran = subprocess.run(
            ["sh", "-c", commands], cwd=tmp_path, env=environment, capture_output=True, text=True, check=False
        )
        assert ran.stdout == shown, f"{commands}\n{ran.stderr}"
    assert sorted(path.name for path in tmp_path.iterdir()) == ["hilldale", "hilldale-lab", "samples"]


def test_the_pages_python(root: Path, program: str, monkeypatch: pytest.MonkeyPatch) -> None:
    monkeypatch.setenv("HILLDALE_PROGRAM", os.path.abspath(program))
    monkeypatch.chdir(root)
    page = (root / "docs" / "JOBS.md").read_text(encoding="utf-8")
    names: dict[str, object] = {}
    for line in page.split("```python\n")[1].split("```")[0].splitlines():
        code, _, shown = line.partition("#")
        shown = shown.strip()
        if not code.strip() or not shown or " " in shown and not shown.startswith(("Value", '"')):
            exec(line, names)
        else:
            assert repr(eval(code, names)).replace("'", '"') == shown.replace("'", '"')
