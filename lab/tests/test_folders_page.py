"""The page of folders: its commands print what stands below them, and its recipes are where it says."""

from __future__ import annotations

import os
import re
import subprocess
from pathlib import Path


def test_the_page_of_folders(root: Path, program: str, tmp_path: Path) -> None:
    for name in ("hilldale-lab", "samples"):
        (tmp_path / name).symlink_to(root / name)
    page = (root / "docs" / "FOLDERS.md").read_text(encoding="utf-8")
    environment = os.environ | {"HILLDALE_PROGRAM": os.path.abspath(program)}
    found = re.findall(r"```sh\n(.*?)```\n\n```text\n(.*?)```", page, re.S)
    assert found
    for commands, shown in found:
        ran = subprocess.run(
            ["sh", "-c", commands], cwd=tmp_path, env=environment, capture_output=True, text=True, check=False
        )
        assert ran.stdout == shown, ran.stderr
    for name in re.findall(r"lab/recipes/\S+", page):
        assert (root / name).exists(), name
