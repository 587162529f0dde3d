"""What the tests share: the package's place, and the proved program."""

from __future__ import annotations

import sys
from pathlib import Path

import pytest

ROOT = Path(__file__).resolve().parents[2]
sys.path.insert(0, str(ROOT / "lab" / "src"))

try:
    from hypothesis import settings

    settings.register_profile("gate", deadline=None, derandomize=True, print_blob=True)
    settings.load_profile("gate")
except ImportError:
    pass


def program_path() -> str | None:
    """The program that hilldale-lab calls, or None where there is none."""
    from hilldale_lab.errors import LabError
    from hilldale_lab.program import find

    try:
        return str(find().path)
    except LabError:
        return None


@pytest.fixture(scope="session")
def program() -> str:
    """The path of the proved program; a test that needs it is skipped where it is not built."""
    found = program_path()
    if found is None:
        pytest.skip("there is no program of these sources: call ./prove once")
    return found


@pytest.fixture(scope="session")
def root() -> Path:
    """The root of the checkout."""
    return ROOT
