"""Which Debian package brings a Python module."""

from __future__ import annotations

from importlib.util import find_spec

from hilldale_lab.errors import MissingPackage

BASE = ("numpy", "matplotlib", "jinja2")
DEBIAN = {"openpyxl": "python3-openpyxl", "pandas": "python3-pandas", "weasyprint": "weasyprint"}


def debian_name(module: str) -> str:
    """The name of Debian's package with this module."""
    return DEBIAN.get(module, f"python3-{module}")


def require(*modules: str) -> None:
    """Raises MissingPackage, with all that are missing, unless every module can be imported."""
    missing = [debian_name(module) for module in modules if find_spec(module) is None]
    if missing:
        raise MissingPackage(missing)
