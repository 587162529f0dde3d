"""Percents of Sz as the program reads and prints them."""

from __future__ import annotations

import re

from hilldale_lab.errors import LabError

_FORM = re.compile(r"\s*([0-9]{1,3})(?:\.([0-9]{1,3}))?\s*%\s*")


def percent_text(given: str) -> str:
    """A percent in its plain form: `05.50 %` becomes `5.5%`. Raises LabError where it is none from 0% to 100%."""
    match = _FORM.fullmatch(given) if isinstance(given, str) else None
    if match is None:
        raise LabError(f"{given!r} is no percent: write it as 5% or 2.5%, with at most three decimals")
    whole, thousandths = int(match[1]), (match[2] or "").ljust(3, "0")
    if whole * 1000 + int(thousandths) > 100_000:
        raise LabError(f"{given!r} is more than 100%")
    decimals = thousandths.rstrip("0")
    return f"{whole}.{decimals}%" if decimals else f"{whole}%"


def thousandths_of(percent: str) -> int:
    """The thousandths of a percent that a percent has: 5500 of 5.5%. Raises LabError where it is none."""
    whole, _, decimals = percent_text(percent)[:-1].partition(".")
    return int(whole) * 1000 + int(decimals.ljust(3, "0"))
