"""The page of a series: statistics and charts of each parameter, and what does not pass, with its reports."""

from __future__ import annotations

import hashlib
import os
from collections.abc import Callable
from pathlib import Path
from typing import Any
from urllib.parse import quote

from hilldale_lab.charts import drawn_limits, histogram_chart, run_chart, shown_unit
from hilldale_lab.file_rows import report_name
from hilldale_lab.pages import counted, render, source
from hilldale_lab.series import Folder, Reading, Series
from hilldale_lab.values import rounded_text
from hilldale_lab.version import VERSION

VERDICTS = ("pass", "FAIL", "no limits", "refused")


def series_page(folder: Folder, table: Path, page: Path, reports: Path) -> str:
    """The page as HTML, which needs nothing from elsewhere. reports: the folder of the reports that it links to."""
    links = {row.place: _link(reports / report_name(row.file, row.sha256), page) for row in folder.rows}
    rows = [vars(row) | {"report": links[row.place]} for row in folder.rows if row.verdict in ("FAIL", "refused")]
    counts = ", ".join(f"{folder.counts[word]} {word}" for word in VERDICTS if folder.counts[word])
    return render(
        "report/series.html",
        css=source("report/base.css"),
        title=table.name,
        lead=f"{counted(len(folder.rows), 'files')}: {counts}." if counts else "No files.",
        parts=[_part(series, len(folder.rows), lambda reading: links[reading.place]) for series in folder.series],
        rows=rows,
        table=table.name,
        table_sha256=hashlib.sha256(table.read_bytes()).hexdigest(),
        version=VERSION,
    )


def _link(report: Path, page: Path) -> str:
    """The report as a page links to it; empty where there is none."""
    if not report.is_file():
        return ""
    return quote(os.path.relpath(report.resolve(), page.resolve().parent))


def _part(series: Series, rows: int, report: Callable[[Reading], str]) -> dict[str, Any]:
    """What the page shows of a parameter."""
    part: dict[str, Any] = {
        "name": series.name,
        "own": series.own,
        "unit": shown_unit(series.unit),
        "files": len(series.readings),
        "limit": series.limit,
        "failed": series.failures,
    }
    if not series.readings:
        none = {"value": "none", "exact": "none", "file": ""}
        return part | {"mean": "none", "least": none, "greatest": none, "deviation": "none", "run": ""}
    return part | {
        "mean": rounded_text(series.mean),
        "least": _end(series.least, series),
        "greatest": _end(series.greatest, series),
        "deviation": series.deviation,
        "run": run_chart(series, rows, report),
        "histogram": histogram_chart(series),
        "caption": _caption(series),
    }


def _end(reading: Reading, series: Series) -> dict[str, str]:
    exact = f"{reading.exact} {series.exact_unit}".strip()
    return {"value": rounded_text(reading.value), "exact": exact, "file": reading.file}


def _caption(series: Series) -> str:
    """What the run chart shows, in words."""
    said = ["The values in the order of the table."]
    if series.limit:
        far = "" if len(drawn_limits(series)) == len(series.limit_values()) != 0 else ", which is not drawn, or in part"
        said.append(f"Limit {series.limit}{far or ' (dashed)'}.")
    if series.failures:
        said.append(f"It is not kept by {counted(series.failures, 'files')}, marked by a cross where there is a value.")
    if series.missing:
        said.append(f"Without a value: {counted(series.missing, 'files')}.")
    return " ".join(said)
