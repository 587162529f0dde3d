"""The report as one HTML page: what a job asked of a surface, whether its limits are kept, what it was made with."""

from __future__ import annotations

import hashlib
import platform
from collections.abc import Sequence
from dataclasses import dataclass
from fractions import Fraction
from pathlib import Path
from typing import Any

import matplotlib
import numpy as np

from hilldale_lab.drawing import Drawing, drawing_of
from hilldale_lab.job import Job, Result, Row
from hilldale_lab.pages import counted, picture_uri, proved_text, render, source
from hilldale_lab.program import find
from hilldale_lab.regions import Column, Regions
from hilldale_lab.report.beside import Beside, check_commands
from hilldale_lab.report.histogram import histogram, histogram_figure
from hilldale_lab.report.sides import side_section
from hilldale_lab.surface import Surface
from hilldale_lab.units import Kind
from hilldale_lab.values import Value, rounded_text
from hilldale_lab.version import VERSION

NO_PREPARATION = "The job states none. The program takes heights as they stand: it takes away no tilt and no form."


@dataclass(frozen=True)
class Side:
    """The kept regions of a side, their columns, and the name of the file with all rows, or empty."""

    regions: Regions
    columns: list[Column]
    table_name: str = ""


@dataclass(frozen=True)
class Report:
    """What a page is made of.

    files: those by which it is checked, none where none lie beside it. earlier: how many values a script asked for
    before a later edit, so that they are not those of the checked surface.
    """

    job: Job
    surface: Surface
    result: Result
    sides: Sequence[Side]
    files: Sequence[Beside] = ()
    earlier: int = 0


def report_page(report: Report) -> str:
    """The page as HTML, which needs nothing from elsewhere."""
    surface, job, program = report.surface, report.job, find()
    drawing = drawing_of(surface)
    sections = [
        side_section(
            surface,
            side.regions,
            side.columns,
            drawing_of(surface, side.regions.side, side.regions.percent),
            side.table_name,
        )
        for side in report.sides
    ]
    return render(
        "report/report.html",
        css=source("report/base.css") + source("report/report.css"),
        title=job.title or Path(surface.name).name,
        verdict=verdict_of(report.result),
        rows=[_row(row) for row in report.result.rows],
        warnings=_warnings(report),
        sections=sections,
        histogram=_histogram(drawing, surface),
        absent=_absent(report, drawing),
        preparation=list(job.preparation.items()),
        no_preparation=NO_PREPARATION,
        files=report.files,
        commands=check_commands(report.files),
        earlier=report.earlier,
        script=report.result.script,
        surface=_surface(surface, drawing),
        job_name=Path(job.name).name,
        job_sha256=hashlib.sha256(job.text.encode()).hexdigest(),
        program_sha256=program.sha256,
        proved=proved_text(program),
        made_with=_made_with(),
    )


def verdict_of(result: Result) -> dict[str, str]:
    """The verdict in a word, a sentence, and the name of its shape."""
    limited = [row for row in result.rows if row.passed is not None]
    failed = [row.name for row in limited if not row.passed]
    if not limited:
        return {"kind": "none", "word": "NO LIMITS", "text": "The job states no limits, so there is no verdict."}
    if failed and len(limited) == 1:
        return {"kind": "fail", "word": "FAIL", "text": f"The one limit is not met: {failed[0]}."}
    if failed:
        many = f"{len(failed)} of {len(limited)} limits {'is' if len(failed) == 1 else 'are'} not met"
        return {"kind": "fail", "word": "FAIL", "text": f"{many}: {', '.join(failed)}."}
    met = "The one limit is met." if len(limited) == 1 else f"All {len(limited)} limits are met."
    return {"kind": "pass", "word": "PASS", "text": met}


def _row(row: Row) -> dict[str, Any]:
    kind = "none" if row.passed is None else "pass" if row.passed else "fail"
    value = row.value
    return {
        "name": with_signs(row.name),
        "number": value.number(),
        "unit": value.unit.symbol,
        "exact": value.fraction,
        "own": value.own,
        "limit": "" if row.limit is None else with_signs(row.limit.text),
        "kind": kind,
        "word": {"pass": "pass", "fail": "FAIL", "none": ""}[kind],
        "note": with_signs(row.note),
    }


def with_signs(text: str) -> str:
    """A text of a job as a page shows it: `<= 0.6 um` becomes `≤ 0.6 µm`."""
    for plain, sign in (("<=", "≤"), (">=", "≥"), (" um", " µm"), ("m2", "m²"), ("m3", "m³")):
        text = text.replace(plain, sign)
    return text


def _warnings(report: Report) -> list[tuple[str, str]]:
    """What a reader of the report should see first: each as a word and a sentence."""
    found = []
    none = [row.name for row in report.result.rows if row.value.exact is None]
    if none:
        found.append(
            ("Warning", f"The program answers none to {', '.join(none)}: no feature remains, or no point is present.")
        )
    imported = report.surface.imported
    if imported is not None and imported.rounding:
        most = rounded_text(imported.rounding * 10**6)
        found.append(("Warning", f"Heights were rounded as they were read, by at most {most} µm."))
    return found + [("Note on the file", f"{text}.") for text in report.surface.warnings]


def _histogram(drawing: Drawing, surface: Surface) -> dict[str, str]:
    found = histogram(drawing)
    width = Value("", Fraction(found.width), Kind.HEIGHT, surface.scales).symbol_text()
    bins = f"{counted(len(found.counts), 'bins')} of {width}"
    return {
        "picture": picture_uri(histogram_figure(drawing)),
        "alt": f"Histogram of heights in {bins}.",
        "caption": f"How many points have which height, in {bins}, counted by hilldale-lab.",
    }


def _absent(report: Report, drawing: Drawing) -> dict[str, Any]:
    missing = int(np.count_nonzero(~report.surface.map.measured))
    masked = int(np.count_nonzero(drawing.masked)) if drawing.masked is not None else 0
    return {
        "points": drawing.profiles * drawing.columns,
        "missing": missing,
        "masked": masked,
        "masks": [
            {"what": with_signs(mask.what), "why": mask.why or "not stated", "points": mask.points}
            for mask in report.result.masks
        ],
    }


def _surface(surface: Surface, drawing: Drawing) -> dict[str, Any]:
    dx, dy, step = (rounded_text(metres * 10**6) for metres in (drawing.dx, drawing.dy, drawing.step))
    return {
        "name": Path(surface.name).name,
        "columns": drawing.columns,
        "profiles": drawing.profiles,
        "present": int(np.count_nonzero(drawing.present)),
        "sha256": surface.sha256,
        "source": _source(surface),
        "spacing": f"{dx} µm from point to point, {dy} µm from profile to profile; a step of height is {step} µm",
        "neighbours": surface.setting,
        "header": () if surface.imported else surface.map.keys,
    }


def _source(surface: Surface) -> str:
    """What the surface was read as, where it was no surface file of hilldale."""
    imported = surface.imported
    if imported is None:
        return ""
    rounded = "rounded" if imported.rounding else "no height is rounded"
    words = (imported.format, imported.channel, f"by {imported.reader}", rounded)
    return ", ".join(word for word in words if word)


def _made_with() -> str:
    libraries = f"numpy {np.__version__}, matplotlib {matplotlib.__version__}"
    return f"hilldale-lab {VERSION}, Python {platform.python_version()}, {libraries}"
