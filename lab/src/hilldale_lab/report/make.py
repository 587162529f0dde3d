"""Makes a report: asks for what it shows, in one call of the program, and for the files that lie beside it."""

from __future__ import annotations

from collections.abc import Sequence

from hilldale_lab.answers import EDITS, PruningCertificate, Tree, command_of, script_lines
from hilldale_lab.job import Job, Result, Row
from hilldale_lab.report.beside import Beside, customer_files, prunings_of, table_file
from hilldale_lab.report.page import Report, Side, report_page

NUMBERS = ("param", "height", "feature", "perc")


def made_report(job: Job, result: Result, name: str, is_alone: bool = False) -> tuple[str, list[Beside]]:
    """The page as HTML, and the files beside it, none where it is alone.

    result: of the job, whose surface is edited by it. name: that of the report without its end.
    """
    surface, percent = result.surface, job.percent
    rows = rows_at_end(job, result.rows)
    questions = list(dict.fromkeys(line for row in rows for line in row.lines))
    shown = [(side, percent) for side in job.sides]
    waiting = surface.questions()
    for side, _ in shown:
        waiting.regions(side, percent, job.at)
        waiting.answer(f"tree {side}", Tree)
    if not is_alone:
        for side, at in sorted({*prunings_of(questions), *shown}):
            waiting.answer(f"audit {side} {at}", PruningCertificate)
    waiting.send()
    files = [] if is_alone else customer_files(surface, name, questions, shown)
    sides, tables = [], []
    for side, _ in shown:
        regions = surface.regions(side, percent, job.at)
        columns = regions.columns()
        table = None if is_alone else table_file(regions, columns, name)
        tables += [] if table is None else [table]
        sides.append(Side(regions, columns, table.name if table else ""))
    files += tables
    return report_page(Report(job, surface, result, sides, files, len(result.rows) - len(rows))), files


def rows_at_end(job: Job, rows: Sequence[Row]) -> Sequence[Row]:
    """The values that are those of the surface as the job leaves it: of a script those asked after its last edit."""
    if not job.is_script:
        return rows
    words = [command_of(text) for _, text in script_lines(job.text)]
    last = max((place for place, word in enumerate(words) if word in EDITS), default=-1)
    count = sum(word in NUMBERS for word in words[last + 1 :])
    return rows[len(rows) - count :]


def page_bytes(page: str, kind: str) -> bytes:
    """A page as the bytes of a file: html, or pdf by weasyprint."""
    if kind == "html":
        return page.encode()
    import weasyprint

    return weasyprint.HTML(string=page, base_url=None, url_fetcher=_no_fetch).write_pdf()


def _no_fetch(url: str, *_: object, **__: object) -> dict[str, object]:
    """Only what stands within the page is taken."""
    import weasyprint

    if not url.startswith("data:"):
        raise ValueError(f"nothing is fetched: {url}")
    return weasyprint.default_url_fetcher(url)
