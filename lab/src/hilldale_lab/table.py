"""Tables as files: CSV with points or with decimal commas, a workbook, or Parquet; the same text at each call."""

from __future__ import annotations

import csv
import datetime
import io
from collections.abc import Sequence
from importlib.util import find_spec
from pathlib import Path

from hilldale_lab.errors import LabError
from hilldale_lab.file_rows import TableColumn
from hilldale_lab.packages import require

SUFFIXES = (".csv", ".xlsx", ".parquet")
FORMULA_SIGNS = ("=", "+", "-", "@")
EPOCH = datetime.datetime(2000, 1, 1)
Rows = Sequence[Sequence[str]]


def check_name(name: str, is_excel: bool = False) -> None:
    """Raises LabError unless a table can be written under this name here."""
    suffix = Path(name).suffix.lower()
    if suffix not in SUFFIXES:
        raise LabError(f"{name}: a table is written as {', '.join(SUFFIXES)}")
    if is_excel and suffix != ".csv":
        raise LabError(f"{name}: --excel goes with .csv")
    if suffix == ".xlsx":
        require("openpyxl")
    if suffix == ".parquet":
        require("pandas")
        if not any(map(find_spec, ("pyarrow", "fastparquet"))):
            raise LabError(f"{name}: Parquet needs pyarrow or fastparquet, which Debian has not: write .csv or .xlsx")


def table_bytes(name: str, columns: Sequence[TableColumn], rows: Rows, is_excel: bool = False) -> bytes:
    """The bytes of a table; the end of its name tells of which kind. Raises as `check_name`."""
    check_name(name, is_excel)
    suffix = Path(name).suffix.lower()
    if suffix == ".xlsx":
        return _xlsx(columns, rows)
    if suffix == ".parquet":
        return _parquet(columns, rows)
    return _excel_csv(columns, rows) if is_excel else _csv(columns, rows, ",").encode()


def _csv(columns: Sequence[TableColumn], rows: Rows, separator: str) -> str:
    out = io.StringIO()
    writer = csv.writer(out, delimiter=separator, lineterminator="\n")
    writer.writerow([column.heading for column in columns])
    writer.writerows(rows)
    return out.getvalue()


def _excel_csv(columns: Sequence[TableColumn], rows: Rows) -> bytes:
    """Semicolons, decimal commas and a mark of UTF-8; what a spreadsheet would take for a date or a formula stays
    text."""
    shown = [[_excel_cell(column.kind, cell) for column, cell in zip(columns, row)] for row in rows]
    return _csv(columns, shown, ";").encode("utf-8-sig")


def _excel_cell(kind: str, cell: str) -> str:
    if kind == "number":
        return cell.replace(".", ",")
    if kind == "fraction":
        return f'="{cell}"' if cell else ""
    return f"'{cell}" if kind == "text" and cell.startswith(FORMULA_SIGNS) else cell


def _xlsx(columns: Sequence[TableColumn], rows: Rows) -> bytes:
    """A workbook with numbers as numbers; all else is text, whatever sign it begins with."""
    import openpyxl
    from openpyxl.cell import WriteOnlyCell

    book = openpyxl.Workbook(write_only=True)
    book.properties.created = book.properties.modified = EPOCH
    sheet = book.create_sheet("files")
    sheet.append([column.heading for column in columns])
    for row in rows:
        cells = []
        for column, text in zip(columns, row):
            cell = WriteOnlyCell(sheet, _typed(column.kind, text))
            if isinstance(cell.value, str):
                cell.data_type = "s"
            cells.append(cell)
        sheet.append(cells)
    out = io.BytesIO()
    book.save(out)
    return out.getvalue()


def _typed(kind: str, text: str) -> float | int | str | None:
    """A cell as a number where its column has such: the nearest float, or a whole number; None where it is empty."""
    if kind == "number":
        return float(text) if text else None
    if kind == "whole":
        return int(text) if text else None
    return text


def _parquet(columns: Sequence[TableColumn], rows: Rows) -> bytes:
    import pandas

    cells = {column.heading: [_typed(column.kind, row[at]) for row in rows] for at, column in enumerate(columns)}
    frame = pandas.DataFrame(cells)
    for column in columns:
        frame[column.heading] = frame[column.heading].astype(
            {"number": "float64", "whole": "Int64"}.get(column.kind, "str")
        )
    out = io.BytesIO()
    frame.to_parquet(out, index=False)
    return out.getvalue()
