"""The rows of a table that is not whole yet, in a file beside it, so that a later call goes on from there."""

from __future__ import annotations

import fcntl
import hashlib
import json
from pathlib import Path
from types import TracebackType

from hilldale_lab import program
from hilldale_lab.errors import LabError
from hilldale_lab.file_rows import Done, columns_of, digest_of
from hilldale_lab.job import Job
from hilldale_lab.version import VERSION


def key_of(job: Job) -> str:
    """A digest of all that a row comes of but the file: the job, the program and the lab."""
    parts = [job.text, str(job.is_script), program.find().sha256, VERSION]
    return hashlib.sha256("\0".join(parts).encode()).hexdigest()


class Partial:
    """The rows that are done. Each stands in the file as soon as it is known: a line of JSON with the key of the job.

    Used by `with`. It raises LabError where another call writes the same table.
    """

    def __init__(self, table: str, job: Job) -> None:
        self.path = Path(f"{table}.partial")
        self._key, self._width = key_of(job), len(columns_of(job))
        self.rows: dict[str, list[str]] = {}

    def __enter__(self) -> Partial:
        try:
            self._file = open(self.path, "a+", encoding="ascii", errors="replace")
            fcntl.flock(self._file, fcntl.LOCK_EX | fcntl.LOCK_NB)
        except BlockingIOError as error:
            self._file.close()
            raise LabError(f"{self.path}: another call writes this table") from error
        except OSError as error:
            raise LabError(f"cannot write {self.path}: {error.strerror}", 6) from error
        return self

    def __exit__(self, kind: type[BaseException] | None, error: BaseException | None, at: TracebackType | None) -> None:
        self._file.close()

    def resume(self, files: list[str]) -> None:
        """Takes the rows over that this job gave of files that are as they were then."""
        self._file.seek(0)
        wanted = set(files)
        for line in self._file:
            row = self._row(line)
            if row is not None and row[0] in wanted:
                self.rows[row[0]] = row[1]
        places = {file: cells[1] for file, cells in self.rows.items()}
        self.rows = {f: cells for f, cells in self.rows.items() if places[f] and digest_of(f) == places[f]}
        self._begin()

    def _row(self, line: str) -> tuple[str, list[str]] | None:
        """A row of the file; None where it is another job's, or its line is none or was not written whole."""
        try:
            key, file, cells = json.loads(line)
        except (TypeError, ValueError):
            return None
        return (file, cells) if key == self._key and len(cells) == self._width else None

    def _begin(self) -> None:
        """Writes the rows that were taken over anew, so that no half line stands before the next one."""
        self._file.seek(0)
        self._file.truncate()
        for file, cells in self.rows.items():
            self._write(file, cells)
        self._file.flush()

    def start(self) -> None:
        """Begins with no row."""
        self.rows = {}
        self._begin()

    def add(self, done: Done) -> None:
        """Keeps a row."""
        self.rows[done.file] = done.cells
        self._write(done.file, done.cells)
        self._file.flush()

    def _write(self, file: str, cells: list[str]) -> None:
        self._file.write(json.dumps([self._key, file, cells]) + "\n")

    def remove(self) -> None:
        """Removes the file: the table is whole."""
        self.path.unlink(missing_ok=True)
