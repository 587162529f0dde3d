"""The proved program: where it is, one call of it, and its statuses as exceptions."""

from __future__ import annotations

import hashlib
import os
import shutil
import subprocess
import sys
from collections.abc import Iterator, Sequence
from concurrent.futures import ThreadPoolExecutor
from contextlib import contextmanager
from dataclasses import dataclass
from functools import cache, cached_property
from pathlib import Path

from hilldale_lab.errors import LabError

VARIABLE = "HILLDALE_PROGRAM"
ROOT = Path(__file__).resolve().parents[3]
SCRIPT_LIMIT = 16_777_216


class ProgramFault(LabError):
    """The program ended with a status other than 0. `line` is its own line, `status` its status."""

    def __init__(self, line: str, status: int) -> None:
        super().__init__(line, status)
        self.line = line


class LineRefused(ProgramFault):
    """A line of the script was refused (status 1). number: of the line, from 1; script_line: what stands there."""

    def __init__(self, line: str, number: int, script_line: str) -> None:
        super().__init__(f"{line}: {script_line}" if script_line else line, 1)
        self.line, self.number, self.script_line = line, number, script_line


class SurfaceRefused(ProgramFault):
    """The surface file is none (status 3)."""


class ReadFault(ProgramFault):
    """A file could not be read (status 5)."""


class WriteFault(ProgramFault):
    """The output, or the file to save, could not be written (status 6)."""


class OutOfMemory(ProgramFault):
    """The memory that the program asked for was refused (status 7)."""


class InputTooLong(ProgramFault):
    """The script or the certificate is too long (status 8)."""


class ProgramFailed(ProgramFault):
    """The program is not there, was stopped, or ended in a way that it does not know."""


FAULTS = {3: SurfaceRefused, 5: ReadFault, 6: WriteFault, 7: OutOfMemory, 8: InputTooLong}
MEANING = {6: "could not be written", 7: "not enough memory"}


@dataclass(frozen=True)
class Ran:
    """What a call of the program gave: its status, and all bytes of its standard output."""

    status: int
    output: bytes


@dataclass(frozen=True)
class Program:
    """The program hilldale. path is what is called: the program, or the script that starts it."""

    path: Path

    def run(self, surface: bytes, script: bytes, save: Path | None = None) -> Ran:
        """Answers a script on the text of a surface; with `save` the edited surface is written there.

        The status is 0, or 1 where a line was refused. Raises a ProgramFault for each other one.
        """
        with memory_files(surface, script) as names:
            words = ["run", *names] + ([] if save is None else [f"--save={save}"])
            return self._call(words, names, (0, 1))

    def edited(self, surface: bytes, script: bytes) -> tuple[Ran, bytes]:
        """As `run`, with the text of the edited surface, which comes through a pipe and is never on the disk."""
        read_end, write_end = os.pipe()
        with memory_files(surface, script) as names, open(read_end, "rb") as source, ThreadPoolExecutor(1) as reader:
            place = f"/proc/self/fd/{write_end}"
            saved = reader.submit(source.read)
            try:
                ran = self._call(["run", *names, f"--save={place}"], [*names, place], (0, 1))
            finally:
                os.close(write_end)
            return ran, saved.result()

    def check(self, surface: bytes, certificate: bytes) -> Ran:
        """Checks a certificate: the status is 0, or 4 where it is refused. Raises a ProgramFault for each other one."""
        with memory_files(surface, certificate) as names:
            return self._call(["check", *names], names, (0, 4))

    def _call(self, words: Sequence[str], names: Sequence[str], expected: tuple[int, ...]) -> Ran:
        try:
            ran = subprocess.run(
                [str(self.path), *words],
                stdin=subprocess.DEVNULL,
                capture_output=True,
                check=False,
                pass_fds=[int(name.rpartition("/")[2]) for name in names],
            )
        except OSError as error:
            raise ProgramFailed(f"{self.path} cannot be run: {error.strerror}", 127) from error
        if ran.returncode in expected:
            return Ran(ran.returncode, ran.stdout)
        raise fault(ran.returncode, ran.stdout, ran.stderr)

    @cached_property
    def binary(self) -> Path:
        """The file of the program itself: that which the script `hilldale` of a checkout starts."""
        with self.path.open("rb") as file:
            if file.read(2) != b"#!":
                return self.path
        return _of_checkout(self.path.resolve().parent) or self.path

    @cached_property
    def sha256(self) -> str:
        """The digest of the program's file."""
        return hashlib.sha256(self.binary.read_bytes()).hexdigest()

    @property
    def is_proved_here(self) -> bool:
        """Whether the record of this checkout says that its proof made this very program on this machine."""
        record = ROOT / "out" / "proved"
        return record.is_file() and f"program {self.sha256}" in record.read_text("ascii", "replace").splitlines()


def find(given: str | None = None) -> Program:
    """The program: the one that is given, else HILLDALE_PROGRAM, that of the checkout, or `hilldale` on the PATH.

    Where HILLDALE_LIBRARY names its library it is asked through that. Raises ProgramFailed where there is none.
    """
    from hilldale_lab import native

    return native.beside(_find(given))


def _find(given: str | None) -> Program:
    named = given or os.environ.get(VARIABLE)
    if named:
        if not os.access(named, os.X_OK) or os.path.isdir(named):
            raise ProgramFailed(f"{named} is no program", 127)
        return Program(Path(named).absolute())
    found = _of_checkout(ROOT) or shutil.which("hilldale")
    if found:
        return Program(Path(found))
    raise ProgramFailed(f"the program hilldale is not found: give its name by --program, or by {VARIABLE}", 127)


@cache
def _of_checkout(root: Path) -> Path | None:
    """The program of the sources of a checkout, which its script `release/program` tells; None where there is none."""
    teller = root / "release" / "program"
    if not os.access(teller, os.X_OK):
        built = root / "crates" / "hilldale" / "out" / "hilldale"
        return built if os.access(built, os.X_OK) else None
    told = subprocess.run([str(teller)], capture_output=True, text=True, check=False)
    sys.stderr.write(told.stderr)
    return root / told.stdout.strip() if told.returncode == 0 and told.stdout.strip() else None


def set_program(path: str | None) -> None:
    """Makes every later call, also those of worker processes, use this program; None changes nothing."""
    if path:
        os.environ[VARIABLE] = str(find(path).path)


@contextmanager
def memory_files(*texts: bytes) -> Iterator[list[str]]:
    """Files in memory that a program started meanwhile reads by name. They are gone with this process, however it
    ends."""
    numbers: list[int] = []
    try:
        for text in texts:
            number = os.memfd_create("hilldale-lab", os.MFD_CLOEXEC)
            numbers.append(number)
            with open(number, "wb", closefd=False) as file:
                file.write(text)
        yield [f"/proc/self/fd/{number}" for number in numbers]
    finally:
        for number in numbers:
            os.close(number)


def fault(status: int, output: bytes, errors: bytes) -> ProgramFault:
    """The exception for a status, by what was printed and told."""
    told = errors.decode(errors="replace").strip().splitlines()
    first = output[:400].decode(errors="replace").strip().splitlines()
    line = first[0] if first and status in (3, 5, 8) else told[-1] if told else MEANING.get(status, "")
    kind = FAULTS.get(status)
    if kind is not None:
        return kind(line, status)
    if status < 0:
        return ProgramFailed(f"the program was ended by signal {-status}", 128 - status)
    return ProgramFailed(f"the program ended with status {status}: {line or (first[0] if first else '')}", status)
