"""The proved library as the second way to ask: calls in memory, with no process for each. HILLDALE_LIBRARY names it."""

from __future__ import annotations

import ctypes
import os
from collections.abc import Callable
from ctypes import POINTER, Array, c_char, c_char_p, c_size_t, c_uint8, c_uint32, c_uint64
from dataclasses import dataclass
from functools import cached_property
from pathlib import Path

from hilldale_lab.program import Program, ProgramFailed, Ran, fault

VARIABLE = "HILLDALE_LIBRARY"
TILE = 64
ROOM = 1 << 18

TEXT = [c_char_p, c_size_t]
ROOM_FOR = [POINTER(c_char), c_size_t, POINTER(c_uint64)]
FUNCTIONS = {
    "hilldale_run": [*TEXT, *TEXT, c_uint32, *ROOM_FOR],
    "hilldale_run_and_save": [*TEXT, *TEXT, c_uint32, *ROOM_FOR, *ROOM_FOR],
    "hilldale_check": [*TEXT, *TEXT, *ROOM_FOR],
}


class _Room:
    """Room for a text of a length that only the call tells."""

    def __init__(self, length: int) -> None:
        self.bytes: Array[c_char] = ctypes.create_string_buffer(length)
        self.needed = c_uint64()

    def words(self) -> tuple[Array[c_char], int, object]:
        return self.bytes, len(self.bytes), ctypes.byref(self.needed)

    def fits(self) -> bool:
        """Whether the text is here. If not, there is room for it at the next call."""
        if self.needed.value <= len(self.bytes):
            return True
        self.bytes = ctypes.create_string_buffer(self.needed.value)
        return False

    def text(self) -> bytes:
        return ctypes.string_at(self.bytes, self.needed.value)


class Library:
    """The functions of `hilldale.h`. Each gives the program's status and what it prints. Any thread may call it."""

    def __init__(self, path: Path) -> None:
        try:
            self._calls = ctypes.CDLL(str(path))
            for name, kinds in FUNCTIONS.items():
                function = getattr(self._calls, name)
                function.argtypes, function.restype = kinds, c_uint8
        except (OSError, AttributeError) as error:
            raise ProgramFailed(f"{path} is not the library of hilldale: {error}", 127) from error

    def run(self, surface: bytes, script: bytes, tile: int = TILE) -> Ran:
        """Answers the lines of a script on the text of a surface."""
        given = (surface, len(surface), script, len(script), tile)
        out = _Room(ROOM)
        return _ran(self._calls.hilldale_run, given, out)

    def run_and_save(self, surface: bytes, script: bytes, tile: int = TILE) -> tuple[Ran, bytes]:
        """The same, with the text of the edited surface, which is empty where nothing is saved."""
        given = (surface, len(surface), script, len(script), tile)
        out, saved = _Room(ROOM), _Room(len(surface) + ROOM)
        ran = _ran(self._calls.hilldale_run_and_save, given, out, saved)
        return ran, saved.text()

    def check(self, surface: bytes, certificate: bytes) -> Ran:
        """Checks a certificate of a surface."""
        given = (surface, len(surface), certificate, len(certificate))
        return _ran(self._calls.hilldale_check, given, _Room(ROOM))


def _ran(call: Callable[..., int], given: tuple[bytes | int, ...], *rooms: _Room) -> Ran:
    while True:
        status = call(*given, *(word for room in rooms for word in room.words()))
        if all([room.fits() for room in rooms]):
            return Ran(status, rooms[0].text())


@dataclass(frozen=True)
class NativeProgram(Program):
    """The program, asked through the library. What is written to a file still goes by the program itself."""

    library: Path

    @cached_property
    def _library(self) -> Library:
        return Library(self.library)

    def run(self, surface: bytes, script: bytes, save: Path | None = None) -> Ran:
        if save is not None:
            return super().run(surface, script, save)
        return _expected(self._library.run(surface, script), (0, 1))

    def edited(self, surface: bytes, script: bytes) -> tuple[Ran, bytes]:
        ran, text = self._library.run_and_save(surface, script)
        return _expected(ran, (0, 1)), text

    def check(self, surface: bytes, certificate: bytes) -> Ran:
        return _expected(self._library.check(surface, certificate), (0, 4))


def _expected(ran: Ran, statuses: tuple[int, ...]) -> Ran:
    if ran.status not in statuses:
        raise fault(ran.status, ran.output, b"")
    return ran


def chosen_path() -> Path | None:
    """The library that HILLDALE_LIBRARY names, or None."""
    named = os.environ.get(VARIABLE)
    return Path(named).absolute() if named else None


def beside(program: Program) -> Program:
    """The program, asked through the library where HILLDALE_LIBRARY names one."""
    path = chosen_path()
    return program if path is None else NativeProgram(program.path, path)
