"""The faults that a user can do something about. Each has a message of one line and an exit status."""

from __future__ import annotations


LONGEST = 300


def one_line(text: str) -> str:
    """The text with line ends and what cannot be printed escaped, as `\\n`."""
    return "".join(c if c.isprintable() else c.encode("unicode_escape").decode() for c in text)


class LabError(Exception):
    """A fault with a message for the user, of one line. `status` is what the program ends with."""

    status = 2

    def __init__(self, message: str, status: int | None = None) -> None:
        super().__init__(one_line(message))
        if status is not None:
            self.status = status


class MissingPackage(LabError):
    """A Python package is missing; the message names Debian's package for it."""

    def __init__(self, packages: list[str]) -> None:
        self.packages = packages
        names = " ".join(packages)
        super().__init__(f"not installed here: apt-get install {names}")


class InputRefused(LabError):
    """A file that cannot be read as it stands: where, what stands there, and what to do.

    file: its name as given. place: as `line 3`, `bytes 98 and 99`, or empty for the whole file. found: what stands
    there. advice: what to do, or empty.
    """

    status = 3

    def __init__(self, file: str, place: str, found: str, advice: str = "") -> None:
        self.file, self.place, self.found, self.advice = file, place, found, advice
        where = f"{file}: {place}" if place else file
        shown = found if len(found) <= LONGEST else f"{found[:LONGEST]} .."
        super().__init__(f"{where}: {shown}" + (f": {advice}" if advice else ""))
