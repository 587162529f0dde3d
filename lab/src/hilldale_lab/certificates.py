"""What the program says of a certificate, in words, and what the certificate itself names."""

from __future__ import annotations

import re
from dataclasses import dataclass

from hilldale_lab.answers import CheckAnswer, Point, parse_check

SIDE_WORDS = {"D": "dales", "H": "hills"}
PIT_WORDS = {"D": "pit", "H": "peak"}


@dataclass(frozen=True)
class Verdict:
    """The verdict on a certificate, and what it names itself.

    accepted: the program's answer. line: its own line. kind: `saddle` or `pruning`, None where the first line is
    neither. side, neighbours, percent, kept (the number of pits said to be kept), start, end, saddle (column, profile,
    height; None without a path): None where the certificate does not name them. surface, sha256: name and digest of the
    surface file.
    """

    answer: CheckAnswer
    surface: str
    sha256: str
    kind: str | None = None
    side: str | None = None
    neighbours: int | None = None
    percent: str | None = None
    kept: int | None = None
    start: Point | None = None
    end: Point | None = None
    saddle: tuple[int, int, int] | None = None

    @property
    def accepted(self) -> bool:
        """Whether the program accepted the certificate."""
        return self.answer.is_accepted

    @property
    def line(self) -> str:
        """The program's own line, as `certificate refused: rule 17 at 14 14`."""
        return self.answer.text

    def words(self) -> str:
        """The verdict in words, a fact a line: of a certificate that was accepted also what it shows."""
        shown = self._facts() if self.accepted else []
        found = [self.line, *shown, f"Surface: {self.surface}", f"SHA-256 of the surface: {self.sha256}"]
        if self.accepted:
            found.append("Accepted says that it holds of this file: compare the digest with that of the report.")
        return "\n".join(found)

    def _facts(self) -> list[str]:
        side = SIDE_WORDS[self.side or "D"]
        facts = [f"Kind: {self.kind} certificate", f"Side: {side}", f"Neighbours: {self.neighbours}"]
        if self.kind == "pruning":
            return [*facts, f"Percent: {self.percent} of Sz", f"Kept: {self.kept}"]
        pit = PIT_WORDS[self.side or "D"]
        assert self.start is not None and self.end is not None
        facts += [
            f"From: the {pit} at {self.start[0]} {self.start[1]}",
            f"To: the {pit} at {self.end[0]} {self.end[1]}",
        ]
        if self.saddle is None:
            return [*facts, "Saddle: none, since no path joins the two"]
        x, y, height = self.saddle
        return [*facts, f"Saddle: at {x} {y}, {height} steps high"]


def verdict(output: bytes, certificate: bytes, surface: str, sha256: str) -> Verdict:
    """The verdict that the program's output gives. Raises UnknownAnswer."""
    answer = parse_check(output)
    text = certificate.decode("latin-1")
    lines = [" ".join(re.split(r"[ \t\r]+", line.strip(" \t\r"))) for line in text.split("\n", 5)[:4]]
    pruning = re.fullmatch(r"pruning ([DH]) ([0-9.]+%) ([468])", lines[0])
    if pruning:
        kept = len(re.findall(r"(?m)^[ \t]*[0-9]+[ \t]+-[ \t]", text))
        return Verdict(answer, surface, sha256, "pruning", pruning[1], int(pruning[3]), pruning[2], kept)
    saddle = re.fullmatch(r"certificate ([DH]) ([468])", lines[0])
    if not saddle:
        return Verdict(answer, surface, sha256)
    numbers = [[int(word) for word in line.split()[1:] if re.fullmatch(r"[+-]?[0-9]+", word)] for line in lines[1:]]
    if not answer.is_accepted:
        return Verdict(answer, surface, sha256, "saddle", saddle[1], int(saddle[2]))
    start, end, at = (tuple(found) for found in numbers)
    return Verdict(answer, surface, sha256, "saddle", saddle[1], int(saddle[2]), None, None, start, end, at or None)
