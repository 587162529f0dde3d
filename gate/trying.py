"""What check-answers, check-sizes and check-lengths share: how a case is tried, surface files, and definitions in plain Python."""
from __future__ import annotations

import subprocess
import sys
import tempfile
from itertools import chain
from pathlib import Path

ROOT = Path(__file__).resolve().parent.parent
PROGRAM = subprocess.run([ROOT / 'release/program'], stdout=subprocess.PIPE, text=True).stdout.strip()
HEADER = """aBCR-1.0
ManufacID = demo
CreateDate = 010120260000
ModDate = 010120260000
NumPoints = {points}
NumProfiles = {profiles}
Xscale = 1e-6
Yscale = 1e-6
Zscale = 1e-9
Zresolution = -1
Compression = 0
DataType = {code}
CheckType = 0
*
"""
MARK = 'mark'  # a word that is no command parts the answers

counts = {True: 0, False: 0}


def check(name: str, holds: bool) -> None:
    counts[holds] += 1
    if not holds:
        print(f'failed: {name}')


def write_surface(path: Path, rows: list[str], code: int = 6) -> Path:
    """Writes a surface file of lines of heights, each a profile."""
    header = HEADER.format(points=len(rows[0].split()), profiles=len(rows), code=code)
    path.write_text(header + '\n'.join(rows) + '\n*\n')
    return path


def heights_of(path: Path) -> list[str]:
    """The data of a surface file, as they are written."""
    return path.read_text().split('\n*\n')[1].split()


def ask(name: str, *words: str | Path, lines: list[str] | None = None, status: int = 0) -> str:
    """Runs the program, with a script of these lines as its second file, holds its status, and returns what it prints."""
    with tempfile.NamedTemporaryFile('w') as script:
        if lines is not None:
            script.write('\n'.join(lines) + '\n')
            script.flush()
            words = (words[0], words[1], script.name, *words[2:])
        ran = subprocess.run([PROGRAM, *map(str, words)], stdout=subprocess.PIPE, stderr=subprocess.PIPE, text=True)
    check(f'{name}: status {ran.returncode} {ran.stderr.strip()}', ran.returncode == status and not ran.stderr)
    return ran.stdout


def answers(name: str, *words: str | Path, lines: list[str]) -> list[str]:
    """The answers to each line, one after the other."""
    marked = [it for line in lines for it in (line, MARK)]
    text = ask(name, *words, lines=marked, status=1)
    found, start = [], 0
    for number in range(2, len(marked) + 1, 2):
        mark = f'line {number} refused: unknown command\n'
        end = text.find(mark, start)
        found.append(text[start:end])
        start = end + len(mark)
    return found


def filtered(rows: list[list], element: list[list], greatest: bool) -> list[list]:
    """The dilation or the erosion by an element, of points of which None is not present."""
    high, wide, sign = len(element) // 2, len(element[0]) // 2, 1 if greatest else -1
    offsets = [(u, v, b) for v, line in enumerate(element, -high) for u, b in enumerate(line, -wide) if b is not None]
    def at(x: int, y: int) -> int:
        here = [sign * rows[y - sign * v][x - sign * u] + b for u, v, b in offsets
                if 0 <= x - sign * u < len(rows[0]) and 0 <= y - sign * v < len(rows) and rows[y - sign * v][x - sign * u] is not None]
        return sign * max(here)
    return [[None if z is None else at(x, y) for x, z in enumerate(row)] for y, row in enumerate(rows)]


def opened(rows: list[list], element: list[list]) -> list[list]:
    return filtered(filtered(rows, element, False), element, True)


def dales_of(rows: list[list[int]]) -> str:
    """The answer to `dales`, by the definitions: each point goes on to the lowest of itself and its eight neighbours."""
    width, size = len(rows[0]), len(rows) * len(rows[0])
    ranks = [[z * size + y * width + x for x, z in enumerate(row)] for y, row in enumerate(rows)]
    wide = [list(map(min, row, row[:1] + row[:-1], row[1:] + row[-1:])) for row in ranks]
    lowest = [list(map(min, row, wide[max(y - 1, 0)], wide[y + 1 if y + 1 < len(wide) else y])) for y, row in enumerate(wide)]
    roots: dict[int, int] = {}
    owned: dict[int, int] = {}
    for rank, low in sorted(zip(chain(*ranks), chain(*lowest))):
        roots[rank] = root = rank if low == rank else roots[low]
        owned[root] = owned.get(root, 0) + 1
    pits = sorted(owned, key=lambda rank: rank % size)
    lines = [f'dale {it % size % width} {it % size // width} {it // size} {owned[it]}\n' for it in pits]
    return ''.join([f'dales {len(lines)}\n', *lines])


def finish() -> None:
    """Prints how many cases passed and failed, and ends."""
    print(f'{counts[True]} passed, {counts[False]} failed')
    sys.exit(1 if counts[False] else 0)
