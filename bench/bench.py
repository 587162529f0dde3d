#!/usr/bin/env python3
"""Times the jobs that users run, and prints the page docs/BENCH.md:

    bench/bench.py [--binary PATH] [--rounds N] [SIZE ..] > docs/BENCH.md

The surfaces are made by this script, 512, 1024 and 2048 points each way where no size is given. A job's seconds are those
of the processor, the least of its rounds. Its ratio is to reading the same surface, and that of reading is to `wc -w` of the
same file. Its instructions are counted by valgrind, which takes some fifty times as long, in millions and for each point of the
surface. They are the same at each run, so a later loss shows on any machine. The memory is measured by GNU time. What no tool
is there for is left out."""
from __future__ import annotations

import argparse
import math
import os
import platform
import re
import resource
import shutil
import subprocess
import sys
import tempfile
from pathlib import Path
from typing import Callable, Iterator, NamedTuple

ROOT = Path(__file__).resolve().parent.parent
GNU_TIME = '/usr/bin/time'
VALGRIND = shutil.which('valgrind')
MISSING = '-'  # in place of what no tool is there for
sys.path.insert(0, str(ROOT / 'samples'))
import make  # noqa: E402

HEAD = """# Times

Printed by `bench/bench.py` on a machine of {processors} processors ({machine}): a job's processor seconds, the least of {rounds} rounds, and its greatest memory in MB. Each job has one thread. No test and no promise: times differ between machines. The ratio is to `read` of the same surface, that of `read` to `wc -w` of the file.

`million` is how many million instructions the processor ran for the job, as valgrind's callgrind counts them, and `a point` is how many that makes for each point of the surface. Instructions are not time. But they are the same at each run, so a number that has grown tells of a loss on any machine.

Noise is independent heights, of which nearly each ninth is a pit; waves are smooth. The jobs:

- `read`: a script without lines
- `dales`, `tree`, `prune`, `param`, `lines`, `audit`: the lines `dales`, `tree D`, `prune D 5%`, `param S10z`, `lines D 5%`, `audit D 5%`
- `four`, `six`: `neighbours 4` or `6`, then `dales`; `decimal`: `dales` of heights with six places
- `values`: `height` for Sp, Sv, Sa and Smr, then `hist`, `perc` and `fill`
- `open, flat`, `open, ball`: an opening by 15 by 15 points, zeros or a ball of radius 12
- `save`: read and save
- `certificate`: the saddle of the two deepest dales; `check`, `check audit`: the certificates, checked
- `demo`: as many points, with 200 edits
- `sets`: 200,000 lines `set`, then `dales`; `edits`: 300 pairs of `set` and `label`, with `dales` after every tenth, in tiles of 16
"""


class Cells(NamedTuple):
    """What a job took, as the page shows it."""
    seconds: str
    ratio: str
    memory: str
    millions: str
    each_point: str


COLUMNS = '{0.seconds:>9}{0.ratio:>7}{0.memory:>5}{0.millions:>9}{0.each_point:>9}'
TITLES = Cells('seconds', 'ratio', 'MB', 'million', 'a point')


def draws(s: int) -> Iterator[int]:
    while True:
        s = (s * 1103515245 + 12345) % 2**31
        yield s >> 19


def rows(kind: str, n: int) -> Iterator[list[int]]:
    d = draws(7)
    for y in range(n):
        if kind == 'noise':
            yield [next(d) for _ in range(n)]
        else:
            yield [round(30000 * math.sin(x / 19) * math.cos(y / 27) + 7000 * math.sin((2 * x + y) / 11) + next(d) / 64) for x in range(n)]


def element_line(name: str, height: Callable[[int, int], int]) -> str:
    """The line of an element of 15 by 15 numbers."""
    numbers = [str(height(x, y)) for y in range(-7, 8) for x in range(-7, 8)]
    return f'element {name} 15 15 {" ".join(numbers)}\n'


def decimals_of(folder: str, surface: str) -> str:
    """The same surface with each height as a decimal of six places."""
    path = f'{folder}/decimal.sdf'
    with open(surface) as given, open(path, 'w') as out:
        header, data, _ = given.read().split('*\n')
        out.write(re.sub(r'(DataType\s*=\s*)6', r'\g<1>7', header) + '*\n')
        out.write(re.sub(r'-?\d+', lambda height: f'{int(height[0]) / 1000:.6f}', data) + '*\n')
    return path


def script_of(folder: str, name: str, text: str) -> str:
    path = f'{folder}/{name}.txt'
    Path(path).write_text(text)
    return path


def sets(n: int) -> str:
    d = draws(11)
    return ''.join(f'set {next(d) % n} {next(d) % n} {next(d)}\n' for _ in range(200000)) + 'dales\n'


def edits(n: int) -> str:
    d = draws(13)
    lines = []
    for number in range(1, 301):
        x, y = next(d) % n, next(d) % n
        lines.append(f'set {x} {y} {next(d)}\nlabel D {x} {y}\n' + ('dales\n' if number % 10 == 0 else ''))
    return ''.join(lines)


LPVH = 'FC;D;Wolfprune:5%;All;lpvh'
VALUES = f'height Sp\nheight Sv\nheight Sa\nheight Smr 2048\nhist 16 {LPVH}\nperc 2048 {LPVH}\nfill D 5%\n'


def deepest_of(binary: str, surface: str) -> str:
    """The positions of the two lowest pits."""
    lines = subprocess.run([binary, 'dales', surface], stdout=subprocess.PIPE).stdout.decode().splitlines()[1:]
    deepest = sorted((line.split()[1:4] for line in lines), key=lambda pit: int(pit[2]))[:2]
    return ' '.join(f'{x} {y}' for x, y, _ in deepest)


def jobs(binary: str, folder: str, surface: str, kind: str, n: int) -> Iterator[tuple[str, list[str]]]:
    """The name and the words of each job on a surface, reading first; a demonstration only beside noise, which it is."""
    flat, ball = element_line('e', lambda x, y: 0), element_line('e', lambda x, y: round(1000 * (math.sqrt(144 - x * x - y * y) - 12)))
    lines = {
        'read': '', 'dales': 'dales\n', 'four': 'neighbours 4\ndales\n', 'six': 'neighbours 6\ndales\n',
        'tree': 'tree D\n', 'prune': 'prune D 5%\n', 'param': 'param S10z\n', 'lines': 'lines D 5%\n', 'values': VALUES,
        'open, flat': flat + 'open e\n', 'open, ball': ball + 'open e\n', 'save': '',
        'certificate': f'saddle D {deepest_of(binary, surface)}\n', 'audit': 'audit D 5%\n',
    }
    for name, text in lines.items():
        words = [binary, 'run', surface, script_of(folder, name, text)]
        yield name, words + (['--save', f'{folder}/saved'] if name == 'save' else [])
        if name in ('certificate', 'audit'):
            with open(f'{folder}/certificate', 'wb') as out:
                subprocess.run(words, stdout=out)
            yield 'check' if name == 'certificate' else 'check audit', [binary, 'check', surface, f'{folder}/certificate']
    yield 'decimal', [binary, 'dales', decimals_of(folder, surface)]
    if kind == 'noise':
        yield 'demo', [binary, 'demo', str(n), str(n), '7', '200']
    yield 'sets', [binary, 'run', surface, script_of(folder, 'sets', sets(n))]
    yield 'edits', [binary, 'run', surface, script_of(folder, 'edits', edits(n)), '--tile', '16']


def processor_seconds() -> float:
    """What ended children took, in user and system mode."""
    used = resource.getrusage(resource.RUSAGE_CHILDREN)
    return used.ru_utime + used.ru_stime


def seconds_of(words: list[str], rounds: int) -> float:
    least = math.inf
    for _ in range(rounds):
        begun = processor_seconds()
        done = subprocess.run(words, stdout=subprocess.DEVNULL, env={**os.environ, 'LC_ALL': 'C'})
        least = min(least, processor_seconds() - begun)
        if done.returncode != 0:
            sys.exit(f'status {done.returncode}: {" ".join(words)}')
    return least


def memory_of(words: list[str]) -> str:
    """The greatest memory in MB. A child of this process would be charged with what Python itself takes."""
    if not os.access(GNU_TIME, os.X_OK):
        return MISSING
    with tempfile.NamedTemporaryFile('r') as told:
        subprocess.run([GNU_TIME, '-f', '%M', '-o', told.name, *words], stdout=subprocess.DEVNULL)
        return f'{int(told.read().split()[-1]) / 1024:.0f}'


def instructions_of(words: list[str], points: int) -> tuple[str, str]:
    """How many million instructions, and how many for each point."""
    if VALGRIND is None:
        return MISSING, MISSING
    counting = [VALGRIND, '--tool=callgrind', '--callgrind-out-file=/dev/null']
    told = subprocess.run([*counting, *words], stdout=subprocess.DEVNULL, stderr=subprocess.PIPE, text=True).stderr
    counted = int(re.findall(r'Collected : (\d+)', told)[-1])
    return f'{counted / 1e6:.1f}', f'{counted / points:.1f}'


def measured(binary: str, folder: str, kind: str, n: int, rounds: int) -> dict[str, Cells]:
    """What each job on a surface takes."""
    surface = f'{folder}/surface.sdf'
    make.write_surface(surface, 'bench', ('1e-6', '1e-6'), 6, n, n, rows(kind, n))
    beside, cells = seconds_of(['wc', '-w', surface], rounds), {}
    for name, words in jobs(binary, folder, surface, kind, n):
        seconds = seconds_of(words, rounds)
        cells[name] = Cells(f'{seconds:.3f}', f'{seconds / beside:.1f}', memory_of(words), *instructions_of(words, n * n))
        if name == 'read':
            beside = seconds
    return cells


def print_table(binary: str, kind: str, sizes: list[int], rounds: int) -> None:
    with tempfile.TemporaryDirectory() as folder:
        columns = [measured(binary, folder, kind, n, rounds) for n in sizes]
    print(f'\n## {kind.capitalize()}\n\n```')
    titles = COLUMNS.format(TITLES)
    print(' ' * 11 + ''.join(f'{f"{n} by {n}":>{len(titles)}}' for n in sizes))
    print(f'{"job":11}' + titles * len(sizes))
    for name in columns[0]:
        print(f'{name:11}' + ''.join(COLUMNS.format(cells[name]) for cells in columns), flush=True)
    print('```')


def main() -> None:
    words = argparse.ArgumentParser(description=__doc__, formatter_class=argparse.RawDescriptionHelpFormatter)
    words.add_argument('--binary', help='the program; else that of the sources that are here')
    words.add_argument('--rounds', type=int, default=5)
    words.add_argument('sizes', nargs='*', type=int)
    given = words.parse_args()
    binary = given.binary or subprocess.check_output([ROOT / 'release/program'], text=True).strip()
    print(HEAD.format(processors=os.cpu_count(), machine=platform.machine(), rounds=given.rounds), end='')
    for kind in ('noise', 'waves'):
        print_table(binary, kind, given.sizes or [512, 1024, 2048], given.rounds)


main()
