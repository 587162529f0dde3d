#!/usr/bin/env python3
"""Writes the sample surfaces of this folder, each the same at every call: make.py [FOLDER].

make.py --shell FILE writes a larger one as a table: 512 by 512 heights in micrometres with decimal commas."""
import math
import pathlib
import random
import sys

HEADER = """aBCR-1.0
ManufacID = {name}
CreateDate = 010120260000
ModDate = 010120260000
NumPoints = {points}
NumProfiles = {profiles}
Xscale = {x}
Yscale = {y}
Zscale = 1e-9
Zresolution = -1
Compression = 0
DataType = {code}
CheckType = 0
*
"""


INSTRUMENT_HEADER = """aBCR-1.0
; bearing shell 12, upper half
CreateDate  = 271120261012
ModDate     = 271120261015
ManufacID   = Lab 7
NumProfiles = {profiles}
NumPoints   = {points}
Yscale      = 5.0E-006
Xscale      = 5.0E-006
Zscale      = 1.0E-009
Zresolution = -1
DataType    = 6
Compression = 0
CheckType   = 0
; the optics
Objective   = 20x
Aperture    = 0.40
*
"""


def write_surface(name, maker, scales, code, points, profiles, rows):
    """Writes a surface file: rows of heights, None for a point that was not measured."""
    with open(name, 'w') as out:
        out.write(HEADER.format(name=maker, points=points, profiles=profiles, x=scales[0], y=scales[1], code=code))
        for row in rows:
            out.write(' '.join('BAD' if z is None else str(z) for z in row) + '\n')
        out.write('*\n')


def write_as_instrument(name, rows):
    """Writes a surface file as an instrument may: CRLF, comments, keys in its own order and keys of its own, data in
    lines of ten, and a trailer."""
    data = ['BAD' if z is None else str(z) for row in rows for z in row]
    lines = INSTRUMENT_HEADER.format(points=len(rows[0]), profiles=len(rows)).splitlines()
    lines += [' '.join(data[k:k + 10]) for k in range(0, len(data), 10)]
    lines += ['*', 'Measured after running in.', 'Operator: A. N.']
    with open(name, 'wb') as out:
        out.write(''.join(line + '\r\n' for line in lines).encode())


def profile(_):
    """Three points: two dales and the hill between them."""
    return [[0, 5, 1]]


def small(_):
    """Forty points, few enough to look at each: three dales, of which a pruning keeps two."""
    return [
        [30, 28, 24, 27, 31, 33, 30, 29],
        [26, 18, 15, 22, 29, 27, 21, 24],
        [22, 12, 9, 19, 30, 25, 14, 20],
        [25, 16, 11, 20, 28, 24, 15, 22],
        [29, 24, 10, 26, 27, 17, 16, 28],
    ]


def seal(random):
    """A turned sealing face: feed marks of 9 points at a slant, and a dent that is no part of the surface."""
    heights = [[round(180 * math.sin(2 * math.pi * (x - 0.4 * y + 2) / 9) + 8 * y) + random.randint(-4, 4) for x in range(24)] for y in range(9)]
    for y in range(3, 6):
        for x in range(12, 16):
            heights[y][x] -= random.randint(380, 460)
    return heights


def pockets(random):
    """A wavy bearing shell with four oil pockets, points in their walls that could not be measured, and a grain of
    dust of two points."""
    centres = ((6, 4), (17, 5), (11, 11), (21, 12))

    def height(x, y):
        wave = 60 * math.sin(2 * math.pi * (x + 1) / 15) * math.cos(2 * math.pi * (y + 2) / 13)
        depth = 420 * sum(math.exp(-((x - a) ** 2 + (y - b) ** 2) / 5) for a, b in centres)
        z = round(wave - depth) + random.randint(-5, 5)
        is_wall = any(2.2 < math.hypot(x - a, y - b) < 3 for a, b in centres)
        return None if is_wall and random.random() < 0.2 else z

    heights = [[height(x, y) for x in range(24)] for y in range(16)]
    heights[9][3:5] = 1460, 1385
    return heights


def turned(random):
    """A turned profile's lay: feed marks of 12 points, with a little noise."""
    return [[round(400 * abs(math.sin(math.pi * x / 12)) + random.gauss(0, 12)) for x in range(96)] for _ in range(24)]


def ground(random):
    """A ground texture: fine lay along the profile, with five deep scratches across it."""
    heights = [[0] * 64 for _ in range(64)]
    for x in range(64):
        lay = random.gauss(0, 90)
        for y in range(64):
            heights[y][x] = round(lay + random.gauss(0, 25))
    for _ in range(5):
        x, slope, depth = random.uniform(0, 63), random.uniform(-0.6, 0.6), random.randint(300, 700)
        for y in range(64):
            for beside in (-1, 0, 1):
                at = round(x + slope * y) + beside
                if 0 <= at < 64:
                    heights[y][at] -= depth if beside == 0 else depth // 2
    return heights


def dimples(random):
    """A laser-dimpled texture: round dimples in a square pattern of 16 points on a flat land."""
    def height(x, y):
        dx, dy = (x % 16) - 8, (y % 16) - 8
        return round(-900 * math.exp(-(dx * dx + dy * dy) / 14)) + random.randint(-3, 3)
    return [[height(x, y) for x in range(64)] for y in range(48)]


def plateau(random):
    """A stepped plateau, three steps high, with points that the instrument could not measure along its edges."""
    heights = [[250 * sum(edge <= x < 48 - edge and edge <= y < 40 - edge for edge in (6, 12, 17)) for x in range(48)] for y in range(40)]
    edges = [[any(heights[y][x] != heights[b][a] for a in range(max(x - 1, 0), min(x + 2, 48)) for b in range(max(y - 1, 0), min(y + 2, 40))) for x in range(48)] for y in range(40)]
    return [[None if edges[y][x] and random.random() < 0.6 else heights[y][x] + random.randint(-4, 4) for x in range(48)] for y in range(40)]


def groove(random):
    """A depth standard with one groove, 1.25 deep, in micrometres with four decimals as an interferometer gives them."""
    def height(x, y):
        floor = -1.25 if 9 <= x < 16 else -0.6 if x in (8, 16) else 0
        return f'{floor + 0.0021 * y + random.gauss(0, 0.0012):.4f}'
    rows = [[height(x, y) for x in range(24)] for y in range(8)]
    rows[3][8] = rows[6][16] = None
    return rows


def write_in_decimals(name, rows):
    """Writes a surface of decimals in micrometres, with the exponents and the keys of such an instrument."""
    lines = INSTRUMENT_HEADER.replace('; bearing shell 12, upper half', '; depth standard 3').replace('DataType    = 6', 'DataType    = 7')
    lines = lines.replace('Zscale      = 1.0E-009', 'Zscale      = 1.0E-006').format(points=len(rows[0]), profiles=len(rows)).splitlines()
    lines += [' '.join('BAD' if z is None else z for z in row) for row in rows]
    with open(name, 'wb') as out:
        out.write(''.join(line + '\r\n' for line in lines + ['*']).encode())


def shell(random):
    """A bearing shell with 24 round oil pockets, a grain of dust on five points, and a patch that could not be measured:
    rows of text, empty where there is no height. All is reckoned in whole nanometres, so that it is the same anywhere."""
    def bow(at, half, height):
        """A wave of parabolas, up and down by turns."""
        along = at % half
        return (1 - at // half % 2 * 2) * (4 * height * along * (half - along) // (half * half))

    places = [(56 + 99 * k, 56 + 99 * j) for j in range(5) for k in range(5) if (k, j) != (2, 3)]
    pockets = [(a + random.randint(-6, 6), b + random.randint(-6, 6), random.randint(1600, 2200), random.randint(34, 42)) for a, b in places]
    heights = [[bow(x, 171, 120) + bow(x + y, 223, 80) + random.randint(-9, 9) for x in range(512)] for y in range(512)]
    for a, b, depth, radius in pockets:
        for y in range(b - radius, b + radius + 1):
            for x in range(a - radius, a + radius + 1):
                inside = radius ** 2 - (x - a) ** 2 - (y - b) ** 2
                if inside > 0:
                    heights[y][x] -= depth * inside ** 2 // radius ** 4
    for x, y, z in ((301, 105, 9600), (302, 105, 11200), (303, 105, 8400), (302, 106, 10300), (302, 104, 7900)):
        heights[y][x] = z
    rows = [[f'{"-" * (z < 0)}{abs(z) // 1000},{abs(z) % 1000:03}' for z in row] for row in heights]
    for y in range(245, 262):
        for x in range(190, 222):
            rows[y][x] = ''
    return rows


def write_table(name, rows):
    """Writes rows of text as a table with `;` between its fields."""
    with open(name, 'w') as out:
        out.writelines(';'.join(row) + '\n' for row in rows)


def main():
    if sys.argv[1:2] == ['--shell']:
        return write_table(sys.argv[2], shell(random.Random(2026)))
    folder = pathlib.Path(sys.argv[1] if len(sys.argv) > 1 else pathlib.Path(__file__).parent)
    for make in (profile, small, turned, ground, dimples, plateau, seal):
        rows = make(random.Random(2026))
        scales = {'profile': ('1e-6', '1e-6'), 'small': ('1e-6', '1e-6'), 'turned': ('5e-6', '9e-6')}.get(make.__name__, ('2e-6', '2e-6'))
        write_surface(folder / f'{make.__name__}.sdf', make.__name__, scales, 5, len(rows[0]), len(rows), rows)
    write_as_instrument(folder / 'pockets.sdf', pockets(random.Random(2026)))
    write_in_decimals(folder / 'groove.sdf', groove(random.Random(2026)))


if __name__ == '__main__':
    main()
