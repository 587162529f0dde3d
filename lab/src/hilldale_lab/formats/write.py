"""Writers: a surface as GSF, X3P and text."""

from __future__ import annotations

import hashlib
import io
import zipfile
from collections.abc import Callable
from fractions import Fraction
from xml.sax.saxutils import escape

import numpy as np
from numpy.typing import NDArray

from hilldale_lab.decimals import decimal_text
from hilldale_lab.errors import LabError
from hilldale_lab.height_map import HeightMap

DATE = (2000, 1, 1, 0, 0, 0)


def gsf(surface: HeightMap, name: str, unit: Fraction) -> tuple[bytes, Fraction]:
    """GSF, in metres as floats of 32 bits, NaN where nothing is measured; and the greatest rounding in metres."""
    metres = _floats(surface)
    header = (
        f"Gwyddion Simple Field 1.0\nXRes = {surface.columns}\nYRes = {surface.profiles}\n"
        f"XReal = {float(surface.dx * surface.columns)!r}\nYReal = {float(surface.dy * surface.profiles)!r}\n"
        f"XYUnits = m\nZUnits = m\n"
    ).encode()
    header += b"\0" * (4 - len(header) % 4)
    return header + metres.astype("<f4").tobytes(), _greatest_rounding(surface, metres)


def _floats(surface: HeightMap) -> NDArray[np.float32]:
    """The heights in metres, each the float nearest to it but for one place, NaN where nothing is measured."""
    metres = (surface.steps.astype(np.float64) * float(surface.step)).astype(np.float32)
    metres[~surface.measured] = np.nan
    return metres


def _greatest_rounding(surface: HeightMap, metres: NDArray[np.float32]) -> Fraction:
    """How far the floats are at most from the heights, exactly at the point where it is most."""
    if not surface.measured.any():
        return Fraction(0)
    errors = np.where(surface.measured, np.abs(metres.astype(np.float64) - surface.steps * float(surface.step)), 0)
    worst = Fraction(0)
    for at in np.argsort(errors, axis=None)[-16:].tolist():
        if surface.measured.flat[at]:
            worst = max(worst, abs(Fraction(float(metres.flat[at])) - int(surface.steps.flat[at]) * surface.step))
    return worst


def text(surface: HeightMap, name: str, unit: Fraction) -> tuple[bytes, Fraction]:
    """Text: a line for each profile, decimals of the unit separated by tabs, NaN where nothing is measured. Comments
    tell the units. No height is rounded."""
    parts = decimal_text(surface.step / unit)
    if parts is None:
        raise LabError(f"a step of {surface.step} m is no decimal of {name}: take another --unit")
    dx, dy = (
        decimal_text(distance * size)
        for distance, size in ((surface.dx, surface.columns), (surface.dy, surface.profiles))
    )
    lines = [f"# Width: {dx} m", f"# Height: {dy} m", f"# Value units: {name}"]
    shown = _shown_heights(surface, surface.step / unit)
    lines += ["\t".join(row) for row in shown]
    return ("\n".join(lines) + "\n").encode("utf-8"), Fraction(0)


def _shown_heights(surface: HeightMap, step: Fraction) -> list[list[str]]:
    """Each height as a decimal; each different one is made once."""
    levels, places = np.unique(surface.steps, return_inverse=True)
    texts = [_plain(int(level) * step) for level in levels.tolist()]
    texts.append("NaN")
    places = np.where(surface.measured, places.reshape(surface.steps.shape), len(texts) - 1)
    return [[texts[place] for place in row] for row in places.tolist()]


def _plain(number: Fraction) -> str:
    return decimal_text(number) or str(float(number))


X3P_XML = """<?xml version="1.0" encoding="UTF-8"?>
<p:ISO5436_2 xmlns:p="http://www.opengps.eu/2008/ISO5436_2">
<Record1><Revision>ISO5436 - 2000</Revision><FeatureType>SUR</FeatureType><Axes>
<CX><AxisType>I</AxisType><DataType>D</DataType><Increment>{dx}</Increment><Offset>0</Offset></CX>
<CY><AxisType>I</AxisType><DataType>D</DataType><Increment>{dy}</Increment><Offset>0</Offset></CY>
<CZ><AxisType>A</AxisType><DataType>{kind}</DataType><Increment>{step}</Increment><Offset>0</Offset></CZ>
</Axes></Record1>
<Record2><Date>2000-01-01T00:00:00</Date>
<Instrument><Manufacturer>{maker}</Manufacturer><Model>-</Model><Serial>-</Serial><Version>-</Version></Instrument>
<CalibrationDate>2000-01-01T00:00:00</CalibrationDate>
<ProbingSystem><Type>Software</Type><Identification>hilldale-lab</Identification></ProbingSystem></Record2>
<Record3><MatrixDimension><SizeX>{columns}</SizeX><SizeY>{profiles}</SizeY><SizeZ>1</SizeZ></MatrixDimension>
<DataLink><PointDataLink>bindata/data.bin</PointDataLink><MD5ChecksumPointData>{points_md5}</MD5ChecksumPointData>
<ValidPointsLink>bindata/valid.bin</ValidPointsLink><MD5ChecksumValidPoints>{valid_md5}</MD5ChecksumValidPoints>
</DataLink></Record3>
<Record4><ChecksumFile>md5checksum.hex</ChecksumFile></Record4>
</p:ISO5436_2>
"""


def x3p(surface: HeightMap, name: str, unit: Fraction) -> tuple[bytes, Fraction]:
    """X3P with whole numbers of 32 bits and the step as increment, or floats of 64 bits where a height needs more. No
    height is rounded."""
    least, greatest = surface.least or 0, surface.greatest or 0
    kind, form = ("L", "<i4") if -(2**31) <= least and greatest < 2**31 else ("D", "<f8")
    points = np.where(surface.measured, surface.steps, 0).astype(form).tobytes()
    valid = np.packbits(surface.measured.ravel(), bitorder="little").tobytes()
    maker = dict((key.lower(), value) for key, value in surface.keys).get("manufacid", "-")
    main = X3P_XML.format(
        dx=decimal_text(surface.dx),
        dy=decimal_text(surface.dy),
        step=decimal_text(surface.step),
        kind=kind,
        maker=escape(maker),
        columns=surface.columns,
        profiles=surface.profiles,
        points_md5=_md5(points),
        valid_md5=_md5(valid),
    ).encode("utf-8")
    parts = {
        "main.xml": main,
        "md5checksum.hex": f"{_md5(main)} *main.xml\n".encode(),
        "bindata/data.bin": points,
        "bindata/valid.bin": valid,
    }
    out = io.BytesIO()
    with zipfile.ZipFile(out, "w", zipfile.ZIP_DEFLATED) as archive:
        for part, data in parts.items():
            archive.writestr(zipfile.ZipInfo(part, DATE), data, zipfile.ZIP_DEFLATED)
    return out.getvalue(), Fraction(0)


def _md5(data: bytes) -> str:
    return hashlib.md5(data, usedforsecurity=False).hexdigest()


Writer = Callable[[HeightMap, str, Fraction], tuple[bytes, Fraction]]
WRITERS: dict[str, Writer] = {".gsf": gsf, ".x3p": x3p, ".txt": text, ".csv": text}
