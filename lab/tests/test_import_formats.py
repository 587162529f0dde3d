"""Each format: files with known numbers, written by code that shares nothing with the readers, read back exactly."""

from __future__ import annotations

import random
import struct
import subprocess
from fractions import Fraction
from pathlib import Path

import makers
import numpy as np
import pytest

from hilldale_lab.errors import InputRefused
from hilldale_lab.formats import Options, gwyddion, import_file

SIZES = [(1, 1), (1, 9), (9, 1), (7, 5), (64, 3)]
MICRO = Fraction(1, 10**6)


@pytest.fixture(autouse=True)
def alone(monkeypatch):
    """Gwyddion's reader is asked only where a test says so."""
    monkeypatch.setenv("HILLDALE_GWYDDION", "")


def rows_of(width, height, least, greatest, gaps=0.0, seed=1):
    chance = random.Random(seed)
    rows = [
        [None if chance.random() < gaps else chance.randint(least, greatest) for _ in range(width)]
        for _ in range(height)
    ]
    return rows


def imported(tmp_path: Path, data: bytes, name="a.bin", **options):
    path = tmp_path / name
    path.write_bytes(data)
    return import_file(path, Options(**options))


def rows_back(found) -> list[list]:
    surface = found.surface
    return [
        [int(surface.steps[y, x]) if surface.measured[y, x] else None for x in range(surface.columns)]
        for y in range(surface.profiles)
    ]


def scales(found):
    return found.surface.step, found.surface.dx, found.surface.dy


WHOLE = {
    "sur 16": (lambda rows: makers.sur(rows, bits=16), (-15000, 15000), "1.234e-10", "5e-7", "4e-7"),
    "sur 32": (makers.sur, (-(10**6), 10**6), "1.234e-10", "5e-7", "4e-7"),
    "sur 32 big endian": (lambda rows: makers.sur(rows, order=">"), (-(10**6), 10**6), "1.234e-10", "5e-7", "4e-7"),
    "sur 16 big endian": (
        lambda rows: makers.sur(rows, bits=16, order=">"),
        (-15000, 15000),
        "1.234e-10",
        "5e-7",
        "4e-7",
    ),
    "sur compressed": (
        lambda rows: makers.sur(rows, compressed=True, blocks=3, comment=b"a note", private=b"\0\1"),
        (-(10**6), 10**6),
        "1.234e-10",
        "5e-7",
        "4e-7",
    ),
    "sur commented": (
        lambda rows: makers.sur(rows, comment=b"seen", private=b"x" * 9),
        (-99, 99),
        "1.234e-10",
        "5e-7",
        "4e-7",
    ),
    "sdf u16": (lambda rows: makers.binary_sdf(rows, kind=1), (0, 2**16 - 2), "1.234e-10", "5e-7", "4e-7"),
    "sdf u32": (lambda rows: makers.binary_sdf(rows, kind=2), (0, 2**32 - 2), "1.234e-10", "5e-7", "4e-7"),
    "sdf i16": (lambda rows: makers.binary_sdf(rows, kind=5), (-32767, 32767), "1.234e-10", "5e-7", "4e-7"),
    "sdf i32": (makers.binary_sdf, (-(2**31) + 1, 2**31 - 1), "1.234e-10", "5e-7", "4e-7"),
    "sdf i32 big endian": (
        lambda rows: makers.binary_sdf(rows, order=">"),
        (-(10**6), 10**6),
        "1.234e-10",
        "5e-7",
        "4e-7",
    ),
    "sdf iso longer": (
        lambda rows: makers.binary_sdf(rows, version=b"bISO-1.0", longer=True),
        (-(10**6), 10**6),
        "1.234e-10",
        "5e-7",
        "4e-7",
    ),
    "sdf text": (makers.text_sdf, (-(10**6), 10**6), "1.234e-10", "5e-7", "4e-7"),
    "sdf text open": (lambda rows: makers.text_sdf(rows, end="", line="\r\n"), (-99, 99), "1.234e-10", "5e-7", "4e-7"),
    "x3p I": (lambda rows: makers.x3p(rows, "I"), (-32768, 32767), "1.234e-10", "5e-7", "4e-7"),
    "x3p L": (makers.x3p, (-(2**31), 2**31 - 1), "1.234e-10", "5e-7", "4e-7"),
    "x3p list": (lambda rows: makers.x3p(rows, listed=True), (-(10**6), 10**6), "1.234e-10", "5e-7", "4e-7"),
    "opd 16": (makers.opd, (-32000, 32000), "7.91e-8", "5e-7", "5e-7"),
}


@pytest.mark.parametrize("width, height", SIZES)
@pytest.mark.parametrize("gaps", [0.0, 0.2])
@pytest.mark.parametrize("name", WHOLE)
def test_whole_numbers_stay(tmp_path, name, gaps, width, height):
    make, (least, greatest), step, dx, dy = WHOLE[name]
    rows = rows_of(width, height, least, greatest, gaps)
    found = imported(tmp_path, make(rows))
    assert rows_back(found) == rows
    assert scales(found) == (Fraction(step), Fraction(dx), Fraction(dy))
    assert found.rounding == 0


FLOATS = {
    "sdf f4": (lambda rows: makers.binary_sdf(rows, kind=3), "f", Fraction("1.234e-10")),
    "sdf f8": (lambda rows: makers.binary_sdf(rows, kind=7, order=">"), "d", Fraction("1.234e-10")),
    "x3p F": (lambda rows: makers.x3p(rows, "F", increment=""), "f", Fraction(1)),
    "x3p D": (lambda rows: makers.x3p(rows, "D", increment=""), "d", Fraction(1)),
    "gsf": (makers.gsf, "f", Fraction(1)),
    "gwy": (makers.gwy, "d", Fraction(1)),
    "plux": (makers.plux, "f", MICRO),
    "al3d": (makers.al3d, "f", Fraction(1)),
    "opd float": (lambda rows: makers.opd(rows, kind=4), "f", Fraction("632.8e-9") / 8),
}


def narrowed(value, form):
    return None if value is None else struct.unpack(form, struct.pack(form, value))[0]


@pytest.mark.parametrize("width, height", SIZES)
@pytest.mark.parametrize("gaps", [0.0, 0.2])
@pytest.mark.parametrize("name", FLOATS)
def test_floats_become_whole_steps(tmp_path, name, gaps, width, height):
    make, form, unit = FLOATS[name]
    chance = random.Random(7)
    rows = [
        [
            narrowed(value, form)
            if value is None
            else narrowed(value * 2.0**-20 * (1 + chance.randint(0, 7) / 8), form)
            for value in row
        ]
        for row in rows_of(width, height, -2000, 2000, gaps)
    ]
    found = imported(tmp_path, make(rows))
    steps, step = rows_back(found), found.surface.step
    assert [[value if value is None else Fraction(value) * unit for value in row] for row in rows] == [
        [value if value is None else value * step for value in row] for row in steps
    ]
    power = step / unit
    assert power.numerator == 1 and power.denominator & (power.denominator - 1) == 0


def test_floats_that_are_whole_stay_what_they_are(tmp_path):
    found = imported(tmp_path, makers.gsf([[8.0, 16.0, -24.0]]))
    assert rows_back(found) == [[8, 16, -24]] and found.surface.step == 1


def test_zero_and_no_height_at_all(tmp_path):
    assert rows_back(imported(tmp_path, makers.gsf([[0.0, -0.0]]))) == [[0, 0]]
    found = imported(tmp_path, makers.gsf([[None, None]]))
    assert rows_back(found) == [[None, None]] and "no point has a height" in found.warnings


def test_floats_of_no_whole_steps_name_a_step(tmp_path):
    heights = [[k * 1.234e-10 for k in (5, 1007, -3, 999983, 12)]]
    with pytest.raises(InputRefused, match="--step 1.234e-10"):
        imported(tmp_path, makers.gwy(heights))
    found = imported(tmp_path, makers.gwy(heights), step=Fraction("1.234e-10"))
    assert rows_back(found) == [[5, 1007, -3, 999983, 12]]
    assert 0 < found.rounding < Fraction("1e-18")


def test_rounding_is_to_the_nearest_and_told(tmp_path):
    chance = random.Random(3)
    heights = [[chance.uniform(-1e-5, 1e-5) for _ in range(3000)], [2.5e-9 * k for k in range(3000)]]
    step = Fraction("1e-9")
    found = imported(tmp_path, makers.gwy(heights), step=step)
    exact = [[Fraction(value) / step for value in row] for row in heights]
    assert rows_back(found) == [[round(value) for value in row] for row in exact]
    assert found.rounding == max(abs(value - round(value)) for row in exact for value in row) * step


@pytest.mark.parametrize(
    "step, wanted, worst",
    [("3e-10", [1, 2, -2, 0], "2e-10"), ("2e-10", [2, 2, -2, 0], "1e-10"), ("5e-11", [6, 10, -10, 0], "0")],
)
def test_whole_numbers_are_rounded_where_it_is_asked(tmp_path, step, wanted, worst):
    data = makers.text_sdf([[3, 5, -5, 0]], scales=("1", "1", "1e-10"))
    found = imported(tmp_path, data, step=Fraction(step))
    exact = [Fraction(value, 10**10) / Fraction(step) for value in (3, 5, -5, 0)]
    assert rows_back(found) == [[round(value) for value in exact]]
    assert found.rounding == max(abs(value - round(value)) for value in exact) * Fraction(step)


def test_a_channel_of_a_series_is_named(tmp_path):
    first, second = [[1, 2, 3]], [[4, None], [5, 6]]
    data = makers.sur(first, count=2, title="one") + makers.sur(second, title="two", compressed=True)
    with pytest.raises(InputRefused, match="--channel: 1 one, 2 two"):
        imported(tmp_path, data)
    assert rows_back(imported(tmp_path, data, channel="1")) == first
    assert rows_back(imported(tmp_path, data, channel="two")) == second
    with pytest.raises(InputRefused, match="no channel 3"):
        imported(tmp_path, data, channel="3")


def test_layers_and_channels_of_other_formats(tmp_path):
    data = makers.x3p([[1, 2], [3, None]], layers=2)
    assert rows_back(imported(tmp_path, data, channel="2")) == [[3, None]]
    data = makers.plux([[1.0]], layers=2)
    assert imported(tmp_path, data, channel="LAYER_1").channel == "LAYER_1"
    data = makers.gwy(
        [[1.0, 2.0]], more=[makers.gwy_part("/5/data", "o", makers.gwy_field([3.0], 1, 1, (1.0, 1.0), "m"))]
    )
    assert rows_back(imported(tmp_path, data, channel="2")) == [[3]]


LISTS = {
    "plain": "<Datum>12</Datum><Datum/><Datum>-3</Datum>",
    "on lines": "\n  <Datum>12</Datum>\r\n<Datum></Datum>\n\t<Datum> -3\n</Datum>\n",
    "with a comment": "<Datum>12</Datum><!-- <Datum>7</Datum> --><Datum/><Datum>-3</Datum>",
    "with a character": "<Datum>&#49;2</Datum><Datum>NaN</Datum><Datum>-3</Datum>",
    "of three axes": "<Datum>0;0;12</Datum><Datum>1;0;</Datum><Datum>2;0;-3</Datum>",
    "with an attribute": '<Datum a="1">12</Datum><Datum/><Datum>-3</Datum>',
}


@pytest.mark.parametrize("form", LISTS)
def test_lists_of_an_x3p(tmp_path, form):
    def of_list(text):
        return makers.x3p([[1, 2, 3]], listed=True, datums=text)

    assert rows_back(imported(tmp_path, of_list(LISTS[form]))) == [[12, None, -3]]
    for wrong in ("1 2", "x", "--1", "<Datum>1</Datum>", "1<b/>"):
        with pytest.raises(InputRefused):
            imported(tmp_path, of_list(LISTS[form].replace("-3", wrong)))


def test_masked_points_of_a_gwy_are_missing(tmp_path):
    mask = makers.gwy_part("/0/mask", "o", makers.gwy_field([0.0, 1.0, 0.0], 3, 1, (1.0, 1.0), ""))
    data = makers.gwy([[4.0, 5.0, 6.0]], more=[mask])
    found = imported(tmp_path, data)
    assert rows_back(found) == [[4, None, 6]] and "1 masked points are taken as missing" in found.warnings[0]
    assert rows_back(imported(tmp_path, data, keep_masked=True)) == [[4, 5, 6]]


def test_the_scale_of_a_sur_is_the_shortest_decimal(tmp_path):
    for dz in (0.1, 1e-3, 0.0001234, 3.0, 0.37):
        found = imported(tmp_path, makers.sur([[1, 2]], spacings=(0.1, 0.7, dz), units=("um", "\xe6m", "nm")))
        assert scales(found) == (Fraction(repr(dz)) / 10**9, Fraction("1e-7"), Fraction("7e-7"))


def test_a_sur_whose_flag_hides_its_missing_points_is_told(tmp_path):
    rows = [[None, 5, 6, 7]]
    found = imported(tmp_path, makers.sur(rows, special=0))
    assert found.surface.missing == 0 and any("--missing 3" in text for text in found.warnings)
    assert rows_back(imported(tmp_path, makers.sur(rows, special=0), missing=(Fraction(3),))) == rows


def test_eight_bits_are_refused_until_told(tmp_path):
    data = makers.binary_sdf([[7, None, 200]], kind=0)
    with pytest.raises(InputRefused, match="--missing 255, or --missing none"):
        imported(tmp_path, data)
    assert rows_back(imported(tmp_path, data, missing=(Fraction(255),))) == [[7, None, 200]]
    assert rows_back(imported(tmp_path, data, no_marks=True)) == [[7, 255, 200]]


@pytest.mark.parametrize("mark", ["NaN", "-1e10", "1000001"])
def test_the_mark_of_an_al3d(tmp_path, mark):
    found = imported(tmp_path, makers.al3d([[1.0, None, 3.0]], mark=mark))
    assert rows_back(found) == [[1, None, 3]]


@pytest.mark.parametrize("mark", ["--5", "1_0", "none", "1e"])
def test_a_mark_of_an_al3d_that_is_no_number(tmp_path, mark):
    with pytest.raises(InputRefused, match="the tag InvalidPixelValue: no number"):
        imported(tmp_path, makers.al3d([[1.0, 2.0]], mark=mark))


def test_objects_that_are_no_surface(tmp_path):
    data = bytearray(makers.sur([[1, 2]]))
    struct.pack_into("<h", data, 18, 12)
    with pytest.raises(InputRefused, match="a picture, and no surface"):
        imported(tmp_path, bytes(data))
    assert rows_back(imported(tmp_path, makers.sur([[3, 4]]) + bytes(data), channel="1")) == [[3, 4]]


def test_a_compressed_file_of_a_maker(tmp_path):
    """One that comes with Debian's python3-hyperspy: the header's least and greatest are those of the points."""
    place = Path("/usr/lib/python3/dist-packages/hyperspy/tests/io/sur_data/test_surface.sur")
    if not place.exists():
        pytest.skip("python3-hyperspy is not installed")
    found = import_file(place, Options(unit=MICRO))
    assert (found.surface.least, found.surface.greatest) == (-13444354, 13927717)
    assert found.surface.dx == Fraction("8.2521976e-8")


def test_exchanged_sizes_are_told(tmp_path):
    data = makers.text_sdf([[1, 2, 3], [4, 5, 6]]).replace(
        b"NumPoints = 3\nNumProfiles = 2", b"NumPoints = 2\nNumProfiles = 3"
    )
    assert any("exchanged" in note for note in imported(tmp_path, data).warnings)
    assert not any("exchanged" in note for note in imported(tmp_path, makers.text_sdf([[1, 2, 3], [4, 5, 6]])).warnings)


def test_an_offset_is_told(tmp_path):
    found = imported(tmp_path, makers.sur([[1, 2]], offset=2.5))
    assert ("ZOffset", "2.5 ?m") in found.surface.keys and any("offset" in text for text in found.warnings)


def test_units_that_are_none_of_a_length_are_asked_for(tmp_path):
    data = makers.sur([[1, 2]], units=("mm", "mm", "V"))
    with pytest.raises(InputRefused, match="--unit um"):
        imported(tmp_path, data)
    found = imported(tmp_path, data, unit=MICRO)
    assert found.surface.step == Fraction("1.234e-10") and not any("--unit" in note for note in found.warnings)
    found = imported(tmp_path, makers.sur([[1, 2]]), unit=Fraction(1, 1000))
    assert any("1000 times what the file tells" in note for note in found.warnings)
    data = makers.gsf([[1.0, 2.0]], units=("", "m"))
    with pytest.raises(InputRefused, match="--dx 1um"):
        imported(tmp_path, data)


def test_a_distance_that_is_no_decimal_is_told(tmp_path):
    found = imported(tmp_path, makers.gsf([[1.0, 2.0, 3.0]], reals=("1e-5", "1e-6")))
    assert found.surface.dx == Fraction("3.3333333333333333e-6") and any(
        "no decimal" in text for text in found.warnings
    )


BY_GWYDDION = {
    name: make
    for name, make in {
        "sur": makers.sur,
        "sdf": makers.binary_sdf,
        "sdf16": WHOLE["sdf i16"][0],
        "x3p": makers.x3p,
        "x3p list": WHOLE["x3p list"][0],
        "gsf": makers.gsf,
        "gwy": makers.gwy,
        "plux": makers.plux,
        "al3d": makers.al3d,
        "opd": makers.opd,
    }.items()
}


@pytest.fixture
def by_gwyddion(monkeypatch):
    monkeypatch.delenv("HILLDALE_GWYDDION")
    if gwyddion.find() is None:
        pytest.skip("Gwyddion's reader is not built: make -C lab/gwyddion")


@pytest.mark.parametrize("name", BY_GWYDDION)
def test_gwyddion_reads_the_same(tmp_path, by_gwyddion, name):
    """The heights by Gwyddion are those of the reader here, but for the rounding of its floats."""
    is_whole = name in ("sur", "sdf", "sdf16", "x3p", "x3p list", "opd")
    rows = rows_of(12, 7, -9000, 9000)
    rows = rows if is_whole else [[value * 2.0**-20 for value in row] for row in rows]
    ending = {"sdf16": "sdf", "x3p list": "x3p"}.get(name, name)
    mine = imported(tmp_path, BY_GWYDDION[name](rows), f"a.{ending}")
    theirs = imported(tmp_path, BY_GWYDDION[name](rows), f"a.{ending}", reader="gwyddion", step=mine.surface.step)
    assert mine.reader == "hilldale-lab" and theirs.reader.startswith("Gwyddion ")
    assert rows_back(mine) == rows_back(theirs)
    assert theirs.rounding <= mine.surface.step / 1000
    for ours, other in zip(scales(mine), scales(theirs)):
        assert abs(ours - other) <= ours / 10**6


@pytest.mark.parametrize("name", ["sdf", "x3p", "gsf", "gwy", "plux", "al3d", "opd"])
def test_gwyddion_tells_the_same_missing_points(tmp_path, by_gwyddion, name):
    rows = [
        [float(v) if v is not None and name in ("gsf", "gwy", "plux", "al3d") else v for v in row]
        for row in rows_of(12, 7, -900, 900, 0.2)
    ]
    found = imported(tmp_path, BY_GWYDDION[name](rows), f"a.{name}")
    assert found.surface.missing == sum(value is None for row in rows for value in row)


def test_readers_that_disagree_on_missing_points_are_refused(tmp_path, by_gwyddion):
    data = makers.sur([[1, None, 3], [4, 5, None]])
    with pytest.raises(InputRefused, match="2 points are missing, and by Gwyddion 0"):
        imported(tmp_path, data, "a.sur")
    assert imported(tmp_path, data, "a.sur", reader="own").surface.missing == 2


EXPORTS = Path(__file__).resolve().parents[1] / "gwyddion" / "export-for-tests"


@pytest.mark.parametrize(
    "module, name",
    [
        ("gwyfile", "b.gwy"),
        ("gsffile", "b.gsf"),
        ("surffile", "b.sur"),
        ("sdfile-txt", "b.sdf"),
        ("asciiexport", "b.txt"),
    ],
)
def test_what_gwyddion_writes_is_read(tmp_path, module, name):
    """Files that Gwyddion itself wrote; its SUR and its texts round."""
    if not EXPORTS.exists():
        pytest.skip("what writes by Gwyddion is not built: make -C lab/gwyddion tests")
    rows = [[value * 2.0**-20 for value in row] for row in rows_of(12, 7, -9000, 9000)]
    (tmp_path / "a.gsf").write_bytes(makers.gsf(rows, reals=("1.2e-05", "7e-06")))
    subprocess.run([EXPORTS, tmp_path / "a.gsf", module, tmp_path / name], check=True, capture_output=True, timeout=60)
    options = Options(dx=MICRO, dy=MICRO, unit=Fraction(1)) if name == "b.txt" else Options()
    back = import_file(tmp_path / name, options).surface
    assert (back.dx, back.dy) == (MICRO, MICRO) or name == "b.sur"
    heights = [[step * back.step for step in row] for row in back.steps.tolist()]
    # A SUR has its heights from an offset on, which is a float of 32 bits.
    offset = heights[0][0] - Fraction(rows[0][0]) if name == "b.sur" else 0
    worst = max(
        abs(there - offset - Fraction(value)) for line, row in zip(heights, rows) for there, value in zip(line, row)
    )
    assert worst <= {"b.gwy": 0, "b.gsf": 0, "b.sur": Fraction("2e-9")}.get(name, Fraction("1e-7"))


def test_nothing_is_read_by_gwyddion_where_it_is_not_built(tmp_path):
    with pytest.raises(InputRefused, match="make -C lab/gwyddion"):
        imported(tmp_path, b"\x7fELF\0\0\0\0 what is this")


def test_the_keys_tell_where_a_surface_comes_from(tmp_path):
    found = imported(tmp_path, makers.gsf([[1.0]], title="Topo\ngraphy"), "odd\nname.gsf")
    keys = dict(found.surface.keys)
    assert keys["Source"] == "odd\\nname.gsf" and keys["SourceSHA256"] == found.sha256
    assert keys["Reader"] == "hilldale-lab" and keys["SourceFormat"] == "GSF of Gwyddion"
    assert np.array_equal(found.surface.measured, [[True]])
