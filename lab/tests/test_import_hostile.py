"""Files that are cut, damaged or made to do harm: a clear refusal or a surface, and no traceback."""

from __future__ import annotations

import random
import resource
import struct
import subprocess
import sys
import time
import zipfile
import zlib
from fractions import Fraction

import makers
import pytest

from hilldale_lab import surface_file
from hilldale_lab.errors import InputRefused, LabError
from hilldale_lab.formats import Options, import_file

MICRO = Fraction(1, 10**6)
ROWS = [[(7 * x + 3 * y * y) % 90 - 40 if (x, y) != (3, 2) else None for x in range(9)] for y in range(6)]
FLOATS = [[None if value is None else value / 2**20 for value in row] for row in ROWS]
TEXT = "\n".join(";".join("" if value is None else f"{value},25" for value in row) for row in ROWS).encode()
FILES = {
    "sur": makers.sur(ROWS, comment=b"note"),
    "sur compressed": makers.sur(ROWS, compressed=True, blocks=2),
    "sur series": makers.sur(ROWS, count=2) + makers.sur(ROWS),
    "sdf": makers.binary_sdf(ROWS),
    "x3p": makers.x3p(ROWS),
    "sdf text": makers.text_sdf(ROWS),
    "x3p list": makers.x3p(ROWS, listed=True),
    "gsf": makers.gsf(FLOATS),
    "gwy": makers.gwy(FLOATS),
    "plux": makers.plux(FLOATS),
    "al3d": makers.al3d(FLOATS),
    "opd": makers.opd(ROWS),
    "text": TEXT,
    "text wide": b"\xff\xfe" + TEXT.decode().encode("utf-16-le"),
}
ANY = Options(unit=MICRO, dx=MICRO, dy=MICRO, channel="1")


@pytest.fixture(autouse=True)
def alone(monkeypatch):
    monkeypatch.setenv("HILLDALE_GWYDDION", "")


def tried(path, data: bytes) -> bool:
    """Whether the file gives a surface; it is refused else, by a message of one line."""
    path.write_bytes(data)
    try:
        surface = import_file(path, ANY).surface
        surface_file.encode(surface)
        return True
    except LabError as error:
        assert "\n" not in str(error) and len(str(error)) < 900
        return False


@pytest.mark.parametrize("name", FILES)
def test_cut_files(tmp_path, name):
    data, chance = FILES[name], random.Random(name)
    assert tried(tmp_path / "a", data)
    places = {*range(min(600, len(data))), *(chance.randrange(len(data)) for _ in range(200))}
    whole = [place for place in places if tried(tmp_path / "a", data[:place])]
    # A text may be whole before its end, a text without an end to its data also; a zip never.
    assert not whole or name.startswith(("text", "sdf text"))


@pytest.mark.parametrize("name", FILES)
def test_changed_files(tmp_path, name):
    chance = random.Random(name)
    for _ in range(500):
        data = bytearray(FILES[name])
        for _ in range(chance.randint(1, 8)):
            data[chance.randrange(len(data))] = chance.choice([0, 1, 10, 32, 42, 127, 128, 255, chance.randrange(256)])
        tried(tmp_path / "a", bytes(data))


@pytest.mark.parametrize("name", FILES)
def test_pieces_put_together(tmp_path, name):
    data, chance = FILES[name], random.Random(name)
    for _ in range(100):
        first, second = sorted((chance.randrange(len(data)), chance.randrange(len(data))))
        tried(tmp_path / "a", data[:first] + data[second:])
        tried(tmp_path / "a", data[:second] + data[first:])


def refused(tmp_path, data, told, name="a"):
    (tmp_path / name).write_bytes(data)
    with pytest.raises(InputRefused, match=told):
        import_file(tmp_path / name, ANY)


def test_a_zip_that_unfolds_too_far(tmp_path):
    rows = [[0] * 3]
    bomb = makers.x3p(rows, extra={"bindata/data.bin": b"\0" * 50_000_000}.items())
    refused(tmp_path, bomb, "unfolds to 50000000 bytes|several parts")
    main = b" " * 80_000_000
    refused(tmp_path, makers.zipped({"main.xml": main}), "unfolds to 80000000 bytes")


def test_a_sur_that_unfolds_too_far(tmp_path):
    data = bytearray(makers.sur([[1, 2], [3, 4]], compressed=True))
    bomb = zlib.compress(b"\0" * 60_000_000)
    data = data[:512] + struct.pack("<III", 1, 60_000_000, len(bomb)) + bomb
    refused(tmp_path, bytes(data), "unfold to other than the 16 bytes")
    struct.pack_into("<I", data, 516, 16)
    refused(tmp_path, bytes(data), "unfolds to other than its 16 bytes")
    struct.pack_into("<ii", data, 108, 60000, 60000)
    refused(tmp_path, bytes(data), "60000 by 60000 points")


ENTITIES = '<!DOCTYPE x [<!ENTITY a "aaaaaaaaaa"><!ENTITY b "&a;&a;&a;&a;&a;&a;&a;&a;">]>'
OUTSIDE = '<!DOCTYPE x [<!ENTITY e SYSTEM "file:///etc/passwd">]>'


@pytest.mark.parametrize("dtd", [ENTITIES, OUTSIDE, "<!DOCTYPE x>"])
def test_xml_with_a_dtd(tmp_path, dtd):
    refused(tmp_path, makers.x3p(ROWS, dtd=dtd), "a DTD")


def test_xml_of_another_encoding_hides_no_dtd(tmp_path):
    main = ('<?xml version="1.0" encoding="UTF-16"?>' + ENTITIES + "<a>&b;</a>").encode("utf-16")
    refused(tmp_path, makers.zipped({"main.xml": main}), "a DTD|damaged")


@pytest.mark.parametrize(
    "link", ["../../etc/passwd", "/etc/passwd", "http://example.org/data.bin", "bindata/../../x", "C:\\data"]
)
def test_links_that_lead_out(tmp_path, link):
    refused(tmp_path, makers.x3p(ROWS, link=link), "leads out of the file")


def test_a_link_within_the_zip(tmp_path):
    part = zipfile.ZipInfo("bindata/data.bin")
    part.external_attr = 0o120777 << 16
    data = makers.zipped(
        {"main.xml": zipfile.ZipFile(__import__("io").BytesIO(makers.x3p(ROWS))).read("main.xml"), part: b"/etc/passwd"}
    )
    refused(tmp_path, data, "a link or a folder")


def test_sizes_that_are_not_there(tmp_path):
    for name, change in {
        "sdf": (42, struct.pack("<HH", 65535, 65535)),
        "sur": (108, struct.pack("<ii", 2**31 - 1, 2**31 - 1)),
        "opd": (-1, b""),
    }.items():
        data = bytearray(FILES[name])
        if name == "opd":
            at = bytes(data).index(struct.pack("<HHH", 9, 6, 2))
            change = (at, struct.pack("<HH", 65535, 65535))
        data[change[0] : change[0] + len(change[1])] = change[1]
        refused(tmp_path, bytes(data), "points are named, and")
    refused(tmp_path, makers.gsf([[1.0]]).replace(b"XRes = 1", b"XRes = 999999999"), "points are named, and")
    refused(tmp_path, makers.x3p(ROWS, width=999_999_999), "points are named, and")
    refused(
        tmp_path, makers.text_sdf(ROWS).replace(b"NumPoints = 9", b"NumPoints = 99999999999"), "points are named, and"
    )


def test_objects_within_objects(tmp_path):
    thing = makers.gwy_object("A", [])
    for _ in range(200):
        thing = makers.gwy_object("A", [makers.gwy_part("a", "o", thing)])
    refused(tmp_path, b"GWYP" + thing, "too deep")


def test_xml_that_is_deep(tmp_path):
    refused(tmp_path, makers.zipped({"main.xml": b"<a>" * 300_000}), "too deep")


def test_a_wrong_checksum(tmp_path):
    refused(tmp_path, makers.x3p(ROWS, wrong_md5=True), "its MD5 is another")
    main = makers.x3p(ROWS)
    refused(tmp_path, makers.x3p(ROWS, extra={"md5checksum.hex": b"1" * 32}.items()), "MD5 is another|several parts")
    assert tried(tmp_path / "a", main)


@pytest.mark.parametrize("name", ["line\nend.sdf", "tab\tname", "\x1b[31mred", "-o", "it's odd, name.txt", "n\u00e4me"])
def test_odd_names(tmp_path, name):
    assert tried(tmp_path / name, FILES["sur"])
    refused(tmp_path, b"\0\1\2\3", "no reader", name)


def test_what_is_no_file(tmp_path):
    for path in (tmp_path, tmp_path / "missing", "/dev/zero"):
        with pytest.raises(InputRefused):
            import_file(path, ANY)
    (tmp_path / "empty").write_bytes(b"")
    with pytest.raises(InputRefused, match="empty"):
        import_file(tmp_path / "empty", ANY)


def test_memory_is_bounded_by_the_file(tmp_path, root):
    """Small files that name great sizes are refused in an address space that those would burst."""
    files = [
        FILES["sdf"][:42] + struct.pack("<HH", 65535, 65535) + FILES["sdf"][46:],
        makers.x3p(ROWS, width=999_999_999),
        makers.gsf([[1.0]]).replace(b"XRes = 1", b"XRes = 999999999"),
        b"0 0 0\n" + b"1e9 1e9 1\n1 1 1\n2 2 1\n",
        b";" * 300_000,
    ]
    for number, data in enumerate(files):
        (tmp_path / f"{number}.bin").write_bytes(data)
        done = subprocess.run(
            [
                sys.executable,
                "-P",
                "-m",
                "hilldale_lab",
                "import",
                f"{number}.bin",
                "-o",
                "out.sdf",
                "--xyz",
                "--xy-unit",
                "um",
                "--unit",
                "um",
            ],
            cwd=tmp_path,
            capture_output=True,
            text=True,
            env={
                "PYTHONPATH": str(root / "lab" / "src"),
                "PATH": "/usr/bin",
                "HILLDALE_GWYDDION": "",
                "OPENBLAS_NUM_THREADS": "1",
            },
            preexec_fn=lambda: resource.setrlimit(resource.RLIMIT_AS, (700 << 20, 700 << 20)),
        )
        assert done.returncode == 3 and "Traceback" not in done.stderr, done.stderr


LONG = {
    "spaces": b"1" + b" " * 400_000 + b"2\n",
    "tabs": (b"1" + b"\t" * 400_000 + b"\n") * 2,
    "tabs and spaces": b"x" + b" \t" * 200_000 + b"\n",
    "commas": b"1" + b"," * 300_000,
    "quotes": b'"1"' * 100_000,
    "open quotes": b'"' * 300_001,
    "stars": b"*" * 300_000,
    "digits": b"9" * 300_000,
    "a line of minus": b"-" * 300_000,
    "comments": b"#" * 300_000 + b"\n" + b" " * 300_000 + b"x",
    "lines": b"\n" * 300_000 + b"1 2\n3",
}


@pytest.mark.parametrize("name", LONG)
def test_long_runs_take_no_long_time(tmp_path, name):
    begun = time.process_time()
    tried(tmp_path / "a", LONG[name])
    spaced = b"<Datum>1" + b" " * 300_000 + b"2</Datum>" + b" " * 300_000
    tried(tmp_path / "a", makers.x3p([[1]], listed=True, datums=spaced.decode(), compression=zipfile.ZIP_STORED))
    assert time.process_time() - begun < 10
