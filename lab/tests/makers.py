"""Writers of the formats, for the tests: from their layouts, and with nothing of the readers.

Each takes heights as lists of rows, None where nothing is measured, and gives the bytes of a file.
"""

from __future__ import annotations

import hashlib
import io
import struct
import zipfile
import zlib

Rows = list[list]


def flat(rows: Rows) -> list:
    return [value for row in rows for value in row]


def size(rows: Rows) -> tuple[int, int]:
    return len(rows[0]), len(rows)


def sur(
    rows,
    spacings=(0.0005, 0.0004, 0.0001234),
    bits=32,
    order="<",
    compressed=False,
    units=("mm", "mm", "\xb5m"),
    title="sample",
    count=1,
    special=None,
    blocks=1,
    comment=b"",
    private=b"",
    offset=0.0,
):
    width, height = size(rows)
    there = [value for value in flat(rows) if value is not None]
    least, greatest = (min(there), max(there)) if there else (0, 0)
    flag = int(None in flat(rows)) if special is None else special
    head = bytearray(512)
    head[0:12] = b"DSCOMPRESSED" if compressed else b"DIGITAL SURF"
    struct.pack_into(order + "H", head, 12, 0x0101 if order == ">" else 0)
    struct.pack_into(order + "HHH", head, 14, count, 1, 2)
    head[20:50] = title.encode("latin-1").ljust(30)
    head[50:80] = b"operator".ljust(30)
    struct.pack_into(order + "h", head, 86, flag)
    struct.pack_into(order + "h", head, 98, bits)
    struct.pack_into(order + "iiiiI", head, 100, least, greatest, width, height, width * height)
    struct.pack_into(order + "fff", head, 120, *spacings)
    for index, unit in enumerate(units):
        struct.pack_into("16s", head, 132 + 16 * index, b"XYZ"[index : index + 1])
        struct.pack_into("16s", head, 180 + 16 * index, unit.encode("latin-1"))
        struct.pack_into("16s", head, 228 + 16 * index, unit.encode("latin-1"))
    struct.pack_into(order + "fff", head, 276, 1, 1, 1)
    struct.pack_into(order + "HH", head, 334, len(comment), len(private))
    struct.pack_into(order + "f", head, 474, offset)
    kind = "h" if bits == 16 else "i"
    points = struct.pack(f"{order}{width * height}{kind}", *[least - 2 if v is None else v for v in flat(rows)])
    return bytes(head) + comment + private + (folded(points, blocks) if compressed else points)


def folded(points: bytes, blocks: int) -> bytes:
    """The points as so many compressed blocks behind their lengths."""
    step = -(-len(points) // blocks)
    parts = [points[at : at + step] for at in range(0, len(points), step)]
    small = [zlib.compress(part) for part in parts]
    lengths = b"".join(struct.pack("<II", len(part), len(less)) for part, less in zip(parts, small))
    return struct.pack("<I", len(parts)) + lengths + b"".join(small)


def binary_sdf(rows, scales=(5e-7, 4e-7, 1.234e-10), kind=6, order="<", version=b"bBCR-1.0", longer=False):
    form, mark = {
        0: ("B", 255),
        1: ("H", 2**16 - 1),
        2: ("I", 2**32 - 1),
        3: ("f", float("nan")),
        4: ("b", -128),
        5: ("h", -(2**15)),
        6: ("i", -(2**31)),
        7: ("d", float("nan")),
    }[kind]
    width, height = size(rows)
    head = version + b"maker".ljust(10) + b"010120260000" + b"020120260000"
    head += struct.pack(order + "HHdddd", width, height, *scales, -1.0) + bytes([0, kind, 0])
    head += struct.pack("<II", 5, 1) if longer else b""
    return head + struct.pack(f"{order}{width * height}{form}", *[mark if v is None else v for v in flat(rows)])


def text_sdf(rows, scales=("5e-7", "4e-7", "1.234e-10"), version="aBCR-0.0", kind=6, end="*\n", line="\n"):
    width, height = size(rows)
    lines = [
        version,
        "ManufacID = maker",
        "CreateDate = 010120260000",
        "ModDate = 020120260000",
        f"NumPoints = {width}",
        f"NumProfiles = {height}",
        f"Xscale = {scales[0]}",
        f"Yscale = {scales[1]}",
        f"Zscale = {scales[2]}",
        "Zresolution = -1",
        "Compression = 0",
        f"DataType = {kind}",
        "CheckType = 0",
        "Objective = 50x",
        "*",
    ]
    lines += [" ".join("BAD" if value is None else str(value) for value in row) for row in rows]
    return line.join([*lines, end]).encode()


X3P = """<?xml version="1.0" encoding="UTF-8"?>{dtd}
<p:ISO5436_2 xmlns:p="http://www.opengps.eu/2008/ISO5436_2" xmlns:xsi="http://www.w3.org/2001/XMLSchema-instance">
<Record1><Revision>ISO5436 - 2000</Revision><FeatureType>SUR</FeatureType><Axes>
<CX><AxisType>I</AxisType><DataType>D</DataType><Increment>{dx}</Increment><Offset>0</Offset></CX>
<CY><AxisType>I</AxisType><DataType>D</DataType><Increment>{dy}</Increment><Offset>0</Offset></CY>
<CZ><AxisType>A</AxisType><DataType>{code}</DataType>{increment}<Offset>0</Offset></CZ></Axes></Record1>
<Record2><Date>2026-01-01T00:00:00</Date></Record2>
<Record3><MatrixDimension><SizeX>{width}</SizeX><SizeY>{height}</SizeY><SizeZ>{layers}</SizeZ></MatrixDimension>
{points}</Record3>
<Record4><ChecksumFile>md5checksum.hex</ChecksumFile></Record4></p:ISO5436_2>"""


def md5(data):
    return hashlib.md5(data).hexdigest()


def x3p(
    rows,
    code="L",
    distances=("5e-07", "4e-07"),
    increment="1.234e-10",
    listed=False,
    layers=1,
    link="bindata/data.bin",
    wrong_md5=False,
    dtd="",
    extra=(),
    compression=zipfile.ZIP_DEFLATED,
    width=None,
    datums=None,
):
    values = flat(rows)
    columns, height = size(rows)
    parts = {}
    if listed:
        each = "".join("<Datum/>" if v is None else f"<Datum>{v!r}</Datum>" for v in values)
        points = f"<DataList>{each if datums is None else datums}</DataList>"
    else:
        points, parts = linked(values, code, link, wrong_md5)
    main = X3P.format(
        dtd=dtd,
        dx=distances[0],
        dy=distances[1],
        code=code,
        width=width or columns,
        height=height // layers,
        layers=layers,
        increment=f"<Increment>{increment}</Increment>" if increment else "",
        points=points,
    ).encode()
    parts = {"main.xml": main, "md5checksum.hex": f"{md5(main)} *main.xml\n".encode(), **parts, **dict(extra)}
    return zipped(parts, compression)


def linked(values: list, code: str, link: str, wrong_md5: bool) -> tuple[str, dict[str, bytes]]:
    """What the XML says of points in a part of their own, and that part, with the one that tells which are measured."""
    form = {"I": "h", "L": "i", "F": "f", "D": "d"}[code]
    data = struct.pack(f"<{len(values)}{form}", *[0 if v is None else v for v in values])
    parts = {"bindata/data.bin": data}
    points = f"<PointDataLink>{link}</PointDataLink>"
    points += f"<MD5ChecksumPointData>{md5(b'' if wrong_md5 else data)}</MD5ChecksumPointData>"
    if None in values:
        valid = bytearray((len(values) + 7) // 8)
        for index, value in enumerate(values):
            valid[index // 8] |= (value is not None) << index % 8
        parts["bindata/valid.bin"] = bytes(valid)
        points += "<ValidPointsLink>bindata/valid.bin</ValidPointsLink>"
        points += f"<MD5ChecksumValidPoints>{md5(bytes(valid))}</MD5ChecksumValidPoints>"
    return f"<DataLink>{points}</DataLink>", parts


def zipped(parts, compression=zipfile.ZIP_DEFLATED):
    out = io.BytesIO()
    with zipfile.ZipFile(out, "w", compression) as archive:
        for name, data in parts.items():
            archive.writestr(zipfile.ZipInfo(name) if isinstance(name, str) else name, data, compression)
    return out.getvalue()


def gsf(rows, reals=("5e-05", "2e-05"), units=("m", "m"), title="Topography"):
    width, height = size(rows)
    head = (
        f"Gwyddion Simple Field 1.0\nXRes = {width}\nYRes = {height}\nXReal = {reals[0]}\nYReal = {reals[1]}\n"
        f"XYUnits = {units[0]}\nZUnits = {units[1]}\nTitle = {title}\n"
    ).encode()
    head += b"\0" * (4 - len(head) % 4)
    return head + struct.pack(f"<{width * height}f", *[float("nan") if v is None else v for v in flat(rows)])


def gwy_object(name, parts):
    body = b"".join(parts)
    return name.encode() + b"\0" + struct.pack("<I", len(body)) + body


def gwy_part(name, kind, value):
    head = name.encode() + b"\0" + kind.encode()
    if kind == "s":
        return head + value.encode() + b"\0"
    if kind == "o":
        return head + value
    if kind == "D":
        return head + struct.pack(f"<I{len(value)}d", len(value), *value)
    return head + struct.pack("<" + {"b": "?", "i": "i", "d": "d", "q": "q", "c": "b"}[kind], value)


def gwy_field(values, width, height, reals, unit):
    def named(text):
        return gwy_object("GwySIUnit", [gwy_part("unitstr", "s", text)])

    return gwy_object(
        "GwyDataField",
        [
            gwy_part("xres", "i", width),
            gwy_part("yres", "i", height),
            gwy_part("xreal", "d", reals[0]),
            gwy_part("yreal", "d", reals[1]),
            gwy_part("si_unit_xy", "o", named("m")),
            gwy_part("si_unit_z", "o", named(unit)),
            gwy_part("data", "D", values),
        ],
    )


def gwy(rows, reals=(5e-5, 2e-5), unit="m", title="Height", more=()):
    width, height = size(rows)
    values = [float("nan") if v is None else v for v in flat(rows)]
    parts = [
        gwy_part("/0/data", "o", gwy_field(values, width, height, reals, unit)),
        gwy_part("/0/data/title", "s", title),
        gwy_part("/0/base/palette", "s", "Gray"),
        gwy_part("/0/data/visible", "b", True),
        *more,
    ]
    return b"GWYP" + gwy_object("GwyContainer", parts)


def plux(rows, fov=("0.5", "0.4"), layers=1):
    width, height = size(rows)
    data = struct.pack(f"<{width * height}f", *[float("nan") if v is None else v for v in flat(rows)])
    names = "".join(f"<LAYER_{n}><FILENAME_Z>LAYER_{n}.raw</FILENAME_Z></LAYER_{n}>" for n in range(layers))
    index = (
        f"<xml><GENERAL><IMAGE_SIZE_X>{width}</IMAGE_SIZE_X><IMAGE_SIZE_Y>{height}</IMAGE_SIZE_Y>"
        f"<FOV_X>{fov[0]}</FOV_X>"
        f"<FOV_Y>{fov[1]}</FOV_Y></GENERAL>{names}</xml>"
    ).encode()
    return zipped({"index.xml": index, **{f"LAYER_{n}.raw": data for n in range(layers)}})


def al3d(rows, pixel=("5e-7", "4e-7"), mark="NaN"):
    width, height = size(rows)
    tags = [
        ("Cols", str(width)),
        ("Rows", str(height)),
        ("PixelSizeXMeter", pixel[0]),
        ("PixelSizeYMeter", pixel[1]),
        ("InvalidPixelValue", mark),
        ("IconOffset", "0"),
        ("TextureImageOffset", "0"),
        ("NumberOfPlanes", "0"),
    ]
    start = 17 + 52 * (len(tags) + 3) + 256
    start += -start % 8
    tags.append(("DepthImageOffset", str(start)))

    def tag(key, value):
        return key.encode().ljust(20, b"\0") + value.encode().ljust(30, b"\0") + b"\r\n"

    out = b"AliconaImaging\0\r\n" + tag("Version", "1") + tag("TagCount", str(len(tags)))
    out += b"".join(tag(*pair) for pair in tags) + b"\0" * 254 + b"\r\n"
    out = out.ljust(start, b"\0")
    for row in rows:
        line = struct.pack(f"<{width}f", *[float(mark) if v is None else v for v in row])
        out += line + b"\0" * (-len(line) % 8)
    return out


def opd(rows, wavelength=632.8, pixel=0.0005, aspect=None, mult=8, kind=2):
    width, height = size(rows)
    form, mark = {2: ("h", 32767), 4: ("f", 1e38 * 1.5)}[kind]
    array = struct.pack("<HHH", width, height, kind)
    for column in range(width):
        array += struct.pack(
            f"<{height}{form}",
            *[mark if rows[row][column] is None else rows[row][column] for row in reversed(range(height))],
        )
    blocks = [
        ("RAW_DATA", 3, array),
        ("Wavelength", 7, struct.pack("<f", wavelength)),
        ("Mult", 6, struct.pack("<h", mult)),
        ("Pixel_size", 7, struct.pack("<f", pixel)),
        ("Title", 5, b"sample\0"),
    ]
    blocks += [("Aspect", 7, struct.pack("<f", aspect))] if aspect else []
    head = b"\x01\x00" + struct.pack("<16sHIH", b"Directory", 1, 24 * (len(blocks) + 1), 0xFFFF)
    head += b"".join(struct.pack("<16sHIH", name.encode(), kind_of, len(data), 0) for name, kind_of, data in blocks)
    return head + b"".join(data for _, _, data in blocks)
