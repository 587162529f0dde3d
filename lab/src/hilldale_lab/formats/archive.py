"""Files within a zip, and XML, read so that no file can do harm: nothing unfolds beyond its bound, no link leads out of
the zip, and an XML with a DTD, and so with entities, is refused."""

from __future__ import annotations

import io
import re
import stat
import xml.etree.ElementTree as ET
import zipfile
import zlib
from dataclasses import dataclass, field

from hilldale_lab.formats.field import Source

# A zip may unfold to so many times its size, and to so many bytes whatever its size.
MOST_UNFOLDING = 200
ALWAYS_ALLOWED = 1 << 20
DEEPEST = 64
SPACES = bytes.maketrans(b"\t\r\n", b"   ")
MOST_NAMES = 10_000


class Archive:
    """A zip, of which parts are read by name. Raises InputRefused."""

    def __init__(self, source: Source) -> None:
        self.source = source
        try:
            self.zip = zipfile.ZipFile(io.BytesIO(source.data))
        except (zipfile.BadZipFile, ValueError, OSError, NotImplementedError, IndexError, OverflowError) as error:
            raise source.refuse("", f"a damaged zip: {error}") from error
        if len(self.zip.infolist()) > MOST_NAMES:
            raise source.refuse("", f"more than {MOST_NAMES} parts")
        self.left = max(MOST_UNFOLDING * len(source.data), ALWAYS_ALLOWED)

    def names(self) -> list[str]:
        """The names of the parts."""
        return self.zip.namelist()

    def part(self, name: str, what: str) -> bytes:
        """The bytes of a part. Raises InputRefused where it is not there, twice there, a link, or unfolds too far."""
        plain = name.strip().replace("\\", "/").removeprefix("./")
        if plain.startswith("/") or ".." in plain.split("/") or ":" in plain:
            raise self.source.refuse(what, f"the link {name} leads out of the file")
        found = [info for info in self.zip.infolist() if info.filename.replace("\\", "/").removeprefix("./") == plain]
        if len(found) != 1:
            raise self.source.refuse(what, f"there {'is no part' if not found else 'are several parts'} {plain}")
        info = found[0]
        if stat.S_ISLNK(info.external_attr >> 16) or info.is_dir():
            raise self.source.refuse(what, f"the part {plain} is a link or a folder")
        if info.file_size > self.left:
            raise self.source.refuse(
                what,
                f"the part {plain} unfolds to {info.file_size} bytes, more than a file of "
                f"{len(self.source.data)} bytes should",
            )
        return self._read(info, what)

    def _read(self, info: zipfile.ZipInfo, what: str) -> bytes:
        try:
            with self.zip.open(info) as file:
                data = file.read(info.file_size + 1)
        except (
            zipfile.BadZipFile,
            zlib.error,
            RuntimeError,
            NotImplementedError,
            OSError,
            EOFError,
            ValueError,
        ) as error:
            raise self.source.refuse(what, f"the part {info.filename} is damaged: {error}") from error
        if len(data) != info.file_size:
            raise self.source.refuse(what, f"the part {info.filename} has another size than it names")
        self.left -= len(data)
        return data


@dataclass
class Leaves:
    """What an XML says: the text of each path of elements, without namespaces, as `Record1/Axes/CX/Increment`; and of
    the one path that is listed all texts in order, a line each."""

    source: Source
    listed: str = ""
    texts: dict[str, str] = field(default_factory=dict)
    lines: bytes = b""
    several: list[str] = field(default_factory=list)
    path: list[str] = field(default_factory=list)
    words: list[str] = field(default_factory=list)

    def doctype(self, name: str, public: str | None, system: str | None) -> None:
        """Refuses a DTD, before any entity of it is read."""
        raise self.source.refuse("the XML", "a DTD, which may hold entities")

    def start(self, tag: str, attributes: dict[str, str]) -> None:
        """An element begins; none within one that is listed."""
        if self.listed and "/".join(self.path[1:]) == self.listed:
            raise self.source.refuse(f"the XML, {self.listed}", "an element within it, and not a number")
        if len(self.path) >= DEEPEST:
            raise self.source.refuse("the XML", "elements within elements, too deep")
        self.path.append(tag.rpartition("}")[2])
        self.words.clear()

    def data(self, text: str) -> None:
        """Text stands in an element."""
        self.words.append(text)

    def end(self, tag: str) -> None:
        """An element ends."""
        path = "/".join(self.path[1:])
        text = "".join(self.words).strip()
        if path == self.listed:
            self.several.append(text)
        elif text:
            self.texts.setdefault(path, text)
        self.path.pop()
        self.words.clear()

    def close(self) -> None:
        """The XML ends."""

    def joined(self) -> bytes:
        """The texts that are listed, a line each."""
        return "".join(" ".join(text.split()) + "\n" for text in self.several).encode("ascii", "replace")


def _plain_list(data: bytes, around: str, name: str) -> tuple[bytes, bytes] | None:
    """An XML without the elements of a name that fill another one, and their texts, a line each, where they stand there
    plainly; else None. So a million of them need no call each."""
    first, close, empty = (form.encode() for form in (f"<{name}>", f"</{name}>", f"<{name}/>"))
    start, end = data.find(f"<{around}>".encode()) + len(around) + 2, data.rfind(f"</{around}>".encode())
    if not len(around) + 2 <= start < end or any(mark in data for mark in (b"<!", b"&", b"\0", b"\1")):
        return None
    block = data[start:end].translate(SPACES).replace(empty, first + close).replace(close, b"\n")
    # Each line now is what an element held, behind its mark.
    lines = block.replace(first, b"\1")
    is_plain = re.fullmatch(rb"(?: *+\x01[^\x01\n<>]*+\n)*+ *+", lines) is not None
    return (data[:start] + data[end:], lines.replace(b"\1", b"").rstrip(b" ")) if is_plain else None


def leaves_of(source: Source, data: bytes, listed: str = "") -> Leaves:
    """What an XML says. Raises InputRefused where it is damaged or has a DTD."""
    leaves = Leaves(source, listed)
    plain = _plain_list(data, *listed.split("/")[-2:]) if "/" in listed else None
    try:
        parser = ET.XMLParser(target=leaves)
        parser.feed(data if plain is None else plain[0])
        parser.close()
        leaves.lines = plain[1] if plain is not None else leaves.joined()
    except (ET.ParseError, ValueError, LookupError) as error:
        raise source.refuse("the XML", f"it is damaged: {error}") from error
    return leaves
