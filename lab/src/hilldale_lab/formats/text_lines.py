"""The lines of a text of numbers: its encoding, its header, its comments, and what separates its fields."""

from __future__ import annotations

import csv
import io
import re
from dataclasses import dataclass

import numpy as np

from hilldale_lab.formats.field import Source

BLANKS = " "
# So many bytes show what separates fields that have quotes.
SAMPLE = 1 << 16
SEPARATORS = {"comma": ",", "semicolon": ";", "tab": "\t", "blank": BLANKS}
MARK_NAMES = {";": "semicolons", "\t": "tabs", ",": "commas", BLANKS: "blanks"}


@dataclass(frozen=True)
class Lines:
    """The part of a text with numbers: its bytes, whose lines end with a line feed; what separates the fields; the
    number of its first line; what each comment says (`# Width: 1 mm` as Width); the numbers of the comments' lines."""

    data: bytes
    separator: str
    first: int
    comments: dict[str, str]
    comment_lines: frozenset[int]


def decoded(source: Source) -> bytes | None:
    """The text of a file as UTF-8 without a byte order mark, or None where it is no text. Raises InputRefused for an
    encoding that is not read."""
    data = source.data
    if data.startswith((b"\xff\xfe\0\0", b"\0\0\xfe\xff")):
        raise source.refuse("line 1", "it is UTF-32", "save it as UTF-8")
    if data.startswith((b"\xff\xfe", b"\xfe\xff")):
        return _wide(source, "utf-16")
    head = data[:4096]
    if head and head[1::2].count(0) > 0.9 * len(head[1::2]) and 0 not in head[0::2]:
        return _wide(source, "utf-16-le")
    if head and head[0::2].count(0) > 0.9 * len(head[0::2]) and 0 not in head[1::2]:
        return _wide(source, "utf-16-be")
    if re.search(rb"[\x00-\x08\x0e-\x1f\x7f]", head) or b"\0" in data:
        return None
    return data.removeprefix(b"\xef\xbb\xbf")


def _wide(source: Source, encoding: str) -> bytes:
    try:
        return source.data.decode(encoding).removeprefix("\ufeff").encode("utf-8")
    except UnicodeError as error:
        raise source.refuse(
            "line 1", f"it is {encoding.upper()}, and damaged: {error.reason}", "save it as UTF-8"
        ) from error


def lines_of(source: Source, skip: int, separator: str | None = None) -> Lines:
    """The lines behind those that are skipped, without comments and quotes. Raises InputRefused."""
    data = decoded(source)
    if data is None:
        raise source.refuse("", "it is no text")
    data = data.replace(b"\r\n", b"\n").replace(b"\r", b"\n") if b"\r" in data else data
    at = 0
    for number in range(skip):
        at = data.find(b"\n", at) + 1
        if not at:
            raise source.refuse("", f"it has {number + 1} lines, and --skip takes {skip} away")
    comments, places = _comments(data, skip)
    body = re.sub(rb"(?m)^[ \t]*#.*$", b"", data[at:]) if b"#" in data[at:] else data[at:]
    separator = SEPARATORS[separator] if separator is not None else separator_of(source, body)
    if b'"' in body:
        body, separator = _unquoted(source, body, separator)
    return Lines(body if body.endswith(b"\n") else body + b"\n", separator, skip + 1, comments, places)


def _comments(data: bytes, skip: int) -> tuple[dict[str, str], frozenset[int]]:
    """What the comments say, and the numbers of their lines."""
    if b"#" not in data:
        return {}, frozenset()
    found, places = {}, set()
    for number, line in enumerate(data.split(b"\n"), 1):
        text = line.strip()
        if text.startswith(b"#"):
            key, colon, value = text[1:].decode("utf-8", "replace").partition(":")
            places.add(number)
            if colon:
                found.setdefault(key.strip().lower(), value.strip())
    return found, frozenset(places)


def separator_of(source: Source, body: bytes) -> str:
    """What separates the fields: `;` where there is one, else tabs, else commas or blanks. Raises InputRefused where a
    comma may be a separator or a decimal mark."""
    if b'"' in body:
        # What the first lines do, the others do too, or they are refused.
        body = body[: body.find(b"\n", SAMPLE) if len(body) > SAMPLE else None]
    bare = re.sub(rb'"[^"\n]*"', b'""', body) if b'"' in body else body
    if b";" in bare:
        return ";"
    gaps = re.finditer(rb"[^ \t\n][ \t]++(?=[^ \t\n])", bare) if b"\t" in bare else ()
    if any(b"\t" in gap[0] for gap in gaps):
        return "\t"
    if b"," not in bare:
        return BLANKS
    if b"." in bare or b'""' in bare or re.search(rb",[ ]|,,|,$", bare):
        return ","
    if re.search(rb"[^ \n] +[^ \n]", bare):
        return BLANKS
    if re.search(rb"(?m)^[^,\n]*,[^,\n]*,", bare):
        return ","
    raise source.refuse(
        "",
        "a comma may be a decimal mark or a separator",
        "say which: --separator comma, or --separator blank with decimal commas",
    )


def _unquoted(source: Source, body: bytes, separator: str) -> tuple[bytes, str]:
    """The body with its quotes taken away, by the rules of CSV where a quoted field holds a separator."""
    text = np.frombuffer(body, np.uint8)
    is_inside = np.cumsum(text == ord('"'), dtype=np.int32) % 2 == 1
    if not (is_inside & ((text == ord(separator)) | (text == ord("\n")))).any():
        return body.replace(b'"', b" " if separator == BLANKS else b""), separator
    try:
        rows = list(
            csv.reader(io.StringIO(body.decode("utf-8", "replace")), delimiter=separator, skipinitialspace=True)
        )
    except csv.Error as error:
        raise source.refuse("", f"its quotes are not clear: {error}") from error
    if any(";" in field or "\n" in field for row in rows for field in row):
        raise source.refuse("", "a quoted field holds more than a number")
    return "\n".join(";".join(row) for row in rows).encode("utf-8"), ";"
