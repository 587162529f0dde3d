"""Pages in headless Chromium: their text after their scripts have run, pictures of them, and what the console says."""

from __future__ import annotations

import html
import json
import re
import shutil
import subprocess
from pathlib import Path

import pytest

CHROMIUM = shutil.which("chromium") or shutil.which("chromium-browser")
needs_chromium = pytest.mark.skipif(CHROMIUM is None, reason="chromium is not installed: apt-get install chromium")


def opened(page: Path, *words: str, address: str = "") -> str:
    """Opens a page and gives what Chromium prints. Fails where its console says anything."""
    assert CHROMIUM
    ran = subprocess.run(
        [
            CHROMIUM,
            "--headless",
            "--no-sandbox",
            "--disable-gpu",
            "--hide-scrollbars",
            "--force-device-scale-factor=1",
            "--enable-logging=stderr",
            "--v=0",
            f"--user-data-dir={page.parent / 'chromium'}",
            *words,
            f"{page.as_uri()}{address}",
        ],
        capture_output=True,
        text=True,
        timeout=120,
        check=True,
    )
    console = [line for line in ran.stderr.splitlines() if "CONSOLE" in line]
    assert not console, console
    return ran.stdout


def states(page: Path, asked: str, point: tuple[int, int] = (0, 0)) -> list[dict]:
    """What a view tells of the states that are asked for, as D5,H20, and of a point."""
    text = opened(page, "--dump-dom", address=f"#states={asked}&point={point[0]},{point[1]}")
    found = re.search(r'<pre id="state"[^>]*>(.*?)</pre>', text, re.S)
    assert found
    return json.loads(html.unescape(found[1]))


def screenshot(page: Path, width: int, height: int, address: str = ""):
    """A picture of a page that is so wide, as RGB."""
    from PIL import Image

    place = page.with_name(f"{page.stem}-{width}.png")
    opened(page, f"--window-size={width},{height}", f"--screenshot={place}", address=address)
    with Image.open(place) as image:
        return image.convert("RGB")


def printed(page: Path) -> Path:
    """The page as a PDF."""
    place = page.with_name(f"{page.stem}-printed.pdf")
    opened(page, "--no-pdf-header-footer", f"--print-to-pdf={place}")
    return place


def pages_of(pdf: bytes) -> int:
    """How many pages a PDF has: by its root of pages, compressed or not."""
    import zlib

    parts = [pdf]
    for found in re.finditer(rb"stream\r?\n(.*?)\r?\nendstream", pdf, re.S):
        try:
            parts.append(zlib.decompress(found[1]))
        except zlib.error:
            continue
    counts = [
        int(number)
        for part in parts
        for number in re.findall(rb"/Type\s*/Pages\b[^>]*?/Count\s+(\d+)|/Count\s+(\d+)[^>]*?/Type\s*/Pages\b", part)
        for number in number
        if number
    ]
    return max(counts)
