#!/usr/bin/env python3
"""Takes the pictures of docs/ anew, in Debian's chromium.

Each picture is one of a page that `atomic-page` makes of an example. The digest of that page is kept in the picture's
own text, so check_tools.py tells where a picture isn't one of today's page, without a browser.
"""
from __future__ import annotations

import hashlib
import os
import struct
import subprocess
import sys
import tempfile
import zlib
from collections.abc import Iterator
from typing import Optional

from browser import Browser, Page
from command_line import PROGRAM, TOOLS, TOP, WHY, program_of, words_of

Clip = tuple[float, float, float, float]
# the picture, and the words of atomic-page in examples/
PICTURES = {"page.png": "account.java", "witness.png": "tickets_race.java tickets_race.witness"}
POINT = "document.querySelector('#L17 u').dispatchEvent(new MouseEvent('mouseover', { bubbles: true })); scrollTo(0, 0)"
FOLD = "document.querySelector('[data-fold]').click(); document.querySelector('.lanes').scrollLeft = 0"
AREA = "(a => [a.x + scrollX, a.y + scrollY, a.width, a.height])(document.querySelector('%s').getBoundingClientRect())"
KEY = b"page-sha256"


def digest_of_page(page: str) -> str:
    return hashlib.sha256(page.encode()).hexdigest()


def chunks(data: bytes) -> Iterator[tuple[bytes, bytes]]:
    """The chunks of a PNG file: kinds and contents."""
    place = 8
    while place < len(data):
        size, kind = struct.unpack(">I4s", data[place : place + 8])
        yield kind, data[place + 8 : place + 8 + size]
        place += 12 + size


def chunk(kind: bytes, content: bytes) -> bytes:
    return struct.pack(">I", len(content)) + kind + content + struct.pack(">I", zlib.crc32(kind + content))


def digest_in(path: str) -> Optional[str]:
    """The digest that a picture holds, None where it has none."""
    if not os.path.exists(path):
        return None
    with open(path, "rb") as file:
        texts = [content.partition(b"\0") for kind, content in chunks(file.read()) if kind == b"tEXt"]
    return next((value.decode() for key, _, value in texts if key == KEY), None)


def keep_digest(path: str, digest: str) -> None:
    """Puts the digest into the picture, and its pixels together in one piece."""
    with open(path, "rb") as file:
        found = list(chunks(file.read()))
    pixels = zlib.compress(zlib.decompress(b"".join(content for kind, content in found if kind == b"IDAT")), 9)
    head = [(kind, content) for kind, content in found if kind == b"IHDR"]
    parts = head + [(b"tEXt", KEY + b"\0" + digest.encode()), (b"IDAT", pixels), (b"IEND", b"")]
    with open(path, "wb") as file:
        file.write(b"\x89PNG\r\n\x1a\n" + b"".join(chunk(*part) for part in parts))


def clip_of(name: str, page: Page) -> Clip:
    """The area of the picture: of the listing its head and the refused method with its neighbours; else the
    schedule."""
    if name == "witness.png":
        page.run(FOLD)
        left, top, width, height = page.run(AREA % "#schedule")
        return left - 12, top - 4, width + 24, height + 10
    page.run(POINT)
    left, top, width, _ = page.run(AREA % "main")
    end = page.run(AREA % "#L24")[1]
    return left, top, width, end - top


def take(name: str, words: str, folder: str, browser: Browser, environment: dict[str, str]) -> None:
    made = [sys.executable, os.path.join(TOOLS, "atomic-page"), *words.split()]
    page = subprocess.run(made, cwd=os.path.join(TOP, "examples"), env=environment, capture_output=True, check=True)
    path, target = os.path.join(folder, name + ".html"), os.path.join(TOP, "docs", name)
    with open(path, "wb") as file:
        file.write(page.stdout)
    shown = browser.open(path, width=1120 if name == "page.png" else 1240)
    shown.picture(target, clip=clip_of(name, shown))
    keep_digest(target, digest_of_page(page.stdout.decode()))
    print(f"docs/{name}: {os.path.getsize(target)} bytes")


def main() -> None:
    parser = words_of(__doc__)
    parser.add_argument("program", metavar="PROGRAM", type=program_of, help=PROGRAM)
    parser.add_argument("why", metavar="WHY", type=program_of, help=WHY)
    given = parser.parse_args()
    environment = {**os.environ, "ATOMIC": given.program, "ATOMIC_WHY": given.why}
    with tempfile.TemporaryDirectory() as folder, Browser() as browser:
        for name, words in PICTURES.items():
            take(name, words, folder, browser, environment)


if __name__ == "__main__":
    main()
