"""The pictures of the page's views in docs: `python3 -m checks.web.pictures PROGRAM` makes them."""

import argparse
import base64
import struct
import sys
import tempfile
import zlib
from collections import Counter
from collections.abc import Iterator
from pathlib import Path

from checks.running import TOP, Trial
from checks.web.browsing import HOST
from checks.web.staging import Stage

PLACE = Path(TOP, "docs/pictures")
WIDTH, HEIGHT = 1120, 800
# How many colours a picture has: of all, and more of those that are no grey, whose greatest part of
# red, green and blue is so much more than the least one.
COLOURS, MORE, BRIGHT = 32, 8, 80
MAP = "#map=10.0.0.0/8"
LOOK = "#q=10.1.2.3"
TREE = "?view=ALL#set=AS64496:AS-CUSTOMERS"
WHY = "?view=ALL#why=10.1.2.0/24%20AS64496:AS-RING"
HISTORY = "#history=route%2010.1.0.0/16%20AS64496"
ROUTE = {"route": "10.1.2.0/24", "origin": "AS64496", "mnt-by": "A-MNT"}


def packed(png: bytes) -> bytes:
    """The same picture in the colours that it has most of, or those next to them."""
    width, height, bits, kind, *_ = struct.unpack(">IIBBBBB", png[16:29])
    size = {2: 3, 6: 4}[kind]
    assert bits == 8
    place, data = 8, b""
    while place < len(png):
        (length,) = struct.unpack(">I", png[place : place + 4])
        if png[place + 4 : place + 8] == b"IDAT":
            data += png[place + 8 : place + 8 + length]
        place += 12 + length
    rows = list(unfiltered(zlib.decompress(data), width * size, height, size))
    colours = Counter(row[at : at + 3] for row in rows for at in range(0, len(row), size))
    palette = chosen(colours)
    number = {colour: nearest(colour, palette) for colour in colours}
    lines = [bytes(number[row[at : at + 3]] for at in range(0, len(row), size)) for row in rows]
    head = struct.pack(">IIBBBBB", width, height, 8, 3, 0, 0, 0)
    return (
        png[:8]
        + chunk(b"IHDR", head)
        + chunk(b"PLTE", b"".join(palette))
        + chunk(b"IDAT", zlib.compress(b"".join(b"\0" + line for line in lines), 9))
        + chunk(b"IEND", b"")
    )


def chosen(colours: Counter[bytes]) -> list[bytes]:
    """The colours that there are most of, and of those that are no grey some more."""
    ordered = [colour for colour, _ in colours.most_common()]
    bright = [one for one in ordered[COLOURS:] if max(one) - min(one) > BRIGHT]
    return ordered[:COLOURS] + bright[:MORE]


def nearest(colour: bytes, palette: list[bytes]) -> int:
    """The place of the colour of a palette that is next to one."""
    far = [sum((a - b) ** 2 for a, b in zip(colour, other)) for other in palette]
    return far.index(min(far))


def unfiltered(data: bytes, width: int, height: int, size: int) -> Iterator[bytes]:
    """The rows of a picture whose pixels have so many bytes (PNG, 9)."""
    above = bytes(width)
    for at in range(0, height * (width + 1), width + 1):
        kind, row = data[at], bytearray(data[at + 1 : at + 1 + width])
        for x in range(width if kind else 0):
            a, b = row[x - size] if x >= size else 0, above[x]
            c = above[x - size] if x >= size else 0
            row[x] = row[x] + (0, a, b, (a + b) // 2, paeth(a, b, c))[kind] & 255
        above = bytes(row)
        yield above


def paeth(a: int, b: int, c: int) -> int:
    return min((a, b, c), key=lambda one: abs(a + b - c - one))


def chunk(kind: bytes, body: bytes) -> bytes:
    """A part of a PNG, after its length and before its sum."""
    return struct.pack(">I", len(body)) + kind + body + struct.pack(">I", zlib.crc32(kind + body))


def take(stage: Stage, name: str) -> None:
    """Keeps what is seen of the page, from its top."""
    clip = {"x": 0, "y": 0, "width": WIDTH, "height": HEIGHT, "scale": 1}
    stage.browser.js("scrollTo(0, 0)")
    made = stage.browser.call("Page.captureScreenshot", clip=clip)["data"]
    (PLACE / f"{name}.png").write_bytes(packed(base64.b64decode(made)))


def main() -> None:
    with tempfile.TemporaryDirectory(prefix="irrdesk-", ignore_cleanup_errors=True) as folder:
        options = argparse.Namespace(long=False, seed=1, count=None)
        stage = Stage(Trial(options, str(Path(sys.argv[1]).resolve()), folder))
        try:
            stage.begin(0, True)
            stage.home = stage.nginx.address("tls", HOST)
            door = stage.nginx.address("door", HOST)
            browser = stage.browser
            browser.call(
                "Emulation.setDeviceMetricsOverride",
                width=WIDTH,
                height=HEIGHT,
                deviceScaleFactor=1,
                mobile=False,
            )
            PLACE.mkdir(exist_ok=True)
            browser.go(stage.home + LOOK)
            browser.until("document.querySelector('#answer .object')", "an answer")
            take(stage, "look")
            browser.go(stage.home + MAP)
            browser.until("document.getElementById('canvas').dataset.drawn", "the map")
            take(stage, "map")
            offered = "document.querySelectorAll('#source option')[1]"
            browser.go(door + TREE)
            browser.until(f"document.querySelector('.lacking') && {offered}", "the tree")
            for place in 1, 3:
                browser.all("#branches summary")[place].click()
                browser.until(
                    f"document.querySelectorAll('#branches .inside > p').length > {place + 1}",
                    "a branch",
                )
            take(stage, "tree")
            browser.go(door + WHY)
            browser.until(f"document.querySelector('.chain') && {offered}", "the chain")
            take(stage, "why")
            browser.go(door + HISTORY)
            browser.until(f"document.querySelector('#states ins') && {offered}", "the history")
            browser.all("#states li a")[2].click()
            browser.until("document.querySelector('#states del')", "a change")
            take(stage, "history")
            stage.form("route", ROUTE, [])
            take(stage, "submit")
        finally:
            stage.end()


if __name__ == "__main__":
    main()
