"""Makes docs/live.png, the picture of bin/watch, and docs/narrow.png, that of bin/show in a narrow window, with the built
program and a headless browser: in tools/,

    BUSKELD_PROGRAM=../crates/frame_cli/out/frame_cli python3 -m tests.pictures"""

import collections
import json
import os
import pathlib
import shutil
import struct
import subprocess
import sys
import tempfile
import zlib

from . import browser
from .support import PROGRAM, PROGRAMS, script

from buskeld import paths

MIDDLE = '[...document.querySelectorAll("#picture text")].find(it => it.textContent === {})'


def tap(page, text):
    """Clicks a text of the picture, and waits for the frame after it."""
    frames = page.value("moments.length")
    page.click(*page.middle(MIDDLE.format(json.dumps(text))))
    page.until(f"moments.length > {frames}")


def rows_of(data):
    """The rows of a picture (PNG, 8 bits a channel), each as a list of its colors, without what isn't opaque."""
    width, height, _, kind = struct.unpack(">IIBB", data[16:26])
    step, at, packed = (4 if kind == 6 else 3), 8, b""
    while at < len(data):
        size, name = struct.unpack(">I4s", data[at : at + 8])
        packed += data[at + 8 : at + 8 + size] if name == b"IDAT" else b""
        at += size + 12
    plain, before = zlib.decompress(packed), bytes(width * step)
    for row in range(height):
        start = row * (width * step + 1)
        before = unfiltered(plain[start], plain[start + 1 : start + 1 + width * step], before, step)
        yield [before[at : at + 3] for at in range(0, len(before), step)]


def unfiltered(kind, row, above, step):
    """A row as it is, of one that is told by what is left of it and above it."""
    made = bytearray(row)
    for at, byte in enumerate(row):
        left, up, corner = (made[at - step], above[at], above[at - step]) if at >= step else (0, above[at], 0)
        guess = [0, left, up, (left + up) // 2, 0][kind]
        if kind == 4:
            guess = min((left, up, corner), key=lambda it: abs(left + up - corner - it))
        made[at] = (byte + guess) & 255
    return bytes(made)


def with_palette(data):
    """A picture with the 256 colors that it has most of; each other color is the nearest of them."""
    rows = list(rows_of(data))
    count = collections.Counter(color for row in rows for color in row)
    colors = [color for color, _ in count.most_common(256)]
    near = {it: min(range(len(colors)), key=lambda at: sum((a - b) ** 2 for a, b in zip(colors[at], it))) for it in count}
    packed = b"".join(b"\0" + bytes(near[color] for color in row) for row in rows)
    head = struct.pack(">IIBBBBB", len(rows[0]), len(rows), 8, 3, 0, 0, 0)
    parts = [(b"IHDR", head), (b"PLTE", b"".join(colors)), (b"IDAT", zlib.compress(packed, 9)), (b"IEND", b"")]
    made = [struct.pack(">I", len(it)) + name + it + struct.pack(">I", zlib.crc32(name + it)) for name, it in parts]
    return data[:8] + b"".join(made)


def settings(page):
    """Two taps in the settings, and the numbers of nodes at the second one."""
    tap(page, "Do not disturb")
    tap(page, "+")
    page.click(*page.middle('document.querySelector("#numbers")'))
    page.click_button("Back")
    page.mouse("mouseMoved", 600, 860)
    page.value("document.activeElement.blur()")


def keep(page, name, width, height):
    """Writes a picture of a page into docs/."""
    file = paths.TOP / "docs" / name
    page.picture(file, width=width, height=height)
    file.write_bytes(with_palette(file.read_bytes()))


def live(found, folder):
    """The picture of bin/watch."""
    shutil.copy(PROGRAMS / "settings.frame", folder)
    command = [sys.executable, str(paths.TOP / "bin" / "watch"), str(folder / "settings.frame")]
    env = {**os.environ, "BUSKELD_PROGRAM": str(PROGRAM)}
    with subprocess.Popen(command, stdout=subprocess.PIPE, env=env, text=True) as watch:
        page = found.page(watch.stdout.readline().strip(), 1120, 940)
        settings(page)
        keep(page, "live.png", 1120, 940)
        watch.terminate()


def narrow(found, folder):
    """The picture of bin/show."""
    file = folder / "counter.html"
    file.write_text(script("show", paths.EXAMPLES / "counter.frame")[1], encoding="utf-8")
    keep(found.page(f"{file.as_uri()}#frame=1", 360, 720), "narrow.png", 360, 720)


def main():
    """Makes the pictures."""
    with tempfile.TemporaryDirectory() as folder, browser.Browser(browser.installed()) as found:
        live(found, pathlib.Path(folder))
        narrow(found, pathlib.Path(folder))


if __name__ == "__main__":
    main()
