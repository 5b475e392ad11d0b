#!/usr/bin/env python3
"""Takes a picture of a drawing, and of the same redrawn below it, in one xterm as it comes, with colours of its own.

Debian's xterm has black on white where nothing is said, and so behind `ESC[0m`: the drawing has the terminal's own
white and black there, and the redrawn one has those that it names. Run it in `crates/anscheck`, after `rt run -- check
--cleared data/hi.ans` has built the program; it needs Debian's xterm and xvfb:

    python3 ../../tools/pictures/as_it_comes.py out/anscheck data/harbour.ans ../../tools/pictures/harbour

It writes `harbour-redrawn.png` there. Each is played on a screen of the drawing's size that nothing was written on.
Bytes from 80h on are turned into the characters of code page 437, in UTF-8.
"""
import os
import struct
import subprocess
import sys
import tempfile
import zlib

sys.dont_write_bytecode = True
sys.path.insert(1, os.path.join(os.path.dirname(os.path.abspath(__file__)), "..", "compare"))

from player_pixels import PIXEL, SCREEN, Terminal, XtermPixels
from player_screens import RESET, screen_of_its_own, utf8

GAP = 6


def shots(columns, rows, contents):
    """The rows of pixels that one xterm shows of each content."""
    with tempfile.TemporaryDirectory() as folder:
        display, started = screen_of_its_own(folder, SCREEN, "-fbdir", folder)
        try:
            terminal = Terminal(folder, display, XtermPixels.words, columns, rows)
            try:
                return [terminal.shot(RESET + utf8(content)) for content in contents]
            finally:
                terminal.close()
        finally:
            for process in reversed(started):
                process.terminate()
                process.wait()


def in_order(row):
    """Red, green and blue of each pixel, which stand the other way round."""
    return b"".join(row[at:at + 3][::-1] for at in range(0, len(row), PIXEL))


def chunk(name, data):
    return struct.pack(">I", len(data)) + name + data + struct.pack(">I", zlib.crc32(name + data))


def write_png(path, rows):
    """A picture of three bytes a pixel."""
    head = struct.pack(">2I5B", len(rows[0]) // 3, len(rows), 8, 2, 0, 0, 0)
    data = zlib.compress(b"".join(b"\0" + row for row in rows), 9)
    with open(path, "wb") as file:
        file.write(b"\x89PNG\r\n\x1a\n" + chunk(b"IHDR", head) + chunk(b"IDAT", data) + chunk(b"IEND", b""))


def main(program, path, stem):
    redrawn = subprocess.run([program, "redraw", path], stdout=subprocess.PIPE, check=True).stdout
    with open(path, "rb") as file:
        drawing = file.read()
    columns, lines = struct.unpack("<HH", drawing[-32:-28])
    above, below = shots(columns, lines, [file.partition(b"\x1a")[0] for file in (drawing, redrawn)])
    gap = [bytes([0x80]) * (3 * len(above[0]) // PIXEL)] * GAP
    write_png(f"{stem}-redrawn.png", list(map(in_order, above)) + gap + list(map(in_order, below)))


if __name__ == "__main__":
    main(*sys.argv[1:])
