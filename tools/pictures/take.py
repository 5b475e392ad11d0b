#!/usr/bin/env python3
"""Takes two pictures of a drawing in a real terminal: on a cleared screen, and on a blue one with the cursor elsewhere.

Run it in `crates/anscheck`; it needs Debian's xterm, xvfb and imagemagick:

    python3 ../../tools/pictures/take.py data/harbour.ans ../../tools/pictures/harbour

It writes `harbour-cleared.png` and `harbour-blue.png` there. The terminal reads UTF-8, so each byte of
the content from 80h on is turned into its character of code page 437; the sequences go to it as they are.
"""
import os
import subprocess
import sys
import tempfile
import time

CLEARED = "\x1b[0m\x1b[2J\x1b[H"
BLUE = "\x1b[0;44m\x1b[2J\x1b[5;18H\x1b[0m"
DISPLAY = ":97"


def content_of(path):
    """The content of the file: what stands before its first end mark."""
    data = open(path, "rb").read()
    return data.split(b"\x1a")[0].decode("cp437").replace("\u0000", " ")


def take(text, columns, lines, picture):
    """Shows the text in a terminal of this size, and takes a picture of it."""
    with tempfile.NamedTemporaryFile("w", encoding="utf-8", suffix=".txt", newline="") as shown:
        shown.write("\x1b[?25l" + text)
        shown.flush()
        terminal = subprocess.Popen(
            ["xterm", "-u8", "-geometry", f"{columns}x{lines}+0+0", "-fa", "DejaVu Sans Mono", "-fs", "10",
             "-b", "0", "+sb", "-bg", "black", "-fg", "#aaaaaa", "-xrm", "xterm*color3: #aa5500",
             "-xrm", "xterm*boldMode: false", "-xrm", "xterm*boldColors: true", "-T", "drawing",
             "-e", "sh", "-c", f"stty -onlcr; cat {shown.name}; sleep 20"],
            env={**os.environ, "DISPLAY": DISPLAY, "LC_ALL": "C.UTF-8"})
        try:
            time.sleep(3)
            subprocess.run(["import", "-display", DISPLAY, "-window", "drawing", picture], check=True)
        finally:
            terminal.terminate()
            terminal.wait()


def main(path, stem):
    text = content_of(path)
    screen = subprocess.Popen(["Xvfb", DISPLAY, "-screen", "0", "1280x800x24"], stderr=subprocess.DEVNULL)
    try:
        time.sleep(1)
        take(CLEARED + text, 64, 20, f"{stem}-cleared.png")
        take(BLUE + text, 64, 20, f"{stem}-blue.png")
    finally:
        screen.terminate()
        screen.wait()


if __name__ == "__main__":
    main(*sys.argv[1:])
