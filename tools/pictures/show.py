#!/usr/bin/env python3
"""Takes two pictures of what `anscheck show` writes: one in a terminal, and one of the page in a browser.

Run it in `crates/anscheck`, after `rt run -- check --cleared data/hi.ans` has built the program; it needs
Debian's xterm, xvfb, imagemagick, chromium and fonts-dejavu-core:

    python3 ../../tools/pictures/show.py out/anscheck data/harbour.ans ../../docs/harbour

It writes `harbour-terminal.png`, of `show --vga`, and `harbour-page.png`, of `show --html`, there.
"""
import os
import pathlib
import subprocess
import sys
import tempfile
import time

from take import DISPLAY, take


def shown(program, flag, path):
    """What the program writes of the drawing, and the columns and lines of its record."""
    record = open(path, "rb").read()[-128:]
    size = int.from_bytes(record[96:98], "little"), int.from_bytes(record[98:100], "little")
    return subprocess.run([program, "show", flag, path], stdout=subprocess.PIPE, check=True).stdout, size


def take_terminal(program, path, picture):
    """The text of `--vga` in xterm under Xvfb, with one spare column and line."""
    text, (columns, lines) = shown(program, "--vga", path)
    screen = subprocess.Popen(["Xvfb", DISPLAY, "-screen", "0", "1280x800x24"], stderr=subprocess.DEVNULL)
    try:
        time.sleep(1)
        take(text.decode().replace("\n", "\r\n"), columns + 1, lines + 1, picture)
    finally:
        screen.terminate()
        screen.wait()


def take_page(program, path, picture):
    """The page of `--html` in Chromium, without its empty edges."""
    page, _ = shown(program, "--html", path)
    with tempfile.TemporaryDirectory() as folder:
        file = pathlib.Path(folder) / "page.html"
        file.write_bytes(page)
        subprocess.run(
            ["chromium", "--headless", "--no-sandbox", "--disable-gpu", "--hide-scrollbars",
             f"--screenshot={picture}", "--window-size=800,600", file.as_uri()],
            stderr=subprocess.DEVNULL, check=True, cwd=folder, env={**os.environ, "HOME": folder},
        )
    subprocess.run(["convert", picture, "-trim", "+repage", picture], check=True)


def main(program, path, stem):
    program = os.path.abspath(program)
    take_terminal(program, path, f"{stem}-terminal.png")
    take_page(program, path, f"{os.path.abspath(stem)}-page.png")


if __name__ == "__main__":
    main(*sys.argv[1:])
