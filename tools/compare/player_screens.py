#!/usr/bin/env python3
"""Plays contents on real players, and reads what each shows, for `players.py`.

Each player has a name, and

- `missing`: the programs and files that are not on this machine, or none;
- `version`: what it says of itself;
- `columns`: of how many columns its screen has to be, with 25 rows, or any number of both where this is None;
- `play`: what it shows of each content on a cleared screen of so many columns and rows, with the cursor at home: rows
  of cells as it tells them. A row may end early, and rows may be left out below: what is not told is blank;
- `tells_cleared`: whether it tells the colours of what was cleared and not written since;
- `seen`: the cell that it tells where the profile has this byte and this attribute;
- `shows`: whether it tells so of a cell of a picture;
- `told`: the cell as it is told of a difference;
- `rolls`: whether `play_all` tells the rows that have scrolled off, before those of the screen.

DOSBox tells its screen memory, libvterm its cells. ansilove draws a picture, and a cell is its pixels. tmux tells its
cells by `capture-pane`, and xterm by the print of its screen; on both what was written last ends a row. These three
tell the screen's own colours from the named ones: an attribute has a bit more for each of them. Of a blank the
foreground is not seen, and where it was cleared they tell an own one whatever is set, so of blanks that bit is left
out. Terminals are given each byte from 80h on as UTF-8; they begin with a screen that is cleared in named colours, and
with their own.
"""
import functools
import os
import shutil
import struct
import subprocess
import sys
import tempfile
import time

sys.dont_write_bytecode = True
HERE = os.path.dirname(os.path.abspath(__file__))
sys.path.insert(1, os.path.join(HERE, "dosbox"))

import ansilove
import dosbox
from tmux import OTHER, OWN_BACKGROUND, OWN_FOREGROUND, Pane, seen, told_cells

ROWS = 25
BLANK = 0x20
RESET, NAMED_SCREEN = b"\x1bc", b"\x1b[0;37;40m\x1b[2J\x1b[H\x1b[0m"
PAUSE = 0.2
UTF8 = {**os.environ, "LC_ALL": "C.UTF-8"}
PRINTER = ["printAttributes: 2", "printerAutoClose: true", "printerCommand: cat > told.part; mv told.part told"]


def utf8(content):
    """The content for a terminal: code page 437 as UTF-8."""
    return content.decode("cp437").encode()


def byte_of(character):
    """The byte of code page 437, or the character itself where that page has no such one."""
    try:
        return character.encode("cp437")[0]
    except UnicodeEncodeError:
        return character


def not_here(programs, files=()):
    """Those of the programs and files that this machine lacks."""
    return [name for name in programs if not shutil.which(name)] + [path for path in files if not os.path.exists(path)]


def first_line(*words):
    """What a program prints first."""
    run = subprocess.run(words, stdout=subprocess.PIPE, stderr=subprocess.STDOUT, check=False)
    return next((line for line in run.stdout.decode(errors="replace").splitlines() if line.strip()), "")


class Told:
    """A player that tells each cell as a byte and an attribute."""

    columns = None
    tells_cleared, rolls, is_seen_by_pixels = True, False, False

    @staticmethod
    def seen(byte, attribute):
        return byte, attribute

    @classmethod
    def shows(cls, shown, picture, row, column):
        return shown == cls.seen(*picture[row][column])

    @staticmethod
    def told(shown):
        return shown


class DosBox(Told):
    name, columns = "DOSBox", dosbox.WIDTH

    @staticmethod
    def missing():
        return not_here(["dosbox", "nasm"])

    @staticmethod
    def version():
        return first_line("dosbox", "-version")

    @staticmethod
    def play(columns, rows, contents):
        with tempfile.TemporaryDirectory() as folder:
            screens = dosbox.played(folder, [dosbox.CLEARED + content for content in contents])
        for screen in screens:
            cells = list(zip(screen[0::2], screen[1::2]))
            yield [cells[at:at + columns] for at in range(0, len(cells), columns)]


class Ansilove(Told):
    name = "ansilove"

    @staticmethod
    def missing():
        return not_here(["ansilove"])

    @staticmethod
    def version():
        return first_line("ansilove", "-v")

    @staticmethod
    def play(columns, rows, contents):
        with tempfile.TemporaryDirectory() as folder:
            path = os.path.join(folder, "drawing.ans")
            for content in contents:
                with open(path, "wb") as file:
                    file.write(ansilove.ans_file(content, columns, rows))
                picture = ansilove.drawn(path, "-c", str(columns))
                yield [[ansilove.tile(picture, row, column) for column in range(columns)]
                       for row in range(min(rows, len(picture) // ansilove.HIGH))]

    @staticmethod
    @functools.lru_cache(1)
    def shapes():
        return ansilove.shapes()

    @staticmethod
    @functools.lru_cache(None)
    def seen(byte, attribute):
        return ansilove.looks(Ansilove.shapes().get(byte), attribute, False)

    @staticmethod
    def told(shown):
        return "other pixels"


class Tmux(Told):
    name, tells_cleared, rolls = "tmux", False, True

    @staticmethod
    def missing():
        return not_here(["tmux"])

    @staticmethod
    def version():
        return first_line("tmux", "-V")

    @staticmethod
    def play(columns, rows, contents):
        return Tmux.played(columns, rows, contents, lambda pane: pane.rows(rows))

    @staticmethod
    def play_all(columns, rows, contents):
        return Tmux.played(columns, rows, contents, Pane.all_rows)

    @staticmethod
    def played(columns, rows, contents, told_rows):
        os.environ.update(UTF8)
        with tempfile.TemporaryDirectory() as folder:
            pane = Pane(folder)
            try:
                pane.tmux("resize-window", "-x", str(columns), "-y", str(rows))
                for content in contents:
                    pane.play(RESET + NAMED_SCREEN + utf8(content))
                    yield as_bytes(told_cells(told_rows(pane)))
            finally:
                pane.close()


def as_bytes(rows):
    """The cells with bytes for their characters, and of blanks without a foreground of the screen's own."""
    return [[seen(byte_of(chr(character)), attribute) for character, attribute in row] for row in rows]


class Libvterm(Told):
    name, rolls = "libvterm", True

    @staticmethod
    def missing():
        return not_here(["cc"], ["/usr/include/vterm.h"])

    @staticmethod
    def version():
        return "libvterm " + first_line("dpkg-query", "-W", "-f", "${Version}", "libvterm-dev")

    @staticmethod
    def play(columns, rows, contents):
        for told in Libvterm.play_all(columns, rows, contents):
            yield told[-rows:]

    @staticmethod
    def play_all(columns, rows, contents):
        contents = [NAMED_SCREEN + utf8(content) for content in contents]
        given = b"".join(struct.pack("<I", len(content)) + content for content in contents)
        with tempfile.TemporaryDirectory() as folder:
            program = os.path.join(folder, "vterm")
            subprocess.run(["cc", "-o", program, os.path.join(HERE, "vterm.c"), "-lvterm"], check=True)
            told = subprocess.run([program, str(columns), str(rows)], input=given, stdout=subprocess.PIPE, check=True)
        numbers = struct.iter_unpack("<I", told.stdout)
        for _ in contents:
            count, = next(numbers)
            yield [[vterm_cell(*next(numbers)) for _ in range(columns)] for _ in range(count)]


def vterm_cell(number):
    """The cell that a number of `vterm.c` tells."""
    bits = [OTHER if number & 0x800000 else 0, OWN_FOREGROUND if number & 0x400000 else 0,
            OWN_BACKGROUND if number & 0x200000 else 0]
    return seen(byte_of(chr(number & 0x1FFFFF or BLANK)), sum(bits) | number >> 24)


class Xterm(Told):
    name, tells_cleared, rolls = "xterm", False, True

    @staticmethod
    def missing():
        return not_here(["xterm", "Xvfb"])

    @staticmethod
    def version():
        return first_line("xterm", "-v")

    @staticmethod
    def play(columns, rows, contents):
        for told in Xterm.printed(columns, rows, contents, b"\x1b[i", 0):
            yield told[:rows]

    @staticmethod
    def play_all(columns, rows, contents):
        return Xterm.printed(columns, rows, contents, b"\x1b[?11i", PAUSE)

    @staticmethod
    def printed(columns, rows, contents, request, pause):
        with tempfile.TemporaryDirectory() as folder:
            display, started = screen_of_its_own(folder, "1600x1000x24")
            try:
                started += [xterm_on(display, folder, columns, rows)]
                yield from printed(folder, contents, request, pause)
            finally:
                for process in reversed(started):
                    process.terminate()
                    process.wait()


def screen_of_its_own(folder, size, *more):
    """Starts an X server that shows nothing: its display, and the process."""
    readable, writable = os.pipe()
    words = ["Xvfb", "-displayfd", str(writable), "-screen", "0", size, "-nolisten", "tcp", *more]
    server = subprocess.Popen(words, pass_fds=[writable], cwd=folder, stdout=subprocess.DEVNULL,
                              stderr=subprocess.DEVNULL)
    os.close(writable)
    with open(readable, encoding="ascii") as told:
        return ":" + told.readline().strip(), [server]


def xterm_on(display, folder, columns, rows):
    """Starts an xterm that plays the files whose names it is given, and prints its screen when it is asked to."""
    os.mkfifo(os.path.join(folder, "names"))
    loop = "stty raw -echo; while read -r name; do cat \"$name\"; done < names"
    resources = [word for line in PRINTER for word in ("-xrm", "XTerm*" + line)]
    words = ["xterm", "-u8", "-geometry", f"{columns}x{rows}", *resources, "-e", "sh", "-c", loop]
    return subprocess.Popen(words, cwd=folder, env={**UTF8, "DISPLAY": display}, stderr=subprocess.DEVNULL)


def printed(folder, contents, request, pause):
    """What xterm prints of its screen, or of all its rows, behind each content, some seconds after it."""
    told = os.path.join(folder, "told")
    with open(os.path.join(folder, "request"), "wb") as file:
        file.write(request)
    with open(os.path.join(folder, "names"), "w", encoding="ascii") as names:
        for content in contents:
            with open(os.path.join(folder, "content"), "wb") as file:
                file.write(RESET + NAMED_SCREEN + utf8(content))
            names.write("content\n")
            names.flush()
            time.sleep(pause)
            names.write("request\n")
            names.flush()
            wait_for(told)
            with open(told, encoding="utf-8", newline="") as file:
                rows = file.read().replace("\x1b#5", "").removesuffix("\r\n").split("\r\n")
            os.remove(told)
            yield as_bytes(told_cells(rows))


def wait_for(path):
    """Waits until the file is there."""
    for _ in range(5000):
        if os.path.exists(path):
            return
        time.sleep(0.002)
    sys.exit(f"{path} did not come")


PLAYERS = [DosBox, Ansilove, Tmux, Libvterm, Xterm]
