#!/usr/bin/env python3
"""Mends random drawings, and compares what tmux then shows behind other text with what was meant.

The drawings have 80 columns and 24 lines, and are made of what every terminal knows: the bytes 20h to 7Eh, the colours
0, 1, 5, 30 to 37 and 40 to 47, places, and CR LF. No byte is printed in the last column, where terminals wait with the
wrap. They pass from the cleared start. `mend --name-colours` writes each, and its content, without the record, is
played by `cat` in one pane of 80 columns and 25 rows, behind text in other colours that scrolls, and so behind the
drawings before it. The cells of the first 24 rows have to be those that `check --cleared --cells` prints of the drawing
as it was, in named colours: the pane's own white and black are told apart from these.

`tmux capture-pane` tells a row's cells up to the last one that was written; what stands behind them was cleared,
and has to be a blank on black. So an attribute that would not show there, as that of bright blanks, is not compared.
Of a blank that was cleared it tells the pane's own foreground, which is not seen and not compared.

It needs Debian's `tmux`. Run it in `crates/anscheck`, after `rt run -- check --cleared data/hi.ans` has built the
program, with a number that seeds the drawings and how many there shall be:

    python3 ../../tools/compare/tmux.py out/anscheck 1 300

With `--as-it-was` as a fourth word the drawings are played without the mending, to see that it is that which helps.
It prints the drawings of which a cell differs, and then how many were compared. Its status is 1 where one differs.
"""
import os
import random
import re
import subprocess
import sys
import tempfile
import time

sys.dont_write_bytecode = True
sys.path.insert(1, os.path.join(os.path.dirname(os.path.abspath(__file__)), "dosbox"))

from dosbox import ans_file, cells_of, said

WIDTH, LINES = 80, 24
COLOURS = [0, 1, 5] + list(range(30, 38)) + list(range(40, 48))
# The colours of DOS by the numbers of a terminal.
DOS = [0, 4, 2, 6, 1, 5, 3, 7]
# Bits beside those of an attribute: DOS has no such one; the foreground, or the background, is the pane's own.
OTHER, OWN_FOREGROUND, OWN_BACKGROUND = 0x100, 0x200, 0x400
OWN = 0x07 | OWN_FOREGROUND | OWN_BACKGROUND
TOLD = re.compile(r"\x1b\[([0-9;]*)m|(.)", re.DOTALL)


# Drawings.


class Maker:
    """Makes a content, and knows in which column the next byte is printed."""

    def __init__(self, random_):
        self.random_, self.column, self.content = random_, 0, b""

    def text(self):
        room = WIDTH - 1 - self.column
        count = min(room, self.random_.choice([1, 3, 10, 40, 79]))
        alike = self.random_.random() < 0.3
        text = bytes(self.random_.choices(range(0x20, 0x7F), k=1 if alike else count))
        self.column += count
        self.content += text * count if alike else text

    def colours(self):
        numbers = self.random_.choices(COLOURS, k=self.random_.randint(1, 4))
        self.content += b"\x1b[" + b";".join(b"%d" % number for number in numbers) + b"m"

    def place(self):
        self.column = self.random_.randrange(WIDTH)
        self.content += b"\x1b[%d;%dH" % (self.random_.randint(1, LINES), self.column + 1)

    def line_end(self):
        self.column = 0
        self.content += b"\r\n" * self.random_.choice([1, 1, 1, 2])

    def drawing(self):
        steps = [self.text, self.text, self.colours, self.colours, self.place, self.line_end]
        for _ in range(self.random_.randint(1, 60)):
            self.random_.choice(steps)()
        return self.content


def other_text(random_):
    """Text that scrolls, in colours that stay, and a place for the cursor."""
    maker = Maker(random_)
    for _ in range(random_.choice([1, 10, 40])):
        maker.column = 0
        maker.text()
        maker.colours()
        maker.line_end()
    place = b"\x1b[%d;%dH" % (random_.randint(1, LINES + 1), random_.randint(1, WIDTH))
    return maker.content + place + random_.choice([b"", b"\x1b[1;5;33;44m", b"\x1b[?7l"])


# The pane.


class Pane:
    """A pane of tmux on a server of its own, in which files are played by `cat`."""

    def __init__(self, folder):
        self.folder, self.socket, self.played = folder, os.path.join(folder, "socket"), 0
        self.names = os.path.join(folder, "names")
        os.mkfifo(self.names)
        loop = f"stty raw -echo; while read -r name; do cat \"$name\"; done < '{self.names}'"
        self.tmux("-f", "/dev/null", "new-session", "-d", "-x", str(WIDTH), "-y", str(LINES + 1), loop, ";",
                  "set-option", "status", "off", ";", "resize-window", "-x", str(WIDTH), "-y", str(LINES + 1))
        self.pipe = open(self.names, "w", encoding="ascii")

    def tmux(self, *words):
        run = subprocess.run(["tmux", "-S", self.socket, *words], capture_output=True, check=True)
        return run.stdout.decode()

    def play(self, content):
        """Plays a content to its end: behind it stands a title, for which this waits."""
        self.played += 1
        title, path = f"played {self.played}", os.path.join(self.folder, f"{self.played}.ans")
        with open(path, "wb") as file:
            file.write(content + b"\x1b]2;" + title.encode() + b"\x1b\\")
        self.pipe.write(path + "\n")
        self.pipe.flush()
        for _ in range(2000):
            if self.tmux("display-message", "-p", "#{pane_title}").strip() == title:
                return
            time.sleep(0.005)
        sys.exit(f"tmux did not play {path}")

    def rows(self, count=LINES):
        """So many rows as tmux tells them."""
        return self.tmux("capture-pane", "-e", "-N", "-p").split("\n")[:count]

    def all_rows(self):
        """Those that have scrolled off, too."""
        return self.tmux("capture-pane", "-e", "-N", "-p", "-S", "-").split("\n")[:-1]

    def close(self):
        self.tmux("kill-server")
        self.pipe.close()


def changed_attribute(attribute, numbers):
    """The attribute behind a sequence of colours, as tmux writes it, and xterm in a print."""
    for number in [int(number or 0) for number in numbers.split(";")]:
        if number == 0:
            attribute = OWN
        elif number in (1, 5):
            attribute |= 0x08 if number == 1 else 0x80
        elif 30 <= number <= 37 or number == 39:
            fore = DOS[number - 30] if number < 38 else 0x07 | OWN_FOREGROUND
            attribute = attribute & ~(0x07 | OWN_FOREGROUND) | fore
        elif 40 <= number <= 47 or number == 49:
            back = DOS[number - 40] << 4 if number < 48 else OWN_BACKGROUND
            attribute = attribute & ~(0x70 | OWN_BACKGROUND) | back
        elif 90 <= number <= 97:
            attribute = attribute & ~(0x07 | OWN_FOREGROUND) | DOS[number - 90] | 0x08
        else:
            attribute |= OTHER
    return attribute


def told_cells(rows):
    """The cells that tmux tells of each row. A row begins in the colours of the one before."""
    cells, attribute = [], OWN
    for row in rows:
        cells.append([])
        for numbers, character in TOLD.findall(row):
            if character:
                cells[-1].append((ord(character), attribute))
            else:
                attribute = changed_attribute(attribute, numbers)
    return cells


# The comparison.


def seen(character, attribute):
    """The cell, of a blank without a foreground of the pane's own."""
    return character, attribute & ~OWN_FOREGROUND if character == 0x20 else attribute


def difference(told, cells):
    """The first cell that differs, and how many cells were told."""
    for row in range(LINES):
        for column in range(WIDTH):
            at = 2 * (row * WIDTH + column)
            byte, attribute = cells[at:at + 2]
            is_told = column < len(told[row])
            shown = seen(*told[row][column]) if is_told else "a blank"
            if shown != (byte, attribute) if is_told else byte != 0x20 or attribute & 0x70:
                return f"row {row + 1}, column {column + 1}: {shown}, not {(byte, attribute)}"
    return None


def passing_drawings(program, random_, count):
    """So many drawings that pass from the cleared start, with their cells and their mended contents."""
    passing = []
    while len(passing) < count:
        content = Maker(random_).drawing()
        cells = cells_of(program, LINES, content)
        if cells is not None:
            mended = said(program, ["mend", "--name-colours"], ans_file(LINES, content)).partition(b"\x1a")[0]
            passing.append((content, cells, mended))
    return passing


def main(program, seed, count, as_it_was=None):
    random_, different, told_count = random.Random(int(seed)), 0, 0
    passing = passing_drawings(program, random_, int(count))
    with tempfile.TemporaryDirectory() as folder:
        pane = Pane(folder)
        for content, cells, mended in passing:
            pane.play(other_text(random_) + (content if as_it_was else mended))
            told = told_cells(pane.rows())
            told_count += sum(map(len, told))
            found = difference(told, cells)
            if found:
                different += 1
                print(f"{found}: {content!r}, mended {mended!r}")
        pane.close()
    print(f"{len(passing)} mended drawings, {different} differ; {told_count} cells are told")
    return different > 0


if __name__ == "__main__":
    sys.exit(main(*sys.argv[1:]))
