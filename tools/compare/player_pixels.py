#!/usr/bin/env python3
"""Plays contents on one xterm and on one urxvt, and reads the pixels that they show, for `players.py`.

Both are run as they come, without a setting of their own but their size, on a screen of Xvfb that nobody sees. So their
own white and black are those that whoever starts them sees; by pixels these are told from the named ones.

The named colours of each terminal are measured first: a full block in each of the 8 foregrounds, and in the bright
ones, and a blank in each of the 8 backgrounds; and of each character whether its foreground is seen at all. A cell is
as it was meant if

- a blank (20h, 00h, FFh) is all of its background;
- of a full block (DBh) the middle pixel is of its foreground;
- all pixels of any other lie between foreground and background, in red, green and blue; and one is of the foreground,
  if one was where the character was measured.

The first column of pixels right of a bright cell is not looked at: these terminals may strike a bright character twice,
one pixel apart. Blink is not seen. Terminals are given each byte from 80h on as UTF-8.
"""
import mmap
import os
import subprocess
import struct
import sys
import tempfile
import time

sys.dont_write_bytecode = True

from player_screens import NAMED_SCREEN, RESET, UTF8, Told, first_line, not_here, screen_of_its_own, utf8, wait_for

BLANKS, FULL_BLOCK = {0x00, 0x20, 0xFF}, 0xDB
BRIGHT = 0x08
# The numbers of colours by those of DOS, which is its own inverse.
DOS = [0, 4, 2, 6, 1, 5, 3, 7]
# Larger than each terminal, so that the pointer, in its middle, is on none.
SCREEN = "2600x3600x24"
LOOP = r"""stty raw -echo
while read -r name <&3; do cat "$name"; printf '\033[6n'; IFS= read -r -d R answer; echo > played; done 3< names"""
PIXEL = 4


class Framebuffer:
    """What an X server shows, as it keeps it in a file."""

    def __init__(self, folder):
        with open(os.path.join(folder, "Xvfb_screen0"), "rb") as file:
            self.bytes = mmap.mmap(file.fileno(), 0, access=mmap.ACCESS_READ)
        head = struct.unpack(">25I", self.bytes[:100])
        self.width, self.height, self.stride = head[4], head[5], head[12]
        self.begin = head[0] + 12 * head[19]

    def rows(self, left=0, top=0, width=None, height=None):
        """The rows of pixels of a part, or of all."""
        begin, size = self.begin + PIXEL * left, PIXEL * (width or self.width)
        at = [begin + row * self.stride for row in range(top, top + (height or self.height))]
        return [self.bytes[place:place + size] for place in at]


def box_of_changes(before, after):
    """The left, the top, the width and the height of what changed."""
    rows = [row for row, (one, other) in enumerate(zip(before, after)) if one != other]
    columns = [column for row in (rows[0], rows[-1]) for column in range(len(before[row]) // PIXEL)
               if before[row][PIXEL * column:][:PIXEL] != after[row][PIXEL * column:][:PIXEL]]
    left, top = min(columns), rows[0]
    return left, top, max(columns) + 1 - left, rows[-1] + 1 - top


class Terminal:
    """A terminal of so many columns and rows, whose text area and colours are measured."""

    def __init__(self, folder, display, words, columns, rows):
        self.folder, self.columns, self.rows = folder, columns, rows
        os.mkfifo(os.path.join(folder, "names"))
        words = [*words, "-geometry", f"{columns}x{rows}+0+0", "-e", "bash", "-c", LOOP]
        environment = {**UTF8, "DISPLAY": display, "HOME": folder}
        self.process = subprocess.Popen(words, cwd=folder, env=environment, stderr=subprocess.DEVNULL)
        self.names = open(os.path.join(folder, "names"), "w", encoding="ascii")
        self.framebuffer = Framebuffer(folder)
        self.box = None
        self.box = box_of_changes(*[self.shot(RESET + b"\x1b[%dm\x1b[2J" % colour) for colour in (41, 42)])
        self.wide, self.high = self.box[2] // columns, self.box[3] // rows
        if (self.wide * columns, self.high * rows) != self.box[2:]:
            sys.exit(f"{words[0]} has a text area of {self.box}")

    def shot(self, content):
        """Plays a content to its end: the rows of pixels, as soon as they stay the same."""
        with open(os.path.join(self.folder, "content"), "wb") as file:
            file.write(content + b"\x1b[?25l")
        self.names.write("content\n")
        self.names.flush()
        played = os.path.join(self.folder, "played")
        wait_for(played)
        os.remove(played)
        shots = []
        while len(shots) < 3 or shots[-1] != shots[-2] or shots[-2] != shots[-3]:
            time.sleep(0.05)
            shots.append(self.framebuffer.rows(*self.box or ()))
        return shots[-1]

    def cells(self, content):
        """Of each cell its rows of pixels."""
        lines, size = self.shot(content), PIXEL * self.wide
        return [[[line[at:at + size] for line in lines[top:top + self.high]] for at in range(0, len(lines[0]), size)]
                for top in range(0, self.rows * self.high, self.high)]

    def close(self):
        self.names.close()
        self.process.terminate()
        self.process.wait()


def pixels_of(lines, begin=0):
    """The pixels of these lines, from a column on."""
    return {line[at:at + PIXEL] for line in lines for at in range(PIXEL * begin, len(line), PIXEL)}


def middle(lines):
    line = lines[len(lines) // 2]
    at = len(line) // PIXEL // 2 * PIXEL
    return line[at:at + PIXEL]


def is_between(pixel, one, other):
    return all(min(a, b) <= part <= max(a, b) for part, a, b in zip(pixel[:3], one, other))


class Pixels(Told):
    """A terminal as it comes, whose pixels are compared."""

    is_seen_by_pixels = True

    @classmethod
    def missing(cls):
        return not_here([cls.program, "Xvfb", "bash"])

    @classmethod
    def version(cls):
        return first_line(*cls.version_words)

    @classmethod
    def play(cls, columns, rows, contents):
        with tempfile.TemporaryDirectory() as folder:
            display, started = screen_of_its_own(folder, SCREEN, "-fbdir", folder)
            try:
                terminal = Terminal(folder, display, cls.words, columns, rows)
                try:
                    cls.measure(terminal)
                    for content in contents:
                        yield terminal.cells(RESET + NAMED_SCREEN + utf8(content))
                finally:
                    terminal.close()
            finally:
                for process in reversed(started):
                    process.terminate()
                    process.wait()

    @classmethod
    def measure(cls, terminal):
        """The named colours, by the numbers of DOS; and the characters whose foreground is seen, plain and bright."""
        bright = [b"0", b"0;1"]
        blocks = b"".join(b"\x1b[%s;%d;40m\xdb" % (bright[number >> 3], 30 + DOS[number & 7]) for number in range(16))
        blanks = b"".join(b"\x1b[0;37;%dm " % (40 + DOS[number]) for number in range(8))
        cells = terminal.cells(RESET + NAMED_SCREEN + utf8(blocks + b"\r\n" + blanks))
        cls.foregrounds = [middle(cells[0][number]) for number in range(16)]
        cls.backgrounds = [middle(cells[1][number]) for number in range(8)]
        cls.seen_characters = {(byte, is_bright) for is_bright in range(2) for byte in cls.chart(terminal, is_bright)}

    @classmethod
    def chart(cls, terminal, is_bright):
        """The characters of which the foreground is seen, of 20h and on."""
        in_row = min(32, terminal.columns // 2)
        bytes_ = [byte for byte in range(0x20, 0x100) if byte != 0x7F]
        many = in_row * terminal.rows
        for some in (bytes_[at:at + many] for at in range(0, len(bytes_), many)):
            rows = [b" ".join(b"%c" % byte for byte in some[at:at + in_row]) for at in range(0, len(some), in_row)]
            colours = b"\x1b[0;1;37;40m" if is_bright else b"\x1b[0;37;40m"
            cells = terminal.cells(RESET + NAMED_SCREEN + colours + utf8(b"\r\n".join(rows)))
            fore = cls.foregrounds[0x0F if is_bright else 0x07]
            for place, byte in enumerate(some):
                if fore in pixels_of(cells[place // in_row][place % in_row * 2]):
                    yield byte

    @classmethod
    def shows(cls, lines, picture, row, column):
        """Whether the cell is as it was meant."""
        byte, attribute = picture[row][column]
        before, left = picture[row][column - 1] if column else (0x20, 0x00)
        fore, back = cls.foregrounds[attribute & 0x0F], cls.backgrounds[attribute >> 4 & 7]
        pixels = pixels_of(lines, 1 if left & BRIGHT and before not in BLANKS else 0)
        if byte in BLANKS:
            return pixels == {back}
        if byte == FULL_BLOCK and middle(lines) != fore:
            return False
        is_fore_wanted = (byte, int(attribute & BRIGHT != 0)) in cls.seen_characters
        return all(is_between(pixel, fore, back) for pixel in pixels) and (fore in pixels or not is_fore_wanted)

    @staticmethod
    def told(lines):
        """The colours of a cell, as they are told of a difference."""
        return ", ".join(sorted(pixel[2::-1].hex() for pixel in pixels_of(lines)))

    @classmethod
    def colours_told(cls):
        """The named colours that were measured: foregrounds and bright ones, and backgrounds."""
        return [" ".join(pixel[2::-1].hex() for pixel in some) for some in (cls.foregrounds, cls.backgrounds)]


class XtermPixels(Pixels):
    name, program, words, version_words = "xterm by pixels", "xterm", ["xterm", "-u8"], ["xterm", "-v"]


class UrxvtPixels(Pixels):
    name, program, words, version_words = "urxvt by pixels", "urxvt", ["urxvt"], ["urxvt", "-help"]


PIXEL_PLAYERS = [XtermPixels, UrxvtPixels]
