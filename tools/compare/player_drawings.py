#!/usr/bin/env python3
"""Makes and finds the drawings that `players.py` plays, and says in which kinds players may part there.

The kinds are those of `second_players.py`, found from the cleared start by the machine of `second_machine.py`; so is
the picture. The least class of starts on every player is found from the corners of the screen alone: what the cursor
does there bounds what it does elsewhere.

Random drawings have 80 columns, or fewer, and at most 24 lines. They are made of text of all bytes from 20h on but
7Fh, the colours 0, 1, 5, 30 to 37 and 40 to 47, line ends, moves, places, clears, saves, and full rows; and of what
`second_players.py` has of each kind. A piece is put in where the drawing still passes with it, and no other kinds arise
than those that are asked for. Where `own-colours` is none of them, mostly both colours are named behind each 0.
"""
import collections
import glob
import os
import re
import struct
import sys

sys.dont_write_bytecode = True

from named_colours import paints_before_a_zero, with_named_colours, with_names
from pens import least_lines
from second_players import (
    BOTH, COLOURS, KINDS, OF_TOKENS, a_colour, a_good_content, a_plain_piece, a_size, an_odd_piece, parts_needed,
    spelled, walk,
)
from second_why import MENDING, cleared

HERE = os.path.dirname(os.path.abspath(__file__))
COLUMNS, LINES = 80, 24
FEWER_COLUMNS = [1, 2, 3, 5, 8, 9, 20, 40, 79]
GLYPHS = [byte for byte in range(0x20, 0x100) if byte != 0x7F]
COMMON = [0, 0, 1, 5, *range(30, 38), *range(40, 48)]
BEGINNINGS = [b"\x1b[0m", b"\x1b[2J", b"\x1b[H", b"\x1b[?7h", b"\x1b[0m\x1b[2J\x1b[H", b"\x1b[s", MENDING, b"\x1b[=7h"]
SMALL = "small"
FOLDERS = ["crates/anscheck/data/*.ans", "conformance/files/*.ans", "/usr/share/doc/ansilove/examples/*/*.ans"]

Drawing = collections.namedtuple("Drawing", "name columns lines content picture kinds")


def a_drawing_of(name, columns, lines, content):
    """The drawing with its picture and its kinds, or None where it does not pass from the cleared start."""
    tokens = spelled(content)
    walked = walk(tokens, cleared(columns, lines)) if tokens is not None else None
    kinds = frozenset(kind for _, kind in walked.arisen) if walked else None
    return Drawing(name, columns, lines, content, walked.picture, kinds) if walked else None


def is_free(drawing):
    """It shows its picture from every start on every player."""
    def corners(columns, lines):
        return sorted({(row, column) for row in (0, lines) for column in (0, columns - 1)})
    return not parts_needed(spelled(drawing.content), drawing.columns, drawing.lines, True, corners)


# Random drawings.


def a_text(chance, columns):
    """Characters, often as many as fill a row, and often all alike."""
    count = chance.choice([1, 3, 10, columns // 2 + 1, columns - 1 or 1, columns, columns, 2 * columns, 5 * columns])
    text = bytes(chance.choices(GLYPHS, k=count))
    return text[:1] * count if chance.random() < 0.2 else text


def spelling(chance, number):
    """A number as it may stand in a sequence: 1 may be 0 or be left out, and zeros may stand in front."""
    if number == 1 and chance.random() < 0.4:
        return chance.choice([b"", b"", b"0"])
    return b"0" * chance.choice([0] * 90 + [1, 2, 3, 12, 70]) + b"%d" % number


def a_move(chance, columns, lines):
    letter = chance.choice(b"ABCD")
    return b"\x1b[%s%c" % (spelling(chance, chance.randint(1, lines if letter in b"AB" else columns)), letter)


def a_place(chance, columns, lines):
    row, column = [spelling(chance, chance.randint(1, most)) for most in (lines, columns)]
    return b"\x1b[" + chance.choice([row + b";" + column, row + b";" + column, row]) + chance.choice([b"H", b"f"])


def some_colours(chance):
    """Common colours, in a sequence of some numbers or of many."""
    numbers = chance.choices(COMMON, k=chance.choice([1, 2, 3, 4] * 15 + [5, 6, chance.randint(7, 16)]))
    zeros = b"0" * chance.choice([0] * 60 + [1, 70])
    return b"\x1b[" + b";".join(zeros + b"%d" % number for number in numbers) + b"m"


def a_piece(chance, columns, lines, kinds):
    """Something of one of the kinds, or of none; where none is asked for, what stands close to one now and then."""
    which = chance.random()
    if which < (0.3 if kinds else 0.15):
        return an_odd_piece(chance, chance.choice(sorted(kinds) or KINDS), columns)
    if which < 0.5:
        return a_text(chance, columns)
    if which < 0.65:
        return some_colours(chance)
    make = chance.choice([a_move, a_place, a_plain_piece, a_plain_piece])
    return make(chance, columns, lines)


def named(chance, piece):
    """The piece with both colours named behind each 0, but for a few."""
    def with_both(found):
        has_zero = not all(number.strip(b"0") for number in found[1].split(b";"))
        return with_names(found[0], BOTH) if has_zero and chance.random() < 0.95 else found[0]
    return COLOURS.sub(with_both, piece)


def grown(chance, columns, lines, kinds):
    """A drawing in which no kinds but these arise, though they need not; or None."""
    drawing = None
    pieces = [MENDING] if chance.random() < 0.3 else chance.sample(BEGINNINGS, chance.choice([0, 0, 1, 1, 2, 3]))
    pieces += [a_piece(chance, columns, lines, kinds) for _ in range(chance.choice([2, 5, 10, 20, 40]))]
    if OF_TOKENS not in kinds:
        names = chance.choice([b"\x1b[37;40m", b"\x1b[40m\x1b[37m", b"\x1b[0;37;40m", b"\x1b[1;31;44m"])
        pieces = [names] + [named(chance, piece) for piece in pieces]
    for piece in pieces:
        longer = a_drawing_of("random", columns, lines, (drawing.content if drawing else b"") + piece)
        if longer and longer.kinds <= kinds:
            drawing = longer
    return drawing


def random_drawing(chance, columns, kinds=frozenset()):
    """One in which these kinds arise, and no others."""
    while True:
        lines = chance.choice([LINES, chance.randrange(1, LINES + 1)])
        drawing = grown(chance, columns, lines, kinds)
        if drawing and drawing.kinds == kinds:
            return drawing


def random_drawings(chance, number, kinds=frozenset()):
    """So many of 80 columns, and a quarter as many of fewer. On one column not every kind can arise."""
    fewer = FEWER_COLUMNS[1:] if kinds else FEWER_COLUMNS
    columns = [COLUMNS] * number + [chance.choice(fewer) for _ in range(number // 4)]
    return [random_drawing(chance, count, kinds) for count in columns]


def small_drawings(chance, number):
    """So many in which no kind arises, of few columns and lines, and made of what stands close to kinds."""
    drawings = []
    while len(drawings) < number:
        columns, lines = a_size(chance)
        drawing = a_drawing_of(SMALL, columns, lines, a_good_content(chance, columns, lines))
        if drawing and drawing.content and not drawing.kinds:
            drawings.append(drawing)
    return drawings


def without_blink(content):
    """The content without the number of blink, and with wrap turned on as all terminals know it."""
    def steady(found):
        numbers = [number for number in found[1].split(b";") if number.lstrip(b"0") != b"5"]
        return b"\x1b[" + b";".join(numbers) + b"m" if numbers else b""
    return COLOURS.sub(steady, re.sub(rb"\x1b\[=(0*7h)", b"\x1b[?\\1", content))


def steady(drawing):
    """The drawing without blink, if it passes so in the same kinds, or None."""
    other = a_drawing_of(drawing.name, drawing.columns, drawing.lines, without_blink(drawing.content))
    return other if other and other.kinds == drawing.kinds else None


def other_text(chance, columns, lines):
    """Text that may scroll; then colours, a saved place and a cursor, as a start of a screen of this size has them."""
    rows = chance.choice([1, 10, 40])
    text = b"".join(a_colour(chance, COMMON) + bytes(chance.choices(GLYPHS, k=chance.randrange(columns))) + b"\r\n"
                    for _ in range(rows))
    place = b"\x1b[%d;%dH"
    saved, cursor = [place % (chance.randint(1, lines + 1), chance.randint(1, columns)) for _ in range(2)]
    wrap = chance.choice([b"", b"\x1b[?7l"])
    return text + wrap + saved + b"\x1b[s" + cursor + chance.choice([b"", b"\x1b[1;5;33;44m", b"\x1b[0m"])


# Drawings that are there.


def with_its_colours_named(drawing):
    """The drawing with names after each 0, and with the safe beginning where something is printed before the first."""
    beginning = MENDING if paints_before_a_zero(drawing.content) else b""
    content = beginning + with_named_colours(drawing.content)[0]
    return a_drawing_of(drawing.name + " named", drawing.columns, drawing.lines, content)


def taken_apart(file):
    """The columns, the lines where they are told, and the content of a drawing's file."""
    record = file[-128:]
    columns, lines = struct.unpack("<HH", record[96:100]) if record.startswith(b"SAUCE") else (COLUMNS, 0)
    body = file[:-128] if record.startswith(b"SAUCE") else file
    return columns or COLUMNS, lines, body.partition(b"\x1a")[0]


def found_drawings(most_lines=LINES):
    """Those of the repository and of ansilove that pass, and have at most 80 columns and 24 lines, and not nothing."""
    root = os.path.join(HERE, "..", "..")
    for path in sorted(path for folder in FOLDERS for path in glob.glob(os.path.join(root, folder))):
        with open(path, "rb") as file:
            columns, lines, content = taken_apart(file.read())
        lines = lines or columns <= COLUMNS and least_lines(content, columns)
        if columns <= COLUMNS and lines and lines <= most_lines:
            drawing = a_drawing_of(os.path.basename(path), columns, lines, content)
            if drawing and content:
                yield drawing
