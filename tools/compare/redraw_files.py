#!/usr/bin/env python3
"""Makes random files to redraw, for `second_redraw.py`, and contents of a given size, for `redrawn_players.py`.

Many contents grow piece by piece: text, blanks, colours, line ends, tabs, moves, places, clears, erased rows, saves,
and wrap on and off; a piece is kept where the content passes with it. Others print a picture cell by cell, so that
runs of blanks and rows with all attributes come as no drawing has them; or they are in their plainest form already,
mostly with a piece put in. The sizes are those at which something changes: one column, one row, 80 columns, about 255,
510 and 1024 columns, and many rows. Some contents get mistakes, and what stands around them is as `mend_files.py`
makes it; some files are of that module altogether.
"""
import copy
import itertools
import sys

sys.dont_write_bytecode = True

from mend_files import a_drawing, a_mend_file, a_tail, around, put_in, with_mistakes
from pens import MOST_LINES, Pen
from plain_form import BLANK, PlainForm, sequence, what_comes
from second_machine import CONTROLS, play, read
from second_players import a_good_content

GLYPHS = [byte for byte in range(0x100) if byte not in CONTROLS and byte not in (0x1A, 0x1B)]
# Columns and lines from here to there, and how often.
SIZES = [
    ((1, 5), (1, 5), 40), ((1, 1), (1, 60), 7), ((2, 20), (1, 8), 28), ((78, 82), (1, 6), 8), ((80, 80), (20, 60), 2),
    ((252, 262), (1, 3), 5), ((508, 520), (1, 3), 4), ((1020, 1024), (1, 3), 4), ((1, 4), (100, 500), 1),
    ((1, 2), (MOST_LINES, MOST_LINES), 0.05),
]
COLOURS = [0, 0, 1, 5, 4, 7, 8, 2, 38, *range(30, 38), *range(40, 48)]


def a_size(chance):
    columns, lines, _ = chance.choices(SIZES, [often for _, _, often in SIZES])[0]
    return chance.randint(*columns), chance.randint(*lines)


# Contents that grow.


def some_glyphs(chance, count, glyphs):
    """So many characters: of all kinds, or all alike, or with blanks among them."""
    kind = chance.random()
    if kind < 0.3:
        return bytes([chance.choice(glyphs)]) * count
    return bytes(chance.choices(glyphs if kind < 0.7 else [0x20, 0x20, chance.choice(glyphs)], k=count))


def a_length(chance, pen):
    """How many columns: few, up to the edge or nearly so, or some rows."""
    room = pen.width - pen.column
    return max(1, chance.choice([1, 1, 2, 3, 4, 5, room, room, room - 1, room + 1, pen.width, 2 * pen.width, 255]))


def some_colours(chance):
    """One attribute whole, or some numbers, or none."""
    kind = chance.random()
    if kind < 0.25:
        return b"\x1b[0m"
    if kind < 0.6:
        return sequence([0] + what_comes(0x07, chance.randrange(0x100)))
    return b"\x1b[" + b";".join(b"%d" % number for number in chance.choices(COLOURS, k=chance.randrange(4))) + b"m"


def a_move(chance, pen):
    kind = chance.random()
    if kind < 0.4:
        most = [min(255, pen.lines), min(255, pen.width)]
        return b"\x1b[%d;%dH" % tuple(chance.randint(1, number) for number in most)
    if kind < 0.8:
        some = [b"", b"1", b"2", b"3", b"5", b"%d" % chance.randrange(256)]
        return b"\x1b[" + chance.choice(some) + bytes([chance.choice(b"ABCCCD")])
    return chance.choice([b"\x1b[s", b"\x1b[u", b"\x1b[u", b"\x1b[H"])


def a_piece(chance, pen, glyphs):
    kind = chance.random()
    if kind < 0.35:
        return some_glyphs(chance, a_length(chance, pen), glyphs)
    if kind < 0.42:
        return b" " * a_length(chance, pen)
    if kind < 0.62:
        return some_colours(chance)
    if kind < 0.74:
        return chance.choice([b"\r\n", b"\r\n", b"\r\n", b"\r\n\r\n", b"\n", b"\r", b"\n\r"])
    if kind < 0.88:
        return a_move(chance, pen)
    some = [b"\t", b"\t\t", b"\x08", b"\x07", b"\x1b[K", b"\x1b[K", b"\x1b[2J", b"\x1b[?7l", b"\x1b[?7h", b"\x1b[=7h"]
    return chance.choice(some)


def played(pen, piece):
    """The pen behind the piece, or None where it does not pass."""
    moved = copy.copy(pen)
    tokens, refusal = read(piece)
    return None if refusal or any(play(token, [moved]) for _, token in tokens) else moved


def a_grown_content(chance, columns, lines, glyphs=GLYPHS):
    pen, kept = Pen(columns, lines), []
    for _ in range(chance.choice([1, 3, 6, 12, 25, 80 if lines > 5 else 40])):
        piece = a_piece(chance, pen, glyphs)
        moved = played(pen, piece)
        if moved:
            pen = moved
            kept.append(piece)
    return b"".join(kept)


# Contents that print a picture.


def some_lengths(chance, columns, count):
    """How long runs may be: a few cells, or about as long as a row, as what one sequence skips or two, or as all."""
    far = [1, 3, 5, *range(252, 262), *range(508, 517), 765]
    if columns > 255 and chance.random() < 0.5:
        return far
    return chance.choice([
        [1, 1, 2, 3], [1, 2, 3, 4, 5, 6, 7], [1, 4, columns, chance.randint(1, columns)], far,
        [1, chance.randint(1, count), count],
    ])


def some_attributes(chance):
    """A few, with more or fewer of 07h; or many, or those that are bright and blink."""
    kind = chance.random()
    if kind < 0.7:
        return [0x07] * chance.choice([0, 1, 4]) + chance.choices(range(0x100), k=chance.choice([1, 2, 4, 16]))
    return list(range(0x100)) if kind < 0.9 else [0x8F, 0x0F, *(attribute | 0x88 for attribute in range(0x80))]


def some_cells(chance, columns, count, glyphs):
    """So many cells, in runs of blanks and of characters, each run in one attribute."""
    attributes, lengths = some_attributes(chance), some_lengths(chance, columns, count)
    are_blank, cells = chance.choice([0, 0.2, 0.5, 0.8]), []
    while len(cells) < count:
        length = chance.choice(lengths)
        if chance.random() < are_blank:
            cells += [BLANK] * length
        else:
            attribute, length = chance.choice(attributes), chance.choice([1, length])
            cells += [(byte, attribute) for byte in some_glyphs(chance, length, glyphs)]
    return cells[:count]


def printed(cells):
    """Each cell one after the other, with its colours where they change."""
    pieces, before = [], 0x07
    for byte, attribute in cells:
        if attribute != before:
            pieces.append(sequence([0] + what_comes(0x07, attribute)))
        pieces.append(bytes([byte]))
        before = attribute
    return b"".join(pieces)


def a_picture_content(chance, columns, lines, glyphs=GLYPHS):
    return printed(some_cells(chance, columns, columns * lines, glyphs))


def a_chart(glyphs):
    """All attributes, and all of these characters."""
    return printed(list(zip(itertools.cycle(glyphs), range(0x100))) + [(byte, 0x1E) for byte in glyphs])


def a_plain_content(chance, columns, lines):
    """The form of a picture, mostly with a piece put in that may change nothing."""
    cells = some_cells(chance, columns, columns * lines, GLYPHS)
    content = PlainForm([cells[at:at + columns] for at in range(0, len(cells), columns)]).content()
    some = [
        b"\x1b[0m", b"\x1b[m", b"\x1b[1m", b"\x1b[37m", b"\x1b[0;37;40m", b"\x1b[C", b"\x1b[0C", b"\x1b[s", b"\x1b[K",
        b" ", b"\r", b"\r\n", b"\n\x1b[A",
    ]
    return content if chance.random() < 0.3 else put_in(chance, content, chance.choice(some))


def a_content(chance, columns, lines, glyphs=GLYPHS):
    """One that passes from the cleared start, with these characters and blanks."""
    make = a_grown_content if columns * lines > 5000 or chance.random() < 0.55 else a_picture_content
    return make(chance, columns, lines, glyphs)


# Files.


def some_content(chance, columns, lines):
    """One that passes, or one as others are tried on."""
    kind = chance.random()
    if kind < 0.75:
        return a_content(chance, columns, lines)
    if kind < 0.8:
        return a_plain_content(chance, columns, lines)
    few_columns, few_lines = min(columns, 20), min(lines, 6)
    return a_drawing(chance, few_columns) if kind < 0.9 else a_good_content(chance, few_columns, few_lines)


def a_redraw_file(chance):
    if chance.random() < 0.07:
        return a_mend_file(chance)
    columns, lines = a_size(chance)
    content = some_content(chance, columns, lines)
    if chance.random() < 0.07:
        content = with_mistakes(chance, content)
    stated = max(1, chance.choice([lines] * 18 + [lines - 1, lines + 1]))
    file = around(chance, content, columns, stated)
    return file + a_tail(chance) if chance.random() < 0.02 else file
