#!/usr/bin/env python3
"""Plays redrawn drawings on real players, and compares what they show with the pictures.

The drawings are random ones of `redraw_files.py`, of 80 columns, in all attributes; and those of the repository and of
ansilove that have no more. The picture is the one that the second machine has of them from the cleared start; what is
played is its plainest form, as `plain_form.py` writes it, or what `redraw` writes where a built `anscheck` is given.
Each is played behind other text and colours, as `players.py` does it: the text may scroll, turns wrap off now and then,
and leaves the cursor and the saved place somewhere.

- Drawings of at most 24 lines are played on a screen of 25 rows. Those for terminals have the bytes 20h to 7Eh and from
  80h on; DOSBox and ansilove draw all that are printed, and have these. NUMBER are played on DOSBox, and three tenths
  as many on each of the others.
- A tenth as many, and those that are there, are played on 132 columns of all but DOSBox: right of the picture are
  blanks alone.
- Coloured drawings of 40 lines, as many as of the first, and a tenth as many on 132 columns, are played on a screen of
  24 rows of tmux, libvterm and xterm, which scrolls; and so are those of more lines that are there. What has scrolled
  off since the clear of the form, and the screen, are the picture. Which rows these are is told by a machine that waits
  at the edge, and scrolls. A row may come in bright there, so of a blank background and blink alone are compared:
  nothing else of it is seen.
- By pixels a tenth as many, on 80 and on 132 columns, and those that are there, on as many rows as they need: on an
  xterm and a urxvt as they come. These have no blink, and a `*` for each byte that a terminal does not draw.

Each cell is compared, as `players.py` does it: tmux, libvterm and xterm tell named colours from their own, and so do
pixels. A drawing that differs is told with the reason, where that is a way of one program that `player_quirks.py`
knows, and with its bytes where it is not.

    python3 tools/compare/redrawn_players.py [--program PROGRAM] [NUMBER] [SEED] [PLAYER ..]

NUMBER is 1000 where nothing is said. Where players are named it plays these. It needs what `players.py` needs, and
says which player cannot be played here. Its status is 1 where a drawing differs for a reason that is not known.
"""
import os
import random
import sys

sys.dont_write_bytecode = True
sys.path.insert(1, os.path.join(os.path.dirname(os.path.abspath(__file__)), "dosbox"))

from ansilove import ans_file
from dosbox import said
from plain_form import BACKGROUND, BLANK, BLINK, BRIGHT, FOREGROUND, PlainForm
from player_drawings import COLUMNS, LINES, a_drawing_of, found_drawings, other_text
from player_family import WAITS, Rolling
from player_screens import ROWS, Told
from players import Play, play_without_kinds, present_players
from redraw_files import GLYPHS, a_chart, a_content, printed
from second_players import spelled
from second_why import cleared

TALL, WIDE, FEW_ROWS, MOST_LINES = 40, 132, 24, 1000
OF_TERMINALS = [byte for byte in range(0x20, 0x100) if byte != 0x7F]
PAGE_PLAYERS = {"DOSBox", "ansilove"}


class Scrolled(Told):
    """A player on a screen that scrolls, which tells what is seen of each cell, and of what has scrolled off."""

    def __init__(self, player):
        self.player, self.name, self.tells_cleared = player, player.name, player.tells_cleared

    @staticmethod
    def seen(byte, attribute):
        return byte, attribute & ~(FOREGROUND | BRIGHT) if byte == BLANK[0] else attribute

    def play(self, columns, rows, contents):
        for content, told in zip(contents, self.player.play_all(columns, rows, contents)):
            last = told[-rows - rolled(columns, rows, content):]
            yield [[self.seen(*cell) for cell in row] for row in last]


def rolled(columns, rows, content):
    """How many rows scroll off since the last clear, on a terminal of this size."""
    screen = Rolling(cleared(columns, rows - 1), False, WAITS)
    for _, token, text in spelled(content):
        screen.meet(token, text)
    return len(screen.roll)


# Drawings.


def a_drawing(chance, lines, glyphs):
    """One in which something is printed."""
    while True:
        drawing = a_drawing_of("random", COLUMNS, lines, a_content(chance, COLUMNS, lines, glyphs))
        if any(cell != BLANK for row in drawing.picture for cell in row):
            return drawing


def a_tall_drawing(chance):
    """One with a coloured background in all parts of the screen, and something in its last row."""
    while True:
        drawing = a_drawing(chance, TALL, OF_TERMINALS)
        coloured = [any(attribute & BACKGROUND for _, attribute in row) for row in drawing.picture]
        if sum(coloured) > TALL // 4 and any(cell != BLANK for cell in drawing.picture[-1]):
            return drawing


def some_drawings(chance, number, glyphs):
    """A chart of all attributes and characters, and random drawings."""
    drawings = [a_drawing_of("chart", COLUMNS, LINES, a_chart(glyphs))]
    while len(drawings) < number:
        drawings.append(a_drawing(chance, chance.choice([LINES, chance.randint(1, LINES)]), glyphs))
    return drawings


def with_cells(drawing, change):
    """The drawing of the changed cells."""
    cells = [change(*cell) for row in drawing.picture for cell in row]
    return a_drawing_of(drawing.name, drawing.columns, drawing.lines, printed(cells))


def for_terminals(drawing):
    """With a `*` for each byte that a terminal does not draw."""
    return with_cells(drawing, lambda byte, attribute: (byte if byte in OF_TERMINALS else ord("*"), attribute))


def steady(drawing):
    """Without blink."""
    return with_cells(drawing, lambda byte, attribute: (byte, attribute & ~BLINK))


# What is played.


def content_of(program, drawing):
    """The content of the redrawn drawing."""
    if not program:
        return PlainForm(drawing.picture).content()
    file = ans_file(drawing.content, drawing.columns, drawing.lines)
    return said(program, ["redraw"], file).partition(b"\x1a")[0]


def a_play(chance, program, drawing, columns=COLUMNS, rows=None):
    """The redrawn drawing behind other text, on so many columns and rows; on more columns blanks stand beside it."""
    rows = rows or max(ROWS, drawing.lines + 1)
    behind = other_text(chance, columns, rows - 1) + content_of(program, drawing)
    wider = tuple(row + (BLANK,) * (columns - drawing.columns) for row in drawing.picture)
    how = f"redrawn, behind other text, on {columns} columns" + (", scrolled" if drawing.lines > rows else "")
    return Play(drawing._replace(columns=columns, picture=wider), rows, how, behind)


def plays_of(player, seed, program, number):
    """What is played on the player, and on it as it scrolls: the same for all that draw the same characters."""
    of_page, fewer, few = player.name in PAGE_PLAYERS, max(1, 3 * number // 10), max(1, number // 10)
    chance, found = random.Random(f"{seed} {of_page}"), [drawing for drawing in found_drawings() if not of_page]
    if player.is_seen_by_pixels:
        drawings = [steady(for_terminals(drawing)) for drawing in some_drawings(chance, few, OF_TERMINALS)]
        drawings += [steady(for_terminals(drawing)) for drawing in found_drawings(MOST_LINES)]
        yield player, [a_play(chance, program, drawing, columns) for columns in (COLUMNS, WIDE) for drawing in drawings]
        return
    count = number if player.name == "DOSBox" else fewer
    drawings = some_drawings(chance, count, GLYPHS if of_page else OF_TERMINALS) + list(map(for_terminals, found))
    plays = [a_play(chance, program, drawing) for drawing in drawings]
    if player.columns is None:
        plays += [a_play(chance, program, drawing, WIDE) for drawing in drawings[:few] + drawings[count:]]
    yield player, plays
    if player.rolls:
        chance = random.Random(f"{seed} tall")
        tall = [a_tall_drawing(chance) for _ in range(fewer)]
        there = [for_terminals(drawing) for drawing in found_drawings(MOST_LINES) if drawing.lines > FEW_ROWS]
        plays = [a_play(chance, program, drawing, COLUMNS, FEW_ROWS) for drawing in tall + there]
        plays += [a_play(chance, program, drawing, WIDE, FEW_ROWS) for drawing in tall[:few] + there]
        yield Scrolled(player), plays


def tell_what_is_drawn(plays):
    """How many attributes and bytes the pictures have."""
    cells = {cell for play in plays for row in play.drawing.picture for cell in row}
    attributes, bytes_ = [len({cell[part] for cell in cells}) for part in (1, 0)]
    print(f"  with {attributes} attributes and {bytes_} bytes", flush=True)


def main(*words):
    program, words = (words[1], words[2:]) if words[:1] == ("--program",) else (None, words)
    number, seed, *names = (*words, *["1000", "1"][len(words):])
    differing = 0
    for player in list(present_players([name.lower() for name in names])):
        for screen, plays in plays_of(player, seed, program, int(number)):
            differing += play_without_kinds(screen, plays)[0]
            tell_what_is_drawn(plays)
    return differing > 0


if __name__ == "__main__":
    sys.exit(main(*sys.argv[1:]))
