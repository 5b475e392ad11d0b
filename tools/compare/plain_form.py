#!/usr/bin/env python3
"""Writes a picture in its plainest form, from the words of the rules, for `second_redraw.py` and others.

After the safe beginning come the cells that are no blanks (20h of 07h) in reading order, each with the way to it, its
colours and its byte; after the last such cell nothing but `ESC[0m`, and that is always there and nowhere else.

- Colours: one sequence where the attribute changes, its numbers in the order 0, 1, 5, 30 to 37, 40 to 47: what changes,
  if neither bright nor blink goes; else 0, then 1 and 5 if they are set, the foreground and the background. So both
  colours are named everywhere.
- Black: the colours of 07h, where the background is not black or blink is set, which with iCE colours is a background.
- A row is full where its last cell is no blank. If there is something in a row below, or if that last cell has a
  background or blink and the picture has a row below, the row below is opened before the full row: black, a line feed
  and `ESC[A`. After the full row comes the place of the row below, `ESC[rH`; above row 255 `ESC[H` and moves down, of
  255 each and of what is left.
- To the next row after any other: black, and CR LF.
- In a row: up to four blanks are printed where the attribute is 07h; all others are skipped by `ESC[C` or `ESC[nC`, at
  most 255 at once, and what is left is asked again.

So it shows on screens of two rows and more, and of the picture's columns and more.
"""
import collections
import sys

sys.dont_write_bytecode = True

from second_machine import COLOURS
from second_why import MENDING

GREY = 0x07
BLANK = (0x20, GREY)
FOREGROUND, BRIGHT, BACKGROUND, BLINK = 0x07, 0x08, 0x70, 0x80
MOST_PRINTED, MOST_SKIPPED, LAST_PLACED = 4, 255, 255


def bright_and_blink(attribute):
    """The numbers that set these."""
    return [number for bit, number in ((BRIGHT, 1), (BLINK, 5)) if attribute & bit]


def colour_numbers(attribute):
    """The numbers that name its foreground and its background."""
    return 30 + COLOURS[attribute & FOREGROUND], 40 + COLOURS[(attribute & BACKGROUND) >> 4]


def what_comes(before, after):
    """The numbers of bright and blink where they come, and of the two colours where they are others."""
    pairs = zip(colour_numbers(before), colour_numbers(after))
    return bright_and_blink(after & ~before) + [number for old, number in pairs if number != old]


def sequence(numbers):
    return b"\x1b[" + b";".join(b"%d" % number for number in numbers) + b"m"


def colours(before, after):
    """The sequence that makes one attribute another, or nothing where it is the same."""
    if before == after:
        return b""
    if before & ~after & (BRIGHT | BLINK):
        return sequence([0, *bright_and_blink(after), *colour_numbers(after)])
    return sequence(what_comes(before, after))


def is_coloured(attribute):
    """It has a background, or blinks."""
    return attribute & (BACKGROUND | BLINK) != 0


def place_of_row(number):
    """The way to the first column of a row, counted from 1, that was entered already."""
    if number <= LAST_PLACED:
        return b"\x1b[%dH" % number
    steps, left = divmod(number - 1, MOST_SKIPPED)
    return b"\x1b[H" + b"\x1b[%dB" % MOST_SKIPPED * steps + (b"\x1b[%dB" % left if left else b"")


class PlainForm:
    """The form of the cells of these rows as it is written, and how often each of its rules was met."""

    def __init__(self, rows):
        self.pieces, self.met, self.attribute = [MENDING], collections.Counter(), GREY
        drawn = [number for number, row in enumerate(rows) if any(cell != BLANK for cell in row)]
        last = max(drawn, default=-1)
        for number, row in enumerate(rows[:last + 1]):
            is_below_opened = self.is_below_opened(row, number == last, number + 1 < len(rows))
            if is_below_opened:
                self.blacken("black before a row is opened")
                self.write(b"\n\x1b[A", "a row below opened")
            self.draw(row)
            if is_below_opened:
                self.write(place_of_row(number + 2), "a place" if number + 2 <= LAST_PLACED else "a place above 255")
            elif number < last:
                self.blacken("black before a line end")
                self.write(b"\r\n", "a line end")
        self.write(b"\x1b[0m")

    def content(self):
        return b"".join(self.pieces)

    def write(self, piece, rule=None):
        self.pieces.append(piece)
        if rule:
            self.met[rule] += 1

    def recolour(self, attribute):
        piece = colours(self.attribute, attribute)
        if piece:
            self.write(piece, "colours anew" if piece[2:3] == b"0" else "colours that change")
        self.attribute = attribute

    def blacken(self, rule):
        if is_coloured(self.attribute):
            self.met[rule] += 1
            self.recolour(GREY)

    def is_below_opened(self, row, is_last, is_row_below):
        """The row below has to be there, and black, before this one wraps."""
        if row[-1] == BLANK:
            return False
        if is_last and is_row_below and is_coloured(row[-1][1]):
            self.met["an empty row opened"] += 1
        return not is_last or is_row_below and is_coloured(row[-1][1])

    def draw(self, row):
        column = 0
        for place, (byte, attribute) in enumerate(row):
            if (byte, attribute) != BLANK:
                self.pass_over(place - column)
                self.recolour(attribute)
                self.write(bytes([byte]))
                column = place + 1

    def pass_over(self, count):
        while count > 0:
            if self.attribute == GREY and count <= MOST_PRINTED:
                self.write(b" " * count, "blanks printed")
                return
            step = min(count, MOST_SKIPPED)
            number = b"" if step == 1 else b"%d" % step
            self.write(b"\x1b[" + number + b"C", "255 blanks skipped" if step == MOST_SKIPPED else "blanks skipped")
            count -= step
