#!/usr/bin/env python3
"""Plays contents from the cleared start on the machine of `second_machine.py`, but without its cells.

It is there for `second_mend.py` and `mend_files.py`, which ask of many contents whether they pass, and on how many
lines. From the cleared start no cell stays unknown, so the cursor tells.
"""
import functools

from second_machine import Machine, play, read

MOST_LINES = 8192


class Pen(Machine):
    """A machine that has no cells: its cursors, its colours and wrap."""

    def __init__(self, width, lines, place=(0, 0), wrap=True):
        super().__init__(width, -1, lambda: 0x07, lambda: place, wrap)
        self.lines = lines

    def feed_line(self):
        self.row = min(self.lines, self.row + 1)

    def put(self, _):
        if self.column < self.width - 1:
            self.column += 1
        elif self.wrap:
            self.column = 0
            self.feed_line()

    def step(self, name, *given):
        if name == "clear":
            self.row = self.column = 0
        elif name != "erase":
            super().step(name, *given)


@functools.lru_cache(64)
def tokens_of(content):
    """Each token with its offset, and of a refusal its offset, its fault and the place after it."""
    return read(content)


@functools.lru_cache(256)
def first_fault(content, width, lines):
    """The offset and the number of the content's fault from the cleared start, or None."""
    pens = [Pen(width, lines)]
    tokens, ending = tokens_of(content)
    for offset, token in tokens:
        fault = play(token, pens)
        if fault:
            return offset, fault
    return ending and ending[:2]


def passes(content, width, lines):
    return first_fault(content, width, lines) is None


def least_lines(content, width):
    """The least number of lines on which the content passes, or None. Where some are enough, more are too."""
    if not passes(content, width, MOST_LINES):
        return None
    refused, enough = 0, MOST_LINES
    while enough - refused > 1:
        middle = (refused + min(enough, 2 * refused + 2)) // 2
        refused, enough = (refused, middle) if passes(content, width, middle) else (middle, enough)
    return enough
