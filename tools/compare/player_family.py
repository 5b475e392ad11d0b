#!/usr/bin/env python3
"""Players that part from the machine of `second_machine.py` in one kind each, or in several, for `second_players.py`.

Each does as the profile does but for its traits. They are as simple as can be, and no copies of real players.
"""
from second_machine import Machine, recoloured

WAITS = "waits at the right edge"
# Each trait with the kind in which it parts.
TRAITS = {
    WAITS: "wrap-at-once",
    "a line feed returns": "line-ends",
    "a line feed returns, and a return does nothing": "line-ends",
    "stays on a clear": "home-on-clear",
    "clears in grey": "clear-in-colour",
    "goes home on a save": "save-place-only",
    "saves nothing": "save-place-only",
    "saves colours with the place": "save-place-only",
    "has few colours": "dos-colours",
    "an omitted colour does nothing": "dos-colours",
    "colours do nothing where one is omitted": "dos-colours",
    "skips at a tab": "tab-prints",
    "erases no line": "line-erased",
    "always wraps": "wrap-off",
    "has one line more": "stops-at-edge",
    "goes over the right edge": "stops-at-edge",
    "draws 07h and 08h": "page-controls",
    "does not draw 00h, 0Bh and 0Ch": "page-controls",
    "does not draw terminal controls": "terminal-controls",
    "has a white and a black of its own": "own-colours",
}
PAGE_CONTROLS = {0x00, 0x0B, 0x0C}
TERMINAL_CONTROLS = {*range(0x01, 0x07), *range(0x0E, 0x1A), *range(0x1C, 0x20), 0x7F}
FEW_COLOURS = {0, 1, 5, *range(30, 38), *range(40, 48)}
# Bits beside those of an attribute: the foreground, and the background, is the player's own.
OWN_FOREGROUND, OWN_BACKGROUND = 0x100, 0x200
OWN = OWN_FOREGROUND | OWN_BACKGROUND


def recoloured_or_own(attribute, parameter):
    """The attribute behind a parameter on a player that has a white and a black of its own."""
    own = attribute & OWN
    if parameter == 0:
        own = OWN
    elif 30 <= parameter <= 37:
        own &= ~OWN_FOREGROUND
    elif 40 <= parameter <= 47:
        own &= ~OWN_BACKGROUND
    return own | recoloured(attribute & 0xFF, parameter)


class Player(Machine):
    """A player that stands where this machine stands, with these traits."""

    def __init__(self, start, *traits):
        self.traits = traits
        self.width, self.lines = start.width, start.lines
        self.rows = [list(row) for row in start.rows]
        if "has one line more" in traits:
            self.lines += 1
            self.rows.append([(0x20, 0x07)] * self.width)
        self.row, self.column, self.saved = start.row, start.column, start.saved
        self.has_own = "has a white and a black of its own" in traits
        self.attribute, self.wrap = start.attribute | (OWN if self.has_own else 0), start.wrap
        self.saved_attribute, self.waits = 0x07, False

    def go_on(self):
        """The first column of the next row, where it waits for the next byte."""
        if self.waits:
            self.waits, self.column = False, 0
            self.feed_line()

    def put(self, byte):
        self.go_on()
        if WAITS in self.traits and self.wrap and self.column == self.width - 1:
            self.rows[self.row][self.column] = (byte, self.attribute)
            self.waits = True
        else:
            super().put(byte)

    def meet(self, token, text):
        """Plays a token that is spelled so."""
        name, *given = token
        if name in ("bell", "backspace") and "draws 07h and 08h" in self.traits:
            self.put(text[0])
        elif name == "glyph":
            self.draw(*given)
        elif name == "colours":
            self.recolour(*given, text)
        elif name == "tab" and "skips at a tab" not in self.traits:
            self.go_on()
            for _ in range(8 - self.column % 8):
                self.put(0x20)
        elif name != "bell":
            self.waits = False
            self.move(name, *given)

    def draw(self, byte):
        is_skipped = byte in PAGE_CONTROLS and "does not draw 00h, 0Bh and 0Ch" in self.traits
        if not is_skipped and not (byte in TERMINAL_CONTROLS and "does not draw terminal controls" in self.traits):
            self.put(byte)

    def recolour(self, parameters, text):
        numbers = text[2:-1].split(b";")
        if "has few colours" in self.traits:
            parameters = [parameter for parameter in parameters if parameter in FEW_COLOURS]
        if "an omitted colour does nothing" in self.traits:
            parameters = [int(number) for number in numbers if number and int(number) in parameters]
        if "colours do nothing where one is omitted" not in self.traits or b"" not in numbers:
            change = recoloured_or_own if self.has_own else recoloured
            for parameter in parameters:
                self.attribute = change(self.attribute, parameter)

    def move(self, name, *given):
        """Plays what neither prints nor colours."""
        traits, place, attribute = self.traits, (self.row, self.column), self.attribute
        if name == "tab":
            self.column = min(self.column + 8 - self.column % 8, self.width - 1)
        elif name == "linefeed":
            self.column = 0 if any(trait.startswith("a line feed returns") for trait in traits) else self.column
            self.feed_line()
        elif name == "return":
            self.column = self.column if "a line feed returns, and a return does nothing" in traits else 0
        elif name == "C" and "goes over the right edge" in traits and self.column + given[0] >= self.width:
            self.column = 0
            self.feed_line()
        elif name in ("clear", "erase"):
            if name == "erase" and "erases no line" in traits:
                return
            self.attribute = 0x07 if "clears in grey" in traits else attribute
            self.step(name)
            self.attribute = attribute
            if name == "clear" and "stays on a clear" in traits:
                self.row, self.column = place
        elif name == "save":
            self.saved, self.saved_attribute = place, attribute
            if "goes home on a save" in traits:
                self.row = self.column = 0
        elif name == "restore":
            if "saves nothing" in traits:
                return
            self.step(name)
            self.attribute = self.saved_attribute if "saves colours with the place" in traits else attribute
        elif name != "wrap" or given[0] or "always wraps" not in traits:
            self.step(name, *given)


class Rolling(Player):
    """A player whose screen scrolls, and keeps what has scrolled off since the last clear.

    What comes in below is white on black, or in the current colours."""

    def __init__(self, start, is_grey_below, *traits):
        super().__init__(start, *traits)
        self.roll, self.is_grey_below = [], is_grey_below

    def feed_line(self):
        if self.row < self.lines:
            self.row += 1
        else:
            self.roll.append(self.rows[0])
            below = (0x20, 0x07 if self.is_grey_below else self.attribute)
            self.rows = self.rows[1:] + [[below] * self.width]

    def step(self, name, *given):
        super().step(name, *given)
        self.roll = [] if name == "clear" else self.roll
        self.row, self.column = min(self.row, self.lines), min(self.column, self.width - 1)


def shown_by(player, tokens, lines):
    """The cells of so many lines that the player shows behind these tokens with their offsets and texts."""
    for _, token, text in tokens:
        player.meet(token, text)
    return tuple(map(tuple, player.rows[:lines]))
