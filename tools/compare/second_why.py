#!/usr/bin/env python3
"""Plays random files on the machine of `second_machine.py`, and compares with the text of `why`.

It finds each line of that text except those on players by itself, from the words of its definitions:

- `note`, `found` and the faults of the record: it takes the file apart by itself;
- the evidence: where the cursors are in the plays from the low and the high start before the fault, or
  what the named cell holds in both; and on a refusal where the one from the cleared start is;
- `is`: by patterns over the bytes from the fault's offset on, or over those after the end mark, or over the file;
- `lines`: it plays the content on 1 to 24 lines, and then halves what is left up to 8192. A number is
  right if the content passes with it and is refused with one less, and with a few others below; none
  is right if it is refused with 8192. The line also says if the rows look broken;
- `taller screens`: it asks at each move of eight starts of the class that `needs` names. If that makes
  `same` it also plays the content from eight starts of the class on taller screens: there is no fault,
  nothing scrolls, and the first lines show the picture;
- `fix`: after the safe beginning it plays the content from eight starts of any kind: there is no fault, and
  the picture is that from the cleared start;
- the bytes to blame, and each hint with its count and its first offset. If so many lines are enough, all
  tokens count, on a screen of that many; on another refusal those up to the one to blame. What they are
  judged by may come after it.

The lines on players are left to `second_players.py`. Where a line `fix:` of a refused file is, its command is run, and
what it writes is checked; why there is none it does not ask.

It follows the rules as this project states them, so it cannot tell a rule that both misread. Run it in
`crates/anscheck`, on the built program, with a number that seeds the files and how many there shall be:

    python3 ../../tools/compare/second_why.py out/anscheck 1 10000

It prints each file of which a line or the status differs, and then how often each thing was said. Its
status is 1 if one differs.
"""
import collections
import random
import re
import struct
import subprocess
import sys

sys.dont_write_bytecode = True

import pens
from second_machine import (
    FAULTS, PARTS, Machine, Refused, a_content, a_piece, answer, fault_in, known_parts, needs_answer, play,
    printed_of, read, read_sequence, starts, unknown_cell,
)

MOST_LINES, MOST_COLUMNS, TRIED_ONE_BY_ONE = 8192, 1024, 24
OF_PLAYERS = re.compile(r"players: |players differ: |needs on all players: |everywhere: ")
MENDING = b"\x1b[?7h\x1b[0;37;40m\x1b[2J\x1b[H\x1b[s"
NAMES = {0: "<00>", 7: "<BEL>", 8: "<BS>", 9: "<TAB>", 10: "<LF>", 13: "<CR>", 27: "<ESC>", 32: "<SP>"}
LOW_GLYPHS = " ☺☻♥♦♣♠•◘○◙♂♀♪♫☼►◄↕‼¶§▬↨↑↓→←∟↔▲▼"
FONTS_OF_437 = [
    name + page
    for name in [b"IBM VGA", b"IBM VGA50", b"IBM VGA25G", b"IBM EGA", b"IBM EGA43"] for page in [b"", b" 437"]
]
LATER_COLOURS = {38, 48, *range(90, 98), *range(100, 108)}
OFF_SWITCHES = {22, 27, 39, 49}
CONVERT = ": convert the text to code page 437"
# Of each hint: its name here, what comes before the count, and what comes after the count and after the offset, of
# one thing and of more.
COUNTED_HINTS = [
    ("loose line feed", "", ("bare line feed makes a staircase", "bare line feeds make a staircase"),
     (": --crlf{some_bare}",) * 2),
    ("full row", "", ("full row is followed by a line end and leaves a blank row",
                      "full rows are followed by a line end and leave a blank row"),
     (": --join-rows{some_ended}",) * 2),
    ("wider row", "", ("row is wider than the screen", "rows are wider than the screen"),
     ("; they need at least {widest} columns: --columns {widest}",) * 2),
    ("overprint", "wrap is off, and ", ("character overprints the last column", "characters overprint the last column"),
     ("", "")),
    ("UTF-8", "", ("character looks like UTF-8", "characters look like UTF-8"), (CONVERT, CONVERT)),
    ("letter in UTF-8", "", ("letter looks like UTF-8", "letters look like UTF-8"), (CONVERT, CONVERT)),
    ("letter in Latin-1", "", ("letter looks like Latin-1", "letters look like Latin-1"), (CONVERT, CONVERT)),
    ("board code", "", ("bulletin-board colour code (|07, @X1F) is printed as text",
                        "bulletin-board colour codes (|07, @X1F) are printed as text"), ("", "")),
    ("later colour", "", ("sequence uses modern colours (38, 48, 90 to 97, 100 to 107)",
                          "sequences use modern colours (38, 48, 90 to 97, 100 to 107)"), ("", "")),
    ("off switch", "", ("sequence uses modern off switches (22, 27, 39, 49)",
                        "sequences use modern off switches (22, 27, 39, 49)"),
     (": write ESC[0m and the colours that stay",) * 2),
    ("blinking", "", ("character blinks", "characters blink"),
     ("; if it should have a bright background: --ice", "; if they should have bright backgrounds: --ice")),
    ("dark grey", "", ("character is dark grey on black", "characters are dark grey on black"),
     ("; some terminals show it as black", "; some terminals show them as black")),
]
# What may have happened to a text on its way, in the order of the lines: what comes after the count and after the offset.
PUT_THERE = ": put 1Bh there"
DAMAGE = {
    "lost": (("sequence has lost its ESC", "sequences have lost their ESC"),
             (": put 1Bh before its [", ": put 1Bh before each [")),
    "shown": (("sequence has ^[ or <- in place of ESC", "sequences have ^[ or <- in place of ESC"), (PUT_THERE, PUT_THERE)),
    "short": (("sequence begins with 9Bh", "sequences begin with 9Bh"), (": write ESC[ in its place",) * 2),
    "converted": (("character looks like Latin-1 that was made UTF-8", "characters look like Latin-1 that was made UTF-8"),
                  (": convert the text from UTF-8 to Latin-1",) * 2),
    "returns": (("return comes without a line feed", "returns come without line feeds"),
                (": put 0Ah after it", ": put 0Ah after each")),
    "mark": None,
    "wide": (("character looks like UTF-8", "characters look like UTF-8"), (CONVERT, CONVERT)),
}
NUMBERS = rb"[0-9][0-9;]*"
LOST_ESCAPE = re.compile(rb"\[" + NUMBERS + rb"[mHCJ]")
SHOWN_ESCAPE = re.compile(rb"(?:\^\[|<-)\[" + NUMBERS + rb"m")
SHORT_ESCAPE = re.compile(rb"\x9b" + NUMBERS + rb"m")
PAIR_OF_PAIRS = re.compile(rb"(?=(?:[\xc2\xc3][\x80-\xbf]){2})")
ROW_MOVE = re.compile(rb"\x1b\[[0-9;]*[HfAB]")
WIDE_CHARACTER = re.compile(rb"\xe2[\x80-\xaf][\x80-\xbf]")
MARK_LINE = "hint: the file begins with EF BB BF, the mark of UTF-8: remove these bytes"
BROKEN = ", but the rows look broken"
# Bytes that look as a blank does.
UNSEEN, DARK_GREY = {0x00, 0x20, 0xFF}, 0x08
LATIN_LETTERS = "äèéêñòóôöü".encode("latin-1")
LETTER_IN_UTF8 = re.compile(rb"[A-Za-z]\xc3(?:[\x80-\x96\x98-\xaf]|[\xb0-\xb6\xb8-\xbf](?=[A-Za-z]))")
LETTER_IN_LATIN1 = re.compile(rb"[A-Za-z][" + LATIN_LETTERS + rb"][a-z]")
BOARD_CODE = re.compile(rb"\|(?:[01][0-9]|2[0-3])[A-Za-z]|@X[0-9A-F]{2}")
KNOWN_FORMS = {
    "ANSI music": re.compile(rb"\x1b\[[MN|][A-Za-z0-9#+\-.<> ]{0,250}\x0e"),
    "a font selection": re.compile(rb"\x1b\[[0-9]+;[0-9]+ D"),
    "a 24-bit colour": re.compile(rb"\x1b\[[01];[0-9]+;[0-9]+;[0-9]+t"),
    "the switch for bright backgrounds": re.compile(rb"\x1b\[\?33[hl]"),
    "the switch that hides or shows the cursor": re.compile(rb"\x1b\[\?25[hl]"),
    "a screen mode of DOS": re.compile(rb"\x1b\[=[0-9]+[hl]"),
}
# What modern terminals do at a letter after ESC[ and numbers, and at a byte after ESC; and what to write for it.
MODERN = "a sequence of modern terminals: "
AT_LETTER = {
    "b": "repeats a character; write it out",
    "G`": "goes to a column; write ESC[row;columnH",
    "d": "goes to a row; write ESC[row;columnH",
    "X": "blanks cells; write blanks, then ESC[nD",
    "@": "inserts cells; write the row again",
    "P": "deletes cells; write the row again",
    "L": "inserts rows; write the rows again",
    "ST": "scrolls; write the rows again",
    "E": "starts a row below; write CR ESC[nB",
    "F": "starts a row above; write CR ESC[nA",
    "a": "goes right; write ESC[nC",
    "e": "goes down; write ESC[nB",
}
AFTER_ESCAPE = {
    b"\x1b7": "saves the place; write ESC[s",
    b"\x1b8": "goes to the saved place; write ESC[u",
    b"\x1bc": "resets; write ESC[0m ESC[2J ESC[?7h",
}
# Codes in place of sequences, each with what a file is called that has three of them. Those of AVATAR count in a file
# without ESC.
AVATAR_CODE = re.compile(rb"\x16(?=\x01)")
BOARD_FILES = {
    "text with PCBoard colour codes (@X1F)": re.compile(rb"@X(?=[0-9A-F]{2})"),
    "text with Renegade or Telegard colour codes (|07)": re.compile(rb"\|(?=(?:[01][0-9]|2[0-3])[^\x00-\x200-9|])"),
    "text with Wildcat colour codes (@1F@)": re.compile(rb"@(?=[0-9A-F]{2}@)"),
}
# Tokens that may stand between a glyph and its line end, and tokens that move within a row.
SILENT = {"bell", "save", "colours", "wrap", "erase"}
IN_A_ROW = {"backspace", "tab", "C", "D"}
PRINTING, SETS_COLUMN = {"glyph", "tab"}, {"return", "place", "restore"}
RECORD_FAULTS = {
    1: "no SAUCE record", 2: "SAUCE version is not 00", 3: "not Character/ANSi", 4: "comment block missing",
    5: "number of lines not stated", 6: "width above 1024", 7: "lines above 8192", 8: "bytes after the end mark",
}
LAYOUT = "<5s2s35s20s20s8sIBB4HBB22s"
Record = collections.namedtuple(
    "Record", "id version title author group date size kind subkind width lines info3 info4 comments flags font"
)


# What is shown of bytes, places, cells and numbers.


def shown(byte):
    """The character of code page 437; 00h is shown as a blank."""
    if byte < 0x20:
        return LOW_GLYPHS[byte]
    return "⌂" if byte == 0x7F else bytes([byte]).decode("cp437")


def quoted(text):
    """At most 32 bytes, those that ANSI.SYS does not print and the blank by name."""
    return "".join(NAMES.get(byte) or shown(byte) for byte in text[:32]) + (" .." if len(text) > 32 else "")


def place_text(machine):
    return f"row {machine.row + 1}, column {machine.column + 1}"


def cell_text(machine, row, column):
    byte, attribute = machine.rows[row][column]
    return f"byte {byte:02x}, attribute {attribute:02x}"


def fault_text(number, cell=None):
    place = f" (row {cell[0] + 1}, column {cell[1] + 1})" if cell else ""
    return f"F{number} {({**RECORD_FAULTS, **FAULTS})[number]}{place}"


def fault_line(offset, number, cell=None):
    """The line of a fault, as the other commands have it."""
    return f"at {offset}: {fault_text(number, cell)}"


def fault_told(offset, number, cell=None, blamed=b""):
    """A fault within a line, and the bytes to blame for it."""
    return f"at {offset}, {fault_text(number, cell)}" + (f": {quoted(blamed)}" if blamed else "")


def many(count, thing):
    return f"{count} {thing}" if count == 1 else f"{count} {thing}s"


# The bytes to blame, the lines, the mending and taller screens.


def to_blame(content, offset):
    """The bytes of the token here, or of what is refused here up to the byte that decides."""
    if content[offset] != 0x1B:
        return content[offset:offset + 1]
    try:
        return content[offset:read_sequence(content, offset)[1]]
    except Refused as refused:
        return content[offset:refused.args[1]]


def known_sequence(content, offset, number):
    """What the bytes from here on are known as, or None."""
    if number == 15:
        return "a reassigned key"
    known = next((name for name, form in KNOWN_FORMS.items() if form.match(content, offset)), None)
    return known or modern_sequence(content[offset:])


def modern_sequence(rest):
    """What modern terminals do at the bytes, or None."""
    does, numbers = AFTER_ESCAPE.get(rest[:2]), re.match(rb"\x1b\[[0-9;]*", rest)
    if re.match(rb"\x1b\[[0-9]+M", rest):
        does = "deletes rows; write the rows again"
    elif numbers and numbers.end() < len(rest):
        does = next((does for letters, does in AT_LETTER.items() if chr(rest[numbers.end()]) in letters), None)
    return MODERN + does if does else None


def known_file(file):
    """Which other kind of file the bytes are, or begin; or None."""
    if file.startswith(b"XBIN\x1a"):
        return "an XBin file"
    if file.startswith(b"PK\x03\x04"):
        return "a ZIP archive"
    if b"\x1b" not in file:
        if len(AVATAR_CODE.findall(file)) >= 3:
            return "a drawing in AVATAR codes"
        colours = sum(byte in set(range(1, 0x20)) - {10, 13} for byte in file[1::2])
        if len(file) >= 160 and colours >= len(file) // 4:
            return "BinaryText, pairs of a character and a colour"
    return next((name for name, code in BOARD_FILES.items() if len(code.findall(file)) >= 3), None)


def is_line(known):
    return ["is: " + known] if known else []


def cleared(width, lines):
    machine = Machine(width, 0, lambda: 0x00, lambda: (0, 0), True)
    machine.lines = lines
    return known_parts(machine, PARTS)


def passes_with(content, width, lines):
    """Whether it passes from the cleared start, where no cell stays unknown."""
    return fault_in(content, [cleared(width, lines)]) is None


def least_lines(chance, content, width):
    """The least number of lines with which the content passes, or None; or one below, if that is found to do."""
    for lines in range(1, TRIED_ONE_BY_ONE + 1):
        if passes_with(content, width, lines):
            return lines
    if not passes_with(content, width, MOST_LINES):
        return None
    refused, passes = TRIED_ONE_BY_ONE, MOST_LINES
    while passes - refused > 1:
        middle = (refused + passes) // 2
        refused, passes = (refused, middle) if passes_with(content, width, middle) else (middle, passes)
    below = [n for n in chance.choices(range(1, passes), k=3) if passes_with(content, width, n)]
    return min(below, default=passes)


def moves_freely(content, machines):
    """No move down is stopped by the bottom edge, and at each move up all stand in one row."""
    for _, token in read(content)[0]:
        if token[0] == "B" and any(machine.row + token[1] > machine.lines for machine in machines):
            return False
        if token[0] == "A" and len({machine.row for machine in machines}) > 1:
            return False
        play(token, machines)
    return True


def taller_lines(chance, content, width, lines, known, picture):
    """The line that says `same`, or none; and with it what speaks against it on a taller screen."""
    if not moves_freely(content, starts(chance, width, lines, known)):
        return []
    for taller in {lines + 1, lines + 2, lines + chance.randrange(3, 20), lines + chance.randrange(20, 90)}:
        machines = starts(chance, width, taller, known)
        fault = fault_in(content, machines)
        if fault:
            return [f"taller screens: same, but on {taller} lines {fault_told(*fault)}"]
        if any(cells_of(machine, lines) != picture for machine in machines):
            return [f"taller screens: same, but another picture on {taller} lines"]
    return ["taller screens: same"]


def cells_of(machine, lines):
    """The cells of the first lines, as `answer` writes them."""
    return ["".join(f"{byte:02x}{attribute:02x}" for byte, attribute in row) for row in machine.rows[:lines]]


def fix_line(chance, content, width, lines, picture):
    """The line of the fix; and what speaks against the safe beginning that it adds."""
    mended = answer(MENDING + content, starts(chance, width, lines, []))
    return "fix: anscheck mend" if mended == picture else f"fix: anscheck mend, but then {mended}"


# Hints.


class Rows:
    """The row that is being written, and the line ends before it.

    A line end is a line feed, or a return and then a line feed. Silent tokens may stand before it and inside it. A
    row that ended is told by its offset, its columns, and whether its last glyph wrapped."""

    def __init__(self, width):
        self.width = width
        self.begun = self.wraps = 0
        # Of the last token that prints or moves: a glyph that wrapped, or stayed in the last column; a return.
        self.has_wrapped, self.is_stuck, self.returned = False, False, None
        self.full, self.line_ends = 0, 0
        self.ended, self.over, self.overprints, self.returns = [], [], [], False
        # The full rows, and those with a line end, that something is printed behind.
        self.followed = 0, 0
        # The row to which the line end of the last full row led, if nothing was printed since.
        self.led_to = None

    def meet(self, offset, token, machine):
        """A token that stands here, before it is played."""
        name = token[0]
        if name in SILENT:
            return
        if name in ("glyph", "tab"):
            if self.led_to is not None and machine.row < self.led_to:
                # The cursor went up again, so the line end left no empty row.
                self.ended.pop()
            self.led_to = None
            self.followed = self.full, len(self.ended)
        here = offset, max(0, self.wraps * self.width + machine.column - self.begun), self.has_wrapped
        row, was_stuck = self.returned or here, self.is_stuck
        self.has_wrapped, self.is_stuck, self.returned = False, False, None
        if name == "glyph":
            is_last = machine.column == self.width - 1
            self.has_wrapped, self.is_stuck = is_last and machine.wrap, is_last and not machine.wrap
            self.full += self.has_wrapped
            self.wraps += self.has_wrapped
            self.overprints += [offset] if was_stuck else []
        elif name == "return":
            self.returned, self.returns = here, True
        elif name == "linefeed":
            self.end(*row)
            if row[2]:
                self.led_to = min(machine.row + 1, machine.lines)

    def end(self, offset, columns, is_full):
        self.line_ends += 1
        self.ended += [offset] if is_full else []
        self.over += [(offset, columns)] if columns > self.width else []

    def leave(self, token, machine):
        """The same token, after it is played: a row begins where it moved to another, or returned."""
        if token[0] not in SILENT | IN_A_ROW | {"glyph"}:
            self.begun, self.wraps = machine.column, 0

    def widest(self):
        """The columns of the drawing that these are the rows of, where it was made for more."""
        widest = max((columns for _, columns in self.over), default=0)
        are_most = 2 * len(self.over) > self.line_ends
        return widest if len(self.over) >= 4 and are_most and widest <= 2 * self.width else None

    def all_end(self):
        return self.followed[1] >= 2 and self.followed[0] == self.followed[1]

    def offsets(self):
        over = [offset for offset, _ in self.over] if self.widest() else []
        return {"full row": self.ended, "wider row": over, "overprint": self.overprints}


def is_wide(text):
    """The bytes begin with a character that takes three or four bytes in UTF-8, and the second is no shade."""
    try:
        return len(text) > 1 and text[0] >= 0xE0 and text[1] < 0xB0 and bool(text[:3 if text[0] < 0xF0 else 4].decode())
    except UnicodeDecodeError:
        return False


def hints_of_token(token, machine, content, offset, end):
    """The hints of a token that stands from here to there, each with its offset."""
    if token[0] == "linefeed":
        is_loose = machine.column > 0 and content[end:end + 1] != b"\r"
        return {"loose line feed": offset} if is_loose else {}
    if token[0] == "colours":
        if LATER_COLOURS & set(token[1]):
            return {"later colour": offset}
        return {"off switch": offset} if OFF_SWITCHES & set(token[1]) else {}
    if token[0] != "glyph":
        return {}
    found = {
        "UTF-8": (is_wide(content[offset:offset + 4]), offset),
        "letter in UTF-8": (LETTER_IN_UTF8.match(content, offset), end),
        "letter in Latin-1": (LETTER_IN_LATIN1.match(content, offset), end),
        "board code": (BOARD_CODE.match(content, offset), offset),
        "blinking": (machine.attribute & 0x80, offset),
        "seen": (token[1] not in UNSEEN, offset),
        "dark grey": (token[1] not in UNSEEN and machine.attribute == DARK_GREY, offset),
    }
    return {what: place for what, (is_there, place) in found.items() if is_there}


def columns_set(tokens):
    """For each token, whether a return, a place or a saved place comes after it before anything is printed."""
    answers, is_set = [], False
    for _, token in reversed(tokens):
        answers.append(is_set)
        if token[0] in PRINTING | SETS_COLUMN:
            is_set = token[0] in SETS_COLUMN
    return reversed(answers)


def rows_printed(token, machine):
    """Plays the token, and answers in which rows it prints."""
    if token[0] not in ("glyph", "tab"):
        machine.step(*token)
        return []
    rows = []
    for _ in range(8 - machine.column % 8 if token[0] == "tab" else 1):
        rows.append(machine.row)
        machine.put(0x20)
    return rows


class Hints:
    """The hints of the bytes before `last`, which are read as tokens and played on a screen of this size."""

    def __init__(self, content, last, width, lines):
        machine, rows, printed = cleared(width, lines), Rows(width), {-1}
        self.offsets = collections.defaultdict(list)
        tokens = read(content[:last])[0]
        ends = [offset for offset, _ in tokens[1:]] + [last]
        for (offset, token), end, is_set in zip(tokens, ends, columns_set(tokens)):
            for what, place in hints_of_token(token, machine, content, offset, end).items():
                if what != "loose line feed" or not is_set:
                    self.offsets[what].append(place)
            rows.meet(offset, token, machine)
            printed.update(rows_printed(token, machine))
            rows.leave(token, machine)
        self.offsets.update(rows.offsets())
        if 10 * len(self.offsets["dark grey"]) <= len(self.offsets["seen"]):
            self.offsets["dark grey"] = []
        self.widest, self.empty, self.rows = rows.widest(), lines - 1 - max(printed), rows
        self.is_converted = bool(damage_of(content)["converted"])
        straight_down = self.offsets["loose line feed"] and not rows.returns
        self.is_torn_besides = bool(straight_down or rows.all_end() or self.offsets["UTF-8"])
        self.torn = self.is_torn_besides or bool(self.widest)

    def leave_out_wider_rows(self):
        """What is printed takes just the stated lines, so rows over the edge are none."""
        self.offsets["wider row"], self.widest = [], None
        self.torn = self.is_torn_besides

    def lines(self, record, all_is_played, passes=False):
        """The lines of the hints, and that of the font. Of a drawing that passes with its last lines empty, too, wider
        rows are told."""
        if passes and self.empty == 0:
            self.offsets["wider row"] = []
        if record.flags & 1:
            self.offsets["blinking"] = []
        if has_latin_font(record):
            self.offsets["letter in Latin-1"] = []
        if self.is_converted:
            self.offsets["letter in UTF-8"] = []
        said = [
            "hint: " + counted_text(self.offsets[key], before, what, advice).format(
                widest=self.widest, some_bare=" --mixed" * self.rows.returns,
                some_ended=" --mixed" * (not self.rows.all_end()))
            for key, before, what, advice in COUNTED_HINTS if self.offsets[key]
        ]
        name = font_name(record)
        if name and name not in FONTS_OF_437:
            characters = "".join(map(shown, name))
            said.append(f"hint: the font {characters} is not a code page 437 font; some characters may look different")
        if all_is_played and self.empty > 0:
            rows = "line is" if self.empty == 1 else f"{self.empty} lines are"
            said.append(f"hint: the last {rows} empty")
        return said


def font_name(record):
    return record.font.partition(b"\0")[0].rstrip(b" ")


def has_latin_font(record):
    """The fonts of the Amiga and those of code page 819 have the letters of Latin-1."""
    return font_name(record).startswith(b"Amiga ") or font_name(record).endswith(b" 819")


def damage_of(content):
    """What may have happened to a text on its way: the offsets of each kind."""
    def at(form):
        return [found.start() for found in form.finditer(content)]
    many_pairs, returns = at(PAIR_OF_PAIRS), [place for place, byte in enumerate(content) if byte == 0x0D]
    found = {"lost": at(LOST_ESCAPE), "shown": at(SHOWN_ESCAPE), "short": at(SHORT_ESCAPE), "wide": at(WIDE_CHARACTER)}
    if b"\x1b" in content:
        found.update(lost=[], shown=[], short=[])
    found["lost"] = [] if len(found["lost"]) < 4 or len(found["shown"]) > 1 else found["lost"]
    for kind in ("shown", "short"):
        found[kind] = found[kind] if len(found[kind]) > 1 else []
    others = re.sub(rb"[\xc2\xc3][\x80-\xbf]", b"", content)
    found["converted"] = [] if len(many_pairs) < 8 or any(byte > 0x7F for byte in others) else many_pairs
    moves = returns and ROW_MOVE.search(content, returns[0])
    found["returns"] = [] if len(returns) < 4 or b"\n" in content or moves else returns
    return found


def damage_lines(content, kinds):
    """The lines of these kinds of damage."""
    found, said = damage_of(content), []
    for kind in kinds:
        if kind == "mark":
            said += [MARK_LINE] * content.startswith(b"\xef\xbb\xbf")
        elif found[kind]:
            said.append("hint: " + counted_text(found[kind], "", *DAMAGE[kind]))
    return said


def damage_told(content):
    """Those of a content with its record."""
    return damage_lines(content, [kind for kind in DAMAGE if kind != "wide"])


def counted_text(offsets, before, what, advice):
    """How many there are, and where the first is."""
    if len(offsets) == 1:
        return f"{before}1 {what[0]}, at {offsets[0]}{advice[0]}"
    return f"{before}{len(offsets)} {what[1]}, first at {offsets[0]}{advice[1]}"


def fitting_widths(content, width, lines, hints, least):
    """The widths on which a content without line ends needs exactly the stated lines, if it does not on the stated one:
    narrower ones if it leaves lines empty, and else wider ones."""
    if not lines or hints.rows.line_ends or hints.empty <= 0 and least(content, width) == lines:
        return []
    tried = dict.fromkeys([40, 80, 100, 120, 132, 160, 2 * width, 3 * width])
    on_side = [other for other in tried if (other < width if hints.empty > 0 else width < other <= MOST_COLUMNS)]
    return [other for other in on_side if other <= MOST_COLUMNS and least(content, other) == lines]


def are_exchanged(width, lines, rows):
    """The record may have the columns as lines, and the lines as columns."""
    return width < 40 and lines in (80, 132, 160) and rows.full > 0


def width_lines(content, width, lines, hints, least):
    """The lines on other widths, where the stated lines do not come out."""
    fits = fitting_widths(content, width, lines, hints, least)
    come = "1 stated line comes" if lines == 1 else f"{lines} stated lines come"
    said = [f"hint: with {other} columns the {come} out: --columns {other}" for other in fits]
    if are_exchanged(width, lines, hints.rows):
        said.append(f"hint: columns and lines may be exchanged in the record: --columns {lines} --lines {width}")
    return said


def enough_lines(content, width, least, record):
    """The hints of all of the content on so many lines, and the line that says how many."""
    hints = Hints(content, len(content), width, least)
    if record.lines and least - record.lines == hints.empty:
        hints.leave_out_wider_rows()
    widths = width_lines(content, width, record.lines, hints, pens.least_lines)
    return hints.lines(record, True) + widths + [f"lines: {least}" + BROKEN * (hints.torn or bool(widths))]


# The record.


def record_of(file):
    return Record._make(struct.unpack(LAYOUT, file[-128:]))


def block_size(record):
    return 5 + 64 * record.comments if record.comments else 0


def body_of(file, record):
    """What stands before the comments that the record counts."""
    return file[:max(0, len(file) - 128 - block_size(record))]


def note_lines(body, record):
    size = len(body.partition(b"\x1a")[0])
    notes = {
        "width 0 taken as 80": record.width == 0,
        "no end mark after the content": b"\x1a" not in body,
        "file size differs from the content": record.size not in (size, size + 1),
        "date is not eight digits": not record.date.isdigit(),
        "flag bits 5 to 7 are not zero": record.flags >> 5,
        "a flag pair is 11": record.flags & 0x06 == 0x06 or record.flags & 0x18 == 0x18,
    }
    return [f"note: {note}" for note in notes if notes[note]]


def known_behind(behind):
    """What the bytes behind the end mark are known as, or None."""
    if has_whole_record(behind):
        later = behind[behind.find(b"SAUCE00") + 128:].lstrip(b"\x1a")
        return "another drawing" if may_be_drawing(later) else "an older record"
    rest = behind.lstrip(b"\x1a")
    if rest.startswith(b"COMNT") and len(rest) > 5 and len(rest) % 64 == 5:
        return "comments that the record does not count"
    drawing = behind.rstrip(b"\x1a")
    controls = sum(byte < 0x20 and byte not in b"\r\n\x1b" for byte in drawing)
    is_arrow = b"\x1a" not in drawing and may_be_drawing(drawing) and 100 * controls <= 2 * len(drawing)
    return "an arrow in the drawing" if is_arrow else None


def may_be_drawing(rest):
    return not rest.startswith((b"COMNT", b"SAUCE")) and any(byte > 0x20 for byte in rest)


def has_whole_record(behind):
    """The first `SAUCE00`, if there is one, has 121 bytes behind it."""
    return 0 <= behind.find(b"SAUCE00") <= len(behind) - 128


def last_record(file):
    """The place of the last `SAUCE00` with 121 bytes after it, and with no other less than 128 bytes before; or -1."""
    places = [found.start() for found in re.finditer(b"SAUCE00", file[:max(0, len(file) - 121)])]
    counted = [place for before, place in zip([-128] + places, places) if place - before >= 128]
    return counted[-1] if counted else -1


def missing_record(file):
    """F1, and where a record stands all the same, or what is left of one."""
    place, left = last_record(file), file.rfind(b"SAUCE00")
    if place < 0:
        remains = f"what is left of a record, at {left}, {many(len(file) - left, 'byte')}"
        return len(file), 1, remains if left >= 0 else None
    pairs = file[place:].count(b"\r\n")
    if pairs and len(file) - place == 128 + pairs:
        them = "a return that" if pairs == 1 else "returns that"
        grown = f"{len(file) - place} bytes, {pairs} of them {them} a transfer as text may have put in"
        return len(file), 1, f"a record at {place}, {grown}"
    return len(file), 1, f"a record at {place}, and {many(len(file) - place - 128, 'byte')} after it"


def record_fault(file):
    """The first fault of the record or the layout, with its offset and with what is found; or None."""
    at = len(file) - 128
    if at < 0 or file[at:at + 5] != b"SAUCE":
        return missing_record(file)
    record = record_of(file)
    body, size = body_of(file, record), block_size(record)
    behind = body.partition(b"\x1a")[2]
    rest = behind.lstrip(b"\x1a")
    has_comments = size <= at and file.startswith(b"COMNT", at - size)
    has_record = "with an older record" if has_whole_record(behind) else "without a record"
    faults = [
        (record.version != b"00", at + 5, 2, "version " + "".join(map(shown, record.version))),
        ((record.kind, record.subkind) != (1, 1), at + 94, 3, f"data type {record.kind}, file type {record.subkind}"),
        (size and not has_comments, at + 104, 4, many(record.comments, "comment") + " stated"),
        (record.lines == 0, at + 98, 5, "0 lines stated"),
        (record.width > MOST_COLUMNS, at + 96, 6, many(record.width, "column") + " stated"),
        (record.lines > MOST_LINES, at + 98, 7, many(record.lines, "line") + " stated"),
        (rest, len(body) - len(rest), 8, many(len(behind), "byte") + " after the end mark, " + has_record),
    ]
    return next((fault[1:] for fault in faults if fault[0]), None)


# The text.


def reliance_lines(chance, content, width, lines):
    """What is said of content that passes from the cleared start and not from every one."""
    machines = starts(chance, width, lines, [])
    low, high = machines[:2]
    fault = fault_in(content, machines)
    if fault:
        said = fault_told(*fault, blamed=to_blame(content, fault[0]))
        shown_low, shown_high = place_text(low), place_text(high)
    else:
        cell = unknown_cell(machines)
        said = fault_told(len(content), 25, cell)
        shown_low, shown_high = cell_text(low, *cell), cell_text(high, *cell)
    return ["because: " + said, "from the top left: " + shown_low, "from the bottom right: " + shown_high]


def pass_lines(chance, content, width, lines, needs, picture):
    known = [part for part in PARTS if part in needs.split()]
    said = ["verdict: pass on a cleared screen" if known else "verdict: pass"] + is_line(known_file(content)) + [needs]
    said += reliance_lines(chance, content, width, lines) if known else []
    return said + taller_lines(chance, content, width, lines, known, picture)


def refusal_lines(chance, content, width, lines, record):
    """The lines of a refusal. If no number of lines is enough, the hints are those of a front."""
    machine = cleared(width, lines)
    offset, number = fault_in(content, [machine])
    blamed, known = to_blame(content, offset), known_sequence(content, offset, number)
    said = ["verdict: refused", "fault: " + fault_told(offset, number, blamed=blamed)]
    said += is_line(known or known_file(content))
    said.append("cursor: " + place_text(machine))
    said += damage_told(content)
    least = least_lines(chance, content, width) if 19 <= number <= 21 else None
    if least:
        return said + enough_lines(content, width, least, record)
    last = offset if 9 <= number <= 14 else offset + len(blamed)
    return said + Hints(content, last, width, lines).lines(record, False)


def record_lines(chance, file, offset, number, found):
    """The lines of a file whose record or layout is refused."""
    said = ["verdict: refused", "fault: " + fault_told(offset, number)] + ([f"found: {found}"] if found else [])
    known = known_file(file)
    damage = list(DAMAGE)
    whole = damage_lines(file.partition(b"\x1a")[0], damage)
    if number not in (5, 8):
        return said + is_line(known) + whole
    record = record_of(file)
    content, mark, behind = body_of(file, record).partition(b"\x1a")
    said += is_line(known or (known_behind(behind) if number == 8 else None))
    if number == 8 or record.width > MOST_COLUMNS or behind.strip(b"\x1a"):
        return said + whole
    width = record.width or 80
    least = least_lines(chance, content, width)
    if not least:
        return said + whole
    return said + damage_lines(file.partition(b"\x1a")[0], damage[:-1]) + enough_lines(content, width, least, record)


def why(chance, file):
    """The whole text, line by line, and the status."""
    fault = record_fault(file)
    if fault:
        return record_lines(chance, file, *fault), 1
    record = record_of(file)
    body = body_of(file, record)
    content, width, lines = body.partition(b"\x1a")[0], record.width or 80, record.lines
    heading = [f"size: {width} x {lines}"] + note_lines(body, record)
    picture = answer(content, [cleared(width, lines)])
    if isinstance(picture, str):
        return heading + refusal_lines(chance, content, width, lines, record), 1
    needs = needs_answer(chance, content, width, lines)
    said = pass_lines(chance, content, width, lines, needs, picture)
    said += damage_told(content)
    hints = Hints(content, len(content), width, lines)
    said += hints.lines(record, True, passes=True)
    said += width_lines(content, width, lines, hints, pens.least_lines) if hints.empty > 0 or width < 40 else []
    said += [fix_line(chance, content, width, lines, picture)] if needs != "needs: nothing" else []
    return heading + said, 0


# Contents.


def a_silent_piece(chance):
    """Nothing, or something that mostly neither prints nor moves."""
    if chance.random() < 0.6:
        return b""
    silent = [b"\x1b[0m", b"\x1b[0m", b"\x1b[1;33m", b"\x1b[s", b"\x07", b"\x1b[?7h"]
    return b"".join(chance.choices(silent * 3 + [b"\x1b[K", b"\x1b[C", b"\b", b"\x1b[u"], k=chance.choice([1, 1, 2])))


def a_line_end(chance):
    """A line end, or what is nearly one."""
    end = chance.choice([b"\r\n"] * 6 + [b"\n"] * 3 + [b"\n\r", b"\r", b"\r\r\n", b""])
    return a_silent_piece(chance) + a_silent_piece(chance).join(bytes([byte]) for byte in end)


def some_rows(chance, width):
    """Rows of one length or two, which are that of the screen or not, and their line ends, mostly of one kind."""
    over = chance.choices([0, 0, 0, -1, -2, 1, 1, 2, width // 2, width, width + 1], k=chance.choice([1, 1, 1, 2]))
    end, text = a_line_end(chance), b""
    for number in range(chance.choice([1, 1, 2, 3, 3, 4, 4, 5])):
        usual = over[number % len(over)]
        count = max(0, width + (usual if chance.random() < 0.9 else chance.choice([-1, 0, 1, 2, 3])))
        row = bytes([chance.choice(b"AB\xdb")]) * count
        cut = chance.randrange(count + 1)
        text += row[:cut] + a_silent_piece(chance) * (chance.random() < 0.2) + row[cut:]
        text += end if chance.random() < 0.9 else a_line_end(chance)
    return text if chance.random() < 0.7 else text.removesuffix(end)


def a_wrap_off_row(chance, width):
    """A row that goes on over the edge with wrap off."""
    row = [b"A"] * (width + chance.choice([-1, 0, 1, 1, 2]))
    row.insert(chance.randrange(len(row) + 1), a_silent_piece(chance))
    return b"\x1b[?7l" + b"".join(row) + chance.choice([b"\r\n", b"\x1b[?7h", b""])


def a_far_move(chance, width):
    """Moves far down, and now and then more of them than any screen has lines for."""
    many_moves = chance.choice([1, 1, 1, 2, 5, 31, 32, 33])
    return b"\x1b[255B" * many_moves + b"\x1b[%dB" % chance.randrange(1, 256)


def a_long_sequence(chance):
    """A sequence of about as many bytes as are shown of one, whole or broken."""
    text = b"\x1b[" + chance.choice([b"0" * chance.randrange(20, 40), b"1;" * chance.randrange(10, 16)])
    keys = b"\x1b[13;\"" + bytes(chance.choices(b"dir\r\x07\t\x00\x7f", k=chance.randrange(32))) + b"\";13p"
    return chance.choice([text + b"A", text + b"m", text + b"?", text + b"257A", text + b"m", keys])


def a_known_form(chance):
    """A sequence of which `why` says what it is, or one that is nearly so."""
    digits = [b"%d" % chance.choice([0, 1, 3, 25, 33, 255, 256, 70000]) for _ in range(3)]
    notes = chance.choices(b"ABCDEFGLMNOPTmno0123456789#+-.<> ", k=chance.choice([0, 1, 9, 30, 249, 250, 251]))
    forms = [
        chance.choice([b"M", b"M", b"N", b"|", b"L"]) + bytes(notes) + chance.choice([b"\x0e"] * 3 + [b"", b"!"]),
        digits[0] + b";" + digits[1] + chance.choice([b" D", b" D", b" D", b"D", b"  D", b" E"]),
        chance.choice([b"0", b"1", b"1", b"2", b"01"]) + b";" + b";".join(digits[:chance.choice([2, 3, 3, 3])]) + b"t",
        b"?33" + chance.choice([b"h", b"l", b"h", b";h", b"m"]),
        b"?25" + chance.choice([b"l", b"h", b"l", b"5l", b"n"]),
        chance.choice([b"=", b"=", b"=", b"?", b""]) + digits[0] + chance.choice([b"h", b"l", b"h", b"m"]),
        b"13;" + chance.choice([b'"dir"', b"65", b"'p'", b""]) + b"p",
        *[
            chance.choice([b"", b"1", b"3", b"999", b"2;5", b";", b"?2", b"!"]) + bytes([letter])
            for letter in chance.choices(b"bG`dX@PLMMSTEFaeIZ", k=4)
        ],
    ]
    if chance.random() < 0.06:
        return b"\x1b" + chance.choice([b"7", b"8", b"c", b"9", b"C", b""])
    form = b"\x1b[" + chance.choice(forms)
    return form if chance.random() < 0.9 else form[:chance.randrange(2, len(form) + 1)]


def a_foreign_code(chance):
    """A letter or a code of another system, or what is nearly one."""
    kind = chance.random()
    if kind < 0.3:
        second = chance.choice([0x7F, 0x80, 0x96, 0x97, 0x98, 0xA9, 0xB6, 0xB7, 0xB8, 0xBF, 0xC0])
        return bytes([chance.choice(b"AZaz@[`{"), chance.choice([0xC3, 0xC3, 0xC3, 0xC2, 0xC4]), second])
    if kind < 0.6:
        middle = chance.choice([0xE3, 0xE4, 0xE5, 0xE7, 0xE8, 0xE9, 0xEA, 0xEB, 0xF0, *range(0xF1, 0xFE)])
        return bytes([chance.choice(b"amzamzA`{"), middle, chance.choice(b"amzamzZ`{")])
    if kind < 0.8:
        number = chance.choice([b"00", b"07", b"15", b"19", b"20", b"23", b"24", b"30", b"7", b"0a", b""])
        return b"|" + number + chance.choice([b"T", b"z", b"A", b"[", b"1", b"\xdb", b""])
    number = chance.choice([b"1F", b"0a", b"F9", b"1G", b"g1", b"7"])
    return b"@" + chance.choice([b"X", b"X", b"X", b"x", b""]) + number


def a_damaged_text(chance):
    """Sequences that lost their ESC or have others in its place, letters of other encodings, returns alone; or nearly."""
    kind, count = chance.random(), chance.choice([1, 2, 3, 4, 5, 8, 9])
    numbers = [b"0", b"1;33", b"0;1;30;44", b"", b"12;", b";1"]
    if kind < 0.4:
        escapes = [b"", b"", b"^[", b"<-", b"\x1b", b"^", b"<", b"\x9b", b"\x9b"]
        escape, letters = chance.choice(escapes), chance.choice([b"m", b"m", b"mHCJ", b"mA"])
        bracket = b"" if escape == b"\x9b" else b"["
        return b"".join(
            escape + bracket + chance.choice(numbers) + bytes([chance.choice(letters)]) + b"A" * chance.randrange(2)
            for _ in range(count))
    if kind < 0.6:
        text = bytes(chance.choices(b"\xdb\xb0\xc4\xe9\x80\xbf", k=2 * count)).decode("latin-1").encode()
        return text + chance.choice([b"", b"", b"\xdb", b"A"])
    if kind < 0.75:
        return b"".join(chance.choice([b"AB\r", b"A\r", b"\r"]) for _ in range(count)) + chance.choice([b"", b"", b"\n"])
    if kind < 0.9:
        return b"".join(chance.choice([b"Z\xfcr", b"\xfcr", b"Z\xfcR", b"M\xe4d"]) for _ in range(count))
    return chance.choice(["█▓→".encode(), "é█".encode(), b"\xe2\x96", b"\xef\xbb\xbf", b"\xef\xbb"])


def another_file(chance):
    """Bytes of another kind of file, or nearly so."""
    kind, count = chance.random(), chance.choice([1, 2, 3, 3, 4, 5])
    if kind < 0.2:
        return chance.choice([b"XBIN\x1a", b"XBIN", b"XBIN\x1b", b"PK\x03\x04", b"PK\x03", b"PK\x05\x06"]) + b"AB"
    if kind < 0.4:
        codes = [b"\x16\x01\x1fA", b"\x16\x01\x07B", b"\x16\x01\x16\x01", b"\x16\x02", b"\x16\x08\x01", b"\x19A\x05"]
        return b"".join(chance.choices(codes, [4, 4, 1, 1, 1, 1], k=count + 1))
    if kind < 0.6:
        colours = chance.choice([b"\x07", b"\x07\x1f", b"\x07\x70", b"\x07\x0fp", b"\x07\n\r", b"\x07pp", b"\x1a\x07"])
        pairs = chance.choice([5, 79, 80, 80, 81, 100])
        return b"".join(bytes([chance.choice(b"AB \xdb\x07"), chance.choice(colours)]) for _ in range(pairs))
    codes = chance.choice([
        [b"@X1F", b"@X07A", b"@X0G", b"@X0f"], [b"@1F@", b"@07@A", b"@0G@", b"@1F"],
        [b"|07A", b"|15\xdb", b"|23[", b"|24A", b"|07|", b"|07 ", b"|07"], [b"@X1F", b"@1F@", b"|07A"],
    ])
    return b"".join(chance.choices(codes, k=count + 1))


def a_why_piece(chance, width, lines):
    """A few bytes of which something is said besides the verdict."""
    kind = chance.random()
    if kind < 0.34:
        return some_rows(chance, width)
    if kind < 0.38:
        return a_wrap_off_row(chance, width)
    if kind < 0.45:
        characters = [chr(n).encode() for n in (0x7F, 0x80, 0x7FF, 0x800, 0x2588, 0xFFFF, 0x10000, 0x10FFFF)]
        wrong = [b"\xe0\x80\x80", b"\xed\xa0\x80", b"\xf0\x80\x80\x80", b"\xf4\x90\x80\x80", b"\xf8\x88\x80\x80\x80"]
        text = chance.choice(characters + characters + wrong)
        return text if chance.random() < 0.8 else text[:-1]
    if kind < 0.47:
        return another_file(chance)
    if kind < 0.51:
        return a_damaged_text(chance)
    if kind < 0.57:
        return b"".join(a_foreign_code(chance) for _ in range(chance.choice([1, 2, 3])))
    if kind < 0.66:
        if chance.random() < 0.4:
            dark = chance.choice([b"0;1;30;40", b"0;1;30;40", b"1;30", b"0;30", b"0;1;30;44", b"0;5;1;30"])
            text = bytes(chance.choices(b"A  \xff\x00", k=chance.choice([1, 1, 2, 5])))
            return b"\x1b[" + dark + b"m" + text + chance.choice([b"", b"\x1b[0m", b"\x1b[0mAAAAAAAAA"])
        numbers = [b"5", b"5", b"38;5;208", b"48", b"37", b"39", b"89", b"90", b"97", b"98", b"100", b"107", b"108"]
        return b"\x1b[" + chance.choice(numbers) + b"m"
    if kind < 0.71:
        return b"\x1b[%d;1H" % chance.randrange(lines, lines + 30)
    if kind < 0.76:
        return b"\x1b[%d%c" % (chance.randrange(1, 2 * lines), chance.choice(b"AB"))
    if kind < 0.80:
        return chance.choice([b"\x1b[u", b"\x1b[s", b"\x1b[255A\x1b[255D", b"\x1b[2J"])
    if kind < 0.86:
        return a_far_move(chance, width) if chance.random() < 0.3 else b"\t" * chance.randrange(1, 3)
    return a_known_form(chance) if chance.random() < 0.85 else a_long_sequence(chance)


def a_why_content(chance, width, lines):
    """A content as `check` is tried on, or one of more pieces."""
    known = chance.sample(PARTS, chance.randrange(len(PARTS) + 1))
    content = a_content(chance, width, lines, known) if chance.random() < 0.7 else b""
    for _ in range(chance.choice([0, 0, 1, 2, 3, 5, 8])):
        piece = a_why_piece(chance, width, lines) if chance.random() < 0.7 else a_piece(chance, width, lines)
        content = content + piece if chance.random() < 0.9 else piece + content
    return content


# Files.


def a_font(chance):
    if chance.random() < 0.7:
        return b""
    odd = [b"IBM VGA 866", b"IBM VGA 437 ", b"Amiga Topaz 1", b"Amiga Topaz 1", b"IBM VGA 819", b"Amiga", b"IBM 8190", b"ibm vga", b" IBM VGA", b"A\0\xb0", b"IBM VGA50 4377"]
    field = chance.choice(FONTS_OF_437 + odd + [b" " * 22, b"\x1b" * 22])
    behind = [b"", b"", b"\0 866", b" \0\xb0", b"\0\0437"]
    return (field + chance.choice(behind))[:22]


def a_record(chance, width, lines, size):
    """A record of a content of this size, mostly with a font and flags alone."""
    flags, font = chance.choice([0, 0, 0, 1, 2, 8]), a_font(chance)
    plain = Record(
        b"SAUCE", b"00", b" " * 35, b" " * 20, b" " * 20, b"19960101", size, 1, 1, width, lines, 0, 0, 0, flags, font
    )
    if chance.random() < 0.7:
        return plain
    dates = [b"19960101", b"1996010a", b"        ", bytes(8), b"/9960101", b"1996010:", b"00000000"]
    sizes = [size, size + 1, size + 2, max(0, size - 1), 0, size + 65536, size + 128]
    return plain._replace(
        date=chance.choice(dates), size=chance.choice(sizes), flags=chance.choice([flags, chance.randrange(256)]),
        width=0 if chance.random() < 0.1 else width,
    )


def packed(record):
    return struct.pack(LAYOUT, *record)


def behind_the_end_mark(chance, record):
    """Bytes that are no end marks alone, or that are."""
    older, long = packed(record), b"A" * chance.randrange(40, 110)
    notes = b"COMNT" + b"a comment".ljust(64 * chance.choice([0, 1, 1, 2]) + chance.choice([0, 0, 0, 1, -1]))
    some = [
        older, older + b"\x1a", older[:127], older + b"\x1b[0mAB\x1a",
        older + b"\x1a" + chance.choice([b"A", b" ", older]), older + chance.choice([notes, b"COMNT", b"SAUC"]),
        older + chance.choice([b"\x1aAB" + older + b"\x1a", b"A" + older]),
        long + b"\x01" * chance.choice([0, 1, 1, 2, 3]) + chance.choice([b"\x1a", b"\x1a\x1a", b"\x1aA"]),
        b"AB\x1a", b"AB\x1a\x1a", b"\r\n\x1b[0mAB\x1a", b"\x1aAB\x1a",
        b"COMNT".ljust(69) + older, older[5:], notes, notes, notes + b"\x1a",
        b"\x1b[0mAB\r\n", b" ", b"\r\n \0", b"!", b"AB\x1aAB", b"\x1a" + b"A" * chance.randrange(70), b"",
    ]
    return b"\x1a" * chance.choice([0, 0, 1, 2]) + chance.choice(some)


def a_broken_file(chance, content, record):
    """A file whose record is refused, or the layout of which is odd."""
    kind = chance.random()
    if kind < 0.1:
        fields = record._replace(group=chance.choice([b"a\nb", b"\n\n", b"ab"]).ljust(20), lines=chance.choice([10, 9, 13]))
        text = content + b"\x1a" + packed(fields)
        return chance.choice([text.replace(b"\n", b"\r\n"), text.replace(b"\r", b""), text + b"\r\n"])
    if kind < 0.2:
        file = content + b"\x1a" + packed(record)
        cut = file[:-chance.randrange(1, 129)]
        return file + b"\n" * chance.choice([1, 1, 2, 130]) if chance.random() < 0.7 else cut
    if kind < 0.3:
        return content + b"\x1a" + packed(record._replace(version=chance.choice([b"01", b"0 ", b"\x00\xdb"])))
    if kind < 0.4:
        return content + b"\x1a" + packed(record._replace(kind=chance.randrange(7), subkind=chance.randrange(4)))
    if kind < 0.7:
        count, there = chance.choice([1, 1, 2, 255]), chance.choice([0, 1, 1, 2])
        block = (b"COMNT" + b"a comment".ljust(64 * there)) * (there > 0)
        return content + b"\x1a" + block + packed(record._replace(comments=count))
    if kind < 0.8:
        return content + b"\x1a" + packed(record._replace(width=chance.choice([1024, 1025, 65535]), lines=0))
    if kind < 0.9:
        return content + b"\x1a" + packed(record._replace(width=chance.choice([1025, 65535])))
    return content + b"\x1a" + packed(record._replace(lines=chance.choice([8193, 65535])))


def a_file(chance):
    """A content with its record. Some are refused for that record, or for what stands between the two. Others are of
    another kind, with a record or without one."""
    if chance.random() < 0.04:
        content = another_file(chance) + a_why_content(chance, 80, 9) * (chance.random() < 0.3)
        record = packed(a_record(chance, 80, 9, len(content)))
        return content + chance.choice([b"", b"\x1a" + record, b"\x1a" + record, record, b"\x1a", record[:100]])
    width = chance.randrange(*chance.choices([(1, 5), (5, 21), (21, 81)], [50, 47, 3])[0])
    lines = chance.randrange(1, 7)
    content = a_why_content(chance, width, lines)
    content = b"\xef\xbb\xbf" + content if chance.random() < 0.01 else content
    record = a_record(chance, width, lines, len(content))
    kind = chance.random()
    if kind < 0.04:
        return a_broken_file(chance, content, record)
    if kind < 0.16:
        record = record._replace(lines=0)
    if kind < 0.08 or 0.16 < kind < 0.22:
        return content + b"\x1a" + behind_the_end_mark(chance, record) + packed(record)
    return content + b"\x1a" * chance.choice([1] * 18 + [0, 2]) + packed(record)


def kinds_of(said):
    """What the lines are counted as."""
    keys = [line.partition(": ")[0] for line in said]
    for key, line in zip(keys, said):
        rest = line[len(key) + 2:]
        if key in ("fault", "because"):
            number = re.match(r"at \d+, (F\d+)", rest)[1]
            yield number + (" in a tab" if rest.endswith(": <TAB>") else "")
            if number in ("F5", "F19", "F20", "F21") and "lines" not in keys:
                yield "no lines for F5" if number == "F5" else "no lines"
        elif key == "lines":
            yield "lines above 24" if int(re.match(r"\d+", rest)[0]) > TRIED_ONE_BY_ONE else "lines up to 24"
            yield ("torn" if rest.endswith(BROKEN) else "not torn") + (" of F5" if "size" not in keys else "")
        elif key == "hint":
            others = "font" if rest.startswith("the font") else "empty lines"
            rows = [*COUNTED_HINTS, *((kind, "", *texts) for kind, texts in DAMAGE.items() if texts)]
            others = "the mark of UTF-8" if line == MARK_LINE else others
            yield "hint: " + next((name for name, _, what, _ in rows if any(w in rest for w in what)), others)
        elif key == "found":
            yield "found: " + re.search("what is left|a record at|transfer|version|data type|comment|line|column|with.*", rest)[0]
        elif key in ("verdict", "taller screens", "fix", "is", "note"):
            yield line


def without_last_lines(program, file, lines):
    """The lines without those on the command that fixes a refused file and on more help; these as they are if wrong.

    The command has to write a file that passes, and the help is that of the fault."""
    fault = next((re.search(r", (F\d+) ", line)[1] for line in lines if line.startswith("fault: ")), None)
    if not fault or lines[-1] != f"more: anscheck help {fault}":
        return lines
    lines = lines[:-1]
    if not lines[-1].startswith("fix: anscheck mend"):
        return lines
    made = subprocess.run([program, *lines[-1].split()[2:]], input=file, capture_output=True)
    passes = made.returncode == 0 and subprocess.run([program, "check"], input=made.stdout, capture_output=True).returncode == 0
    return lines[:-1] if passes else lines


def main(program, seed, count):
    chance = random.Random(int(seed))
    seen, met, differing = collections.Counter(), set(), 0
    for _ in range(int(count)):
        file = a_file(chance)
        expected = why(chance, file)
        lines, status = printed_of([program, "why"], file)
        lines = without_last_lines(program, file, lines)
        printed = [line for line in lines if not OF_PLAYERS.match(line)], status
        seen.update(kinds_of(expected[0]))
        met.update(line for line in expected[0] if line.startswith("needs: "))
        if expected != printed:
            differing += 1
            print(f"{file}: {expected}, not {printed}")
    counts = ", ".join(f"{n} {kind}" for kind, n in seen.most_common())
    print(f"{differing} of {count} differ, in {len(met)} classes; {counts}")
    return differing > 0


if __name__ == "__main__":
    sys.exit(main(*sys.argv[1:]))
