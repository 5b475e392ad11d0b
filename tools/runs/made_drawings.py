#!/usr/bin/env python3
"""Makes drawings with mistakes that artists make, and compares what `why` says of each with the tables below.

Each is made as a program would save it: a content of 20 rows or so, an end mark, and a record of 80 columns and of
the lines that the artist would state. Run it in `crates/anscheck`, after `rt run -- check --cleared data/hi.ans` has
built the program:

    python3 ../../tools/runs/made_drawings.py out/anscheck

There are three tables: drawings with a mistake; drawings as they were meant, of which nothing is said; and drawings
as they were meant of which a hint speaks all the same. What is to be said follows from the definitions
(`ans_hints/specs`, `ans_why/specs`), by counting. Each drawing sets wrap, colours and screen first, so it relies on
nothing. The script prints each difference and the number of drawings, and then, where the drawings of Debian's
package `ansilove` are installed, which hints speak of these. Its status is 1 where one differs. It is outside the
gate.
"""
from dataclasses import dataclass
import glob
import os
import re
import struct
import subprocess
import sys

EXAMPLES = "/usr/share/doc/ansilove/examples/*/*.ans"
COMPARED = ("because", "fault", "found", "is", "note", "hint", "lines")
FAULT = re.compile(r"fault: at \d+, F\d+ [^:]*")
# Wrap, colours and screen are set, by 13 bytes. So what follows stands at offset 13.
SAFE = b"\x1b[?7h\x1b[0m\x1b[2J"
CRLF = b"\r\n"
PIPE_CODES = "is: text with Renegade or Telegard colour codes (|07)"


@dataclass
class Drawing:
    """A drawing, what its record states, and the lines of `why` that are to be said of it."""

    what: str
    content: bytes
    said: tuple = ()
    width: int = 80
    lines: int = 20
    flags: int = 0
    font: bytes = b"IBM VGA"
    comments: int = 0
    # What stands between the content and the record, and by how much the stated file size is wrong.
    behind: bytes = b"\x1a"
    size_off: int = 0

    def file(self):
        size = len(self.content) + self.size_off
        return self.content + self.behind + record(
            self.width, self.lines, size, self.comments, self.flags, self.font
        )


def record(width, lines, size, comments=0, flags=0, font=b"IBM VGA"):
    """A SAUCE 00.5 record of type Character/ANSi, without texts."""
    return b"SAUCE00" + b" " * 75 + b"19960101" + struct.pack(
        "<IBB4HBB22s", size, 1, 1, width, lines, 0, 0, comments, flags, font
    )


# Rows.


def shaded(row, columns):
    """A row of shades and blocks, which stand aslant."""
    return bytes(b"\xb0\xb1\xb2\xdb\xdc\xdf"[(column // 3 + row) % 6] for column in range(columns))


def rows(columns, end=CRLF, count=20):
    """Rows of so many columns, or of those that a list names in turn, and what stands behind each."""
    widths = columns if isinstance(columns, list) else [columns]
    return b"".join(shaded(row, widths[row % len(widths)]) + end for row in range(count))


def mixed(widths, end=CRLF):
    """As drawing programs save rows: a full one has no line end."""
    return b"".join(shaded(row, width) + (b"" if width == 80 else end) for row, width in enumerate(widths))


def texts(text, encoding="cp437"):
    """Twenty rows of a text."""
    return (text.encode(encoding) + CRLF) * 20


SHORT = SAFE + rows(60)
FULL = SAFE + rows(80)
COMMENTS = b"COMNT" + b"Made for a friend.".ljust(64) + b"Do not change it.".ljust(64)
# Each character takes three bytes in UTF-8.
BOXES = "█▓▒░╔═╗║╚╝─│┌┐└┘├┤┬┴┼▀▄▌▐■" * 3
WORDS = "  Crème brûlée, señor, für den schönen Garten"
RULE = "═" * 80


def table_of(*headings):
    """A table: above each heading a rule of 80 columns, which has no line end."""
    return b"".join((RULE + heading).encode("cp437") + CRLF for heading in headings)


# What is said.


def counted(one, more, count, first, advice="", before=""):
    what, where = (one, "at") if count == 1 else (more, "first at")
    return f"hint: {before}{count} {what}, {where} {first}{advice}"


def loose(count, first):
    return counted("bare line feed makes a staircase", "bare line feeds make a staircase", count, first, ": --crlf")


def full(count, first, mixed=False):
    return counted(
        "full row is followed by a line end and leaves a blank row",
        "full rows are followed by a line end and leave a blank row", count, first, ": --join-rows" + " --mixed" * mixed)


def wider(count, first, columns):
    return counted(
        "row is wider than the screen", "rows are wider than the screen", count, first,
        f"; they need at least {columns} columns: --columns {columns}")


def printed_over(count, first):
    return counted(
        "character overprints the last column", "characters overprint the last column", count, first,
        before="wrap is off, and ")


def foreign(one, more, code, count, first):
    return counted(
        f"{one} looks like {code}", f"{more} look like {code}", count, first, ": convert the text to code page 437")


def board(count, first):
    what = "(|07, @X1F)"
    return counted(
        f"bulletin-board colour code {what} is printed as text", f"bulletin-board colour codes {what} are printed as text",
        count, first)


def later(count, first):
    what = "modern colours (38, 48, 90 to 97, 100 to 107)"
    return counted(f"sequence uses {what}", f"sequences use {what}", count, first)


def blinks(count, first):
    return counted(
        "character blinks", "characters blink", count, first,
        "; if they should have bright backgrounds: --ice")


def dark(count, first):
    return counted(
        "character is dark grey on black", "characters are dark grey on black", count, first,
        "; some terminals show them as black")


def fault(offset, title):
    return f"fault: at {offset}, {title}"


def below(offset):
    return fault(offset, "F20 print below the stated lines")


def mode(known):
    return fault(13, "F16 screen mode set"), "is: " + known


EMPTY_LAST = "hint: the last line is empty"

# A row of 61 columns never ends at the edge, and each takes a row for its line feed; the rows wrap 15 times. The 20
# full rows take 40. Of 130 columns each takes two rows, and of 234 bytes of UTF-8 three. Rows without any line end look
# like the rows of every other width.
MISTAKES = [
    Drawing("line feeds alone", SAFE + rows(61, b"\n"), (below(744), loose(20, 74), "lines: 35, but the rows look broken")),
    Drawing("full rows with CR LF", FULL, (below(833), full(20, 93), EMPTY_LAST, "lines: 40, but the rows look broken")),
    Drawing("full rows with a colour before CR LF", SAFE + rows(80, b"\x1b[0m\r\n"),
            (below(873), full(20, 97), EMPTY_LAST, "lines: 40, but the rows look broken")),
    Drawing("full rows with a colour between CR and LF", SAFE + rows(80, b"\r\x1b[0m\n"),
            (below(873), full(20, 93), EMPTY_LAST, "lines: 40, but the rows look broken")),
    Drawing("full rows with an erased line before CR LF", SAFE + rows(80, b"\x1b[K\r\n"),
            (below(863), full(20, 96), EMPTY_LAST, "lines: 40, but the rows look broken")),
    Drawing("full rows with LF", SAFE + rows(80, b"\n"),
            (below(823), full(20, 93), EMPTY_LAST, "lines: 40, but the rows look broken")),
    Drawing("130 columns, and 80 stated", SAFE + rows(130), (below(1333), wider(20, 143, 130), "lines: 40, but the rows look broken")),
    Drawing("130 columns, 80 stated, some rows short", SAFE + rows([130, 130, 70]),
            (below(1357), wider(14, 143, 130), "lines: 34, but the rows look broken")),
    Drawing("132 columns without line ends, and 80 stated", SAFE + rows(132, b""), (
        below(1613), "hint: with 132 columns the 20 stated lines come out: --columns 132",
        "lines: 33, but the rows look broken")),
    Drawing("UTF-8", SAFE + texts(BOXES, "utf-8"),
            (below(1589), foreign("character", "characters", "UTF-8", 1560, 13), "lines: 60, but the rows look broken")),
    Drawing("letters in UTF-8", SAFE + texts(WORDS, "utf-8"), (foreign("letter", "letters", "UTF-8", 120, 17),)),
    Drawing("letters in Latin-1", SAFE + texts(WORDS, "latin-1"), (foreign("letter", "letters", "Latin-1", 100, 17),)),
    Drawing("wrap off, and no line ends", SAFE + b"\x1b[?7l" + rows(80, b""),
            (printed_over(1520, 98), "hint: the last 19 lines are empty")),
    Drawing("pipe codes", SAFE + texts("|15Welcome |07to the |11board|07."), (PIPE_CODES, board(60, 13))),
    Drawing("@X codes", SAFE + texts("@X1FWelcome @X07to the board"),
            ("is: text with PCBoard colour codes (@X1F)", board(40, 13))),
    Drawing("music", SAFE + b"\x1b[MFT120O3L8CDEFG\x0e" + rows(60),
            (fault(13, "F13 unknown sequence"), "is: ANSI music")),
    Drawing("music by ESC[|", SAFE + b"\x1b[|T120O3L8CDEFG\x0e" + rows(60),
            (fault(13, "F9 broken sequence"), "is: ANSI music")),
    Drawing("a font selection", SAFE + b"\x1b[0;40 D" + rows(60),
            (fault(13, "F9 broken sequence"), "is: a font selection")),
    Drawing("a colour of 24 bits", SAFE + rows(60, b"\x1b[1;255;170;0t\r\n"),
            (fault(73, "F13 unknown sequence"), "is: a 24-bit colour")),
    Drawing("bright backgrounds switched on", SAFE + b"\x1b[?33h" + rows(60),
            mode("the switch for bright backgrounds")),
    Drawing("the cursor hidden", SAFE + b"\x1b[?25l" + rows(60), mode("the switch that hides or shows the cursor")),
    Drawing("a mode of DOS", SAFE + b"\x1b[=3h" + rows(60), mode("a screen mode of DOS")),
    Drawing("a key", SAFE + b'\x1b[13;"dir";13p' + rows(60), (fault(13, "F15 key reassigned"), "is: a reassigned key")),
    Drawing("comments that are not counted", SHORT, (
        fault(1254, "F8 bytes after the end mark"), "found: 133 bytes after the end mark, without a record",
        "is: comments that the record does not count",
    ), behind=b"\x1a" + COMMENTS),
    Drawing("an arrow", SHORT[:663] + b"\x1a" + SHORT[664:], (
        fault(664, "F8 bytes after the end mark"), "found: 590 bytes after the end mark, without a record",
        "is: an arrow in the drawing",
    )),
    Drawing("an older record", SHORT, (
        fault(1254, "F8 bytes after the end mark"), "found: 129 bytes after the end mark, with an older record",
        "is: an older record",
    ), behind=b"\x1a" + record(80, 20, 1253) + b"\x1a"),
    Drawing("two drawings in one file", SHORT, (
        fault(1254, "F8 bytes after the end mark"), "found: 1382 bytes after the end mark, with an older record",
        "is: another drawing",
    ), behind=b"\x1a" + record(80, 20, 1253) + SHORT + b"\x1a"),
    Drawing("two arrows", SHORT[:663] + b"\x1a" + SHORT[664:700] + b"\x1a" + SHORT[701:], (
        fault(664, "F8 bytes after the end mark"), "found: 590 bytes after the end mark, without a record",
    )),
    Drawing("XBin", b"XBIN\x1a" + struct.pack("<HHBB", 80, 2, 16, 0) + b"A\x07" * 160, (
        fault(5, "F8 bytes after the end mark"), "found: 327 bytes after the end mark, without a record",
        "is: an XBin file",
    )),
    Drawing("a column by its number", SAFE + b"A\x1b[40GB" + rows(60), (
        fault(14, "F13 unknown sequence"),
        "is: a sequence of modern terminals: goes to a column; write ESC[row;columnH",
    )),
    Drawing("no lines stated", SHORT, (fault(1352, "F5 number of lines not stated"), "found: 0 lines stated", "lines: 20"),
            lines=0),
    Drawing("no lines stated, and a full row with CR LF", SAFE + rows([60] * 19 + [80]), (
        fault(1372, "F5 number of lines not stated"), "found: 0 lines stated", full(1, 1271, True), EMPTY_LAST, "lines: 21",
    ), lines=0),
    Drawing("no lines stated, and full rows with CR LF", FULL, (
        fault(1752, "F5 number of lines not stated"), "found: 0 lines stated", full(20, 93), EMPTY_LAST,
        "lines: 40, but the rows look broken",
    ), lines=0),
    Drawing("too few lines", SHORT, (below(943), "lines: 20"), lines=15),
    Drawing("too many lines", SHORT, ("hint: the last 5 lines are empty",), lines=25),
    Drawing("an empty line too much", SHORT + CRLF, (fault(1254, "F21 scrolls"), EMPTY_LAST, "lines: 21")),
    Drawing("another file size", SHORT, ("note: file size differs from the content",), size_off=128),
    Drawing("no end mark", SHORT, ("note: no end mark after the content",), behind=b""),
    Drawing("another font", SHORT, (
        "hint: the font Amiga Topaz 1 is not a code page 437 font; some characters may look different",
    ), font=b"Amiga Topaz 1"),
    Drawing("bright backgrounds without their flag", SAFE + b"\x1b[5;44m" + rows(60), (blinks(1200, 20),)),
    Drawing("a bright colour of later terminals", SAFE + b"\x1b[91m" + rows(60), (later(1, 13),)),
    Drawing("one of 256 colours, whose 5 makes text blink", SAFE + b"\x1b[38;5;208m" + rows(60),
            (later(1, 13), blinks(1200, 24))),
    Drawing("shadows in dark grey on black", SAFE + b"\x1b[1;30m" + rows(60, count=3) + b"\x1b[0m" + rows(60, count=17),
            (dark(180, 20),)),
]

# Nothing is said of these: no hint, no note, and they pass.
MEANT = [
    Drawing("short rows with CR LF", SHORT),
    Drawing("short rows with LF CR", SAFE + rows(60, b"\n\r")),
    Drawing("full rows without line ends", SAFE + rows(80, b"")),
    Drawing("full rows with colours, without line ends", SAFE + rows(80, b"\x1b[0m\x1b[1;33m")),
    Drawing("full rows, and rows of 79 with CR LF", SAFE + mixed([80, 80, 79, 80, 79] * 4)),
    Drawing("full rows, and shorter ones with CR LF", SAFE + mixed([80, 80, 80, 62, 80, 44, 80, 71, 79, 80] * 2)),
    Drawing("132 columns, short rows", SAFE + rows(130), width=132),
    Drawing("132 columns, full rows without line ends", SAFE + rows(132, b""), width=132),
    Drawing("boxes and blocks", SAFE + texts(BOXES)),
    Drawing("a table with rules", SAFE + table_of("  Name", "  Price", "  In stock", "  Sold out", "  Soon") * 2),
    Drawing("a table with rules, and rows under each", SAFE + b"".join(
        table_of("  " + name) + rows(60, count=2) for name in ("Monday", "Friday", "Sunday", "Holiday", "Someday")
    )),
    Drawing("a table with headings of one length under its rules, and rows under each", SAFE + b"".join(
        table_of("  Name     Size     Date") + rows(60, count=2) for _ in range(5)
    )),
    Drawing("letters of code page 437", SAFE + texts(WORDS)),
    Drawing("Greek letters", SAFE + texts("  2πr, Σx = 0, 5 kΩ, απδ, ±2, sin φ, σ², 5 µm, a ≤ b, √n")),
    Drawing("titles in boxes", SAFE + texts("╔═╡Name╞═╗ ┌─┤Size├─┐ ║Date║ │Time│ ░Day▒ ┌─┤Size├┐")),
    Drawing("shades behind a sign", SAFE + texts("≡░▒▓█ α▒▒ π░░")),
    Drawing("a calendar", SAFE + texts("| 1 | 02 |03|04|05 | Mo|Tu|07|")),
    Drawing("addresses", SAFE + texts("sysop@example.org, @home, @ X1F, me@Xanadu, me@Xactly")),
    Drawing("wrap off, rows up to the edge with CR LF", SAFE + b"\x1b[?7l" + rows(80)),
    Drawing("a tenth in dark grey on black",
            SAFE + b"\x1b[1;30m" + rows(60, count=2) + b"\x1b[0m" + rows(60, count=18)),
    Drawing("dark grey on blue", SAFE + b"\x1b[1;30;44m" + rows(60)),
    Drawing("sixteen colours", SAFE + rows(60, b"\x1b[0;1;31;44m\r\n")),
    Drawing("bright backgrounds with their flag", SAFE + b"\x1b[5;44m" + rows(60), flags=1),
    Drawing("an arrow by its other byte", SHORT[:663] + b"\x10" + SHORT[664:]),
    Drawing("comments that are counted", SHORT, behind=b"\x1a" + COMMENTS, comments=2),
    Drawing("a font of code page 437", SHORT, font=b"IBM VGA50 437"),
    Drawing("a full row in turn with one of 79 and CR LF, as of 159 columns", SAFE + mixed([80, 79] * 10)),
    Drawing("a table with headings of one length under its rules", SAFE + table_of(*["  Name     Size     Date"] * 10)),
]

# They are as they were meant, and look to the definitions like one of the mistakes.
SPOKEN_OF = [
    Drawing("a blank row by the line end of a full one", SAFE + rows([60] * 17 + [80, 60], count=19), (full(1, 1147, True),)),
    Drawing("titles edge to edge", SAFE + texts("┤Size├┤Date├"), (foreign("letter", "letters", "UTF-8", 20, 18),)),
    Drawing("a sign between letters", SAFE + texts("  x≤y"), (foreign("letter", "letters", "Latin-1", 20, 16),)),
    Drawing("a calendar without blanks", SAFE + texts("|01Mo|02Tu|03We"), (PIPE_CODES, board(60, 13))),
]


def said_of(program, file):
    """The lines of `why` that are compared, without the bytes of a fault."""
    done = subprocess.run([program, "why"], input=file, stdout=subprocess.PIPE)
    lines = [line for line in done.stdout.decode().splitlines() if line.partition(" ")[0].rstrip(":") in COMPARED]
    return [found[0] if (found := FAULT.match(line)) else line for line in lines]


def with_record(program, file):
    """A file without a record, with one of 80 columns and of the least lines that are enough."""
    content = file.partition(b"\x1a")[0]
    said = said_of(program, content + b"\x1a" + record(80, 0, len(content)))
    lines = [int(line.split()[1].rstrip(",")) for line in said if line.startswith("lines: ")]
    return content + b"\x1a" + record(80, lines[0], len(content)) if lines else file


def tell_examples(program):
    """Which hints speak of the drawings of `ansilove`."""
    for path in sorted(glob.glob(EXAMPLES)):
        with open(path, "rb") as opened:
            file = opened.read()
        has_record = file[-128:-121] == b"SAUCE00"
        said = said_of(program, file if has_record else with_record(program, file))
        hints = [line for line in said if line.startswith("hint: ")] or ["no hint"]
        print(f"{os.path.basename(path)}{'' if has_record else ', with a record'}: {'; '.join(hints)}")


def main(program):
    program, differing = os.path.abspath(program), 0
    drawings = MISTAKES + MEANT + SPOKEN_OF
    for drawing in drawings:
        got = said_of(program, drawing.file())
        if got != list(drawing.said):
            differing += 1
            print(f"{drawing.what}\n  wanted {list(drawing.said)}\n  got    {got}")
    print(f"{len(drawings)} drawings, {differing} differ")
    tell_examples(program)
    return 1 if differing else 0


if __name__ == "__main__":
    sys.exit(main(sys.argv[1]))
