#!/usr/bin/env python3
"""Spoils drawings as transfers, editors and converters do, and fixes them by what `why` and `mend` say alone.

Each drawing is made from a picture of random text and blocks, so it is known what was meant. It is spoiled in one of
the ways below, and then the words are followed: the flags of the line `fix:`, or without it those that hints name, are
given to `mend`, and those that its line `try:` names after that, until a file is written or nothing more is named. Of
each drawing it is then said:

- *mended*: the file that is written shows the meant picture from every start, or with empty lines below it;
- *told*: no file is written, or the drawing passes as it is, and `why` says what has to be done by hand, in the words
  that the way has in the table;
- *not told*: no file, and no such words;
- *torn*: a file that passes shows another picture, and nothing was said of it.

Run it in `crates/anscheck`, on the built program, with a number that seeds the drawings and how many there shall be:

    python3 ../../tools/runs/spoiled_drawings.py out/anscheck 1 2000

It prints each drawing that is torn or not told, with its way, and a line for each way. Its status is 1 if one is torn,
or if fewer than nine in ten are mended or told. `check` reads the pictures: the script has no player of its own.
"""
import collections
import os
import random
import re
import struct
import subprocess
import sys
import tempfile

MARK, CRLF = b"\x1a", b"\r\n"
WORDS = b"harbour moonlight window lantern river quiet northern station melody paper ".split()
BLOCKS = b"\xb0\xb1\xb2\xdb\xdc\xdf\xc4\xcd"
FLAG = re.compile(r"--[a-z]+(?:-[a-z]+)*(?: \d+)?")
PALETTE = {colour: number for number, colour in enumerate([0, 4, 2, 6, 1, 5, 3, 7])}
MOST_STEPS = 6


# A picture, and the drawing that shows it.


class Picture:
    """Rows of glyphs, each with an attribute; a row ends where its last glyph is. `ice` says if backgrounds are bright."""

    def __init__(self, chance, width=80, lines=None):
        self.chance, self.width, self.ice = chance, width, False
        self.rows = [self.row() for _ in range(lines or chance.randrange(18, 25))]

    def row(self):
        chance, cells = self.chance, []
        length = self.width if chance.random() < 0.25 else chance.randrange(self.width // 2, self.width - 1)
        while len(cells) < length:
            attribute = chance.choice([0x07, 0x0F, 0x1E, 0x4B, 0x02, 0x70])
            piece = chance.choice(WORDS) + b" " if chance.random() < 0.6 else bytes([chance.choice(BLOCKS)]) * chance.randrange(3, 12)
            cells += [(byte, attribute) for byte in piece]
        cells = cells[:length]
        return cells[:-1] + [(0xDB, cells[-1][1])]

    def glyphs(self):
        """What `check` prints of it, without the blanks at the ends."""
        return [bytes(byte for byte, _ in row).decode("cp437").rstrip() for row in self.rows]


def colours_of(attribute, extra=b""):
    bold = b"1;" if attribute & 8 else b""
    fore, back = PALETTE[attribute & 7], PALETTE[attribute >> 4 & 7]
    return b"\x1b[0;%s%d;%d%sm" % (bold, 30 + fore, 40 + back, extra)


def written(row, blink=b""):
    """A row with its colours, and those of a player after it."""
    out, last = b"", None
    for byte, attribute in row:
        if attribute != last:
            out, last = out + colours_of(attribute, blink), attribute
        out += bytes([byte])
    return out + b"\x1b[0;37;40m"


def content_of(picture, end=CRLF, full_end=b"", begins=b"\x1b[?7h\x1b[0;37;40m\x1b[2J", blink=b""):
    """The drawing as an editor saves it: a full row has no line end."""
    rows = [written(row, blink) + (full_end if len(row) == picture.width else end) for row in picture.rows[:-1]]
    return begins + b"".join(rows) + written(picture.rows[-1], blink)


def record(width, lines, size, comments=0, flags=0, font=b"IBM VGA"):
    return b"SAUCE00" + b" " * 75 + b"19960101" + struct.pack(
        "<IBB4HBB22s", size, 1, 1, width, lines, 0, 0, comments, flags, font)


def file_of(picture, content, width=None, lines=None, between=b"", **fields):
    lines = len(picture.rows) if lines is None else lines
    return content + MARK + between + record(width or picture.width, lines, len(content), **fields)


# The ways in which it is spoiled.

WAYS = []


def way(what, by_hand=None, width=80, lines=None):
    """Adds a way: its name, and what `why` says if it is mended by hand."""
    def add(spoil):
        WAYS.append((what, spoil, by_hand, width, lines))
        return spoil
    return add


def edited(what, edit, by_hand=None):
    """Adds a way that edits the content of the drawing."""
    WAYS.append((what, lambda p: file_of(p, edit(content_of(p), p)), by_hand, 80, None))


def after_first_row(piece):
    return lambda content, picture: content.replace(CRLF, CRLF + piece, 1) if CRLF in content else content + piece


@way("132 columns, trimmed rows, 80 stated", width=132)
def wide_rows(p):
    trimmed = [row[:130] for row in p.rows]
    p.rows = [row if len(row) > 84 else row + [(0xDB, 7)] * 20 for row in trimmed]
    return file_of(p, content_of(p), width=80)


@way("160 columns, full rows, 80 stated", width=160)
def twice_as_wide(p):
    p.rows = [(row * 2)[:160] for row in p.rows]
    return file_of(p, content_of(p), width=80)


@way("columns and lines exchanged", width=80, lines=25)
def exchanged(p):
    return file_of(p, content_of(p), width=25, lines=80)


@way("80 columns, full rows, 40 stated")
def half_as_wide(p):
    p.rows = [(row * 2)[:80] for row in p.rows]
    return file_of(p, content_of(p), width=40)


@way("132 columns, no record", width=132, by_hand=r"at least 1\d\d columns|--add-record 1\d\d|F1 ")
def wide_without_record(p):
    p.rows = [row[:130] if len(row) > 84 else row + [(0xDB, 7)] * 20 for row in p.rows]
    p.rows = [row[:130] for row in p.rows]
    return content_of(p)


@way("no record")
def without_record(p):
    return content_of(p)


@way("no record, an end mark")
def mark_without_record(p):
    return content_of(p) + MARK


@way("no lines stated")
def without_lines(p):
    return file_of(p, content_of(p), lines=0)


@way("too few lines")
def few_lines(p):
    return file_of(p, content_of(p), lines=len(p.rows) - 3)


@way("another file size")
def wrong_size(p):
    content = content_of(p)
    return content + MARK + record(80, len(p.rows), len(content) + 128)


@way("no end mark")
def no_mark(p):
    content = content_of(p)
    return content + record(80, len(p.rows), len(content))


@way("zeros after the record")
def blocks_after(p):
    return file_of(p, content_of(p)) + bytes(90)


@way("a line end after the record")
def line_end_after(p):
    return file_of(p, content_of(p)) + CRLF


@way("a record that a transfer made longer", by_hand=r"a transfer as text may have put in")
def grown_record(p):
    content = content_of(p)
    return content + MARK + record(80, len(p.rows), len(content), font=b"IBM\nVGA").replace(b"\n", CRLF)


@way("a record that a transfer made shorter", by_hand=r"what is left of a record")
def shrunk_record(p):
    content = content_of(p)
    return content + MARK + record(80, 13, len(content)).replace(b"\x0d", b"")


@way("a record that was cut off", by_hand=r"what is left of a record")
def cut_record(p):
    return file_of(p, content_of(p))[:-40]


@way("comments that are not counted")
def comments_not_counted(p):
    return file_of(p, content_of(p), between=b"COMNT" + b"Made for a friend.".ljust(64) * 2)


@way("comments that are gone")
def comments_gone(p):
    return file_of(p, content_of(p), comments=2)


@way("an older record")
def older_record(p):
    content = content_of(p)
    old = record(80, len(p.rows), len(content))
    return content + MARK + old + MARK + record(80, len(p.rows), len(content))


@way("another drawing after it", by_hand=r"is: another drawing")
def two_drawings(p):
    return file_of(p, content_of(p), between=record(80, 20, 9) + content_of(p) + MARK)


@way("line feeds alone")
def bare_line_feeds(p):
    p.rows = [row[:78] for row in p.rows]
    return file_of(p, content_of(p, b"\n"))


@way("returns alone", by_hand=r"returns? .*line feed")
def bare_returns(p):
    p.rows = [row[:78] for row in p.rows]
    return file_of(p, content_of(p, b"\r"))


@way("some line feeds alone")
def some_bare_line_feeds(p):
    p.rows = [row[:78] for row in p.rows]
    parts = content_of(p).split(CRLF)
    return file_of(p, b"".join(part + (b"\n" if at % 3 else CRLF) for at, part in enumerate(parts[:-1])) + parts[-1])


@way("full rows with a line end")
def full_rows_ended(p):
    p.rows[0], p.rows[2] = (p.rows[0] * 2)[:80], (p.rows[2] * 2)[:80]
    return file_of(p, content_of(p, full_end=CRLF))


@way("some full rows with a line end")
def some_full_rows_ended(p):
    for at in (0, 2, 4, 5):
        p.rows[at] = (p.rows[at] * 2)[:80]
    begins, rows = b"\x1b[?7h\x1b[0;37;40m\x1b[2J", [written(row) for row in p.rows]
    ends = [(CRLF if at in (0, 4) else b"") if len(row) == 80 else CRLF for at, row in enumerate(p.rows[:-1])] + [b""]
    return file_of(p, begins + b"".join(row + end for row, end in zip(rows, ends)))


@way("full rows, a line end and a move up")
def full_rows_and_up(p):
    p.rows[0], p.rows[2] = (p.rows[0] * 2)[:80], (p.rows[2] * 2)[:80]
    return file_of(p, content_of(p, full_end=b"\r\n\x1b[A"))


for what, piece in [
    ("line ends at the end", CRLF * 3), ("zeros at the end", bytes(7)), ("a place below at the end", b"\x1b[30;1H"),
    ("a mode at the end", b"\x1b[?7h\x1b[?25h"), ("a screen mode at the end", b"\x1b[0m\x1b[=7h\r\n"), ("an unfinished sequence at the end", b"\x1b[0;3"),
]:
    edited(what, lambda content, p, piece=piece: content + piece)
for what, piece in [
    ("the cursor hidden", b"\x1b[?25l"), ("a screen mode of DOS", b"\x1b[=3h"), ("music", b"\x1b[MFT120O3L8CDEFG\x0e"),
    ("a font selection", b"\x1b[0;40 D"), ("a key", b'\x1b[13;"dir";13p'), ("a report", b"\x1b[6n"),
]:
    edited(what, lambda content, p, piece=piece: piece + content)
edited("a colour of 24 bits", lambda content, p: content.replace(b"m", b"m\x1b[1;255;170;0t", 3))
for what, piece in [
    ("a repeated character", b"\x1b[0m \x1b[5b"), ("a column by its number", b"\x1b[40G"), ("a row by its number", b"\x1b[3d"),
    ("blanked cells", b"\x1b[4X"), ("a row inserted", b"\x1b[L"), ("characters deleted", b"\x1b[2P"), ("a saved place", b"\x1b7"),
    ("scrolled up", b"\x1b[S"), ("the next row", b"\x1b[E"),
]:
    edited(what, after_first_row(piece), r"is: a sequence of modern terminals")


@way("bright backgrounds, switched on and off")
def switched(p):
    p.ice = True
    return file_of(p, b"\x1b[?33h" + content_of(p, blink=b";5") + b"\x1b[?33l")


@way("bright backgrounds without their flag")
def without_flag(p):
    p.ice = True
    return file_of(p, content_of(p, blink=b";5"))


edited("escape bytes that were lost", lambda content, p: content.replace(b"\x1b", b""), r"hint: .*(escape|ESC)")
edited("escape bytes as ^[", lambda content, p: content.replace(b"\x1b", b"^["), r"hint: .*(escape|ESC|\^\[)")
edited("escape bytes as an arrow", lambda content, p: content.replace(b"\x1b", b"<-"), r"hint: .*(escape|ESC|<-)")
edited("9Bh for ESC[", lambda content, p: content.replace(b"\x1b[", b"\x9b"), r"hint: .*9B")
edited("UTF-8", lambda content, p: content.decode("cp437").encode(), r"UTF-8")
edited("UTF-8 with its mark", lambda content, p: b"\xef\xbb\xbf" + content.decode("cp437").encode(), r"UTF-8")
edited("UTF-8 made from Latin-1", lambda content, p: content.decode("latin-1").encode(), r"UTF-8")
edited("words in Latin-1", lambda content, p: content.replace(b"harbour", b"Z\xfcrich "), r"Latin-1|^verdict: pass$")
edited("colours of later terminals", lambda content, p: content.replace(b"\x1b[0;37;40m", b"\x1b[0;91;40m"), r"modern colours")
edited("one of 256 colours", lambda content, p: content.replace(b"\x1b[0;37;40m", b"\x1b[0;38;5;208m"), r"modern colours")
edited("off switches", lambda content, p: content.replace(b"\x1b[0;37;40m", b"\x1b[22;39;49m"), r"hint: .*(22|39|49)")


@way("UTF-8 without a record", by_hand=r"UTF-8")
def utf8_without_record(p):
    return content_of(p).decode("cp437").encode()


for what, codes, named in [
    ("codes of PCBoard", b"@X1F", "PCBoard"), ("pipe codes", b"|07", "Renegade"), ("codes of Wildcat", b"@1F@", "Wildcat"),
]:
    edited(what, lambda content, p, codes=codes: re.sub(rb"\x1b\[[0-9;?]*[a-zA-Z]", codes, content), named)
edited("AVATAR", lambda content, p: re.sub(rb"\x1b\[[0-9;?]*[a-zA-Z]", b"\x16\x01\x07", content), "AVATAR")


@way("XBin", by_hand="XBin")
def xbin(p):
    return b"XBIN\x1a" + struct.pack("<HHBB", 80, len(p.rows), 16, 0) + b"A\x07" * 1600 + record(80, len(p.rows), 3211)


@way("a ZIP archive", by_hand="ZIP")
def archive(p):
    return b"PK\x03\x04" + bytes(range(20, 200)) * 4 + MARK + record(80, 20, 724)


@way("BinaryText", by_hand="BinaryText")
def binary_text(p):
    return b"".join(bytes([65 + at % 26, (0x07, 0x0E, 0x1F, 0x02)[at % 4]]) for at in range(1600)) + MARK + record(80, 20, 3200)


@way("what it leaves to the cleared screen")
def relies_on_clear(p):
    return file_of(p, content_of(p, begins=b""))


@way("an arrow in the drawing", by_hand=r"is: an arrow")
def arrow(p):
    content = bytearray(content_of(p))
    at = content.rindex(b" ")
    content[at] = 0x1A
    return file_of(p, bytes(content))


# What is said, and what comes of it.


def run(program, words, file):
    return subprocess.run([program, *words], input=file, capture_output=True)


def rows_shown(program, file):
    """The rows of the picture that the drawing shows from every start, without the blanks at their ends; or None."""
    done = run(program, ["check"], file)
    if done.returncode:
        return None
    picture = done.stdout.decode().partition("\npicture:\n")[2]
    return [row.rstrip() for row in picture.rstrip("\n").split("\n")]


def shows(program, file, picture):
    """Whether the drawing shows the glyphs of the picture from every start, with empty lines below it or none."""
    shown, meant = rows_shown(program, file), picture.glyphs()
    if bool(file[-23] & 1) != picture.ice:
        return False
    return shown is not None and shown[:len(meant)] == meant and not any(shown[len(meant):])


def flags_in(lines):
    """The flags that are named, with their numbers; a number that is not told is 80 for a record."""
    flags = []
    for line in lines:
        line = line.replace("--add-record N", "--add-record 80")
        flags += [flag for flag in FLAG.findall(line) if not re.fullmatch("--(lines|columns)", flag)]
    return flags


def followed(program, file):
    """The file that `mend` writes where the words are followed, or None; and all that was said."""
    why = run(program, ["why"], file).stdout.decode().splitlines()
    named = [line for line in why if line.startswith("fix: ")] or [line for line in why if line.startswith("hint: ")]
    flags = list(dict.fromkeys(flags_in(named)))
    said = list(why)
    for _ in range(MOST_STEPS):
        done = run(program, ["mend", *" ".join(flags).split()], file)
        lines = done.stderr.decode().splitlines()
        said += lines
        if done.returncode == 0:
            return done.stdout, said
        more = [flag for flag in flags_in([line for line in lines if line.startswith("try:")])
                if flag.split()[0] not in {one.split()[0] for one in flags}]
        if not more:
            return None, said
        flags.append(more[0])
    return None, said


def judged(program, file, picture, by_hand):
    """What comes of a spoiled drawing, and what was said."""
    mended, said = followed(program, file)
    is_told = by_hand is not None and any(re.search(by_hand, line) for line in said)
    if mended is not None and shows(program, mended, picture):
        return "mended", said
    if is_told:
        return "told", said
    return ("not told" if mended is None else "torn"), said


def main(program, seed, count):
    program, counts, bad = os.path.abspath(program), collections.defaultdict(collections.Counter), []
    for number in range(int(count)):
        chance = random.Random(f"{seed} {number}")
        what, spoil, by_hand, width, lines = WAYS[number % len(WAYS)]
        picture = Picture(chance, width, lines)
        file = spoil(picture)
        answer, said = judged(program, file, picture, by_hand)
        counts[what][answer] += 1
        if answer in ("torn", "not told"):
            bad.append((what, number))
            if counts[what][answer] == 1:
                print(f"{answer}: {what}, drawing {number}\n  " + "\n  ".join(said[-12:]), flush=True)
    for what, answers in counts.items():
        print(f"{what}: " + ", ".join(f"{n} {answer}" for answer, n in answers.most_common()))
    total = sum(counts.values(), collections.Counter())
    print(f"{len(counts)} ways, {count} drawings: " + ", ".join(f"{n} {answer}" for answer, n in total.most_common()))
    good = total["mended"] + total["told"]
    return 1 if total["torn"] or 10 * good < 9 * int(count) else 0


if __name__ == "__main__":
    sys.exit(main(*sys.argv[1:]))
