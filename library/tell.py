#!/usr/bin/env python3
"""tell.py LIBRARY FILE: what the library says of a file, line by line, from Python by ctypes.

LIBRARY is the shared library, libans_c.so, which shared.sh makes of libans_c.a. try.py compares what is said with the
program."""
import ctypes
import sys
from ctypes import POINTER, byref, c_size_t, c_uint8, c_uint32, c_uint64

PASS, REFUSED, NO_ROOM = 0, 1, 4
LONGEST_TEXT = 65536
LONGEST_FILE = 16777216
MENDING_ROOM, MOST_ROWS, MOST_BYTES = 155, 8193, 33558528


class Fault(ctypes.Structure):
    _fields_ = [("number", c_uint32), ("row", c_uint32), ("column", c_uint32), ("offset", c_size_t)]


class Size(ctypes.Structure):
    _fields_ = [("columns", c_uint32), ("lines", c_uint32), ("cells", c_size_t), ("scratch", c_size_t)]


class ScreenRow(ctypes.Structure):
    """A row of a screen, in memory that is lent."""
    _fields_ = [("held", c_uint64 * 3)]


class Piece(ctypes.Structure):
    _fields_ = [("start", c_size_t), ("length", c_size_t)]


class Place(ctypes.Structure):
    _fields_ = [("row", c_size_t), ("column", c_size_t)]


class Passing(ctypes.Structure):
    _fields_ = [(name, c_uint32) for name in ("needs", "players", "needs_on_all_players", "taller_screens")]


class Blame(ctypes.Structure):
    _fields_ = [("fault", Fault), ("bytes", Piece), ("low", Place), ("high", Place),
                *((name, c_uint32) for name in ("known", "lines", "mends"))]


class Parts(ctypes.Structure):
    _fields_ = [("content", c_size_t), ("comments", Piece), ("notes", c_uint32)]


NUMBERS = ["is_there", "flags", "ice", "spacing", "aspect"]
SIZES = ["width", "lines"]
TEXTS = ["font", "date", "title", "author", "group"]


class Fields(ctypes.Structure):
    _fields_ = [*((name, c_uint32) for name in NUMBERS), *((name, c_size_t) for name in SIZES),
                *((name, Piece) for name in TEXTS)]


class Row(ctypes.Structure):
    _fields_ = [("passing", Passing), ("blame", Blame), ("parts", Parts), ("fields", Fields)]


FILE = [ctypes.c_char_p, c_size_t]
BYTES = [POINTER(c_uint8), c_size_t]
SCREEN = [POINTER(ScreenRow), c_size_t, *BYTES]
TEXT = [*BYTES, POINTER(c_size_t)]
CALLS = {
    "ans_size": [*FILE, POINTER(Size), POINTER(Fault)],
    "ans_check_on": [*FILE, c_uint32, *SCREEN, *BYTES, *BYTES, POINTER(Fault)],
    "ans_needs_on": [*FILE, *SCREEN, POINTER(c_uint32), POINTER(Fault)],
    "ans_row_on": [*FILE, *SCREEN, POINTER(Row)],
    "ans_why_on": [*FILE, *SCREEN, *TEXT],
    "ans_record": [*FILE, *TEXT],
    "ans_mend_on": [*FILE, *[c_uint32] * 4, *SCREEN, *BYTES, *BYTES, POINTER(c_size_t), *TEXT],
    "ans_redraw_on": [*FILE, *SCREEN, *BYTES, POINTER(c_size_t), *TEXT],
    "ans_copy_version": TEXT,
    "ans_copy_fault_text": [c_uint32, *TEXT],
    "ans_copy_note_text": [c_uint32, *TEXT],
}


def opened(path):
    """The library, with the types of its calls."""
    library = ctypes.CDLL(path)
    for name, words in CALLS.items():
        call = getattr(library, name)
        call.argtypes, call.restype = words, c_uint32
    return library


def room(count):
    return (c_uint8 * count)(), count


def text_of(call, *words):
    """What a call answers that gives a text, the text, and its length."""
    text, length = room(LONGEST_TEXT), c_size_t()
    answer = call(*words, *text, byref(length))
    return answer, bytes(text[0][: length.value]) if answer in (PASS, REFUSED) else b"", length.value


class Checker:
    """The library, with one file and the memory that its check needs."""

    def __init__(self, path, file):
        self.library, self.file = opened(path), (file, len(file))
        self.fault, self.size = Fault(), Size()
        answer = self.library.ans_size(*self.file, byref(self.size), byref(self.fault))
        rows = self.size.lines + 1 if answer == PASS else 0
        self.screen = ((ScreenRow * rows)(), rows, *room(4 * self.size.columns * rows))

    def check(self, known):
        glyphs, attributes = room(self.size.cells), room(self.size.cells)
        answer = self.library.ans_check_on(*self.file, known, *self.screen, *glyphs, *attributes, byref(self.fault))
        return answer, bytes(glyphs[0]), bytes(attributes[0])

    def needs(self):
        parts = c_uint32()
        answer = self.library.ans_needs_on(*self.file, *self.screen, byref(parts), byref(self.fault))
        return answer, parts.value

    def row(self):
        row = Row()
        return self.library.ans_row_on(*self.file, *self.screen, byref(row)), row

    def mend(self, classes, add_record):
        most = min(LONGEST_FILE, 9 * self.file[1] + 8) if classes & 16 else self.file[1]
        count = most + self.file[0].count(b"\n") + MENDING_ROOM
        screen = ((ScreenRow * MOST_ROWS)(), MOST_ROWS, *room(MOST_BYTES))
        mended, size = room(count), c_size_t()
        asked = classes, add_record, 0, 0
        answer, text, length = text_of(
            self.library.ans_mend_on, *self.file, *asked, *screen, *room(count), *mended, byref(size))
        return answer, bytes(mended[0][: size.value]) if answer == PASS else b"", text, length

    def redraw_in(self, count):
        redrawn, size = room(count), c_size_t()
        told = text_of(self.library.ans_redraw_on, *self.file, *self.screen, *redrawn, byref(size))
        return redrawn[0], size.value, told

    def redraw(self):
        """The size is asked for first, with an empty array."""
        redrawn, size, told = self.redraw_in(0)
        if told[0] == NO_ROOM:
            redrawn, size, told = self.redraw_in(size)
        answer, text, length = told
        return answer, bytes(redrawn[:size]) if answer == PASS else b"", text, length


def line_of(name, *words):
    return (" ".join(map(str, [name, *words])) + "\n").encode()


def fault_line(before, fault):
    return line_of(before, fault.number, fault.offset, fault.row, fault.column)


def answer_line(name, answer, passed, fault):
    if answer == REFUSED:
        return fault_line(f"{name} refused", fault)
    return line_of(name, "pass", passed) if answer == PASS else line_of(name, "answer", answer)


def row_lines(file, answer, row):
    def piece_line(name, piece):
        return line_of(name, piece.start, piece.length, file[piece.start:piece.start + piece.length].hex())

    yield line_of("row", answer)
    if answer not in (PASS, REFUSED):
        return
    passing, blame, parts, fields = row.passing, row.blame, row.parts, row.fields
    yield line_of("passing", passing.needs, passing.players, passing.needs_on_all_players,
                  passing.taller_screens)
    yield fault_line("fault", blame.fault)
    yield piece_line("bytes", blame.bytes)
    for name in ("low", "high"):
        yield line_of(name, getattr(blame, name).row, getattr(blame, name).column)
    for name in ("known", "lines", "mends"):
        yield line_of(name, getattr(blame, name))
    yield line_of("content", parts.content)
    yield line_of("notes", parts.notes)
    yield piece_line("comments", parts.comments)
    yield line_of("fields", *(getattr(fields, name) for name in [*NUMBERS, *SIZES]))
    for name in TEXTS:
        yield piece_line(name, getattr(fields, name))


def text_lines(name, answer, text, length):
    yield line_of(name, answer, length)
    yield text


def file_lines(line, name, answer, file, text, length):
    yield line_of(line, len(file))
    yield file
    yield from text_lines(name, answer, text, length)


def tell(checker):
    """What is said of the file."""
    answer, version, _ = text_of(checker.library.ans_copy_version)
    yield line_of("version", answer, version.decode())
    for known in (0, 3, 31):
        answer, glyphs, attributes = checker.check(known)
        cells = "".join(f"{glyph:02x}{attribute:02x}" for glyph, attribute in zip(glyphs, attributes))
        yield answer_line(f"check {known}", answer, cells, checker.fault)
    yield answer_line("needs", *checker.needs(), checker.fault)
    yield from row_lines(checker.file[0], *checker.row())
    yield from text_lines("why", *text_of(checker.library.ans_why_on, *checker.file, *checker.screen))
    yield from text_lines("record", *text_of(checker.library.ans_record, *checker.file))
    for classes, add_record in ((0, 0), (255, 80)):
        yield from file_lines(f"mend {classes} {add_record}", "mended", *checker.mend(classes, add_record))
    yield from file_lines("redraw", "redrawn", *checker.redraw())


def main(words):
    if len(words) != 2:
        print(__doc__, file=sys.stderr)
        return 2
    with open(words[1], "rb") as it:
        sys.stdout.buffer.writelines(tell(Checker(words[0], it.read())))
    return 0


if __name__ == "__main__":
    sys.exit(main(sys.argv[1:]))
