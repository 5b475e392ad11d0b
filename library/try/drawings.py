"""Drawings made for the library's row: each number of it is other than 0 in one of them, and is 0 in another.

What is to be said of them comes from the program; ../try.py compares. Besides them it takes the drawings of
tools/runs/made_drawings.py, with mistakes that artists make."""
import struct

CLEARED = b"\x1b[?7h\x1b[0;37;40m\x1b[2J\x1b[H\x1b[s"
END = b"\x1a"
COMMENT = b"a comment, in 64 bytes".ljust(64)


def record(size, width=80, lines=1, kind=(1, 1), comments=0, flags=0, font=b"", version=b"00", date=b"19960101",
           title=b"", author=b"", group=b""):
    """A record of SAUCE. A text that is too long is cut, and one that is too short has blanks after it."""
    texts = struct.pack("35s20s20s8s", title.ljust(35), author.ljust(20), group.ljust(20), date.ljust(8))
    numbers = struct.pack("<IBB4HBB22s", size, *kind, width, lines, 0, 0, comments, flags, font)
    return b"SAUCE" + version + texts + numbers


def drawing(content, behind=END, off=0, **fields):
    return content + behind + record(len(content) + off, **fields)


def commented(content, count, stated):
    block = b"COMNT" + COMMENT * count if count else b""
    return content + END + block + record(len(content), comments=stated)


def records():
    """Records that are refused, F1 to F8, and those that are odd."""
    yield from (b"", b"Hi", b"SAUCE00", b"Hi" + END, b"Hi" + END + record(2)[:-1], drawing(b"Hi") + b"\0")
    yield from (record(0), END + record(0), drawing(b"Hi", behind=b""), drawing(b"Hi", off=2), drawing(b"Hi", off=1))
    yield from (drawing(b"Hi", version=version) for version in (b"01", b"0 ", b"\0\0"))
    yield from (drawing(b"Hi", kind=kind) for kind in ((0, 0), (1, 0), (1, 2), (2, 1), (5, 1), (255, 255)))
    counts = ((0, 1), (1, 0), (1, 1), (2, 2), (2, 1), (255, 255))
    yield from (commented(b"Hi", there, stated) for there, stated in counts)
    yield from (drawing(b"Hi", width=width) for width in (0, 1, 2, 1024, 1025, 65535))
    yield from (drawing(CLEARED + b"Hi", lines=lines) for lines in (0, 1, 8192, 8193, 65535))
    unstated = (b"a\r\nb\r\nc", b"\n" * 9000, b"\x1b[99;1Hx", b"a\nb\n", b"")
    yield from (drawing(CLEARED + text, lines=0) for text in unstated)
    older = END + record(2, title=b"older")
    arrows = b"\x1a and more of the drawing"
    yield from (drawing(b"Hi", behind=END + more) for more in (END, END * 9, b"x", b"\0" * 20, older, arrows, b"COMNT"))
    yield from (drawing(b"Hi", date=date) for date in (b"1996", b"", b"1996010a", b"\0" * 8))


def fields():
    """Fields of records that are accepted, and of some that are not."""
    yield from (drawing(b"Hi", flags=flags) for flags in (*range(32), 32, 64, 128, 255))
    texts = (b"", b"x", b"two words", b"x" * 35, b" leading", b"x \0 \0", b"\0x", b"\0", b"\xb0\xdb", b"a\\b\t\x01\x7f")
    for name in ("title", "author", "group", "font"):
        yield from (drawing(b"Hi", **{name: text}) for text in texts)
    yield drawing(b"Hi", version=b"02", title=b"of a refused record", author=b"and its author", group=b"g", flags=17)


def contents():
    """Contents that are refused, and those that rely on something."""
    yield from (drawing(b"Hi" + text) for text in (
        b"\x1b[MFABC\x0e", b"\x1b[Nx", b"\x1b[|x", b"\x1b[0;40 D", b"\x1b[1;255;0;0t", b"\x1b[?33h", b"\x1b[?25l",
        b"\x1b[=7h", b"\x1b[65;66p", b'\x1b[65;"word"p', b"\x1b[6n", b"\x1b7", b"\x1b[5z", b"\x1b[1;2J", b"\x1b[999C"))
    yield from (drawing(b"Hi" + text) for text in (
        b"\x1b[" + b"1;" * 17 + b"m", b"\x1b[" + b"0" * 90, b'\x1b["' + b"x" * 500, b"\x1b[" + b"0" * 29 + b"m",
        b"\x1b[" + b"0" * 30 + b"z", b"\x1b[" + b"0" * 31 + b"z", b"\x1b[", b"\x1b"))
    for start in (b"", b"\x1b[2J", CLEARED):
        yield from (drawing(start + text, width=8, lines=3) for text in (
            b"", b"Hi", b"\x1b[9;1H", b"\r\n" * 3 + b"x", b"\r\n" * 4, b"\x1b[u", b"\x1b[K", b"\x1b[1;1Hab", b"x" * 24,
            b"x" * 25, b"\x1b[?7l" + b"x" * 99, b"\x1b[31m\x1b[K", b"\x1b[0mx", b"\x1b[1;1H" + b"\xdb" * 24))
    yield from (drawing(CLEARED + text, width=8, lines=3) for text in (
        b"x" * 8 + b"y", b"a\nb", b"a\x1b[2Jb", b"\x1b[44m\x1b[2J", b"\x1b[31m\x1b[s\x1b[32m\x1b[ux", b"\x1b[2mx",
        b"\x1b[mx", b"a\tb", b"\x1b[Kx", b"\x1b[?7lx\x1b[?7h", b"\x1b[99C\x1b[Kx", b"\x0bx", b"\x01x", b"\x1b[5mx"))


def files():
    """All of them, each once."""
    return list(dict.fromkeys([*records(), *fields(), *contents()]))
