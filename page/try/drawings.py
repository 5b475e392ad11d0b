"""Made-up drawings for what no sample shows."""
import struct

RECORD = 128
HIDDEN = "\u061c\u200b\u200f\u202a\u202e\u2060\u2069\ufeff\x01\x7f\x9f\t\n\\"
NEAR = "\u2010\u202f\u206a\u00a0\u05d0"


def drawing(content, columns, lines, flags=0, title=b"", comments=()):
    """A file with its record."""
    record = (b"SAUCE00" + title.ljust(35) + b" " * 40 + b"19960101" + struct.pack("<I", len(content)) + b"\x01\x01"
              + struct.pack("<HHHHBB", columns, lines, 0, 0, len(comments), flags) + bytes(22))
    block = b"COMNT" + b"".join(each.ljust(64) for each in comments) if comments else b""
    return content + b"\x1a" + block + record


def refused_at_the_beginning():
    """Drawings before whose fault nothing is printed: most of them show something if sequences are removed."""
    return {
        "one goes": drawing(b"\x1b[?25l\x1b[0;44mHi", 3, 1),
        "bright and more": drawing(b"\x1b[?33h\x1b[0;5;44mHi\x1b[?25l \x1b[?25hyou\x1b[MFABC\x0e", 8, 1),
        "more lines": drawing(b"\x1b[=3h\x1b[2JHi\r\nyou", 4, 1),
        "one stays": drawing(b"\x1b7Hi", 2, 1),
        "nothing is left": drawing(b"\x1b[2J\x1b[?25h  ", 2, 1),
        "blue": drawing(b"\x1b[44m\x1b[2J\x1b[?25hHi", 2, 1),
        "no lines": drawing(b"Hi\r\nyou", 4, 0),
    }


def refused_records():
    """Drawings whose records are not accepted, for F2 to F4 and F6 to F8, and what is in them all the same."""
    def changed(place, text, flags=0):
        whole = drawing(b"\x1b[0m\x1b[2JHi", 2, 1, flags, b"A \x03\\ title")
        at = len(whole) - RECORD + place
        return whole[:at] + text + whole[at + len(text):]

    return {
        "version": changed(5, b"01", 0x0b), "type": changed(94, b"\x02\x00", 0x15), "comment": changed(104, b"\x01"),
        "wide": changed(96, b"\x01\x04"), "high": changed(98, b"\x01\x20"),
        "behind": drawing(b"Hi\x1athere", 2, 1, 0x11, b"behind"),
    }


def make_drawings(folder):
    """Drawings for what no sample shows: all characters, all attributes, both meanings of bit 7, texts with marks."""
    printed = [byte for byte in range(256) if byte not in (0x07, 0x08, 0x09, 0x0a, 0x0d, 0x1a, 0x1b)]
    characters = b"\x1b[0m\x1b[2J" + b"".join(
        bytes([byte]) + (b"\r\n" if at % 32 == 31 else b"") for at, byte in enumerate(printed))
    attributes = b"\x1b[0m\x1b[2J" + b"".join(
        b"\x1b[0;%d;%d%s%sm\xb1\xdc" % (30 + front, 40 + back, b";1" * bright, b";5" * blink)
        for back in range(8) for blink in (0, 1) for bright in (0, 1) for front in range(8))
    made = {
        "characters": drawing(characters, 40, 8),
        "blink": drawing(attributes, 32, 17), "bright": drawing(attributes, 32, 17, 1),
        "texts": drawing(b"Hi", 2, 1, 0, b"=1+1, \"<b>&\x03", (b"<script>", b"a comment")),
        "early": drawing(b"\r\n" * 3 + b"Hi", 2, 2),
        "comments": drawing(b"\x1b[2JHi\x1b[Mx", 2, 1, 0, b"", (b"one", b"two")),
        "name <b>&": drawing(b"\x1b[0m\x1b[2JHi", 2, 1),
        **refused_at_the_beginning(), **refused_records(),
    }
    for name, file in made.items():
        (folder / f"{name}.ans").write_bytes(file)
    return [folder / f"{name}.ans" for name in made]


def hostile_contents():
    """Contents of almost the greatest length that make a player work."""
    room = (1 << 24) - 129
    for name, part in (("clears", b"\x1b[2J"), ("erases", b"\x1b[K"), ("tabs", b"\r\t"),
                       ("moves", b"\x1b[255;1HA\x1b[1;1HA"),
                       ("colours", b"\x1b[0;1;5;33;44m"), ("words", b"\x1b[" + b";" * 15 + b"m"), ("letters", b"A\r")):
        yield name, b"\x1b[0m\x1b[2J" + part * ((room - 8) // len(part))


def largest():
    """A file that fills a screen of the largest size."""
    record = b"SAUCE00" + b" " * 75 + b"19960101" + bytes(4) + b"\x01\x01" + struct.pack("<HH", 1024, 8192)
    return b"largest".ljust(1024 * 8192) + b"\x1a" + record.ljust(RECORD, b"\0")
