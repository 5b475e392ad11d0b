#!/usr/bin/env python3
"""Makes random files to mend, and what is asked for of each, for `second_mend.py`.

Half of them are made as a drawing would be, so that they pass, and then mistakes are put in: sequences that are
taken out, or nearly so; line feeds alone; full rows with line ends; line ends at the end; a clear away from home; too
few lines or none. What stands around the content has mistakes of its own: no end mark, another file size, comments,
what a transfer leaves behind the record, an older record, an arrow, two drawings in one file, no record. Others are
files as `second_why.py` makes them, and drawings of this repository that are changed.
"""
import collections
import glob
import os
import struct

from pens import least_lines, tokens_of
from second_why import (
    MENDING, Record, a_broken_file, a_file, a_known_form, a_record, a_silent_piece, a_why_content, behind_the_end_mark,
    packed, record_of, some_rows,
)

TOP = os.path.join(os.path.dirname(os.path.abspath(__file__)), "..", "..")
Asked = collections.namedtuple(
    "Asked", "width crlf take_out join_rows least_lines lines name_colours columns mixed ice record")
# The beginning up to its clear, and up to its place.
SAFE, SAFE_AND_PLACED = MENDING[:19], MENDING[:22]
NONE_ASKED = Asked(None, False, False, False, False, None, False, None, False, False, False)


# Contents.


def a_beginning(chance):
    """What a drawing begins with: mostly something that makes its start known, and clears."""
    some = [
        b"", b"", b"\x1b[2J", b"\x1b[0m\x1b[2J", b"\x1b[2J\x1b[0m", MENDING, SAFE, SAFE_AND_PLACED, b"\x1b[u",
        SAFE + b"\x1b[1;1H", SAFE + b"\x07\x1b[1;33m\x1b[f", SAFE + b"A", SAFE + b"\n\x1b[H", SAFE + b"\n\x1b[2J",
        b"\x1b[?7h\x1b[0m\x1b[2J", b"\x1b[?7h\x1b[0m\x1b[2J\x1b[H\x1b[s", b"\x1b[0;37;40m",
        b"\x1b[?7h\x1b[0m\x1b[H\x1b[2J", b"\x1b[?7h\x1b[0m\x1b[255D\x1b[255A\x1b[2J", b"\x1b[?7l\x1b[0m\x1b[2J",
        b"\x1b[?7l\x1b[0m\x1b[2J\x1b[H",
    ]
    return chance.choice(some)


def a_row(chance, width):
    """A row as it is drawn: not over the edge, with colours in it, and mostly a line end where it is not full."""
    count = chance.choice([width, width, width - 1, chance.randrange(width + 1)])
    row = bytes([chance.choice(b"AB \xdb\xb0")]) * count
    cut = chance.randrange(count + 1)
    row = row[:cut] + chance.choice([b"", b"", b"\x1b[1;31m", b"\x1b[0;44m", b"\x1b[K", b"\x07"]) + row[cut:]
    return row + (b"" if count == width and chance.random() < 0.7 else b"\r\n")


def a_drawing(chance, width):
    """A content without a refused sequence, or one of several kinds of pieces."""
    kind = chance.random()
    if kind < 0.5:
        rows = [a_row(chance, width) for _ in range(chance.randrange(6))]
        return a_beginning(chance) + b"".join(rows)
    if kind < 0.8:
        return a_beginning(chance) + b"".join(some_rows(chance, width) for _ in range(chance.choice([1, 1, 2])))
    return a_why_content(chance, width, 5)


def a_switch(chance):
    """A mode that is taken out anywhere, or one that is nearly so."""
    number = chance.choice([b"33", b"33", b"33", b"25", b"25", b"12", b"35", b"033", b"33;", b"25;1", b"7", b"77"])
    return b"\x1b[" + chance.choice([b"?"] * 5 + [b"", b"="]) + number + chance.choice([b"h", b"l"])


def a_mode(chance):
    numbers = [b"3", b"1049", b"47", b"2004", b"4", b"", b";", b"7", b"07", b"7;7", b"0;" * 17, b"255", b"256"]
    return b"\x1b[" + chance.choice([b"?", b"=", b""]) + chance.choice(numbers) + chance.choice([b"h", b"l"])


def a_colour_of_24_bits(chance):
    """One or two of them, mostly directly behind a colour."""
    before = chance.choice([b"\x1b[0;31m"] * 5 + [b"", b"\x1b[m", b"\x1b[1mA", b"\x1b[1m\x1b[?25l", b"\x1b[1m\x07"])
    layer = chance.choice([b"0", b"1", b"1", b"2", b"00", b""])
    numbers = [b";%d;0;255t" % chance.randrange(300) for _ in range(chance.choice([1, 1, 2]))]
    return before + chance.choice([b"", b"", b"\x1b[?33l"]).join(b"\x1b[" + layer + three for three in numbers)


def a_report(chance):
    some = [b"6n", b"6n", b"5n", b"c", b"0c", b"06n", b"05n", b"1c", b"?6n", b";6n", b"0n", b"n", b">c"]
    return b"\x1b[" + chance.choice(some)


def a_key(chance):
    text = chance.choice([b'"dir"', b'"dir\r\n"', b"'\x1b[2J'", b"65", b'"say \'hi\'"', b'""', b"", b'"open'])
    return b"\x1b[" + chance.choice([b"13;", b"0;68;", b""]) + text + chance.choice([b"p", b"p", b";13p"])


def a_refused_piece(chance):
    """A sequence that is taken out, or one that is nearly so."""
    plain = [
        b"\x1b[?33h", b"\x1b[?33h", b"\x1b[?33l", b"\x1b[?25l", b"\x1b[?12h", b"\x1b[?35l", b"\x1b[=3h", b"\x1b[0;40 D",
        b"\x1b[MFT120O3L8CDEFG\x0e", b"\x1b[|C#4..D-\x0e", b"\x1b[N\x0e", b"\x1b[1;33m\x1b[1;255;170;0t", b"\x1b[6n",
        b"\x1b[5n", b"\x1b[0c", b'\x1b[13;"dir";13p', b"\x1b[0;59;1p",
    ]
    makers = [a_switch, a_switch, a_mode, a_known_form, a_colour_of_24_bits, a_report, a_key]
    return chance.choice(plain) if chance.random() < 0.7 else chance.choice(makers)(chance)


def put_in(chance, content, piece):
    """The content with a piece before one of its tokens, often the first, or at its end."""
    offsets = [offset for offset, _ in tokens_of(content)[0]] + [len(content)]
    at = offsets[0] if chance.random() < 0.3 else chance.choice(offsets)
    return content[:at] + piece + content[at:]


def some_zeros(chance):
    """A sequence of colours, mostly with a 0 or an omitted number, now and then about as long as ansilove takes one."""
    zeros = [b"0", b"0", b"0", b"", b"00"]
    others = [b"37", b"40", b"37", b"40", b"1", b"5", b"31", b"44", b"30", b"47", b"4", b"7", b"8", b"2", b"039", b"29"]
    count = chance.choice([0, 0, 1, 1, 2, 3, 4, 5, 7, 15])
    numbers = chance.choices(others if chance.random() < 0.7 else [b"0", b"1", b"5"], k=count)
    for _ in range(chance.choice([0, 1, 1, 1, 1, 2])):
        numbers.insert(chance.randrange(len(numbers) + 1), chance.choice(zeros if chance.random() < 0.4 else [b"0"]))
    return b"\x1b[" + b";".join(numbers[:16]) + b"m"


def with_zeros(chance, content):
    """The content with some sequences of colours put in, and sometimes what is printed or not in them."""
    for _ in range(chance.choice([1, 2, 3, 6])):
        behind = chance.choice([b"", b"", b"\x1b[0m", b"\x1b[37m", b"\x1b[40m", b"\x1b[31m", b"\x1b[1;5m", b"\x1b[H"])
        content = put_in(chance, content, some_zeros(chance) + behind)
    return content


def an_unfinished_end(chance):
    some = [b"\x1b", b"\x1b[", b"\x1b[1;3", b"\x1b[?25", b"\x1b[?", b"\x1b[;", b"\x1b[13;'", b'\x1b["p', b"\x1b[999",
            b"\x1b[1 ", b"\x1b[1;\r\n"]
    return chance.choice(some)


def some_line_ends(chance):
    ends = [b"\r\n", b"\r\n", b"\r\n", b"\n", b"\r", b"\n\r", b"\x1b[0m", b"\x07"]
    return b"".join(chance.choices(ends[:3] if chance.random() < 0.6 else ends, k=chance.randrange(1, 6)))


def with_mistakes(chance, content):
    """The content with some of the mistakes that are mended."""
    for _ in range(chance.choice([0] * 8 + [1, 1, 1, 2, 2, 3, 5])):
        content = put_in(chance, content, a_refused_piece(chance))
    kind = chance.random()
    if kind < 0.02:
        content = put_in(chance, content, b"\x1a")
    elif kind < 0.13:
        content = content.replace(b"\r", b"")
    elif kind < 0.25:
        content = put_in(chance, content, a_silent_piece(chance) + chance.choice([b"\x1b[2J", b"\x1b[2J\x1b[H"]))
    if chance.random() < 0.2:
        content += some_line_ends(chance)
    if chance.random() < 0.1:
        content += an_unfinished_end(chance)
    return content


# What stands around a content.


def some_comments(chance):
    """A block of comments, now and then with the word of a block in one of them."""
    texts = [b"a comment", b"COMNT", b"COMNT in a comment", b"\x1a an arrow", b"SAUCE00", b""]
    count = chance.choice([1, 1, 2, 3])
    return count, b"COMNT" + b"".join(chance.choice(texts).ljust(64) for _ in range(count))


def a_tail(chance):
    """What stands behind a record: mostly what a transfer or an editor left."""
    tail = bytes(chance.choices(b"\0\0\n\r\x1a\x1a", k=chance.choice([1, 1, 2, 5, 40, 127, 128, 130])))
    others = [b" ", b"A", b"SAUCE00", b"\x1a" + b"B" * 140, b"\x04"]
    return tail if chance.random() < 0.85 else tail + chance.choice(others)


def as_text(chance, record):
    """A record after a transfer as text: with returns before its line feeds, of which it has one or more."""
    record = record._replace(lines=chance.choice([10, 10, 2560, record.lines]), size=chance.choice([10, record.size]))
    file = packed(record).replace(b"\n", b"\r\n")
    return file + chance.choice([b"", b"", b"", b"\0", b"\r\n", b"\x1a"])


def beyond_limits(chance, record):
    """A record of more columns or lines than may be, and a tail."""
    columns, lines = chance.choice([(1025, 5), (65535, 5), (80, 8193), (80, 65535), (1024, 8192)])
    return packed(record._replace(width=columns, lines=lines)) + a_tail(chance)


def around(chance, content, width, lines):
    """The file of a content: what stands between it and its record, and behind that."""
    record = a_record(chance, width, lines, len(content) + chance.choice([0, 0, 0, 1]))
    record = record._replace(title=chance.choice([b"A title".ljust(35), b" " * 35, b"SAUCE00".ljust(35, b"\0")]))
    marks, kind = b"\x1a" * chance.choice([1] * 8 + [0, 0, 2]), chance.random()
    if kind < 0.2:
        count, block = some_comments(chance)
        return content + marks + block + packed(record._replace(comments=count))
    if kind < 0.25:
        return content + b"\x1a" + behind_the_end_mark(chance, record) + packed(record)
    if kind < 0.35:
        return content + chance.choice([b"", b"\x1a", b"\x1a\x1a\0\r\n", b"\x1aA", b"\x1a" + packed(record)[:100]])
    if kind < 0.40:
        return a_broken_file(chance, content, record)
    if kind < 0.43:
        return content + marks + as_text(chance, record)
    if kind < 0.44:
        return content + marks + beyond_limits(chance, record)
    return content + marks + packed(record)


def stated_lines(chance, content, width):
    """Mostly the least number that is enough, or a few less or more, or none."""
    least = least_lines(content, width) or chance.randrange(1, 7)
    return max(0, chance.choice([least] * 5 + [least - 1, least - 1, least - 3, least + 1, least + 3, 0]))


def a_made_file(chance):
    width = chance.randrange(*chance.choices([(1, 5), (5, 21), (21, 81)], [45, 45, 10])[0])
    content = a_drawing(chance, width)
    content = with_zeros(chance, content) if chance.random() < 0.5 else content
    lines = stated_lines(chance, content, width)
    file = around(chance, with_mistakes(chance, content), width, lines)
    return file + a_tail(chance) if chance.random() < 0.15 else file


def two_drawings(chance):
    """A file in another one: behind its record, or before it, or behind its end mark."""
    first, second = a_made_file(chance), a_made_file(chance)
    return chance.choice([first + second, first + b"\x1a" + second, first[:-128] + second])


# Drawings of this repository.


def drawings(*folders):
    """The files of a folder of this repository."""
    files = []
    for path in sorted(glob.glob(os.path.join(TOP, *folders, "*.ans"))):
        with open(path, "rb") as file:
            files.append(file.read())
    return files


SMALL, LARGE = drawings("conformance", "files"), drawings("crates", "anscheck", "data")


def a_changed_drawing(chance):
    """A drawing of this repository with a mistake or two: in its content, its record, or behind that."""
    file = chance.choice(SMALL if chance.random() < 0.8 else LARGE)
    content, kind = file[:-128].partition(b"\x1a")[0], chance.random()
    record = record_of(file)
    if kind < 0.5:
        content = with_mistakes(chance, content)
    if 0.4 < kind < 0.6:
        record = record._replace(lines=max(0, chance.choice([0, record.lines - 1, record.lines + 2])))
    file = content + chance.choice([b"\x1a", b"\x1a", b""]) + packed(record)
    if 0.6 < kind < 0.8:
        at, byte = chance.randrange(len(file)), chance.choice([chance.randrange(256), 0x1A, 0x1B, 0x0A])
        file = file[:at] + bytes([byte]) + file[at + chance.randrange(2):]
    if 0.8 < kind < 0.9:
        return chance.choice([file[:-128], content, file[:-chance.randrange(1, 128)]])
    return file + a_tail(chance) if kind > 0.95 else file


def a_mend_file(chance):
    kind = chance.random()
    if kind < 0.65:
        return a_made_file(chance)
    if kind < 0.75:
        file = a_file(chance)
        return file + a_tail(chance) if chance.random() < 0.2 else file
    return a_changed_drawing(chance) if kind < 0.95 else two_drawings(chance)


# What is asked for.


def a_width(chance, file):
    """The width that the record states, where it states one that can be asked for, or another."""
    stated = struct.unpack("<H", file[-32:-30])[0] if len(file) >= 128 else 0
    return stated if 1 <= stated <= 1024 and chance.random() < 0.5 else chance.choice([1, 2, 4, 10, 16, 80, 80, 1024])


def some_lines(chance):
    return chance.choice([chance.randrange(1, 10), chance.randrange(1, 10), chance.randrange(1, 40)])


def some_asked(chance, file):
    """Nothing, each flag alone, and some of them together."""
    flags = [
        {"width": a_width(chance, file)}, {"crlf": True}, {"take_out": True}, {"join_rows": True},
        {"least_lines": True}, {"lines": some_lines(chance)}, {"name_colours": True}, {"columns": a_width(chance, file)},
        {"ice": True}, {"record": True}, {"crlf": True, "mixed": True}, {"join_rows": True, "mixed": True},
    ]
    asked = [NONE_ASKED] + [NONE_ASKED._replace(**flag) for flag in flags]
    for likely in [0.3, 0.5, 0.5, 0.8]:
        some = NONE_ASKED
        for flag in flags:
            some = some._replace(**flag) if chance.random() < likely else some
        asked.append(some)
    return list(dict.fromkeys(asked))


# Files near the limit.


def long_files(most):
    """Files to which something is added, so that they have as many bytes as a file may have or one more; with flags."""
    plain = packed(Record(b"SAUCE", b"00", b"", b"", b"", b"19960101", 0, 1, 1, 80, 9, 0, 0, 0, 0, b""))
    take_out = NONE_ASKED._replace(take_out=True)
    return_and_key, record_and_key = take_out._replace(crlf=True), take_out._replace(width=80)

    def digits(size):
        return b"\x1b[" + b"0" * (size - 3) + b"m"

    def key(size):
        return b"\x1b[\"" + b"x" * (size - 5) + b"\"p"

    return [
        *[(digits(size - 19 - 129) + b"\x1a" + plain, NONE_ASKED) for size in (most, most + 1)],
        *[(b"\n" + key(size - 2 - 129) + b"\x1a" + plain, return_and_key) for size in (most, most + 1)],
        *[(key(size - 1 - 128) + plain, asked) for size in (most, most + 1) for asked in (NONE_ASKED, take_out)],
        *[(key(size - 129), asked) for size in (most, most + 1) for asked in (record_and_key, NONE_ASKED)],
    ]
