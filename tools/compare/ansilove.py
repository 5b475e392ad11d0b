#!/usr/bin/env python3
"""Compares the pictures of `check --cleared --cells` with those of ansilove, pixel by pixel.

ansilove draws ANSI art as PNG; nobody here wrote it. It needs Debian's `ansilove`. Run it in `crates/anscheck`,
after `rt run -- check --cleared data/hi.ans` has built the program, with drawings:

    python3 ../../tools/compare/ansilove.py out/anscheck data/*.ans /usr/share/doc/ansilove/examples/*/*.ans

The shapes of the characters are taken from a chart that ansilove draws itself, so what is compared is which
character stands in each cell, and in which colours. It draws no blink. A drawing that is refused has no picture and
is left out. It prints the cells that differ, and then how many were compared; its status is 1 where one differs.
"""
import os
import struct
import subprocess
import sys
import tempfile
import zlib

GLYPHS = [b for b in range(256) if b not in (7, 8, 9, 10, 13, 26, 27)]
WIDE, HIGH = 8, 16
# A colour's bits are blue, green and red, and bright; the sixth is brown.
COLOURS = [tuple(170 * (n >> bit & 1) + 85 * (n >> 3) for bit in (2, 1, 0)) for n in range(16)]
COLOURS[6] = (170, 85, 0)


def ans_file(content, width, lines):
    """The content, an end mark, and a SAUCE 00.5 record of type Character/ANSi."""
    head = b"SAUCE00" + b" " * 75 + b"19960101" + struct.pack("<I", len(content)) + b"\x01\x01"
    return content + b"\x1a" + head + struct.pack("<HHHHBB", width, lines, 0, 0, 0, 0) + bytes(22)


def chunks(png):
    """The names and the bytes of a PNG's chunks."""
    at = 8
    while at < len(png):
        size, name = struct.unpack(">I4s", png[at:at + 8])
        yield name, png[at + 8:at + 8 + size]
        at += 12 + size


def unfiltered(rows, stride, step):
    """The bytes of a PNG's rows, without their filters."""
    above, done = bytes(stride), []
    for at in range(0, len(rows), stride + 1):
        kind, row = rows[at], bytearray(rows[at + 1:at + 1 + stride])
        for i in range(stride if kind else 0):
            left = row[i - step] if i >= step else 0
            corner = above[i - step] if i >= step else 0
            guess = left + above[i] - corner
            nearest = min((abs(guess - left), 0, left), (abs(guess - above[i]), 1, above[i]),
                          (abs(guess - corner), 2, corner))[2]
            row[i] = (row[i] + (0, left, above[i], (left + above[i]) // 2, nearest)[kind]) & 255
        above = bytes(row)
        done.append(above)
    return done


def pixels(path):
    """The colours of a PNG's pixels, row by row. It has a palette or three bytes a pixel."""
    with open(path, "rb") as file:
        parts = list(chunks(file.read()))
    width, height, depth, kind = struct.unpack(">IIBB", parts[0][1][:10])
    data = zlib.decompress(b"".join(part for name, part in parts if name == b"IDAT"))
    if kind == 2:
        rows = unfiltered(data, 3 * width, 3)
        return [[tuple(row[i:i + 3]) for i in range(0, 3 * width, 3)] for row in rows[:height]]
    flat = dict(parts)[b"PLTE"]
    palette = [tuple(flat[i:i + 3]) for i in range(0, len(flat), 3)]
    rows = unfiltered(data, (width * depth + 7) // 8, 1)
    mask = (1 << depth) - 1
    return [[palette[row[i * depth // 8] >> (8 - depth - i * depth % 8) & mask] for i in range(width)]
            for row in rows[:height]]


def drawn(path, *flags):
    """What ansilove draws of a file, with these flags."""
    with tempfile.TemporaryDirectory() as folder:
        png = os.path.join(folder, "drawn.png")
        subprocess.run(["ansilove", "-q", *flags, "-b", "8", "-o", png, path], check=True, stdout=subprocess.DEVNULL)
        return pixels(png)


def tile(picture, row, column):
    """The pixels of a cell."""
    return [line[column * WIDE:(column + 1) * WIDE] for line in picture[row * HIGH:(row + 1) * HIGH]]


def shapes():
    """Of each character the pixels that are set, by a chart."""
    content = b"\x1b[0;1;37;40m" + b"\r\n".join(bytes(GLYPHS[at:at + 32]) for at in range(0, len(GLYPHS), 32))
    with tempfile.NamedTemporaryFile(suffix=".ans") as file:
        file.write(ans_file(content, 80, 8))
        file.flush()
        chart = drawn(file.name)
    found = {}
    for place, glyph in enumerate(GLYPHS):
        found[glyph] = [[pixel != COLOURS[0] for pixel in line] for line in tile(chart, place // 32, place % 32)]
    return found


def cells_of(program, path):
    """The rows of the picture from the cleared start, or nothing where the file is refused."""
    run = subprocess.run([program, "check", "--cleared", "--cells", path], capture_output=True)
    if run.returncode != 0:
        return []
    return [bytes.fromhex(row) for row in run.stdout.partition(b"cells:\n")[2].decode().split()]


def looks(shape, attribute, non_blink):
    """The pixels of a character in its colours."""
    fore, back = COLOURS[attribute & 15], COLOURS[attribute >> 4 & (15 if non_blink else 7)]
    return [[fore if is_set else back for is_set in line] for line in shape]


def main():
    """Compares each drawing."""
    program, paths = sys.argv[1], sys.argv[2:]
    shape_of, compared, different, left_out = shapes(), 0, 0, 0
    for path in paths:
        rows = cells_of(program, path)
        if not rows:
            left_out += 1
            continue
        with open(path, "rb") as file:
            non_blink = file.read()[-23] & 1
        picture = drawn(path)
        for number, row in enumerate(rows[:len(picture) // HIGH]):
            for column in range(len(row) // 2):
                glyph, attribute = row[2 * column:2 * column + 2]
                compared += 1
                if tile(picture, number, column) != looks(shape_of[glyph], attribute, non_blink):
                    different += 1
                    print(f"{path}: row {number + 1}, column {column + 1}: {glyph:02x} {attribute:02x}")
    print(f"{compared} cells of {len(paths) - left_out} drawings, {different} differ; {left_out} refused")
    sys.exit(different > 0)


if __name__ == "__main__":
    main()
