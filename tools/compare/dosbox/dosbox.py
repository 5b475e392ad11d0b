#!/usr/bin/env python3
"""Plays random drawings on DOSBox, and compares its screen with the cells of `check --cleared --cells`.

DOSBox has an ANSI.SYS of its own, which nobody here wrote. Its screen has 80 columns and 25 rows. The drawings
pass from the cleared start, and have 24 lines, or fewer where `why` says that they play on taller screens. Each is
played on a screen that is cleared, and then on one that another drawing was played on. Where DOSBox is known to go
its own way the drawings do not go:

- it has no wrap modes, and prints `7h` of `ESC[?7h`;
- a line feed that follows no return goes to the first column too;
- behind `ESC[0m` alone, characters keep the attributes that stand on the screen, until the next colour;
- the parameters 4 and 8 change nothing, and 7 forgets blink and bright.

It needs Debian's `dosbox` and `nasm`. Run it in `crates/anscheck`, after `rt run -- check --cleared data/hi.ans`
has built the program, with a number that seeds the drawings and how many there shall be:

    python3 ../../tools/compare/dosbox/dosbox.py out/anscheck 1 10000

It prints the drawings whose cells differ, and then how many were compared. Its status is 1 where one differs.
"""
import concurrent.futures
import os
import random
import struct
import subprocess
import sys
import tempfile

HERE = os.path.dirname(os.path.abspath(__file__))
WIDTH = 80
# What begins each drawing on DOSBox: its start is then the cleared one, but for wrap, which it always has on.
CLEARED = b"\x1b[0;37;40m\x1b[2J\x1b[s"
LOUD = [0, 1, 5] + list(range(30, 38)) + list(range(40, 48))
GLYPHS = [b for b in range(256) if b not in (7, 8, 9, 10, 13, 26, 27)]


def colours(random_):
    """A sequence of colours; a reset is followed by a colour."""
    numbers = [random_.choice(LOUD) for _ in range(random_.randint(1, 4))]
    if numbers[-1] == 0:
        numbers.append(random_.randint(30, 37))
    return b"\x1b[" + b";".join(b"%d" % n for n in numbers) + b"m"


def token(random_, lines):
    """One token, or a return and a line feed."""
    n = random_.choice([b"", b"%d" % random_.randint(0, 9), b"%d" % random_.randint(1, 90)])
    return random_.choice([
        lambda: bytes(random_.choice(GLYPHS) for _ in range(random_.choice([1, 3, 10, 40, 85]))),
        lambda: bytes([random_.choice(b"Hello \xb0\xdb\xdc ")]) * random_.randint(1, 30),
        lambda: b"\r\n",
        lambda: b"\r",
        lambda: b"\x08",
        lambda: b"\x07",
        lambda: b"\t",
        lambda: b"\x1b[%d;%dH" % (random_.randint(0, lines), random_.randint(0, WIDTH)),
        lambda: b"\x1b[%df" % random_.randint(1, lines),
        lambda: b"\x1b[" + n + random_.choice([b"A", b"B", b"C", b"D"]),
        lambda: random_.choice([b"\x1b[s", b"\x1b[u", b"\x1b[K", b"\x1b[2J"]),
        lambda: colours(random_),
        lambda: colours(random_),
    ])()


def drawing(random_):
    """The number of lines, at most 24, and a content."""
    lines = random_.choice([1, 2, 5, 24])
    return lines, b"".join(token(random_, lines) for _ in range(random_.randint(1, 40)))


def ans_file(lines, content):
    """The content, an end mark, and a SAUCE 00.5 record of type Character/ANSi."""
    head = b"SAUCE00" + b" " * 75 + b"19960101" + struct.pack("<I", len(content)) + b"\x01\x01"
    return content + b"\x1a" + head + struct.pack("<HHHHBB", WIDTH, lines, 0, 0, 0, 0) + bytes(22)


def said(program, words, file):
    """What the program says of a file, or nothing where it is refused."""
    run = subprocess.run([program, *words], input=file, capture_output=True)
    return run.stdout if run.returncode == 0 else b""


def cells_of(program, lines, content):
    """The cells of the picture from the cleared start, or None where a screen of 25 rows need not show it."""
    file = ans_file(lines, content)
    report = said(program, ["check", "--cleared", "--cells"], file)
    if not report or (lines < 24 and b"\ntaller screens: same\n" not in said(program, ["why"], file)):
        return None
    return bytes.fromhex(report.partition(b"cells:\n")[2].decode().replace("\n", ""))


def played(folder, contents):
    """What the screen of DOSBox shows of each content, the bytes and attributes of 25 rows."""
    subprocess.run(["nasm", "-f", "bin", os.path.join(HERE, "play.asm"), "-o", os.path.join(folder, "PLAY.COM")],
                   check=True)
    with open(os.path.join(folder, "IN.BIN"), "wb") as file:
        for content in contents:
            file.write(struct.pack("<H", len(content)) + content)
    config = os.path.join(folder, "dosbox.conf")
    with open(config, "w", encoding="ascii") as file:
        file.write(f"[cpu]\ncycles=max\n[autoexec]\nmount c {folder}\nc:\nPLAY.COM\nexit\n")
    quiet = dict(os.environ, SDL_VIDEODRIVER="dummy", SDL_AUDIODRIVER="dummy", HOME=folder)
    subprocess.run(["dosbox", "-conf", config, "-noconsole"], env=quiet, check=True, stdout=subprocess.DEVNULL,
                   stderr=subprocess.DEVNULL)
    with open(os.path.join(folder, "OUT.BIN"), "rb") as file:
        shown = file.read()
    screens = [shown[at:at + 4000] for at in range(0, len(shown), 4000)]
    if len(screens) != len(contents):
        sys.exit(f"dosbox played {len(screens)} of {len(contents)} contents")
    return screens


def main():
    """Makes the drawings, plays them, and tells which differ."""
    program, seed, count = sys.argv[1], int(sys.argv[2]), int(sys.argv[3])
    random_ = random.Random(seed)
    passing = []
    with concurrent.futures.ThreadPoolExecutor(4) as pool:
        while len(passing) < count:
            tried = [drawing(random_) for _ in range(1000)]
            found = pool.map(lambda d: cells_of(program, *d), tried)
            passing += [(*d, cells) for d, cells in zip(tried, found) if cells is not None]
    passing = passing[:count]
    contents, before = [], b""
    for _, content, _ in passing:
        contents += [CLEARED + content, before + CLEARED + content]
        before = content
    with tempfile.TemporaryDirectory() as folder:
        screens = played(folder, contents)
    different = 0
    for at, screen in enumerate(screens):
        lines, content, cells = passing[at // 2]
        if screen[:lines * WIDTH * 2] != cells:
            different += 1
            cell = next(i for i in range(len(cells)) if screen[i] != cells[i]) // 2
            print(f"{lines} lines, {'behind another' if at % 2 else 'alone'}, "
                  f"row {cell // WIDTH + 1}, column {cell % WIDTH + 1}: {content!r}")
    print(f"{len(screens)} screens of {count} drawings, {different} differ")
    sys.exit(different > 0)


if __name__ == "__main__":
    main()
