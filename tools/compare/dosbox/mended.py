#!/usr/bin/env python3
"""Mends random drawings, and compares what DOSBox then shows behind another drawing with what was meant.

The drawings are of the kind that `dosbox.py` makes, with 24 lines, and pass from the cleared start. `mend` writes
each, by turns by itself and with `--name-colours`. DOSBox plays the mended content on the screen that the mended content before it was played on. What its first 24
rows show has to be the cells that `check --cleared --cells` prints of the drawing as it was. DOSBox prints `7h` of
the `ESC[?7h` in front, and the clear behind that wipes it out.

It needs Debian's `dosbox` and `nasm`. Run it in `crates/anscheck`, after `rt run -- check --cleared data/hi.ans`
has built the program, with a number that seeds the drawings and how many there shall be:

    python3 ../../tools/compare/dosbox/mended.py out/anscheck 1 2000

It prints the drawings of which a cell differs, and then how many were compared, and how many of them are changed. Its
status is 1 where one differs.
"""
import concurrent.futures
import random
import sys
import tempfile

sys.dont_write_bytecode = True

from dosbox import WIDTH, ans_file, cells_of, played, said, token

LINES = 24


def drawing(random_):
    return b"".join(token(random_, LINES) for _ in range(random_.randint(1, 40)))


def tried(program, content):
    """The content, the cells that it has from the cleared start, and the mended content, named or not; or None."""
    cells = cells_of(program, LINES, content)
    if cells is None:
        return None
    flags = ["--name-colours"] if len(content) % 2 else []
    return content, cells, said(program, ["mend", *flags], ans_file(LINES, content)).partition(b"\x1a")[0]


def passing_drawings(program, random_, count):
    """So many drawings that pass from the cleared start, with what is known of them."""
    passing = []
    with concurrent.futures.ThreadPoolExecutor(2) as pool:
        while len(passing) < count:
            contents = [drawing(random_) for _ in range(500)]
            passing += [found for found in pool.map(lambda content: tried(program, content), contents) if found]
    return passing[:count]


def main(program, seed, count):
    passing = passing_drawings(program, random.Random(int(seed)), int(count))
    contents, before = [], b""
    for _, _, mended in passing:
        contents.append(before + mended)
        before = mended
    with tempfile.TemporaryDirectory() as folder:
        screens = played(folder, contents)
    different = 0
    for (content, cells, mended), screen in zip(passing, screens):
        shown = screen[:len(cells)]
        if shown != cells:
            different += 1
            cell = next(at for at in range(len(cells)) if shown[at] != cells[at]) // 2
            print(f"row {cell // WIDTH + 1}, column {cell % WIDTH + 1}: {content!r}, mended {mended!r}")
    longer = sum(mended != content for content, _, mended in passing)
    print(f"{len(screens)} mended drawings, {different} differ; {longer} are changed")
    return different > 0


if __name__ == "__main__":
    sys.exit(main(*sys.argv[1:]))
