#!/usr/bin/env python3
"""Redraws random files by the machine of `second_machine.py`, and compares with what `redraw` writes and says.

It redraws by itself, from the words of the rules: the record is refused as `second_why.py` does it, the content is
played from the cleared start, and its picture is written in its plainest form by `plain_form.py`. The end marks, the
comments and the record stay, but for an end mark where there was none and the file size. Standard output, the status,
and standard error are compared; of standard error the first line where nothing is written.

Of each file that is written it plays the content from the cleared start, the low, the high, and six between of any
kind. There is no fault, all are at one place where something is printed, the cells are those that the content before
has from the cleared start, and the attribute is then 07h. The kinds in which players part that arise, as
`second_players.py` finds them, are those of the picture's own control bytes, once for each of them. `ESC[0m` is its
end, and stands nowhere else; no sequence of colours has more than four numbers, or more than ten bytes behind `ESC[`.
What is redrawn once more stays as it is.

It also plays the content on a few screens of other sizes, of two rows or more and of the stated columns or more, behind
other text: on players that wrap at once and on those that wait, and whose rows come in white on black or in the current
colours. What has scrolled off since the last clear, and what is on the screen, show the picture together: each cell is
the same, or a blank of the same background and blink; right of the picture and below it are blanks alone. A player of
this model scrolls as simply as can be, and is no copy of a real one.

The files are those of `redraw_files.py`. It follows the rules as this project states them, so it cannot tell a rule
that both misread. Run it in `crates/anscheck`, on the built program, with a number that seeds the files and how many
there shall be that pass:

    python3 ../../tools/compare/second_redraw.py out/anscheck 1 20000

It prints each file where something differs, how often each rule of the form was met, and how many were refused for
which fault. Its status is 1 where one differs. With `--model` in the program's place it is compared with none.
"""
import collections
import functools
import multiprocessing
import random
import re
import sys

sys.dont_write_bytecode = True

from plain_form import BLANK, GREY, PlainForm
from player_family import PAGE_CONTROLS, TERMINAL_CONTROLS, WAITS, Rolling
from redraw_files import a_redraw_file
from second_machine import answer, fault_in
from second_mend import (
    FILE_SIZE, LINES, NotMended, draft_of, eight_starts, put_end_mark, shown_answer, shown_bytes, written_by,
)
from second_players import spelled, walk
from second_why import body_of, cells_of, cleared, fault_line, record_fault, record_of

MOST_CELLS, MOST_NUMBERS, MOST_IN_SEQUENCE = 20000, 4, 10
COLOURS = re.compile(rb"\x1b\[([0-9;]*m)")
Redrawn = collections.namedtuple("Redrawn", "file machine met said")


# A file redrawn.


def redrawn(file):
    """The redrawn file, the machine that has the picture, the rules of the form that were met, and what is said."""
    said = []
    draft = draft_of(file, False, said)
    before, machine = draft.content, cleared(draft.width(), draft.field(LINES))
    fault = fault_in(before, [machine])
    if fault:
        raise NotMended(fault_line(*fault))
    form = PlainForm(machine.rows[:-1])
    draft.content = form.content()
    length = len(draft.content)
    draft.say("content length", f"content length {length}, was {len(before)}")
    put_end_mark(draft)
    size = draft.field(FILE_SIZE)
    if size != length:
        draft.put(FILE_SIZE, length)
        draft.say("file size", f"file size {length}, was {size}")
    return Redrawn(draft.file(), machine, form.met, said)


def finding(file):
    """The file redrawn, or the reason why it is not, as a line."""
    try:
        return redrawn(file)
    except NotMended as reason:
        return reason.args[0]


def expected_of(found):
    """The status, standard output, and the lines of standard error; the first if nothing is written."""
    if isinstance(found, str):
        return 1, b"", found.split("\n")[:1]
    return 0, found.file, [line for _, line in found.said]


def printed_of(program, file):
    status, output, lines = written_by([program, "redraw"], file)
    return status, output, lines if status == 0 else lines[:1]


def kinds_of(rows):
    """The kinds of the picture's own bytes, and how often each has to arise."""
    counts = collections.Counter()
    for byte, _ in (cell for row in rows for cell in row):
        counts["page-controls"] += byte in PAGE_CONTROLS
        counts["terminal-controls"] += byte in TERMINAL_CONTROLS
    return +counts


# What is promised of it.


def broken_from(start, tokens, rows, places):
    """What is wrong with the content from this start, or None."""
    walked = walk(tokens, start)
    if walked is None:
        return "a fault"
    if walked.picture != rows or walked.places != places:
        return "another picture, or drawn at other places"
    if start.attribute != GREY:
        return f"the attribute {start.attribute:02x} behind it"
    kinds = collections.Counter(kind for _, kind in walked.arisen)
    return None if kinds == kinds_of(rows) else f"the kinds {dict(kinds)}"


def broken_spelling(content):
    """What is wrong with the sequences of the content, or None."""
    if content.find(b"\x1b[0m") != len(content) - len(b"\x1b[0m"):
        return "ESC[0m is not its end alone"
    sequences = [found[1] for found in COLOURS.finditer(content)]
    if any(text.count(b";") >= MOST_NUMBERS or len(text) > MOST_IN_SEQUENCE for text in sequences):
        return "a sequence of colours is long"
    return None


def look_alike(one, other):
    """Equal, or blanks of one background."""
    return one == other or one[0] == other[0] == BLANK[0] and one[1] >> 4 == other[1] >> 4


def broken_on(screen, tokens, rows):
    """What is wrong with what has scrolled off and the screen, or None."""
    for _, token, text in tokens:
        screen.meet(token, text)
    shown = [list(row) for row in screen.roll + screen.rows]
    shown += [[BLANK] * screen.width] * (len(rows) - len(shown))
    for row, cells in enumerate(shown):
        meant = rows[row] if row < len(rows) else ()
        outside = {byte for byte, _ in cells[len(meant):]}
        if not all(map(look_alike, cells, meant)) or outside - {BLANK[0]}:
            size = f"{screen.lines + 1} rows of {screen.width}, {screen.traits}, grey below: {screen.is_grey_below}"
            return f"row {row + 1} is another on {size}"
    return None


def broken_elsewhere(tokens, width, rows, chance):
    """What is wrong with the content on screens of other sizes, or None. Large pictures are played on none."""
    if width * len(rows) > MOST_CELLS:
        return None
    for _ in range(4):
        columns = width + chance.choice([0, 0, 1, 2, 3, 52])
        count = chance.choice([2, 2, 3, 4, 5, 24, len(rows), len(rows) + 1, len(rows) + 3])
        start, traits = eight_starts(chance, columns, max(2, count) - 1)[-1], chance.choice([(), (WAITS,)])
        wrong = broken_on(Rolling(start, chance.random() < 0.5, *traits), tokens, rows)
        if wrong:
            return wrong
    return None


def broken_promise(found, chance):
    """What is wrong with the file that is written, or None."""
    fault = record_fault(found.file)
    if fault:
        return "its record is refused: " + fault_line(*fault[:2])
    record = record_of(found.file)
    content = body_of(found.file, record).partition(b"\x1a")[0]
    width, lines, rows = record.width or 80, record.lines, tuple(map(tuple, found.machine.rows[:-1]))
    if answer(content, eight_starts(chance, width, lines)) != cells_of(found.machine, lines):
        return "it does not show the picture from every start"
    tokens = spelled(content)
    places = walk(tokens, cleared(width, lines)).places
    for start in [cleared(width, lines)] + eight_starts(chance, width, lines):
        place, wrong = (start.row, start.column), broken_from(start, tokens, rows, places)
        if wrong:
            return f"{wrong}, from {place}"
    wrong = broken_spelling(content) or broken_elsewhere(tokens, width, rows, chance)
    if wrong:
        return wrong
    again = finding(found.file)
    is_kept = not isinstance(again, str) and again.file == found.file and again.said == kept(found)
    return None if is_kept else f"by the rules, once more gives {again}"


def kept(found):
    """What is said, with what it is, where the file is redrawn once more."""
    record = record_of(found.file)
    length = len(body_of(found.file, record).partition(b"\x1a")[0])
    return [("content length", f"content length {length}, was {length}")]


# The tries.


def differences(program, file, found, chance):
    """What is wrong: of the program, or of the rules alone where there is none."""
    is_refused = isinstance(found, str)
    wrong = [None if is_refused else broken_promise(found, chance)]
    if program:
        expected, printed = expected_of(found), printed_of(program, file)
        if printed != expected:
            wrong.append(f"expected {shown_answer(expected)}\n  not {shown_answer(printed)}")
        elif not is_refused:
            again = printed_of(program, found.file)
            is_kept = again == (0, found.file, [line for _, line in kept(found)])
            wrong.append(None if is_kept else f"once more gives {shown_answer(again)}")
    return [what for what in wrong if what]


def what_it_is(file, found):
    """What a file is counted as."""
    if isinstance(found, str):
        return ["refused " + (found.split()[2] if found.startswith("at ") else found)]
    record = record_of(file)
    before, after = [len(body_of(one, record).partition(b"\x1a")[0]) for one in (file, found.file)]
    lengths = "longer" if after > before else "shorter" if after < before else "as long"
    return [lengths] + [what for what, _ in found.said[1:]] + list(found.met) + list(kinds_of(found.machine.rows))


def try_one(program, seed, number):
    """Tries files until one passes: what each is, how often that was so, and what is wrong."""
    chance, seen, wrong = random.Random(f"{seed} {number}"), collections.Counter(), []
    while True:
        file = a_redraw_file(chance)
        found = finding(file)
        seen.update(what_it_is(file, found))
        wrong += [f"{shown_bytes(file)}:\n  {what}" for what in differences(program, file, found, chance)]
        if not isinstance(found, str):
            return seen, wrong


def main(program, seed, count):
    program = None if program == "--model" else program
    seen, differing = collections.Counter(), 0
    with multiprocessing.Pool(2) as pool:
        for its_seen, wrong in pool.imap_unordered(functools.partial(try_one, program, seed), range(int(count)), 16):
            seen.update(its_seen)
            differing += len(wrong)
            for difference in wrong:
                print(difference, flush=True)
    refused = sum(number for what, number in seen.items() if what.startswith("refused"))
    counts = ", ".join(f"{number} {what}" for what, number in seen.most_common())
    print(f"{differing} differ, of {count} that pass and {refused} that are refused; {counts}")
    return differing > 0


if __name__ == "__main__":
    sys.exit(main(*sys.argv[1:]))
