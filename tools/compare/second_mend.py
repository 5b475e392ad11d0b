#!/usr/bin/env python3
"""Mends random files by the machine of `second_machine.py`, and compares with what `mend` writes and says.

It mends by itself, step by step, from the words of the rules:

- the record is taken apart and refused as `second_why.py` does it, and its bytes are written over in place;
- what is taken out is found by patterns over the bytes, where the content's own reader is refused;
- full rows and their line ends are those that the hint of `why` counts;
- which names a sequence of colours gets is found in one pass over the tokens, from the last to the first;
- whether a content passes, and on how many lines, is found by playing it without its cells;
- whether the beginning is wanted is found by playing it from eight starts of any kind, and by the kinds in which
  players part that arise from those and not from the cleared one, as `second_players.py` finds them; where colours are
  named, by what is printed before the first 0 too.

The files are those of `mend_files.py`. Each is mended by itself, with each flag alone, and with some at random.
Standard output, the status, and standard error are compared; if nothing is written, of standard error the first line,
and of a file without a record what may help. No flag is offered with which it is refused for the same reason.
Of each file that is written it plays the content from eight starts of any kind: there is no fault, and the picture is
the one that the changed content has from the cleared start, before its colours were named. From none of them arise
other kinds than those that the changed content has from there, and from there the same, but that `own-colours` may be
gone; where colours are named it is gone, and they are named nowhere if it did not arise. `dos-colours` may be gone
there, too: an omitted number may be alone then. A file that was changed is mended once more with the same flags but
`--join-rows`, and `--crlf` where the last return was taken out of it: nothing is changed.

It follows the rules as this project states them, so it cannot tell a rule that both misread. Run it in
`crates/anscheck`, on the built program, with a number that seeds the files and how many there shall be:

    python3 ../../tools/compare/second_mend.py out/anscheck 1 10000

It prints each file and its flags where something differs, and then how often each thing was said. Its status is 1
where one differs. With `--model` in the program's place nothing is compared: it says what it finds by itself. With
`long` as a fourth word a few files are mended besides that come near the limit of a file, in a minute or two.
"""
import collections
import functools
import itertools
import multiprocessing
import random
import re
import subprocess
import sys

sys.dont_write_bytecode = True

from mend_files import a_mend_file, long_files, some_asked
from named_colours import paints_before_a_zero, with_named_colours
from pens import MOST_LINES, Pen, first_fault, least_lines, passes, tokens_of
from second_machine import CONTROLS, REFUSED, Machine, Refused, answer, play, read_sequence
from second_players import OF_TOKENS, spelled, walk
from second_why import (
    MENDING, MOST_COLUMNS, Hints, Rows, are_exchanged, body_of, cleared, fault_line, fitting_widths, last_record, many,
    quoted, record_fault, record_of, rows_printed,
)

MOST_BYTES = 16777216
TAIL = b"\x00\x0a\x0d\x1a"
# Where fields stand in the record, and how many bytes they have.
FILE_SIZE, COLUMNS, LINES, FLAGS = (90, 4), (96, 2), (98, 2), (105, 1)
DRAWS = {"glyph", "tab", "clear", "erase"}
SEQUENCES = [
    ("bright backgrounds", re.compile(rb"\x1b\[\?33[hl]")),
    ("another switch", re.compile(rb"\x1b\[\?(12|25|35)[hl]")),
    ("another mode", re.compile(rb"\x1b\[[=?]?[0-9;]*[hl]")),
    ("a font selection", re.compile(rb"\x1b\[[0-9]+;[0-9]+ D")),
    ("music", re.compile(rb"\x1b\[[MN|][A-Za-z0-9#+\-.<> ]{0,250}\x0e")),
    ("a 24-bit colour", re.compile(rb"\x1b\[[01];[0-9]+;[0-9]+;[0-9]+t")),
    ("a report", re.compile(rb"\x1b\[(5n|6n|c|0c)")),
]
TAKEN_OUT = [kind for kind, _ in SEQUENCES] + ["a key", "an unfinished sequence"]


class NotMended(Exception):
    """The reason why nothing is written, as the first line of standard error says it."""


# A file that is being changed.


class Draft:
    """The content, what stands between it and the record, the record, and what was said of the changes."""

    def __init__(self, content, behind, record, said):
        self.content, self.behind, self.record, self.said = content, behind, record, said
        # What the switch for bright backgrounds says, if something, and whether the flag is asked for.
        self.bright, self.is_iced = None, False

    def say(self, what, line):
        self.said.append((what, line))

    def say_of_each(self, what, line, offsets):
        """A line of one change or more, with how many they are and the place of the first.

        `{}` is how many they are, `(s)` an s if they are several, and `(a )` an article if it is one."""
        if offsets:
            several = len(offsets) > 1
            line = line.replace("(a )", "" if several else "a ").replace("(s)", "s" if several else "")
            self.say(what, f"{line.format(len(offsets))}, {'first ' if several else ''}at {offsets[0]}")

    def field(self, place):
        at, size = place
        return int.from_bytes(self.record[at:at + size], "little")

    def put(self, place, number):
        at, size = place
        self.record = self.record[:at] + number.to_bytes(size, "little") + self.record[at + size:]

    def width(self):
        return record_of(self.record).width or 80

    def file(self):
        """Its bytes, if they are not too many."""
        file = self.content + self.behind + self.record
        if len(file) > MOST_BYTES:
            raise NotMended(f"the file would be longer than {MOST_BYTES} bytes")
        return file


def without(text, places):
    """A text without the bytes from here to there, for each pair of places, from the front."""
    kept, at = [], 0
    for begin, end in places:
        kept.append(text[at:begin])
        at = end
    return b"".join(kept) + text[at:]


# The record.


def came_as_text(found):
    """A transfer has put returns before line feeds, and without them the bytes are a whole record."""
    was = found.replace(b"\r\n", b"\n")
    return len(was) == 128 and was != found


def states_too_much(record):
    """The record is of a drawing that is wider or longer than any may be."""
    stated = record_of(record)
    return stated.width > MOST_COLUMNS or stated.lines > MOST_LINES


def without_tail(file, said):
    """The file, without what stands behind its last record and is none of the drawing."""
    end = file[-128:]
    if len(end) == 128 and end[:5] == b"SAUCE" and end[94:96] == b"\x01\x01":
        return file
    place = last_record(file)
    behind = file[place + 128:] if place >= 0 else b""
    if not behind or behind.strip(TAIL) or came_as_text(file[place:]) or states_too_much(file[place:place + 128]):
        return file
    said.append(("cut off", f"cut off {many(len(behind), 'byte')} after the record, at {place + 128}"))
    return file[:place + 128]


def with_record(file, width, said):
    """The file with a record of so many columns and no lines, where it has none; or None where it gets none."""
    content, _, behind = file.partition(b"\x1a")
    if file[-128:].startswith(b"SAUCE") and len(file) >= 128 or b"SAUCE00" in file or behind.strip(TAIL):
        return None
    size = len(file) - len(content)
    place = f", at {len(content)}" + (f", in place of {many(size, 'byte')}" if size else "")
    said.append(("added a record", f"added an end mark and a record for {many(width, 'column')}{place}"))
    numbers = [(0, 4), (1, 1), (1, 1), (width, 2), (0, 2), (0, 2), (0, 2), (0, 1), (0, 1)]
    fields = b"".join(number.to_bytes(size, "little") for number, size in numbers)
    return content + b"\x1aSAUCE00" + b" " * 75 + b"0" * 8 + fields + bytes(22)


def with_columns(file, columns, said):
    """The file whose record states so many columns."""
    if not columns or len(file) < 128 or file[-128:-123] != b"SAUCE":
        return file
    stated = record_of(file).width or 80
    if stated != columns:
        said.append(("columns", f"columns {columns}, was {stated}"))
    return file[:-32] + columns.to_bytes(2, "little") + file[-30:]


def with_comments_counted(file, is_asked, said):
    """The file whose record counts the comments that stand before it, where only one number of them is possible."""
    if not is_asked or len(file) < 128 or file[-128:-123] != b"SAUCE":
        return file
    front, counted = file[:-128], file[-24]
    numbers = [number for number in range(1, 256) if front[-5 - 64 * number:][:5] == b"COMNT" and
               len(front) >= 5 + 64 * number]
    number = counted if len(numbers) > 1 else (numbers + [0])[0]
    if number != counted:
        said.append(("comments", f"comments {number}, was {counted}"))
    return file[:-24] + bytes([number]) + file[-23:]


def without_older_record(file, is_asked, said):
    """The file without an older record, where nothing but that stands between its first end mark and its comments."""
    if not is_asked or len(file) < 128 or file[-128:-123] != b"SAUCE":
        return file
    content, _, after = body_of(file, record_of(file)).partition(b"\x1a")
    if len(after) < 128 or not after.startswith(b"SAUCE00") or after[128:].strip(b"\0\n\r\x1a"):
        return file
    begin = len(content) + 1
    said.append(("older record", f"removed an older record, {len(after)} bytes in all, at {begin}"))
    return file[:begin] + file[begin + len(after):]


def idle_flags(asked, said, old_flags, is_stated_new):
    """The lines on flags that were asked for and did nothing."""
    kinds = {what for what, _ in said}
    taken = any(kind.startswith("removed ") for kind in kinds) or "last line ends" in kinds
    some = ("no line feed lacks a return", "no full row has a line end") if asked.mixed else (
        "it needs line feeds and no return (--mixed: those without one)",
        "it needs two full rows, each with a line end (--mixed: those with one)")
    stays = "the drawing passes with those that are stated"
    rows = [
        ("add-record", asked.width and "added a record" not in kinds, "the file has a record"),
        ("columns", asked.columns and "columns" not in kinds, "the record states them"),
        ("record", asked.record and not kinds & {"comments", "older record"}, "no comments to count and no older record to remove"),
        ("crlf", asked.crlf and "returns" not in kinds, some[0]),
        ("take-out", asked.take_out and not taken, "nothing of that kind is refused"),
        ("ice", asked.ice and old_flags & 1, "the flag is set"),
        ("join-rows", asked.join_rows and "full rows" not in kinds, some[1]),
        ("mixed", asked.mixed and not asked.crlf and not asked.join_rows, "it is for --crlf and --join-rows"),
        ("name-colours", asked.name_colours and "named colours" not in kinds, "no colour lacks a name"),
        ("lines", asked.lines and not is_stated_new, stays),
        ("least-lines", asked.least_lines and not asked.lines and not is_stated_new, stays),
    ]
    return [(f"idle {flag}", f"--{flag}: nothing done, {reason}") for flag, is_idle, reason in rows if is_idle]


def record_help(file):
    """What may help a file without a record: one, if it takes one."""
    if with_record(file, 80, []) is None:
        return "no record is added if SAUCE00 appears in the file or more follows 1Ah: see anscheck help F1"
    return "try: --add-record N, which adds a record for N columns"


def draft_of(file, are_lines_asked, said):
    """The file taken apart, if its record is accepted. One that states no lines may get some."""
    stated = file
    if are_lines_asked and len(file) >= 128 and record_of(file).lines == 0:
        stated = file[:-30] + MOST_LINES.to_bytes(2, "little") + file[-28:]
    fault = record_fault(stated)
    if fault:
        raise NotMended(fault_line(*fault[:2]) + (f"\n{record_help(file)}" if fault[1] == 1 else ""))
    content = body_of(file, record_of(file)).partition(b"\x1a")[0]
    return Draft(content, file[len(content):-128], file[-128:], said)


# What is asked for by name.


def put_returns(draft, some_are_enough):
    """A return before each line feed that has none before it, where there is none in all of the content, or some are
    enough."""
    content = draft.content
    feeds = [found.start() for found in re.finditer(rb"(?<!\r)\n", content)]
    if feeds and (some_are_enough or b"\r" not in content):
        draft.say_of_each("returns", "added {} carriage return(s) before (a )line feed(s)", feeds)
        draft.content = re.sub(rb"(?<!\r)\n", b"\r\n", content)


def token_at(content, at):
    """The token that begins here, and the place behind it; or the number of the fault, and None."""
    byte = content[at]
    if byte != 0x1B:
        name = CONTROLS.get(byte)
        return (name,) if name else ("glyph", byte), at + 1
    try:
        return read_sequence(content, at)
    except Refused as refused:
        return refused.args[0], None


def form_at(content, at, refused, has_drawn, is_behind_colour):
    """What the bytes from here on are that may be taken out, and the place behind them; or None."""
    if refused == 12:
        return None if set(content[at:]) & set(b"\"'") else ("an unfinished sequence", len(content))
    for kind, form in SEQUENCES:
        found = form.match(content, at)
        if found and not (kind == "another mode" and has_drawn or kind == "a 24-bit colour" and not is_behind_colour):
            return kind, found.end()
    return None


def to_take_out(content):
    """The sequences that are taken out, from the front: of each its kind, and from where to where it stands."""
    taken, at, has_drawn, is_behind_colour = [], 0, False, False
    while at < len(content):
        token, after = token_at(content, at)
        if after and token[0] not in REFUSED:
            has_drawn, is_behind_colour = has_drawn or token[0] in DRAWS, token[0] == "colours"
            at = after
            continue
        is_key = after and token[0] == "keys"
        form = ("a key", after) if is_key else form_at(content, at, token, has_drawn, is_behind_colour)
        if not form:
            break
        kind, after = form
        taken.append((kind, at, after))
        is_behind_colour, at = kind == "a 24-bit colour", after
    return taken


def switch_at_last_bright(content, taken):
    """What the switch for bright backgrounds says at the last cell that is printed with bit 7; None if it says nothing."""
    pen, at, switch, said = Pen(80, MOST_LINES), 0, None, None
    ends = {begin: (kind, end) for kind, begin, end in taken}
    while at < len(content):
        if at in ends:
            kind, end = ends[at]
            switch = content[end - 1:end] == b"h" if kind == "bright backgrounds" else switch
            at = end
            continue
        token, after = token_at(content, at)
        if not after or token[0] in REFUSED:
            break
        said = switch if token[0] in ("glyph", "tab") and pen.attribute & 0x80 else said
        if token[0] == "colours":
            pen.step(*token)
        at = after
    return said


def set_flag(draft, taken):
    """The non-blink flag, as the switch says it or as it is asked for; it is told if a switch was taken out."""
    flags, switches = draft.field(FLAGS), [kind for kind, _, _ in taken if kind == "bright backgrounds"]
    is_on = draft.is_iced or (bool(flags & 1) if draft.bright is None else draft.bright)
    draft.put(FLAGS, flags & 0xFE | is_on)
    if bool(flags & 1) != is_on:
        draft.say("flag", "set the non-blink flag" if is_on else "cleared the non-blink flag")
    elif switches:
        draft.say("flag left", f"left the non-blink flag {'set' if is_on else 'cleared'}")


def take_sequences_out(draft):
    """Each kind is told by its first sequence. What the switch for bright backgrounds says goes into the record."""
    content, taken = draft.content, to_take_out(draft.content)
    for kind in TAKEN_OUT:
        places = [(begin, end) for its_kind, begin, end in taken if its_kind == kind]
        if places:
            line = f"removed {quoted(content[slice(*places[0])])} at {places[0][0]}"
            more = f", and {len(places) - 1} more like it" if places[1:] else ""
            draft.say(f"removed {kind}", line + more)
    draft.bright = switch_at_last_bright(content, taken)
    draft.content = without(content, [(begin, end) for _, begin, end in taken])
    return taken


class FullRows(Rows):
    """The rows, and of each full one with a line end where the return and the line feed stand, or the feed alone."""

    def __init__(self, width):
        super().__init__(width)
        self.line_ends_of_full, self.is_undone = [], False

    def meet(self, offset, token, machine):
        before = len(self.ended)
        super().meet(offset, token, machine)
        self.is_undone = self.is_undone or len(self.ended) < before
        if len(self.ended) > before:
            self.line_ends_of_full.append(sorted({self.ended[-1], offset}))


def take_ends_of_full_rows_out(draft, some_are_enough):
    """The line ends behind full rows, where each full row that is followed has one and two have; or where some are
    enough, and nothing is printed above where one of them led."""
    tokens, ending = tokens_of(draft.content)
    if ending:
        return
    pen, rows = Pen(draft.width(), MOST_LINES), FullRows(draft.width())
    for offset, token in tokens:
        rows.meet(offset, token, pen)
        rows_printed(token, pen)
        rows.leave(token, pen)
    if some_are_enough and not rows.is_undone or not some_are_enough and rows.all_end():
        ends = rows.line_ends_of_full
        draft.say_of_each("full rows", "removed {} line end(s) after (a )full row(s)", [end[0] for end in ends])
        draft.content = without(draft.content, [(at, at + 1) for end in ends for at in end])


LAST_END = re.compile(rb"(\r\n|\r|\n|\0|\x1b\[[0-?]*[Hfhlmsu])\Z")


def take_last_line_ends_out(draft, lines):
    """As little of what draws nothing at the very end as has to go for the content to pass, of sequences at most 8."""
    rest, count, sequences = draft.content, 0, 0
    while not passes(rest, draft.width(), lines):
        end = LAST_END.search(rest)
        sequences += bool(end) and end[0].startswith(b"\x1b")
        if not end or sequences > 8:
            return
        rest, count = rest[:end.start()], count + 1
    what = " line ends, bytes 00h or sequences" if count > 1 else " line end, byte 00h or sequence"
    draft.say_of_each("last line ends", "removed {}" + what + " at the end", [len(rest)] * count)
    draft.content = rest


def name_colours(draft):
    """Names for the colours behind each 0, where something is printed or blanked in them."""
    draft.content, offsets = with_named_colours(draft.content)
    draft.say_of_each("named colours", "named the colours of {} sequence(s)", offsets)


def looks_torn(content, width, stated, lines):
    """On so many lines the rows look broken, or those of a drawing for another width."""
    hints = Hints(content, len(content), width, lines)
    fits = fitting_widths(content, width, stated, hints, least_lines)
    return hints.torn or bool(fits) or are_exchanged(width, stated, hints.rows)


def settle_lines(draft, least_is_asked, lines):
    """States other lines where those are too few, or where none are stated."""
    stated, width = draft.field(LINES), draft.width()
    if stated and passes(draft.content, width, stated):
        return
    if not lines and least_is_asked:
        lines = least_lines(draft.content, width)
        if lines and looks_torn(draft.content, width, stated, lines):
            raise NotMended("the rows look broken")
        if not lines and not stated:
            raise NotMended(f"no number of lines up to {MOST_LINES} would do")
    if lines and lines != stated:
        draft.put(LINES, lines)
        draft.say("lines", f"lines {lines}, was {stated}")


# What is done by itself.


def put_end_mark(draft):
    if not draft.behind.startswith(b"\x1a"):
        draft.behind = b"\x1a" + draft.behind
        draft.say("end mark", f"added an end mark at {len(draft.content)}")


def eight_starts(chance, width, lines):
    """The lowest start of any, the highest, and six between, whose cells come from a text of random bytes."""
    machines = [
        Machine(width, lines, lambda: 0x00, lambda: (0, 0), False),
        Machine(width, lines, lambda: 0xFF, lambda: (lines, width - 1), True),
    ]
    for _ in range(6):
        number = iter(chance.randbytes(2 * width * (lines + 1) + 1)).__next__
        wrap, place = chance.random() < 0.5, lambda: (chance.randrange(lines + 1), chance.randrange(width))
        machines.append(Machine(width, lines, number, place, wrap))
    return machines


def parts_by_start(content, chance, width, lines):
    """From some start a kind in which players part arises that does not from the cleared one."""
    tokens = spelled(content)
    walks = [walk(tokens, start) for start in [cleared(width, lines)] + eight_starts(chance, width, lines)]
    arisen = [{kind for _, kind in walked.arisen} for walked in walks if walked]
    return any(kinds - arisen[0] for kinds in arisen)


def put_beginning(draft, are_named, chance):
    """The beginning, where the picture is not the same from every start, or players part in more from some.

    Where the colours are named, also where it is what names them."""
    content, width, lines = draft.content, draft.width(), draft.field(LINES)
    from_any = answer(content, eight_starts(chance, width, lines))
    is_wanted = isinstance(from_any, str) or parts_by_start(content, chance, width, lines)
    if is_wanted or are_named and paints_before_a_zero(content):
        draft.content = MENDING + content
        draft.say("beginning", f"added the safe beginning, {len(MENDING)} bytes")


def set_file_size(draft, old_content):
    size = draft.field(FILE_SIZE)
    new = len(draft.content) + (size == len(old_content) + 1)
    if new != size:
        draft.put(FILE_SIZE, new)
        draft.say("file size", f"file size {new}, was {size}")


# A file mended.


def mended(file, asked, chance):
    """The mended file; the content as it was changed, without names and beginning; what is said, with what it is."""
    said = []
    file = without_tail(file, said)
    given = with_record(file, asked.width, said) if asked.width else None
    least_is_asked = asked.least_lines or bool(given) and not asked.lines
    counted = with_comments_counted(with_columns(given or file, asked.columns, said), asked.record, said)
    based = without_older_record(counted, asked.record, said)
    draft = draft_of(based, bool(given or asked.lines or asked.least_lines), said)
    draft.file()
    draft.is_iced = asked.ice
    old_content = draft.content
    old_flags = draft.field(FLAGS)
    if asked.crlf:
        put_returns(draft, asked.mixed)
        draft.file()
    set_flag(draft, take_sequences_out(draft) if asked.take_out else [])
    if asked.join_rows:
        take_ends_of_full_rows_out(draft, asked.mixed)
    if asked.take_out:
        take_last_line_ends_out(draft, draft.field(LINES) or asked.lines or MOST_LINES)
    changed = draft.content
    if asked.name_colours:
        name_colours(draft)
        draft.file()
    settle_lines(draft, least_is_asked, asked.lines)
    put_end_mark(draft)
    draft.file()
    fault = first_fault(draft.content, draft.width(), draft.field(LINES))
    if fault:
        raise NotMended(fault_line(*fault))
    put_beginning(draft, asked.name_colours, chance)
    set_file_size(draft, old_content)
    said += idle_flags(asked, said, old_flags, any(what == "lines" for what, _ in said))
    return draft.file(), changed, said


def finding(file, asked, chance):
    """What the rules say of a file, or the reason why it is not mended, as a line."""
    try:
        return mended(file, asked, chance)
    except NotMended as reason:
        return reason.args[0]


def expected_of(found):
    """The status, standard output, the lines of standard error, and what each of them is."""
    if isinstance(found, str):
        what = found.split()[2] if found.startswith("at ") else found
        return (1, b"", found.split("\n")), [f"reason {what}"]
    after, _, said = found
    return (0, after, [line for _, line in said]), [what for what, _ in said] or ["as it is"]


def broken_promise(file, asked, chance, found):
    """What is wrong with the file that is written, or None; and None where none is written."""
    if isinstance(found, str):
        return None
    after, changed, _ = found
    fault = record_fault(after)
    if fault:
        return "its record is refused: " + fault_line(*fault[:2])
    record = record_of(after)
    content, width = body_of(after, record).partition(b"\x1a")[0], record.width or 80
    picture = answer(changed, [cleared(width, record.lines)])
    if isinstance(picture, str) or answer(content, eight_starts(chance, width, record.lines)) != picture:
        return "it does not show the picture from every start"
    wrong = broken_kinds(content, changed, asked, chance, width, record.lines)
    if wrong:
        return wrong
    if after != file:
        again = finding(after, asked_again(asked, after), chance)
        return None if again[0] == after else f"by the rules, once more gives {again}"
    return None


def broken_kinds(content, changed, asked, chance, width, lines):
    """What is wrong with the kinds that arise in the mended content, or None."""
    starts = [cleared(width, lines)] + eight_starts(chance, width, lines)
    before = {kind for _, kind in walk(spelled(changed), cleared(width, lines)).arisen}
    arisen = [{kind for _, kind in walk(spelled(content), start).arisen} for start in starts]
    may_go = {OF_TOKENS, "dos-colours"} if asked.name_colours else {OF_TOKENS}
    if not before - may_go <= arisen[0] or any(kinds - before for kinds in arisen):
        return f"it has the kinds {arisen}, and had {sorted(before)}"
    if asked.name_colours and OF_TOKENS in arisen[0]:
        return "a colour is not named"
    if asked.name_colours and OF_TOKENS not in before and not content.endswith(changed):
        return "a colour is named though all are"
    return None


def asked_again(asked, file):
    """What is asked for when it is mended once more, and nothing is to be changed."""
    content = body_of(file, record_of(file)).partition(b"\x1a")[0]
    return asked._replace(join_rows=False, crlf=asked.crlf and b"\r" in content)


# The program.


def words_of(asked):
    """The flags, as words."""
    named = ("crlf", "take_out", "join_rows", "least_lines", "name_colours", "mixed", "ice", "record")
    flags = [field for field in named if getattr(asked, field)]
    words = ["--" + field.replace("_", "-") for field in flags]
    words += ["--add-record", str(asked.width)] if asked.width else []
    words += ["--columns", str(asked.columns)] if asked.columns else []
    return words + (["--lines", str(asked.lines)] if asked.lines else [])


def written_by(words, file):
    """The status, standard output, and the lines of standard error; if nothing is written the first, of F1 its help."""
    run = subprocess.run(words, input=file, capture_output=True)
    lines = run.stderr.decode(errors="replace").splitlines()
    shown = 2 if lines and ": F1 " in lines[0] else 1
    return run.returncode, run.stdout, lines if run.returncode == 0 else lines[:shown]


def printed_of(program, asked, file):
    return written_by([program, "mend", *words_of(asked)], file)


def shown_bytes(text):
    """In hexadecimal, so that it can be tried again; of a long file how it begins."""
    return text.hex() if len(text) < 100000 else f"{len(text)} bytes, {text[:16].hex()}.."


def shown_answer(answered):
    status, output, lines = answered
    return f"status {status}, {lines}, {shown_bytes(output)}"


def tried(program, file, asked, chance):
    """What each line is, and what is wrong: of the program, or of the rules alone where there is none."""
    found = finding(file, asked, chance)
    expected, kinds = expected_of(found)
    wrong = [broken_promise(file, asked, chance, found)]
    if program:
        printed = printed_of(program, asked, file)
        wrong.append(no_help_offered(program, file, asked, chance, found))
        if printed != expected:
            wrong.append(f"expected {shown_answer(expected)}\n  not {shown_answer(printed)}")
        elif expected[0] == 0 and expected[1] != file:
            again = printed_of(program, asked_again(asked, expected[1]), expected[1])
            is_idle = again[:2] == (0, expected[1]) and all("nothing done" in line for line in again[2])
            wrong.append(None if is_idle else f"once more gives {shown_answer(again)}")
    return kinds, [what for what in wrong if what]


def no_help_offered(program, file, asked, chance, found):
    """The flags that are offered though with them the file is refused for the same reason at the same place; or None."""
    if not isinstance(found, str):
        return None
    lines = subprocess.run([program, "mend", *words_of(asked)], input=file, capture_output=True).stderr.decode().splitlines()
    offered = {flag for line in lines if line.startswith("try: ") for flag in re.findall(r"--[a-z-]+", line)}
    fields = {"--crlf": "crlf", "--join-rows": "join_rows", "--take-out": "take_out", "--least-lines": "least_lines"}
    reason = found.split("\n")[0]
    idle = [flag for flag, field in fields.items() if flag in offered and reason == str(
        finding(file, asked._replace(**{field: True}), chance)).split("\n")[0]]
    return f"offers {idle}, which do not help" if idle else None


def shown_wrong(asked, file, what):
    return f"{' '.join(words_of(asked)) or 'no flags'}, {shown_bytes(file)}:\n  {what}"


def try_one(program, seed, number):
    """Tries a file with several flags: what each line is, how often one was asked, and what is wrong."""
    chance = random.Random(f"{seed} {number}")
    file, seen, wrong = a_mend_file(chance), collections.Counter(), []
    several = some_asked(chance, file)
    for asked in several:
        kinds, found = tried(program, file, asked, chance)
        seen.update(kinds)
        wrong += [shown_wrong(asked, file, what) for what in found]
    return seen, len(several), wrong


def try_long_files(program):
    """Tries each file near the limit."""
    for file, asked in long_files(MOST_BYTES):
        kinds, found = tried(program, file, asked, random.Random(0))
        yield collections.Counter(kinds), 1, [shown_wrong(asked, file, what) for what in found]


def main(program, seed, count, what=None):
    program = None if program == "--model" else program
    seen, asked, differing = collections.Counter(), 0, 0
    long_ones = try_long_files(program) if what == "long" else []
    with multiprocessing.Pool(2) as pool:
        tries = pool.imap_unordered(functools.partial(try_one, program, seed), range(int(count)), 16)
        for its_seen, its_asked, wrong in itertools.chain(tries, long_ones):
            seen.update(its_seen)
            asked += its_asked
            differing += bool(wrong)
            for difference in wrong:
                print(difference, flush=True)
    counts = ", ".join(f"{n} {kind}" for kind, n in seen.most_common())
    print(f"{differing} of {count} differ; {asked} times mended; {counts}")
    return differing > 0


if __name__ == "__main__":
    sys.exit(main(*sys.argv[1:]))
