#!/usr/bin/env python3
"""Gives a built `anscheck` the longest files, slow files, bad streams and little memory.

Run it in `crates/anscheck`, after `rt run -- check --cleared data/hi.ans` has built the program:

    python3 ../../tools/hostile/bad_inputs.py out/anscheck

Each row states what is to come: the status, the whole text on standard output and on standard error. They
are written down from the README and the definitions, and never from what the program printed. The pictures
of the slow files are worked out here. What `runs/run_all.py` has already is there: a folder as FILE,
`/dev/full` and a closed output for small files, and the longest file without a record.

A check of a slow file has a limit of 1 second, and `needs` of 6, since it plays up to six times. The other commands
have 10 seconds; of them the status is stated, how the text begins, and that a file is written whole or not at all. What
counts is the time of a processor; the time by the clock is printed beside it. A run is stopped after 60 seconds. The
longest time of each command comes before the last line.

The memory rows limit the address space (RLIMIT_AS) to what the README states, and 8 MiB for the program's
code, the C library, the stacks and the buffers. A row whose limit is too low is answered with status 2 and
`out of memory`. The last row tries each limit from 8 MiB up to that in steps of 1 MiB: each gives the
whole answer or no byte of it.

It prints each row and whether it came out so. The status is 1 where one did not, or took too long.
"""
import collections
import contextlib
import os
import re
import resource
import signal
import subprocess
import sys
import tempfile
import threading
import time

sys.dont_write_bytecode = True
ABOVE = os.path.dirname(os.path.dirname(os.path.abspath(__file__)))
sys.path[:0] = [os.path.join(ABOVE, "runs"), os.path.join(ABOVE, "bench")]

from speed import CLEAR, LARGEST_FILE, LINES, WIDTH, repeated, slow_files
from rows import file_of, plain_record

MIB = 1_048_576
LARGEST_SCREEN = 33_697_809
ALLOWANCE = 8 * MIB
CHECK_SECONDS, NEEDS_SECONDS, OTHER_SECONDS, CLOCK_SECONDS = 1.0, 6.0, 10.0, 60

HI_PASSES = b"size: 2 x 1\nstart: cleared\ncontent: 2 bytes\nverdict: pass\npicture:\nHi\n"
NOT_READ = b"anscheck: cannot read the file\n"
NOT_WRITTEN = b"anscheck: cannot write the report\n"
TOO_LONG = b"anscheck: file above 16777216 bytes\n"
NO_MEMORY = b"anscheck: out of memory\n"
MAY_PASS = b"anscheck: it may pass on a cleared screen: see anscheck why\n"

# What comes of a run: its status, its texts, and its seconds of a processor and by the clock.
Came = collections.namedtuple("Came", "status out err seconds clock")
# What is to come.
Wanted = collections.namedtuple("Wanted", "status out err")


# Running.

def limited(memory, closed):
    """What a child does before it becomes the program."""
    def prepare():
        for descriptor in closed:
            os.close(descriptor)
        if memory:
            resource.setrlimit(resource.RLIMIT_AS, (memory, memory))
    return prepare


def came_of(words, stdin=subprocess.DEVNULL, stdout=None, memory=0, closed=()):
    """One run. Standard output is kept in a file, so that nobody has to read it meanwhile."""
    with tempfile.TemporaryFile() as out, tempfile.TemporaryFile() as err:
        begun, before = time.monotonic(), resource.getrusage(resource.RUSAGE_CHILDREN)
        try:
            status = subprocess.run(
                words, stdin=stdin, stdout=out if stdout is None else stdout, stderr=err,
                preexec_fn=limited(memory, closed), timeout=CLOCK_SECONDS,
            ).returncode
        except subprocess.TimeoutExpired:
            status = -signal.SIGKILL
        clock, after = time.monotonic() - begun, resource.getrusage(resource.RUSAGE_CHILDREN)
        seconds = after.ru_utime + after.ru_stime - before.ru_utime - before.ru_stime
        out.seek(0)
        err.seek(0)
        return Came(status, out.read(), err.read(), seconds, clock)


def report(width, lines, start, length, rows):
    """The report of a pass with this picture."""
    head = b"size: %d x %d\nstart: %s\ncontent: %d bytes\n" % (width, lines, start, length)
    return head + b"verdict: pass\npicture:\n" + b"".join(row + b"\n" for row in rows)


def refusal(width, lines, start, length, fault):
    """The report of a refusal of the content."""
    head = b"size: %d x %d\nstart: %s\ncontent: %d bytes\n" % (width, lines, start, length)
    return head + b"verdict: refused\n" + fault + b"\n"


def passes(text):
    return Wanted(0, text, b"")


def refuses(text):
    """A refusal of `check`. If the fault depends on the start, standard error names `why`."""
    return Wanted(1, text, MAY_PASS if re.search(rb"^at \d+: F2[2-5] ", text, re.MULTILINE) else b"")


def stops(text):
    return Wanted(2, b"", text)


class Tally:
    """Prints rows, and counts those that came out otherwise or took too long."""

    def __init__(self):
        self.rows = self.wrong = self.slow = 0
        self.longest = {}

    def row(self, name, came, wanted, limit=CHECK_SECONDS):
        self.says(name, came, came[:3] == tuple(wanted), f"wanted {shortened(wanted)}", limit)

    def says(self, name, came, is_right, wanted, limit):
        self.rows += 1
        is_slow = came.seconds > limit
        self.wrong += not is_right
        self.slow += is_slow
        words = f"{name}: status {came.status}, {came.seconds:.3f} s of at most {limit:.0f} s"
        print(f"{words}, by the clock {came.clock:.3f} s{', TOO SLOW' if is_slow else ''}", flush=True)
        if not is_right:
            print(f"  WRONG: {wanted}\n  got {shortened(came[:3])}", flush=True)

    def begins(self, command, name, came, statuses, begin):
        """A run whose text begins so where it passes; where it does not, what `mend` and `redraw` write is nothing."""
        writes = command.split()[0] in ("mend", "redraw")
        is_whole = bool(came.out) == (came.status == 0) if writes else not came.err or command.startswith("table")
        is_right = came.status in statuses and is_whole and (came.status != 0 or came.out.startswith(begin))
        self.longest[command] = max(self.longest.get(command, (0, "")), (came.seconds, name))
        self.says(f"{name}, {command}", came, is_right, f"wanted status {statuses}, {begin}", OTHER_SECONDS)


def shortened(texts):
    return [text if isinstance(text, int) else text[:120] + b" .. " + text[-120:] for text in texts]


# The longest and the slow files.

def blank_rows(width=WIDTH, lines=LINES):
    return [b" " * width] * lines


def rows_with(places, width=WIDTH, lines=LINES):
    """Rows of blanks with an `x` at each place."""
    rows = [bytearray(b" " * width) for _ in range(lines)]
    for row, column in places:
        rows[row][column] = ord("x")
    return [bytes(row) for row in rows]


def stairs(count):
    """Where `x`, line feed, `x`, line feed and so on print from the top left on, with wrap on."""
    row = column = 0
    for _ in range(count):
        yield row, column
        if column == WIDTH - 1:
            row, column = row + 2, 0
        else:
            row, column = row + 1, column + 1


def slow_pictures():
    """The rows that the slow files of the benchmark show, where these are not blank."""
    return {
        "erased screens and a few cells": rows_with([(200, 0), (400, 1)]),
        "erased screens and all rows": rows_with(stairs(8000)),
    }


def playing_files():
    """Each slow file that passes from any start: its name, content, size and rows."""
    pictures = slow_pictures()
    for name, content in slow_files():
        yield name, content, (WIDTH, LINES), pictures.get(name, blank_rows())
    content = repeated(b"\x1b[0m\x1b[2J\x1b[1m\x1b[2J")
    yield "erased screens in two colours", content, (WIDTH, LINES), blank_rows()
    content = repeated(b"\x1b[1;1H" + b"x" * LINES)
    yield "one column", content, (1, LINES), [b"x"] * LINES
    content = CLEAR + b"\r" * (LARGEST_FILE - 129 - len(CLEAR))
    yield "the longest file", content, (WIDTH, LINES), blank_rows()


def refused_files():
    """Each long file whose content is refused from any start and from the cleared screen: its name, its
    content and the two faults."""
    room = LARGEST_FILE - 129
    in_string = b"at %d: F12 content ends in a sequence" % len(CLEAR)
    yield "an unfinished string", CLEAR + b"\x1b[\"" + b"\x1b" * (room - len(CLEAR) - 3), in_string, in_string
    content = CLEAR + b"\x1b['" + b"\x1b[\"a\"p" * 2_000_000
    yield "an unfinished string of strings", content, in_string, in_string
    yield "8,000,000 line feeds", b"\n" * 8_000_000, b"at 0: F24 may scroll", b"at 8192: F21 scrolls"


def saved(room, name, file):
    path = os.path.join(room, name.replace(" ", "-"))
    with open(path, "wb") as to:
        to.write(file)
    return path


def try_playing_files(tally, program, room):
    for name, content, (width, lines), rows in playing_files():
        path = saved(room, "slow", file_of(content, width, lines))
        for words, start in ((["check"], b"any"), (["check", "--cleared"], b"cleared")):
            wanted = passes(report(width, lines, start, len(content), rows))
            tally.row(f"{name}, {' '.join(words)}", came_of([program, *words, path]), wanted)
        wanted = passes(b"size: %d x %d\ncontent: %d bytes\nneeds: nothing\n" % (width, lines, len(content)))
        tally.row(f"{name}, needs", came_of([program, "needs", path]), wanted, NEEDS_SECONDS)


MEND_ALL = "mend --take-out --crlf --join-rows --name-colours --least-lines"
# How the text of each other command begins where it passes; and the status where the content does not pass.
OTHERS = {
    "why": (b"size: ", 1), "table --no-header": (b"pass\t", 1), "show": (b"\x1b[0;", 1), "show --vga": (b"\x1b[0;", 1),
    "show --html": (b"<!DOCTYPE html>", 1), "sauce": (b"title: ", 0), "tokens": (b"", None), "mend": (b"", None),
    MEND_ALL: (b"", None), "redraw": (b"\x1b[?7h\x1b[0;37;40m\x1b[2J\x1b[H\x1b[s", 1),
}


def try_other_commands(tally, program, room):
    """Each slow file with the commands that are not tried above. `mend` and `redraw` may find that no more fits in."""
    playing = ((name, content, size, True) for name, content, size, _ in playing_files())
    refused = ((name, content, (WIDTH, LINES), False) for name, content, _, _ in refused_files())
    for name, content, (width, lines), passed in (*playing, *refused):
        path = saved(room, "slow", file_of(content, width, lines))
        for command, (begin, refusal_status) in OTHERS.items():
            statuses = (0,) if passed else (0, 1) if refusal_status is None else (refusal_status,)
            if command.split()[0] in ("mend", "redraw"):
                statuses = (0, 1) if passed else statuses
            came = came_of([program, *command.split(), path])
            tally.begins(command, name, came, statuses, begin)


def try_refused_files(tally, program, room):
    for name, content, any_fault, cleared_fault in refused_files():
        path = saved(room, "slow", file_of(content, WIDTH, LINES))
        asked = ([], b"any", any_fault), (["--cleared"], b"cleared", cleared_fault)
        for flags, start, fault in asked:
            wanted = refuses(refusal(WIDTH, LINES, start, len(content), fault))
            tally.row(" ".join([f"{name}, check", *flags]), came_of([program, "check", *flags, path]), wanted)


def marks_and_comments():
    """A file of the greatest length: end marks alone, 255 comments, and a record that counts them."""
    record = bytearray(plain_record(2, 1, 0))
    record[104] = 255
    comments = b"COMNT" + b"hello".ljust(64) * 255
    return b"\x1a" * (LARGEST_FILE - len(comments) - 128) + comments + bytes(record)


def try_marks_and_comments(tally, program, room):
    path, name = saved(room, "slow", marks_and_comments()), "255 comments over end marks"
    fault = b"at 0: F25 cell stays unknown (row 1, column 1)"
    tally.row(f"{name}, check", came_of([program, "check", path]), refuses(refusal(2, 1, b"any", 0, fault)))
    wanted = passes(report(2, 1, b"cleared", 0, [b"  "]))
    tally.row(f"{name}, check --cleared", came_of([program, "check", "--cleared", path]), wanted)
    fields = (b"title: \nauthor: \ngroup: \ndate: 19960101\nsize: 2 x 1\nflags: 00\nfont: \n"
              b"file size: 0\ncomments: 255\n")
    tally.row(f"{name}, sauce", came_of([program, "sauce", path]), passes(fields + b"comment: hello\n" * 255))
    tally.row(f"{name}, tokens", came_of([program, "tokens", path]), passes(b""))


def try_lengths(tally, program, room):
    """One byte too many, by name, on standard input and through a pipe; and a device without an end."""
    file = marks_and_comments()
    path = saved(room, "long", b"\x1a" + file)
    tally.row("16,777,217 bytes", came_of([program, "check", path]), stops(TOO_LONG))
    with open(path, "rb") as stdin:
        tally.row("16,777,217 bytes on standard input", came_of([program, "sauce"], stdin), stops(TOO_LONG))
    tally.row("16,777,217 bytes through a pipe", fed([program, "needs"], b"\x1a" + file), stops(TOO_LONG))
    wanted = passes(report(2, 1, b"cleared", 0, [b"  "]))
    tally.row("16,777,216 bytes through a pipe", fed([program, "check", "--cleared"], file), wanted)
    tally.row("a device without an end", came_of([program, "tokens", "/dev/zero"]), stops(TOO_LONG))


# Streams.

def fed(words, file):
    """A run whose standard input is a pipe. The program may close it before its end."""
    end, begin = os.pipe()

    def feed():
        with contextlib.suppress(BrokenPipeError), open(begin, "wb", buffering=0) as to:
            to.write(file)

    feeder = threading.Thread(target=feed)
    feeder.start()
    with open(end, "rb") as stdin:
        came = came_of(words, stdin)
    feeder.join()
    return came


def try_closed_output(tally, program, room):
    """`| head -c 10`: the reader takes ten bytes and goes. The report is longer than a pipe holds."""
    path = saved(room, "wide", file_of(CLEAR, WIDTH, LINES))
    begins = (
        (["check"], b"size: 1024"), (["check", "--cells"], b"size: 1024"), (["show"], b"\x1b[0;37;40m"),
        (["show", "--html"], b"<!DOCTYPE "),
    )
    for words, begin in begins:
        head = subprocess.Popen(["head", "-c", "10"], stdin=subprocess.PIPE, stdout=subprocess.PIPE)
        came = came_of([program, *words, path], stdout=head.stdin)
        head.stdin.close()
        came = came._replace(out=head.stdout.read())
        head.wait()
        said = NOT_WRITTEN if words[0] == "check" else b""  # the others end quietly
        tally.row(f"{' '.join(words)} | head -c 10", came, Wanted(2, begin, said))
    with open("/dev/full", "wb") as full:
        came = came_of([program, "check", "--cells", path], stdout=full)
    tally.row("check --cells of the largest screen > /dev/full", came, stops(NOT_WRITTEN))


def try_closed_streams(tally, program, room):
    """Streams that are closed: a file that is opened then takes their number."""
    path = saved(room, "hi", file_of(b"Hi"))
    check = [program, "check", "--cleared"]
    tally.row("check <&-", came_of(check, closed=[0]), stops(NOT_READ))
    tally.row("check FILE <&-", came_of([*check, path], closed=[0]), passes(HI_PASSES))
    tally.row("check FILE >&-", came_of([*check, path], closed=[1]), stops(NOT_WRITTEN))
    tally.row("check FILE <&- >&-", came_of([*check, path], closed=[0, 1]), stops(NOT_WRITTEN))
    tally.row("check FILE 2>&-", came_of([*check, path], closed=[2]), passes(HI_PASSES))
    tally.row("check FILE >&- 2>&-", came_of([*check, path], closed=[1, 2]), stops(b""))
    with open(path, "rb") as file:
        tally.row("FILE after all that", Came(0, file.read(), b"", 0, 0), passes(file_of(b"Hi")))


def try_odd_files(tally, program, room):
    """A folder, a pipe and `/dev/null` as FILE, and a folder and pipes as standard input."""
    check = [program, "check", "--cleared"]
    tally.row("a folder", came_of([*check, room]), stops(NOT_READ))
    said = b"anscheck: %s: is a folder\n" % os.fsencode(room)
    tally.row("a folder of why", came_of([program, room]), stops(said))
    folder = os.open(room, os.O_RDONLY)
    tally.row("a folder on standard input", came_of(check, folder), stops(NOT_READ))
    os.close(folder)
    tally.row("a pipe on standard input", fed(check, file_of(b"Hi")), passes(HI_PASSES))
    nothing = refuses(b"verdict: refused\nat 0: F1 no SAUCE record\n")
    tally.row("an empty pipe on standard input", fed(check, b""), nothing)
    tally.row("/dev/null", came_of([*check, "/dev/null"]), nothing)
    pipe = os.path.join(room, "pipe")
    os.mkfifo(pipe)
    feeder = threading.Thread(target=lambda: saved(room, "pipe", file_of(b"Hi")))
    feeder.start()
    tally.row("a pipe as FILE", came_of([*check, pipe]), passes(HI_PASSES))
    feeder.join()


def try_growing_file(tally, program, room):
    """A file to which bytes are added all the while. What was read is one front of it."""
    path, stopped = saved(room, "growing", b"S" * 4 * MIB), threading.Event()

    def grow():
        with open(path, "ab", buffering=0) as to:
            while not stopped.is_set() and to.tell() < 2 * LARGEST_FILE:
                to.write(b"S" * 512)

    grower = threading.Thread(target=grow)
    grower.start()
    least = os.path.getsize(path)
    came = came_of([program, "check", path])
    stopped.set()
    grower.join()
    most = os.path.getsize(path)
    found = came.out.removeprefix(b"verdict: refused\nat ").removesuffix(b": F1 no SAUCE record\n")
    length = int(found) if found.isdigit() else -1
    wanted = refuses(b"verdict: refused\nat %d: F1 no SAUCE record\n" % min(max(length, least), most))
    if length < 0 and most > LARGEST_FILE:
        wanted = stops(TOO_LONG)
    tally.row(f"a file that grows, {least} to {most} bytes, as {length}", came, wanted)


# Memory.

def try_memory(tally, program, room):
    """The largest screen under the stated memory, under too little, and under each limit between."""
    content = CLEAR + b"\r" * (LARGEST_FILE - 129 - len(CLEAR))
    path = saved(room, "largest", file_of(content, WIDTH, LINES))
    stated = LARGEST_FILE + LARGEST_SCREEN + ALLOWANCE
    wanted = passes(report(WIDTH, LINES, b"any", len(content), blank_rows()))
    tally.row(f"check in {stated} bytes", came_of([program, "check", path], memory=stated), wanted)
    needed = passes(b"size: 1024 x 8192\ncontent: %d bytes\nneeds: nothing\n" % len(content))
    tally.row(f"needs in {stated} bytes", came_of([program, "needs", path], memory=stated), needed, NEEDS_SECONDS)
    small = LARGEST_FILE + ALLOWANCE
    fields = b"file size: %d\n" % len(content)
    came = came_of([program, "sauce", path], memory=small)
    came = came._replace(out=came.out[-len(fields) - 12:])
    tally.row(f"the end of sauce in {small} bytes", came, passes(fields + b"comments: 0\n"))
    tally.row(f"check in {small} bytes", came_of([program, "check", path], memory=small), stops(NO_MEMORY))
    tally.row(f"needs in {small} bytes", came_of([program, "needs", path], memory=small), stops(NO_MEMORY))
    try_limits(tally, program, path, stated, wanted)


def try_limits(tally, program, path, stated, wanted):
    """Each limit gives the whole answer or none."""
    answered = 0
    for limit in range(ALLOWANCE, stated + MIB, MIB):
        came = came_of([program, "check", path], memory=limit)
        answered += came.status == 0
        if came[:3] not in (tuple(wanted), tuple(stops(NO_MEMORY))):
            tally.row(f"check in {limit} bytes", came, stops(NO_MEMORY))
    tally.rows += 1
    print(f"limits from {ALLOWANCE} bytes on in steps of {MIB}: {answered} answers, and else `out of memory`")


def main(program):
    program, tally = os.path.abspath(program), Tally()
    with tempfile.TemporaryDirectory() as room:
        for part in (try_playing_files, try_refused_files, try_other_commands, try_marks_and_comments, try_lengths,
                     try_closed_output, try_closed_streams, try_odd_files, try_growing_file, try_memory):
            part(tally, program, room)
    for command, (seconds, name) in tally.longest.items():
        print(f"{command}: at most {seconds:.2f} s, {name}")
    print(f"{tally.rows} rows: {tally.wrong} came out otherwise, {tally.slow} took too long")
    return 1 if tally.wrong or tally.slow else 0


if __name__ == "__main__":
    sys.exit(main(sys.argv[1]))
