#!/usr/bin/env python3
"""Feeds `anscheck` files that were changed at random, and reports each run that goes wrong.

Run it in `crates/anscheck`, after `rt run -- check --cleared data/hi.ans` has built the program:

    python3 ../../tools/hostile/mutated_files.py out/anscheck [SEED] [RUNS] [WORKERS]

A case is a file and four runs on it, or five. The file is one of the seeds (those of `data`, the contents and
records on which the crates are tested, and some made here) after one to six changes: bits, bytes,
slices cut, doubled or taken from another seed, numbers and lengths of sequences, the numbers and the
length of the record, and its layout. Case N of a seed is the same file and the same runs each time.
Three cases of six run two commands, each on the file by its name and on standard input; in one case of
fifty, where the file has at most 4096 bytes, standard input is a pipe that gives one byte a read. Two
compare commands: a check from a class of starts, one from the cleared screen, `needs`, and `sauce` or
`tokens`. One compares what is said of the file and made of it: the cleared check, `why`, a row of
`table`, and `mend` with some flags or `redraw`; what either writes is a file that is checked.

A run goes wrong where its status is not 0 or 1 (a readable file always has an answer, so 2 is wrong
too), where a signal ends it, where it says anything on standard error (but what was changed, or why
there is no file; and the counts of `table`), where it takes more than one second of a processor, or
four as `why`, `table`, `mend` or `redraw`, or 30 seconds by the clock, where its text has not the form
of an answer, or where its fault stands past the file's end.
A case goes wrong where the ways of reading differ, or where:
the class passes and the cleared screen does not, or with another picture; `needs` does not name exactly
what the class has to know; `needs` is refused and the cleared check otherwise; a fault of the record is
not told by each command; `tokens` and `check` differ on a sequence; `why` or `table` has another verdict,
fault or place; `redraw` writes a file where the cleared check refuses, or none where it passes, or one
with another picture; `mend` writes none where it passes; or what either writes does not pass from every
start.

Each run may have 96 MiB of address space (RLIMIT_AS): what the README states for the largest file and
the largest screen, 50,343,937 bytes, and 50,319,359 more; `bad_inputs.py` gives less. A run in which
memory ran out would be seen as a wrong status. Files have at most 128 KiB here, most of them less than
1 KiB. Each case that goes wrong is printed, and its file is kept in a folder that is named. The last
line has the figures; the status is 1 where something went wrong.
"""
import ast
import collections
import hashlib
import multiprocessing
import os
import random
import re
import signal
import sys
import tempfile
import time

sys.dont_write_bytecode = True
ABOVE = os.path.dirname(os.path.dirname(os.path.abspath(__file__)))
sys.path[:0] = [os.path.join(ABOVE, "runs"), os.path.join(ABOVE, "compare")]

from second_machine import FAULTS, PARTS, a_content, a_piece
from rows import file_of, plain_record

MEMORY = 96 * 1024 * 1024
SECONDS, LONG_SECONDS, CLOCK_SECONDS = 1.0, 4.0, 30
LONG_COMMANDS = ("why", "table", "mend", "redraw")
LONGEST = 131_072
NAMES = re.compile(rb"(?<=\n)((?:fix|everywhere): anscheck [^\n]*?) -o [^\n]*(?=\n)")
LONG_TEXT = 1_048_576
RUNS_OF_A_CASE, CASES_OF_A_BATCH = 4, 250
MEND_FLAGS = ("--take-out", "--crlf", "--join-rows", "--name-colours", "--least-lines")
TEXTS = {
    1: "no SAUCE record", 2: "SAUCE version is not 00", 3: "not Character/ANSi",
    4: "comment block missing", 5: "number of lines not stated", 6: "width above 1024",
    7: "lines above 8192", 8: "bytes after the end mark", **FAULTS,
}
MAY_PASS = b"anscheck: it may pass on a cleared screen: see anscheck why\n"
SAID_FAULT = re.compile(rb"fault: at (\d+), F(\d+) ")
FAULT_LINE = re.compile(rb"at (\d+): F(\d+) ([^(\n]*?)( \(row \d+, column \d+\))?\n")
OF_A_SEQUENCE = range(9, 15)


# The seeds.

def literals(name, pattern):
    """The groups of each match in a file of `ans_samples`."""
    with open(os.path.join(ABOVE, "..", "crates", "ans_samples", "src", name), encoding="utf-8") as file:
        return re.findall(pattern, file.read())


BYTES = r'b"((?:[^"\\]|\\.)*)"'


def bytes_of(literal):
    return ast.literal_eval(f'b"{literal}"')


def worked_contents():
    """The contents on which the crates are tested, each as a file of its size."""
    for width, lines, content in literals("rows.rt", rf"(\d+) x (\d+), {BYTES}"):
        yield file_of(bytes_of(content), int(width), int(lines))


def worked_records():
    """The files on which the record's faults and notes are tested."""
    for front, edits in literals("records.rt", rf'"[^"]*",\s*{BYTES},\s*\[([^\]]*)\]'):
        record = bytearray(plain_record(2, 1, 2))
        for at, value in re.findall(rf"(\d+) => {BYTES}", edits):
            value = bytes_of(value)
            record[int(at):int(at) + len(value)] = value
        yield bytes_of(front) + bytes(record)


def with_comments(content, count):
    """A file with so many comments of blanks."""
    record = bytearray(plain_record(2, 1, len(content)))
    record[104] = count
    return content + b"\x1aCOMNT" + b" " * (64 * count) + bytes(record)


def made_files():
    """Files with what the others lack: comments, strings, long sequences, a full screen, long screens."""
    clear = b"\x1b[?7h\x1b[0m\x1b[2J"
    cell = b"".join(b"\x1b[0;1;%d;%dm\xdb\xb2" % (30 + i % 8, 40 + i // 8 % 8) for i in range(64))
    yield from (with_comments(b"Hi", count) for count in (1, 3, 255))
    yield from (file_of(clear + cell * n, 80, 25) for n in (1, 8))
    yield file_of(clear + b"\x1b[1;1H" + b"x" * 80 * 25, 80, 25)
    yield file_of(b"\x1b[\"" + b"\x1b[2J" * 40, 2, 1)
    yield file_of(b"\x1b['" + b"a;" * 40 + b"';13p", 2, 1)
    yield file_of(b"\x1b[" + b"0" * 1000 + b"5C", 2, 1)
    yield file_of(b"\x1b[" + b"1;" * 15 + b"1m", 2, 1)
    yield file_of(clear + b"x\n" * 100, 1, 100)
    yield file_of(clear + b"\t" * 20 + b"\r", 160, 2)
    yield file_of(clear + b"\x1b[8192B\x1b[u\x1b[s" * 9, 8, 8192)


def data_files():
    folder = os.path.join(ABOVE, "..", "crates", "anscheck", "data")
    for name in sorted(os.listdir(folder)):
        with open(os.path.join(folder, name), "rb") as file:
            yield file.read()


def seeds():
    return [*data_files(), *worked_contents(), *worked_records(), *made_files()]


# The changes. Each takes a source of chance, some bytes and another seed's, and gives other bytes.

def a_slice(chance, old):
    begin = chance.randrange(len(old) + 1)
    longest = chance.choice([1, 4, 16, 128, len(old)])
    return begin, min(len(old), begin + chance.randrange(longest + 1))


def flip_a_bit(chance, old, other):
    at = chance.randrange(len(old))
    return old[:at] + bytes([old[at] ^ 1 << chance.randrange(8)]) + old[at + 1:]


def set_a_byte(chance, old, other):
    at = chance.randrange(len(old))
    value = chance.choice(b"\x00\x07\x08\t\n\r\x1a\x1b\"';?=[0129 mHJKuspn\x7f\x80\xff")
    return old[:at] + bytes([value]) + old[at + chance.randrange(2):]


def cut_a_slice(chance, old, other):
    begin, end = a_slice(chance, old)
    return old[:begin] + old[end:]


def double_a_slice(chance, old, other):
    begin, end = a_slice(chance, old)
    times = min(chance.choice([2, 2, 3, 17, 300]), 2 + LONGEST // (end - begin + 1))
    return old[:begin] + old[begin:end] * times + old[end:]


def take_a_slice(chance, old, other):
    begin, end = a_slice(chance, other)
    at, after = a_slice(chance, old)
    return old[:at] + other[begin:end] + old[chance.choice([at, after]):]


def add_a_piece(chance, old, other):
    at = chance.randrange(len(old) + 1)
    return old[:at] + a_piece(chance, chance.randrange(1, 90), chance.randrange(1, 30)) + old[at:]


NUMBER, SEQUENCE = re.compile(rb"\d+"), re.compile(rb"\x1b\[")


def one_of(chance, pattern, old):
    """The first match from some byte on, or of all, or None."""
    return pattern.search(old, chance.randrange(len(old))) or pattern.search(old)


def change_a_number(chance, old, other):
    found = one_of(chance, NUMBER, old)
    if not found:
        return add_a_piece(chance, old, other)
    some = [b"", b"0", b"1", b"7", b"80", b"255", b"256", b"65536", b"4294967297", b"0" * 300 + b"9"]
    return old[:found.start()] + chance.choice(some) + old[found.end():]


def lengthen_a_sequence(chance, old, other):
    found = one_of(chance, SEQUENCE, old)
    if not found:
        return add_a_piece(chance, old, other)
    some = [b";", b"1;", b"0", b'"a";', b"'\x1b[';", b'"', b"?", b"="]
    at = found.end()
    return old[:at] + chance.choice(some) * chance.choice([1, 2, 15, 16, 17, 400]) + old[at:]


CHANGES = [
    flip_a_bit, set_a_byte, cut_a_slice, double_a_slice, take_a_slice, add_a_piece, change_a_number,
    lengthen_a_sequence,
]


def a_size(chance):
    """A width and lines; both large now and then, since such a picture is long."""
    near = [1, 2, 3, 7, 8, 9, 16, 79, 80, 81]
    width = chance.choice([0, 1023, 1024, 1025, 65535, *near, *near])
    lines = chance.choice([0, 1024, 8191, 8192, 8193, 65535, *near, *near, *near])
    if width * lines > 200_000 and chance.random() < 0.95:
        lines = chance.choice(near)
    return width.to_bytes(2, "little") + lines.to_bytes(2, "little")


def change_a_field(chance, record):
    """The record with another number, text or length of its comment block."""
    text = chance.randrange(7, 90)
    edits = [
        (96, a_size), (96, a_size),
        (104, lambda c: bytes([c.choice([0, 1, 2, 3, 254, 255])])),
        (90, lambda c: c.choice([0, 1, 2, 255, 65536, 2**31, 2**32 - 1]).to_bytes(4, "little")),
        (94, lambda c: bytes([c.choice([0, 1, 2, 5, 255]), c.choice([0, 1, 2, 8])])),
        (105, lambda c: bytes([c.randrange(256)])),
        (text, lambda c: bytes(c.choices(b"\x00 az\x80\xff\x1a\x1b\n", k=min(9, 90 - text)))),
        (chance.randrange(128), lambda c: bytes([c.randrange(256)])),
    ]
    at, edit = chance.choice(edits)
    value = edit(chance)
    return (record[:at] + value + record[at + len(value):])[:128]


def change_the_layout(chance, file, other):
    """The file cut short, lengthened, with its record doubled, or with other end marks and comments."""
    front, record = file[:-128], file[-128:]
    return chance.choice([
        file[:chance.randrange(len(file) + 1)], file[chance.randrange(len(file) + 1):],
        file + a_piece(chance, 80, 25), file + record, file + other,
        front + b"\x1a" * chance.choice([1, 2, 300]) + record,
        front + b"COMNT" + b"c" * 64 * chance.choice([0, 1, 2, 255]) + record,
        front.rstrip(b"\x1a") + record,
    ])


def changed(chance, file, other):
    """The file after one change. Most change what stands before the record alone."""
    kind = chance.random()
    front, record = file[:-128], file[-128:]
    if kind < 0.72:
        content, piece = front.rstrip(b"\x1a"), other[:-128].rstrip(b"\x1a")
        return chance.choice(CHANGES)(chance, content or b"x", piece or b"x") + b"\x1a" + record
    if kind < 0.88:
        return front + change_a_field(chance, record)
    if kind < 0.94:
        return change_the_layout(chance, file, other)
    return chance.choice(CHANGES)(chance, file or b"\x1a", other)


def a_file(chance, files):
    """A seed, or a content made by chance, after one to six changes."""
    if chance.random() < 0.25:
        width, lines = chance.randrange(1, 21), chance.randrange(1, 4)
        known = [part for part in PARTS if chance.random() < 0.5]
        file = file_of(a_content(chance, width, lines, known), width, lines)
    else:
        file = chance.choice(files)
    for _ in range(chance.choice([1, 1, 1, 2, 3, 6])):
        file = changed(chance, file, chance.choice(files))[-LONGEST:]
    return file


# The runs.

Answer = collections.namedtuple("Answer", "words way status out lines err seconds")


def text_of(path):
    """A text and the number of its lines. A long one is cut after its head, and a digest stands for what
    follows its second line, so that a worker stays small itself."""
    with open(path, "rb") as file:
        head = file.read(LONG_TEXT)
        lines, digest = head.count(b"\n"), hashlib.sha256(head.split(b"\n", 2)[-1])
        if len(head) < LONG_TEXT:
            return head, lines
        while more := file.read(LONG_TEXT):
            digest.update(more)
            lines += more.count(b"\n")
    return head[:1024] + digest.digest(), lines


class Room:
    """A folder for one worker, in which the program is run on one file after another."""

    def __init__(self, program, folder):
        self.program, own = program, tempfile.mkdtemp(dir=folder)
        self.file, self.out, self.err = (os.path.join(own, name) for name in ("file", "out", "err"))
        self.child = 0
        signal.signal(signal.SIGALRM, lambda *_: os.kill(self.child, signal.SIGKILL))

    def save(self, file):
        with open(self.file, "wb") as to:
            to.write(file)
        self.bytes = file

    def start(self, words, stdin):
        to = os.O_WRONLY | os.O_CREAT | os.O_TRUNC
        actions = [stdin, (os.POSIX_SPAWN_OPEN, 1, self.out, to, 0o600), (os.POSIX_SPAWN_OPEN, 2, self.err, to, 0o600)]
        # a shell sets the limit, since a worker may have more memory itself than a run may have
        limited = ["/bin/sh", "-c", f'ulimit -v {MEMORY // 1024}; exec "$0" "$@"', self.program, *words]
        self.child = os.posix_spawn(limited[0], limited, {}, file_actions=actions, setsigdef=[signal.SIGPIPE])
        signal.alarm(CLOCK_SECONDS)

    def finish(self, words, way):
        _, ended, usage = os.wait4(self.child, 0)
        signal.alarm(0)
        seconds, status = usage.ru_utime + usage.ru_stime, os.waitstatus_to_exitcode(ended)
        return Answer(words, way, status, *text_of(self.out), text_of(self.err)[0], seconds)

    def run(self, words, way):
        """Runs on the file by its name (`file`), on standard input (`input`), or byte by byte (`drip`)."""
        if way == "drip":
            return self.drip(words)
        name = [self.file] if way == "file" else []
        read = os.devnull if way == "file" else self.file
        self.start([*words, *name], (os.POSIX_SPAWN_OPEN, 0, read, os.O_RDONLY, 0))
        return self.finish(words, way)

    def drip(self, words):
        """Runs on a pipe in packet mode (O_DIRECT): each read gives one write's bytes, here one byte."""
        end, begin = os.pipe2(os.O_DIRECT | os.O_CLOEXEC)
        self.start(words, (os.POSIX_SPAWN_DUP2, end, 0))
        os.close(end)
        try:
            for byte in self.bytes:
                os.write(begin, bytes([byte]))
        except BrokenPipeError:
            pass
        os.close(begin)
        return self.finish(words, "drip")


# What may be wrong.

def fault_of(answer):
    """The offset and the number of the fault on the last line, or None."""
    line = answer.out[answer.out[:-1].rfind(b"\n") + 1:]
    found = FAULT_LINE.fullmatch(line)
    if found and found[3].decode() == TEXTS.get(int(found[2])):
        return int(found[1]), int(found[2])
    return None


def said_fault(answer):
    """The offset and the number of the fault that `why` or a row of `table` says, or None."""
    if answer.words[0] == "table":
        fields = answer.out.split(b"\t")
        return (int(fields[6]), int(fields[5][1:])) if fields[0] == b"refused" else None
    found = SAID_FAULT.search(answer.out, answer.out.find(b"verdict: refused\n"))
    return (int(found[1]), int(found[2])) if found else None


def has_long_form(answer):
    """The same for the commands that say more, or write a file."""
    command, out, passed = answer.words[0], answer.out, answer.status == 0
    if command == "why":
        passes = b"verdict: pass\nneeds: nothing\n" in out or b"verdict: pass on a cleared screen\nneeds: " in out
        return passes if passed else b"verdict: refused\nfault: at " in out
    if command == "table":
        begins = (b"pass\t", b"cleared\t") if passed else b"refused\t"
        return out.startswith(begins) and out.count(b"\t") == 21
    reasons = (b"F", b"long", b"the rows look broken", b"no number of lines")
    return bool(out) == passed and (passed or any(reason in answer.err for reason in reasons))


def has_form(answer):
    """Whether the text is one of those that the command writes with this status."""
    command, out = answer.words[0], answer.out
    if command in LONG_COMMANDS:
        return has_long_form(answer)
    if command == "show" and answer.status == 0:
        return out.startswith(b"<!DOCTYPE html>") if "--html" in answer.words else out.startswith(b"\x1b[0;")
    if answer.status == 1:
        refused = command == "tokens" or b"verdict: refused\nat " in out[-120:]
        return refused and fault_of(answer) is not None
    if command == "check":
        head = re.match(rb"size: \d+ x (\d+)\nstart: .*\n(.*\n)+?verdict: pass\npicture:\n", out)
        lines = int(head[1]) if head else 0
        rows = 2 * lines + 1 if "--cells" in answer.words else lines
        return lines > 0 and answer.lines == head[0].count(b"\n") + rows
    if command == "needs":
        return b"\nneeds: " in out and b"\nverdict: " not in out
    if command == "sauce":
        return out.startswith(b"title: ") and b"\ncomments: " in out
    return not out or fault_of(answer) is None


def said_after(answer):
    """What is said on standard error: after a check that is refused for a fault of the start, that `why` says more."""
    fault = fault_of(answer) if answer.words[0] == "check" else None
    return MAY_PASS if fault and fault[1] >= 22 else b""


def wrong_by_itself(answer, length):
    """What is wrong with one run, or nothing."""
    if answer.status not in (0, 1):
        yield f"status {answer.status}" if answer.status >= 0 else f"signal {-answer.status}"
        return
    long = answer.words[0] in LONG_COMMANDS
    if (not long or answer.words[0] == "why") and answer.err != said_after(answer):
        yield f"on standard error: {answer.err[:80]}"
    if answer.seconds > (LONG_SECONDS if long else SECONDS):
        yield f"{answer.seconds:.2f} seconds"
    if not has_form(answer):
        yield f"no answer's form: {answer.out[-80:]}"
    fault = said_fault(answer) if answer.words[0] in ("why", "table") else fault_of(answer)
    if answer.status == 1 and fault and fault[0] > length:
        yield f"a fault past the end: {answer.out[-80:]}"


def known_of(words):
    return set(PARTS) if "--cleared" in words else {word[8:] for word in words if word[:8] == "--known-"}


def picture_of(answer):
    """The report but for its second line, which names the class."""
    lines = answer.out.split(b"\n", 2)
    return lines[0], lines[2:]


def wrong_between(known, cleared, needs, told):
    """What is wrong with a check, one from the cleared screen, `needs`, and `sauce` or `tokens`."""
    if known.status == 0 and (cleared.status != 0 or picture_of(known) != picture_of(cleared)):
        yield "a class passes, and the cleared screen otherwise"
    if needs.status != cleared.status or needs.status == 1 and fault_of(needs) != fault_of(cleared):
        yield "needs and the cleared check differ"
    if needs.status == 0:
        named = needs.out.rpartition(b"needs: ")[2].decode().split()
        if (known.status == 0) != (set(named) - {"nothing"} <= known_of(known.words)):
            yield "needs names other parts than the class has to know"
    fault = fault_of(cleared) if cleared.status else None
    if (fault is not None and fault[1] < 9) and not known.out == cleared.out == needs.out == told.out:
        yield "a fault of the record is told in two ways"
    if told.words[0] == "sauce" and (told.status == 1) != (fault is not None and fault[1] < 9):
        yield "sauce and check differ on the record"
    if told.words[0] == "tokens":
        yield from wrong_of_tokens(fault_of(known) if known.status else None, told)


def wrong_of_tokens(fault, tokens):
    """What is wrong with `tokens` beside the fault of a check."""
    read = fault_of(tokens) if tokens.status else None
    if fault and fault[1] in OF_A_SEQUENCE and read != fault:
        yield "check meets a sequence that tokens does not"
    if read and (not fault or fault[0] > read[0]):
        yield "tokens meets a sequence before check"


def wrong_of_what_is_said(cleared, why, row):
    """What is wrong with `why` and a row of `table` beside the cleared check."""
    for answer in (why, row):
        if answer.status != cleared.status:
            yield f"{answer.words[0]} and the cleared check differ"
        elif cleared.status == 1 and said_fault(answer) != fault_of(cleared):
            yield f"{answer.words[0]} has another fault"


def wrong_of_what_is_made(cleared, made, checked):
    """What is wrong with a file that `mend` or `redraw` made, and with the check of it from every start."""
    command = made.words[0]
    if made.status == 1:
        if cleared.status == 0 and b"long" not in made.err:
            yield f"{command} makes nothing of what passes"
        return
    if command == "redraw" and cleared.status == 1:
        yield "redraw makes a file of what is refused"
    if checked.status != 0:
        yield f"what {command} makes does not pass"
    elif command == "redraw" and after_head(checked) != after_head(cleared):
        yield "what redraw makes has another picture"


def after_head(answer):
    """The picture of a report."""
    return answer.out.split(b"verdict: pass\n")[1:]


def told(answer):
    """What an answer says, without the names of files in the commands of `why`: standard input has none."""
    return answer._replace(out=NAMES.sub(rb"\1", answer.out))[2:6]


def words_of_a_check(chance):
    known = ["--cleared"] if chance.random() < 0.4 else [f"--known-{p}" for p in PARTS if chance.random() < 0.4]
    return ["check", *known, *["--cells"] * (chance.random() < 0.25)]


def compare_ways(chance, room, number):
    """Two commands, each in two ways."""
    drips = number % 50 == 0 and len(room.bytes) <= 4096
    answers, wrong = [], []
    others = ["needs"], ["sauce"], ["tokens"], ["check"], ["why"], ["show"], ["show", "--html"], ["mend"], ["redraw"]
    for words in (words_of_a_check(chance), chance.choice(others)):
        pair = [room.run(words, "file"), room.run(words, "drip" if drips else "input")]
        answers += pair
        if told(pair[0]) != told(pair[1]):
            wrong.append(f"{words}: the file and {pair[1].way} differ")
    return answers, wrong


def compare_commands(chance, room):
    """Four commands on one file."""
    check = [word for word in words_of_a_check(chance) if word != "--cells"]
    asked = [check, ["check", "--cleared"], ["needs"], [chance.choice(["sauce", "tokens"])]]
    answers = [room.run(words, chance.choice(["file", "input"])) for words in asked]
    answered = all(answer.status in (0, 1) for answer in answers)
    return answers, [*wrong_between(*answers)] if answered else []


def compare_what_is_made(chance, room):
    """What is said of a file and made of it, and the check of that."""
    flags = [flag for flag in MEND_FLAGS if chance.random() < 0.4]
    flags += ["--add-record", "80"] * (chance.random() < 0.3)
    makes = chance.choice([["redraw"], ["mend", *flags], ["mend", *flags]])
    cleared, why, row, made = (
        room.run(words, "file") for words in (["check", "--cleared"], ["why"], ["table", "--no-header"], makes)
    )
    answers = [cleared, why, row, made]
    if any(answer.status not in (0, 1) for answer in answers):
        return answers, []
    wrong = [*wrong_of_what_is_said(cleared, why, row)]
    if made.status == 0:
        with open(room.out, "rb") as file:
            room.save(file.read())
        answers.append(room.run(["check"], "file"))
    return answers, wrong + [*wrong_of_what_is_made(cleared, made, answers[-1])]


def play_case(seed, number):
    """One case: its answers, and what is wrong with them."""
    chance = random.Random(f"{seed} {number}")
    file = a_file(chance, THE_SEEDS)
    THE_ROOM.save(file)
    if number % 6 < 3:
        answers, wrong = compare_ways(chance, THE_ROOM, number)
    elif number % 6 < 5:
        answers, wrong = compare_commands(chance, THE_ROOM)
    else:
        answers, wrong = compare_what_is_made(chance, THE_ROOM)
    longest = max(len(file), len(THE_ROOM.bytes))
    for answer in answers:
        wrong += [f"{answer.words} by {answer.way}: {what}" for what in wrong_by_itself(answer, longest)]
    THE_ROOM.save(file)
    return answers, wrong


def play_batch(batch):
    """So many cases: counts of their answers, the longest time, and what went wrong, with its file."""
    seed, first = batch
    seen, slowest, found = collections.Counter(), 0.0, []
    for number in range(first, first + CASES_OF_A_BATCH):
        answers, wrong = play_case(seed, number)
        found += [(number, what, THE_ROOM.bytes) for what in wrong]
        for answer in answers:
            fault = fault_of(answer) if answer.status == 1 else None
            seen[f"F{fault[1]}" if fault else f"status {answer.status}"] += 1
            seen["by " + answer.way] += 1
            slowest = max(slowest, answer.seconds)
    return seen, slowest, found


def begin(program, folder):
    """What each worker has: its room and the seeds."""
    global THE_ROOM, THE_SEEDS
    THE_ROOM, THE_SEEDS = Room(program, folder), seeds()


def report(found, folder):
    """Prints what went wrong in a case, and keeps its file."""
    number, what, file = found
    os.makedirs(folder, exist_ok=True)
    path = os.path.join(folder, f"case-{number}.ans")
    with open(path, "wb") as to:
        to.write(file)
    print(f"case {number}: {what}\n  {path}", flush=True)


def play_all(pool, seed, batches, kept):
    """Plays so many batches, and tells how far it is: counts of answers, the longest time, how many went wrong."""
    seen, slowest, wrong, begun = collections.Counter(), 0.0, 0, time.monotonic()
    told = begun
    work = ((seed, i * CASES_OF_A_BATCH) for i in range(batches))
    for done, (counts, longest, found) in enumerate(pool.imap(play_batch, work), 1):
        seen += counts
        slowest, wrong = max(slowest, longest), wrong + len(found)
        for each in found:
            report(each, kept)
        if time.monotonic() - told > 30:
            told = time.monotonic()
            so_far = done * RUNS_OF_A_CASE * CASES_OF_A_BATCH  # a few more, where five runs are made
            print(f"{so_far} runs, {so_far / (told - begun):.0f} a second, {wrong} wrong", flush=True)
    return seen, slowest, wrong


def main(program, seed="1", runs="10000", workers="4"):
    batches = -(-int(runs) // (RUNS_OF_A_CASE * CASES_OF_A_BATCH))
    memory = "/dev/shm" if os.path.isdir("/dev/shm") else None
    kept = os.path.join(tempfile.gettempdir(), f"anscheck-found-{os.getpid()}")
    with tempfile.TemporaryDirectory(prefix="anscheck-", dir=memory) as folder:
        given = [os.path.abspath(program), folder]
        with multiprocessing.get_context("fork").Pool(int(workers), begin, given) as pool:
            seen, slowest, wrong = play_all(pool, seed, batches, kept)
            pool.close()
            pool.join()
    cases = batches * CASES_OF_A_BATCH
    counts = ", ".join(f"{seen[kind]} {kind}" for kind in sorted(seen, key=seen.get, reverse=True))
    runs = sum(count for kind, count in seen.items() if kind.startswith("by "))
    print(f"{runs} runs on {cases} files, seed {seed}: {wrong} went wrong; "
          f"the longest took {slowest:.2f} s of a processor; {counts}")
    return 1 if wrong else 0


if __name__ == "__main__":
    sys.exit(main(*sys.argv[1:]))
