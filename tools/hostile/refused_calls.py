#!/usr/bin/env python3
"""Refuses each call of `anscheck`, and each allocation of the crates' tests, one after the other.

What the program is asked is each command on some files, and the rows of `crates/anscheck_rows`.

Run it in `crates/anscheck`, after `rt run -- check --cleared data/hi.ans` has built the program and
`rt test` the tests of the crates that allocate (each leaves `out/NAME_tests` in its crate):

    python3 ../../tools/hostile/refused_calls.py out/anscheck [--tests FOLDER] [NAME..]

With `--tests` the tests are taken from that folder, as `FOLDER/NAME_tests`. So those serve that are built without
proofs: `python3 tools/bench/unproved.py --test NAME FOLDER/NAME_tests`. With `-` in the program's place the tests
alone are tried, so that a long run can be made in parts.

`rt try --fail-alloc N` refuses an allocation too, but it builds for each N anew, and the kit's `rt try`
takes one number alone there, and refuses no read or write of a program that is built. So this script builds
`refuse.c` with cc, which stands before the C library and refuses the call of one number; it counts upwards
until a run meets no refusal. Of a test it makes one run, in which a copy of the process meets each refusal. It needs
a program that is linked with the C library dynamically, on Linux.

What has to come of a run of the program in which one call is refused:

- An allocation, and all from one on: status 2, nothing on standard output, `out of memory` or `cannot read
  the command line`. Where the words are rejected anyway, the text that rejects them will do.
- An open, a read: status 2, nothing on standard output, and the line that says so, with the file's name but for
  `check`, `sauce` and `tokens`. Of several files of `why` the file's answer says so, and the others are as without it.
- An allocation for the command that a misspelt word may have been meant as: no command is named.
- A write of standard output: status 2, `cannot write the report`, and a prefix of the text; the whole text
  is one, since what a buffer holds is offered once more as it is dropped. A write of standard error: the
  status and the standard output that come without it.
- A read or a write that moves one byte in place of several: all that comes without it.

A table goes on behind a file that it could not read. So of `table` an allocation, an open or a read of a file
may also end thus: status 2, the row of that file says so, all other rows are as without it, and standard error
counts the rows; where all allocations from one on are refused, the rows of the files behind it say so too. Or,
where memory is refused for the text of a row, the table ends before it, with `out of memory`. Where a read of
the names fails there are the rows of the names before, and `cannot read the names`. The row of a file that cannot
be opened anyway stays as it is, and where the memory for reading is there already that of a file without a record
may: no other memory is asked for these.

Of a test: the error `AllocError` or `AllocFailed`, for each allocation. A test process that ends with a signal,
or passes, is wrong: in the one case memory that is not there was used, in the other an answer came where it
should have failed. The tests of words that are rejected may pass: `clap` then looks for names that are close, by
the kit's `collect`, which asks for room beforehand and goes on without it.

It prints the refusals of each kind and each crate, and what came out otherwise. The status is 1 where
something did, where tests are not built, or where a kind of call was never met.
"""
import collections
import concurrent.futures
import itertools
import json
import os
import subprocess
import sys
import tempfile

sys.dont_write_bytecode = True
HERE = os.path.dirname(os.path.abspath(__file__))
CRATES = os.path.join(os.path.dirname(os.path.dirname(HERE)), "crates")
sys.path.insert(0, os.path.join(os.path.dirname(HERE), "runs"))

from rows import file_bytes, file_of, input_of, tables, words_of

TESTED = ["ans_screen", "ans_play_tests", "ans_report_tests", "ans_options_tests", "ans_check_tests", "ans_answer_tests"]
AT_ONCE, WORKERS, SECONDS = 16, 4, 120

OUT_OF_MEMORY = b"anscheck: out of memory\n"
MEMORY = [OUT_OF_MEMORY, b"anscheck: cannot read the command line\n"]
NAMES_NOT_READ = b"anscheck: cannot read the names\n"
NOT_WRITTEN = b"anscheck: cannot write the report\n"
REJECTED = b"error: "
IN_ROWS = {
    "alloc": "out of memory",
    "alloc-from": "out of memory",
    "open": "cannot open the file",
    "read": "cannot read the file",
}
TEST_ERRORS = (b"error: AllocError\n", b"error: AllocFailed", b"Error: AllocError\n")
OF_REJECTED_WORDS = {
    "tests::cut_off::rejected_words_end_alike_where_nothing_can_be_said",
    "tests::endings::words_without_options_have_their_endings",
    "tests::drawings::other_words_stay_as_they_are",
    "tests::faults::help_takes_one_command",
    "tests::faults::mistakes_have_their_kinds",
    "tests::mends::wrong_words_of_mending_have_their_kind",
    "tests::tables::wrong_words_of_a_table_have_their_kind",
    "tests::topics::other_words_ask_for_no_topic",
}
KINDS = ["alloc", "alloc-from", "open", "read", "write", "short-read", "short-write"]

CLEAR = b"\x1b[?7h\x1b[0m\x1b[2J"
FILES = {
    "passed": file_of(CLEAR + b"Hi"),
    "passed from the cleared screen": file_of(b"\x1b[0;1;5;33;44mHi\x1b[s\tx", 16, 3),
    "refused": file_of(b"Hi!"),
    "broken": file_of(b"Hi\x1b[3"),
    "without a record": b"S" * 127,
    "with comments": b"Hi\x1aCOMNT" + b"c" * 128 + file_of(b"")[1:105] + b"\x02" + bytes(23),
    "of three chunks, with a long report": file_of(CLEAR + b"\x1b[1;1Hx\r" * 20_000, 80, 300),
}
COMMANDS = [
    ["check"], ["check", "--cleared"], ["check", "--cleared", "--cells"],
    ["check", "--known-cursor", "--known-colours"], ["show"], ["show", "--html", "--any"], ["why"], ["needs"],
    ["sauce"], ["tokens"], ["table"], ["table", "--json"], ["mend"], ["redraw"],
    ["mend", "--take-out", "--crlf", "--join-rows", "--name-colours", "--least-lines", "--add-record", "80"],
]
# Rows of files near the limit, and of 10,000 files, take an hour.
TOO_LONG = ("largest.toml", "long_tables.toml")

Ran = collections.namedtuple("Ran", "status out err refused")


def run(words, stdin, library, refuse):
    """One run. `refused` is the descriptor of the call that was refused, or None where none was."""
    with tempfile.TemporaryDirectory() as room:
        mark = os.path.join(room, "refused")
        env = {"LD_PRELOAD": library, "REFUSE": refuse, "REFUSED": mark}
        with open(stdin, "rb") as file:
            done = subprocess.run(words, stdin=file, capture_output=True, env=env, timeout=SECONDS)
        refused = None
        if os.path.exists(mark):
            with open(mark, "rb") as file:
                refused = int(file.read())
        return Ran(done.returncode, done.stdout, done.stderr, refused)


def each_refusal(pool, words, stdin, library, kind):
    """The number and the run of each refusal of a kind, up to the first run that meets none."""
    first = 1
    while True:
        numbers = range(first, first + AT_ONCE)
        for n, ran in zip(numbers, pool.map(lambda n: run(words, stdin, library, f"{kind}:{n}"), numbers)):
            if ran.refused is None:
                return
            yield n, ran
        first += AT_ONCE


Row = collections.namedtuple("Row", "verdict fault name")


def rows_of(table):
    """What the lines of a table tell. The line of the columns' names is taken as a row that is no file's."""
    rows = []
    for line in table.decode().splitlines():
        if line.startswith("{"):
            row = json.loads(line)
            rows.append(Row(row["verdict"], row.get("fault", ""), row["file"]))
        else:
            columns = line.split("\t")
            rows.append(Row(columns[0], columns[5], columns[-1]))
    return rows


def counts_of(rows):
    """What standard error says of these rows."""
    verdicts = collections.Counter(row.verdict for row in rows)
    passed, cleared, refused, unread = (verdicts[verdict] for verdict in ("pass", "cleared", "refused", "error"))
    files = passed + cleared + refused + unread
    plural = "" if files == 1 else "s"
    passes = f"{passed} pass, {cleared} pass on a cleared screen"
    return f"anscheck: {files} file{plural}: {passes}, {refused} refused, {unread} not read\n".encode()


def is_played(row):
    """Whether the content of a row's file is played, for which memory is asked: it passes, or has none of F1 to F8."""
    return row.verdict in ("pass", "cleared") or row.fault.startswith("F") and int(row.fault[1:]) > 8


def is_told_in_rows(kind, whole, ran):
    """Whether a table is as without the refused call but for one row, which says what was refused; with all
    allocations refused from one on, but for the last rows of those files that are played, which all say so. A file
    that cannot be opened anyway has its row, whatever is refused."""
    lines, whole_lines = ran.out.splitlines(), whole.out.splitlines()
    if ran.status != 2 or len(lines) != len(whole_lines) or ran.out[-1:] != b"\n":
        return False
    rows, whole_rows = rows_of(ran.out), rows_of(whole.out)
    changed = [i for i in range(len(lines)) if lines[i] != whole_lines[i]]
    are_told = all(rows[i] == Row("error", IN_ROWS[kind], whole_rows[i].name) for i in changed)
    if kind == "alloc-from":
        later = range(changed[0], len(lines)) if changed else []
        are_those = bool(changed) and all(i in changed or not is_played(whole_rows[i]) for i in later)
    elif kind == "open" and not changed:
        are_those = any(row.fault == IN_ROWS["open"] for row in whole_rows)
    else:
        are_those = len(changed) == 1
    return are_those and are_told and ran.err == counts_of(rows)


def ends_behind_a_row(whole, ran, said):
    """Whether a table has some of its first lines, each whole, and ends with this on standard error."""
    return (ran.status == 2 and ran.err == said and whole.out.startswith(ran.out)
            and ran.out[-1:] in (b"", b"\n"))


def is_table_as_it_must(kind, whole, ran):
    """Whether a table tells of a refused allocation, open or read."""
    if kind == "read" and ran.refused == 0:
        return ends_behind_a_row(whole, ran, NAMES_NOT_READ)
    ends = kind in ("alloc", "alloc-from") and ran.out != whole.out and ends_behind_a_row(whole, ran, OUT_OF_MEMORY)
    return ends or is_told_in_rows(kind, whole, ran)


def answers_of(out):
    """The answers of `why` of several files, each after the line of its name."""
    return out.removeprefix(b"file: ").split(b"\nfile: ") if out.startswith(b"file: ") else []


def is_said_of_files(kind, whole, ran):
    """Whether `why` of several files is as without the refused call but for files that say what was refused."""
    answers, whole_answers = answers_of(ran.out), answers_of(whole.out)
    changed = [(answer, other) for answer, other in zip(answers, whole_answers) if answer.rstrip() != other.rstrip()]
    error = b"\nerror: " + IN_ROWS[kind].encode()
    unread = sum(b"\nerror: " in answer for answer in answers)
    return (ran.status == 2 and len(answers) == len(whole_answers)
            and all(answer.rstrip() == other.partition(b"\n")[0].rstrip() + error for answer, other in changed)
            and ran.err == b"anscheck: %d of %d files not read\n" % (unread, len(answers)))


def shown(word):
    """A word as messages show a name: a backslash and control bytes are escaped."""
    named = {"\\": "\\\\", "\t": "\\t", "\n": "\\n"}
    return "".join(named.get(c, f"\\x{ord(c):02x}" if c < " " or c == "\x7f" else c) for c in word).encode()


def is_said_of_a_file(kind, words, ran):
    """Whether standard error says that the file was not opened or not read: after its name, except of standard input
    and of `check`, `sauce` and `tokens`."""
    reason = IN_ROWS[kind].encode()
    fronts = [b""] if words[0] in ("check", "sauce", "tokens") else [
        b"", *(shown(word) + b": " for word in words if word != "-")]
    return ran.err in [b"anscheck: " + front + reason + b"\n" for front in fronts]


def comes_as_it_must(kind, words, whole, ran):
    """Whether a run with a refused call is as the text above says, beside the run without one."""
    is_table = words[:1] == ["table"]
    silent = ran.status == 2 and ran.out == b""
    if kind in IN_ROWS and answers_of(whole.out) and is_said_of_files(kind, whole, ran):
        return True
    if kind in ("alloc", "alloc-from") and b"no such command" in whole.err:
        message = whole.err.partition(b"; did you mean ")[0].rstrip(b"\n") + b"\n"
        return silent and ran.err in (*MEMORY, message, whole.err)
    if kind in ("alloc", "alloc-from"):
        is_rejected = whole.err.startswith(REJECTED) and ran[:3] == whole[:3]
        return is_rejected or silent and ran.err in MEMORY or is_table and is_table_as_it_must(kind, whole, ran)
    if kind in ("open", "read") and is_table:
        return is_table_as_it_must(kind, whole, ran)
    if kind in ("open", "read"):
        return silent and is_said_of_a_file(kind, words, ran)
    if kind == "write" and ran.refused == 1:
        return ran.status == 2 and whole.out.startswith(ran.out) and ran.err == NOT_WRITTEN
    if kind == "write":
        return (ran.status, ran.out) == (whole.status, whole.out) and ran.err in (b"", NOT_WRITTEN)
    return ran[:3] == whole[:3]


def runs_of_the_program(room):
    """What the program is asked, and its standard input: each command on each file, named as a word and on
    standard input. A table reads names there, each ended by 00h: one file's, and all of them."""
    every_name = os.path.join(room, "every-name")
    for name, file in FILES.items():
        path = os.path.join(room, name.replace(" ", "-"))
        listed = path + ".name"
        with open(path, "wb") as to, open(listed, "wb") as names, open(every_name, "ab") as all_names:
            to.write(file)
            names.write(path.encode() + b"\0")
            all_names.write(path.encode() + b"\0")
        for words in COMMANDS:
            yield [*words, path], os.devnull
            yield words, listed if words[0] == "table" else path
    yield from ((words, every_name) for words in COMMANDS if words[0] == "table")


def runs_of_rows(room):
    """What the rows of the tables ask, and their standard input, in a folder with the files of each table."""
    for number, (name, table) in enumerate(tables()):
        if name in TOO_LONG:
            continue
        folder = os.path.join(room, str(number))
        os.mkdir(folder)
        os.chdir(folder)
        for file, has in table.get("files", {}).items():
            with open(file, "wb") as to:
                to.write(file_bytes(has))
        for row in table["row"]:
            with open(os.path.join(room, "input"), "wb") as to:
                to.write(file_bytes(input_of(row)))
            yield words_of(table, row)[0], os.path.join(room, "input")


def try_run(pool, words, stdin, library, refusals):
    """How many refusals of one run came out otherwise. Each is counted."""
    whole, wrong = run(words, stdin, library, "none:0"), 0
    for kind in KINDS:
        for n, ran in each_refusal(pool, words, stdin, library, kind):
            refusals[kind] += 1
            if not comes_as_it_must(kind, words[1:], whole, ran):
                wrong += 1
                print(f"{kind} {n} of {words[1:]} < {stdin}: {ran.status} {ran.out[-60:]} {ran.err[:80]}")
    return wrong


def try_program(pool, program, library, room):
    """How many refused calls of the program came out otherwise; a kind that was never met is one more."""
    refusals, wrong, runs = collections.Counter(), 0, 0
    for words, stdin in itertools.chain(runs_of_the_program(room), runs_of_rows(room)):
        runs += 1
        wrong += try_run(pool, [program, *words], stdin, library, refusals)
    counts = ", ".join(f"{refusals[kind]} {kind}" for kind in KINDS)
    print(f"anscheck: {runs} runs with each call refused in turn: {counts}; {wrong} otherwise", flush=True)
    return wrong + sum(refusals[kind] == 0 for kind in KINDS)


def copies_of(executable, library, test):
    """The copies of one run of a test, each of which met one refusal: its number, its status and its standard error.
    The run itself meets none, and has to pass."""
    with tempfile.TemporaryDirectory() as room:
        told = os.path.join(room, "told")
        env = {"LD_PRELOAD": library, "REFUSE": "alloc-each:1", "REFUSED": told}
        whole = subprocess.run([executable, test], stdin=subprocess.DEVNULL, capture_output=True, env=env)
        if whole.returncode:
            raise SystemExit(f"{executable} {test}: status {whole.returncode} without a refusal: {whole.stderr[:200]}")
        if os.path.exists(told):
            with open(told, "rb") as file:
                for n in itertools.count(1):
                    line = file.readline()
                    if not line:
                        return
                    status, length = map(int, line.split())
                    yield n, Ran(status, b"", file.read(length), 0)


def tests_of(executable):
    listed = subprocess.run([executable, "--list"], capture_output=True, check=True).stdout.decode()
    return [line.removesuffix(": test") for line in listed.splitlines() if line.endswith(": test")]


def hands_on(test, ran):
    """Whether a test failed with the error of memory, or passed where it may."""
    return ran.status > 0 and ran.err.startswith(TEST_ERRORS) or ran.status == 0 and test in OF_REJECTED_WORDS


def try_tests(pool, name, folder, library):
    """How many allocations of a crate's tests came out otherwise, each refused in turn."""
    executable = os.path.join(folder or os.path.join(CRATES, name, "out"), f"{name}_tests")
    if not os.path.exists(executable):
        print(f"{name}: no {executable}; run rt test there")
        return 1
    tests, refusals, passed, wrong = tests_of(executable), 0, 0, 0
    for test, copies in zip(tests, pool.map(lambda test: list(copies_of(executable, library, test)), tests)):
        for n, ran in copies:
            refusals += 1
            passed += ran.status == 0
            if not hands_on(test, ran):
                wrong += 1
                print(f"{name}, {test}, allocation {n}: status {ran.status} {ran.err[:200]}", flush=True)
    told = f", {passed} passed with rejected words" if passed else ""
    print(f"{name}: {len(tests)} tests, {refusals} allocations refused in turn; {wrong} otherwise{told}", flush=True)
    return wrong + (refusals == 0)


def main(program, *names):
    folder = None
    if names[:1] == ("--tests",):
        folder, names = os.path.abspath(names[1]), names[2:]
    with tempfile.TemporaryDirectory() as room, concurrent.futures.ThreadPoolExecutor(WORKERS) as pool:
        library = os.path.join(room, "refuse.so")
        source = os.path.join(HERE, "refuse.c")
        subprocess.run(["cc", "-shared", "-fPIC", "-O1", "-Wall", "-o", library, source], check=True)
        wrong = 0 if program == "-" else try_program(pool, os.path.abspath(program), library, room)
        wrong += sum(try_tests(pool, name, folder, library) for name in names or TESTED)
    return 1 if wrong else 0


if __name__ == "__main__":
    sys.exit(main(*sys.argv[1:]))
