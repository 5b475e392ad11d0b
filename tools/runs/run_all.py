#!/usr/bin/env python3
"""Tries a built `anscheck` on real files, pipes and devices, and says what comes out otherwise.

Run it in `crates/anscheck`, after `rt run -- check --cleared data/hi.ans` has built the program:

    python3 ../../tools/runs/run_all.py out/anscheck

PROGRAM is named `anscheck`, as its help says. First it tries the rows of `rows.py`, which the gate tries over files in memory: that the program prints to the right
stream, opens the file that the words name, and returns the status that its functions choose, no contract reaches. A
file whose reading fails after some bytes cannot be had here, so its rows are left out. It compares how many rows there
are with what the gate is to print. Then it tries what only a system
has: a folder as FILE, a full device, an output that is closed, and a word that is not text. It is outside the gate.
"""
import os
import pathlib
import subprocess
import sys
import tempfile

sys.dont_write_bytecode = True

from rows import file_bytes, input_of, printed_of, tables, words_of

HI = "data/hi.ans"
COUNTS = os.path.join(os.path.dirname(os.path.abspath(__file__)), "../../crates/anscheck_rows/stdout")
UNWRITTEN = b"anscheck: cannot write the report\n"
UNREAD = b"anscheck: cannot read the file\n"

# Words on a full device.
ON_A_FULL_DEVICE = [
    ["check", "--cleared", HI], ["check", HI], ["show", HI], ["show", "--html", HI], ["sauce", HI], ["tokens", HI],
    ["why", HI], ["needs", HI], ["table", HI], ["mend", HI], ["redraw", HI], ["--help"], ["help", "F17"],
]
# Words that name a folder.
OF_A_FOLDER = [[command, "data"] for command in ("check", "sauce", "tokens")]
# Words that name one, and of which the name and the reason are said.
OF_A_NAMED_FOLDER = [["data"], ["data", "data/none.ans"], ["show", "--any", "data"]] + [
    [command, "data"] for command in ("why", "needs", "show", "mend", "redraw")]


def counted_otherwise():
    """What the file of the rows' program says of how many there are, if it is not so; or None."""
    counts = "".join(f"{name}: {len(table['row'])} rows, 0 otherwise\n" for name, table in tables())
    with open(COUNTS, encoding="utf-8") as f:
        return None if f.read() == counts else counts


def in_a_folder_with(files, run):
    """Calls `run` in a folder that has these files."""
    here = os.getcwd()
    with tempfile.TemporaryDirectory() as room:
        os.chdir(room)
        for name, file in files.items():
            os.makedirs(os.path.dirname(name) or ".", exist_ok=True)
            with open(name, "wb") as f:
                f.write(file_bytes(file))
        found = run()
        os.chdir(here)
    return found


def files_here():
    """The files of this folder and those below it, each with its bytes."""
    paths = [os.path.relpath(os.path.join(folder, name)) for folder, _, names in os.walk(".") for name in names]
    return {path: pathlib.Path(path).read_bytes() for path in paths}


def is_real(table, row):
    """Whether each file of a row can be read, and whether the system does what the rows' disk in memory does: it has no
    terminal here, files that root may not write, or a folder that is full."""
    words = [word for one in words_of(table, row) for word in one]
    if row.get("terminal") or any(word.startswith(("locked", "full")) for word in words):
        return False
    if any("-i" in one and len(set(one)) < len(one) for one in words_of(table, row)):
        return False  # a file that is read again after it was written has its old bytes in memory
    named = [file for name, file in table.get("files", {}).items() if name in words or name in str(row.get("input"))]
    return not any(file.get("torn") for file in named + [input_of(row)])


def came_of(program, words, **streams):
    """The status, the standard output and the standard error of a run."""
    streams = {"stdout": subprocess.PIPE, "stderr": subprocess.PIPE, "timeout": 60} | streams
    done = subprocess.run([program, *words], **streams)
    return done.returncode, done.stdout or b"", done.stderr or b""


def is_as_expected(row, came):
    """Whether the status and both streams are those of a row."""
    status, printed, said = came
    expected, told = printed_of(row), row.get("says", "").encode()
    prints = printed.startswith(expected) if row.get("prints_more") else printed == expected
    says = said.startswith(told) if row.get("says_more") else said == told
    return prints and says and printed.endswith(row.get("prints_last", "").encode()) and status == row.get("status", 0)


def try_words(program, words, row):
    """What comes of these words, if it is not what the row has: the status and the streams, or the files."""
    left = files_here() | {name: file_bytes(file) for name, file in row.get("leaves", {}).items()}
    came = came_of(program, words, input=file_bytes(input_of(row)))
    if not is_as_expected(row, came):
        return came
    now = files_here()
    return None if now == left else {name: now.get(name) for name in now.keys() | left if now.get(name) != left.get(name)}


def try_rows(program, table, rows):
    """The words of rows that come out otherwise, and what comes of them. Those that write files have a new folder each."""
    files = table.get("files", {})
    if not any("leaves" in row for row in rows):
        tried = in_a_folder_with(files, lambda: [(w, try_words(program, w, row)) for row in rows for w in words_of(table, row)])
    else:
        tried = [(w, in_a_folder_with(files, lambda: try_words(program, w, row))) for row in rows for w in words_of(table, row)]
    return [(words, came) for words, came in tried if came is not None]


def try_table(program, name, table):
    """How many rows were tried, and how many came out otherwise."""
    rows = [row for row in table["row"] if is_real(table, row)]
    wrong = try_rows(program, table, rows)
    for words, came in wrong:
        print(f"{name}: {words}\n  got {str(came)[:2000]}")
    return len(rows), len(wrong)


def try_system(program):
    """Tries what only a system has. Answers how many runs came out otherwise."""
    with open(HI, "rb") as f:
        hi = f.read()
    tried = []
    for words in ON_A_FULL_DEVICE:
        with open("/dev/full", "wb") as full:
            tried.append((words, (2, b"", UNWRITTEN), came_of(program, words, input=b"", stdout=full)))
    with open("/dev/full", "wb") as full:
        refused = b"at 0: F1 no SAUCE record\ntry: --add-record N, which adds a record for N columns\n"
        tried.append((["mend"], (1, b"", refused), came_of(program, ["mend"], input=b"", stdout=full)))
    for words in OF_A_FOLDER:
        tried.append((words, (2, b"", UNREAD), came_of(program, words, input=hi)))
    for words in OF_A_NAMED_FOLDER:
        tried.append((words, (2, b"", b"anscheck: data: is a folder\n"), came_of(program, words, input=hi)))
    words = ["why", "data", "data/none.ans"]
    answers = b"file: data\nerror: is a folder\nfile: data/none.ans\nerror: no such file\n"
    said = b"anscheck: 2 of 2 files not read\n"
    tried.append((words, (2, answers, said), came_of(program, words, input=b"")))
    words = ["table", "--no-header", "data", "data/none.ans"]
    reasons = {b"data": b"is a folder", b"data/none.ans": b"no such file"}
    rows = b"".join(b"error" + b"\t" * 5 + why + b"\t" * 16 + name + b"\n" for name, why in reasons.items())
    said = b"anscheck: 2 files: 0 pass, 0 pass on a cleared screen, 0 refused, 2 not read\n"
    tried.append((words, (2, rows, said), came_of(program, words, input=b"")))
    closed = came_of(program, ["check", "--cleared"], input=hi, stdout=None, preexec_fn=lambda: os.close(1))
    tried.append((["an output that is closed"], (2, b"", UNWRITTEN), closed))
    words = ["check", b"\xff"]
    tried.append((words, (2, b"", b"anscheck: cannot read the command line\n"), came_of(program, words, input=b"")))
    wrong = [(words, expected, came) for words, expected, came in tried if came != expected]
    for words, expected, came in wrong:
        print(f"{words}\n  wanted {expected}\n  got    {came}")
    return len(tried), len(wrong)


def main(program):
    program = os.path.abspath(program)
    counts = [try_table(program, name, table) for name, table in tables()] + [try_system(program)]
    tried, wrong = (sum(numbers) for numbers in zip(*counts))
    stale = counted_otherwise()
    if stale:
        wrong += 1
        print(f"crates/anscheck_rows/stdout is to be\n{stale}")
    print(f"{tried - wrong} of {tried} runs came out as they are to")
    return 1 if wrong else 0


if __name__ == "__main__":
    sys.exit(main(sys.argv[1]))
