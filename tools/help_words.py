#!/usr/bin/env python3
"""Looks for words that the program prints and its help does not explain.

    python3 tools/help_words.py PROGRAM

It runs `why`, `mend`, `redraw` and `table` on the corpus, on the drawings of `crates/anscheck`, and on the files of
`crates/anscheck_rows`. From what they print it takes the first word of what is before a colon, and the words of the
values that are names: verdicts, parts of the start, differences between players, faults, notes, flags, and the columns
of the table. `PROGRAM help WORD` has to explain each, and `help faults` and `help notes` have to list the titles as
they are printed. It prints each word that is not explained, with the command that first printed it, and ends with
status 1 if there is one.
"""
import json
import os
import pathlib
import re
import subprocess
import sys
import tempfile

sys.dont_write_bytecode = True

TOP = pathlib.Path(__file__).resolve().parent.parent
sys.path.insert(0, str(TOP / "tools" / "runs"))

from meanings import titles  # noqa: E402
from rows import file_bytes, input_of, tables  # noqa: E402

# What is asked of each file.
COMMANDS = (
    ["why"], ["mend"], ["mend", "--take-out"], ["mend", "--crlf", "--join-rows", "--least-lines"],
    ["mend", "--add-record", "80", "--name-colours"], ["redraw"],
)
KEY = re.compile(r"^([a-z]+)(?: [a-z]+){0,3}: ", re.MULTILINE)
# Lines whose values are names, each with what of the value is a name.
VALUES = (
    (re.compile(r"^verdict: (.*)$", re.MULTILINE), re.compile(r"\b(pass|cleared|refused)\b")),
    (re.compile(r"^(?:needs|players|needs on all players|players differ): (.*)$", re.MULTILINE),
     re.compile(r"(?<![\w-])([a-z]+(?:-[a-z]+)*)(?= |,|$)")),
    (re.compile(r"^(?:fault|because): (.*)$", re.MULTILINE), re.compile(r"\b(F\d+)\b")),
    (re.compile(r"^at \d+: (.*)$", re.MULTILINE), re.compile(r"^(F\d+) ")),
    (re.compile(r"^(.*)$", re.MULTILINE), re.compile(r"(?<!\S)--([a-z]+(?:-[a-z]+)*)")),
)
# Words of those values that are no names.
NO_NAMES = {"once", "times", "first", "at", "all"}
# The columns of the table whose values are names.
NAMED = ("verdict", "needs", "players", "needs_on_all_players", "fault", "notes")


def files():
    """The files, each once."""
    found = {path.read_bytes() for folder in ("conformance/files", "crates/anscheck/data")
             for path in sorted((TOP / folder).glob("*.ans"))}
    for _, table in tables():
        found |= {file_bytes(file) for file in table.get("files", {}).values()}
        found |= {file_bytes(input_of(row)) for row in table["row"]}
    return sorted(file for file in found if len(file) < 100_000)


def printed(program, words, data=b""):
    """Both streams of a run, as text. What is no text, such as a mended file, is left out."""
    done = subprocess.run([program, *words], input=data, capture_output=True, timeout=60, check=False)
    out = "" if words[0] in ("mend", "redraw") else done.stdout.decode("utf-8", "replace")
    return out + done.stderr.decode("utf-8", "replace")


def words_in(text):
    """The words before colons, and the names in values."""
    yield from (word for word in KEY.findall(text) if word != "anscheck")
    for line, name in VALUES:
        for value in line.findall(text):
            yield from (word for word in name.findall(value) if word not in NO_NAMES)


def table_of(program, words):
    """The lines of a table."""
    done = subprocess.run([program, "table", *words], capture_output=True, text=True, timeout=60, check=False)
    return done.stdout.splitlines()


def words_of_table(program, folder):
    """The columns and the members of the table of a folder, and the names in it."""
    names = sorted(str(path) for path in folder.iterdir()) + [str(folder / "none.ans")]
    head, *rows = table_of(program, names)
    columns = head.split("\t")
    yield from columns
    for row in rows:
        values = dict(zip(columns, row.split("\t")))
        yield values["verdict"]
        if values["verdict"] != "error":
            named = " ".join(values.get(name, "") for name in NAMED).split()
            yield from (word for word in named if word not in NO_NAMES)
    for row in table_of(program, ["--json", *names]):
        yield from json.loads(row)


def words(program):
    """The words that the program prints, each with the command that first did."""
    found = {}
    with tempfile.TemporaryDirectory() as room:
        folder = pathlib.Path(room)
        for number, data in enumerate(files()):
            (folder / f"{number}.ans").write_bytes(data)
            for command in COMMANDS:
                for word in words_in(printed(program, command, data)):
                    found.setdefault(word, " ".join(command))
        for word in words_in(printed(program, ["why", str(folder / "0.ans"), str(folder / "1.ans")])):
            found.setdefault(word, "why, of two files")
        for word in words_of_table(program, folder):
            found.setdefault(word, "table")
    return found


def is_explained(program, word):
    """Whether help has a text of a word."""
    done = subprocess.run([program, "help", word], capture_output=True, timeout=60, check=False)
    return done.returncode == 0 and done.stdout != b"" and done.stderr == b""


def titles_left_out(program):
    """The titles of faults and notes that the lists of help do not have."""
    listed = " ".join("".join(printed(program, ["help", word]) for word in ("faults", "notes")).split())
    return [f"{name} {title}" for name, title in titles().items() if f"{name} {title}" not in listed]


def main(program):
    program = os.path.abspath(program)
    found = words(program)
    missing = {word: command for word, command in found.items() if not is_explained(program, word)}
    print("".join(f"not explained: {word} ({command})\n" for word, command in sorted(missing.items())), end="")
    left_out = titles_left_out(program)
    print("".join(f"in no list of help: {title}\n" for title in left_out), end="")
    print(f"{len(found)} words, {len(missing)} not explained; {len(left_out)} titles in no list")
    return 1 if missing or left_out else 0


if __name__ == "__main__":
    if len(sys.argv) != 2:
        sys.exit(__doc__)
    sys.exit(main(sys.argv[1]))
