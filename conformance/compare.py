#!/usr/bin/env python3
"""Compares a player with the corpus, cell by cell.

    python3 conformance/compare.py COMMAND [WORD ..]

COMMAND is run for each drawing that has a picture, with its path as the last word. It plays the file's content on
a cleared screen, and prints what the screen then shows of the stated lines: a line for each row, and in it for each
cell two hexadecimal digits of its byte in code page 437 and two of its attribute. That is what stands in the
drawing's `.cells`. It prints the drawings whose cells differ, with the first of these cells, and then how many were
compared. Its status is 1 where one differs. What COMMAND says on standard error is passed on, and the first drawing of
which it prints nothing ends the comparison, with status 1.

    python3 conformance/compare.py --checker anscheck

runs the checker on every drawing, from the starts that `index.tsv` names, and compares the refusals too.
"""
import csv
import os
import subprocess
import sys

HERE = os.path.dirname(os.path.abspath(__file__))
CELL = 4


def expected(name):
    """The cells of a drawing's picture or its refusal, and whether it is a picture."""
    for ending, is_picture in ((".cells", True), (".fault", False)):
        path = os.path.join(HERE, "files", name + ending)
        if os.path.exists(path):
            with open(path, encoding="ascii") as file:
                return file.read(), is_picture
    sys.exit(f"{name}: no .cells and no .fault")


def first_difference(told, cells):
    """Where the first cell stands that differs, counted from 1."""
    for row, (one, other) in enumerate(zip(told.split("\n"), cells.split("\n")), 1):
        for column in range(0, max(len(one), len(other)), CELL):
            mine, its = one[column:column + CELL], other[column:column + CELL]
            if mine != its:
                return f"row {row}, column {column // CELL + 1}: {mine or 'nothing'}, expected {its or 'nothing'}"
    return "another number of rows"


def printed(command):
    """What a command prints. Where that is nothing, all ends here."""
    done = subprocess.run(command, stdout=subprocess.PIPE)
    if not done.stdout.strip():
        sys.exit(f"{' '.join(command)}: it printed nothing, and ended with status {done.returncode}")
    return done.stdout.decode("utf-8", "replace")


def checked(program, start, path):
    """What the checker says: the cells of a pass, or the line of a refusal."""
    flags = {"any": [], "cleared": ["--cleared"]}.get(start) or [f"--known-{p}" for p in start.split()[1:]]
    report = printed([program, "check", *flags, "--cells", path])
    return report.partition("cells:\n")[2] or report.partition("verdict: refused\n")[2]


def played(command, path):
    """What a player prints, in small digits."""
    return printed([*command, path]).lower()


def main():
    """Asks for each drawing."""
    words = sys.argv[1:]
    is_checker = words[:1] == ["--checker"]
    command = words[1:] if is_checker else words
    if not command:
        sys.exit(__doc__)
    compared = different = 0
    with open(os.path.join(HERE, "index.tsv"), encoding="utf-8", newline="") as file:
        for row in csv.DictReader(file, delimiter="\t", quoting=csv.QUOTE_NONE):
            cells, is_picture = expected(row["name"])
            if not (is_picture or is_checker):
                continue
            path = os.path.join(HERE, "files", row["name"] + ".ans")
            told = checked(command[0], row["start"], path) if is_checker else played(command, path)
            compared += 1
            if told.strip() != cells.strip():
                different += 1
                where = first_difference(told, cells) if is_picture else told.strip()
                print(f"{row['name']} ({row['content']}): {where}")
    print(f"{compared} drawings, {different} differ")
    sys.exit(different > 0)


if __name__ == "__main__":
    main()
