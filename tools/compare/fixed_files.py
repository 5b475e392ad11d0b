#!/usr/bin/env python3
"""Runs the line `fix:` that `why` has for a file, as `sh` runs it, and sees what comes of it.

The files are those of `mend_files.py` and the drawings of `spoiled_drawings.py`, in turn. Each is written to a folder
of its own, and `why` is asked about it:

- if it is refused and has a line `fix:`, that line is run by `sh` in that folder: it has to end with status 0, and
  `check` has to pass the file FIXED that it names; the drawing itself stays as it is;
- if it is refused and has no such line, `mend` is tried with every set of flags that changes rows, sequences, the record
  or its lines, with each width of 80, 132 and 160 columns: how many could be fixed so is counted, and by which flags.

Run it in `crates/anscheck`, on the built program, with a number that seeds the files and how many there shall be. A
fourth number has only every N-th file searched:

    python3 ../../tools/compare/fixed_files.py out/anscheck 1 10000 10

It prints each file whose line does not do what it says, and then the counts. Its status is 1 if there is one.
"""
import collections
import itertools
import multiprocessing
import os
import random
import shlex
import subprocess
import sys
import tempfile

HERE = os.path.dirname(os.path.abspath(__file__))
sys.path[:0] = [HERE, os.path.join(HERE, "../runs")]
import mend_files
import spoiled_drawings

STEPS = ["--crlf", "--join-rows", "--mixed", "--take-out", "--record"]
WIDTHS = [[], *([flag, number] for flag in ("--columns", "--add-record") for number in ("80", "132", "160"))]
LINES = [[], ["--least-lines"]]
NAMES = ["drawing.ans", "my drawing.ans", "it's.ans", "-o.ans", "$HOME.ans", "no dot", "a.b/c", "UPPER.ANS"]


def a_file(seed, number):
    chance = random.Random(f"{seed} {number}")
    if number % 2:
        return mend_files.a_mend_file(chance)
    _, spoil, _, width, lines = spoiled_drawings.WAYS[number // 2 % len(spoiled_drawings.WAYS)]
    return spoil(spoiled_drawings.Picture(chance, width, lines))


def run(program, words, folder):
    return subprocess.run([program, *words], cwd=folder, capture_output=True, stdin=subprocess.DEVNULL)


def sets_of_flags():
    """Every set of the flags that change what is refused, the smallest first."""
    steps = [list(some) for count in range(len(STEPS) + 1) for some in itertools.combinations(STEPS, count)]
    every = [some + width + lines for some in steps for width in WIDTHS for lines in LINES]
    return sorted(every, key=len)


SETS = sets_of_flags()


def flags_that_fix(program, name, folder):
    """The smallest set of flags with which `mend` writes a file, or None."""
    for flags in SETS:
        if run(program, ["mend", *flags, name], folder).returncode == 0:
            return " ".join(flags) or "no flag"
    return None


def follow(program, line, name, folder, before):
    """What is wrong after the line was run; None if nothing is."""
    done = subprocess.run(["sh", "-c", line], cwd=folder, capture_output=True, stdin=subprocess.DEVNULL)
    if done.returncode != 0:
        return f"status {done.returncode}: {done.stderr!r}"
    words = shlex.split(line)
    fixed = words[words.index("-o") + 1]
    if run(program, ["check", fixed], folder).returncode != 0:
        return f"{fixed} does not pass"
    with open(os.path.join(folder, name), "rb") as it:
        return None if it.read() == before else f"{name} was changed"


def judged(task):
    program, seed, number, each = task
    file, name = a_file(seed, number), NAMES[number % len(NAMES)]
    with tempfile.TemporaryDirectory() as folder:
        os.makedirs(os.path.join(folder, os.path.dirname(name)), exist_ok=True)
        with open(os.path.join(folder, name), "wb") as it:
            it.write(file)
        os.symlink(program, os.path.join(folder, "anscheck"))
        given = f"./{name}" if name.startswith("-") else name
        why = run(program, ["why", given], folder)
        if why.returncode == 0:
            return number, "passes, on a cleared screen at least", None
        lines = [line for line in why.stdout.decode("utf-8", "replace").splitlines() if line.startswith("fix: ")]
        if lines:
            line = f"PATH=.:$PATH; {lines[0][5:]}"
            bad = follow(program, line, name, folder, file)
            return number, "fixed by its line", bad and f"{lines[0]}: {bad}"
        if number % each:
            return number, "no line, not searched", None
        flags = flags_that_fix(program, given, folder)
        return number, f"no line, fixed by {flags}" if flags else "no line, and no flags fix it", None


def main(program, seed, count, each="1"):
    program, counts, bad = os.path.abspath(program), collections.Counter(), 0
    with multiprocessing.Pool(2) as pool:
        tasks = ((program, seed, number, int(each)) for number in range(int(count)))
        for number, what, wrong in pool.imap_unordered(judged, tasks, 16):
            counts[what] += 1
            if wrong:
                bad += 1
                print(f"file {number}: {wrong}", flush=True)
    print(f"{bad} of {count} differ; " + "; ".join(f"{n} {what}" for what, n in counts.most_common()))
    return 1 if bad else 0


if __name__ == "__main__":
    sys.exit(main(*sys.argv[1:]))
