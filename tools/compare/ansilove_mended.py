#!/usr/bin/env python3
"""Mends the drawings that come with ansilove, and compares what ansilove draws of each before and after.

It needs Debian's `ansilove`, whose five drawings are mended: those with a record by themselves, and the one without
a record with `--add-record 80`, as wide as ansilove draws it by itself; and each with `--name-colours` too. Run it in
`crates/anscheck`, after `rt run -- check --cleared data/hi.ans` has built the program, with these drawings or others:

    python3 ../../tools/compare/ansilove_mended.py out/anscheck /usr/share/doc/ansilove/examples/*/*.ans

It prints what `mend` says of each, whether the pixels are the same, and how many differ or are not mended. Its status
is 1 where one is so.
"""
import itertools
import os
import subprocess
import sys
import tempfile

sys.dont_write_bytecode = True

from ansilove import drawn


def mended(program, path, more):
    """The flags with which a drawing is mended, its bytes then, and what is said; or no bytes."""
    with open(path, "rb") as file:
        has_record = file.read()[-128:].startswith(b"SAUCE")
    flags = ([] if has_record else ["--add-record", "80"]) + more
    run = subprocess.run([program, "mend", *flags, path], capture_output=True)
    return flags, run.stdout if run.returncode == 0 else b"", run.stderr.decode().splitlines()


def pixels_of(file):
    """What ansilove draws of these bytes."""
    with tempfile.NamedTemporaryFile(suffix=".ans") as copy:
        copy.write(file)
        copy.flush()
        return drawn(copy.name)


def main(program, *paths):
    bad, with_width = 0, 0
    for path, more in itertools.product(paths, ([], ["--name-colours"])):
        flags, file, lines = mended(program, path, more)
        with_width += "--add-record" in flags and not more
        if file:
            verdict = "the same pixels" if pixels_of(file) == drawn(path) else "other pixels"
        else:
            verdict = "not mended"
        bad += verdict != "the same pixels"
        print(f"{os.path.basename(path)}{''.join(' ' + flag for flag in flags)}: {verdict}; {'; '.join(lines)}")
    print(f"{len(paths)} drawings, {with_width} of them with --add-record 80, each also with its colours named; "
          f"{bad} differ or are not mended")
    return bad > 0


if __name__ == "__main__":
    sys.exit(main(*sys.argv[1:]))
