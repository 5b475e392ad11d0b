#!/usr/bin/env python3
"""Tries the edits that stand in this folder: each makes a mistake in a definition of `ans_model` or `ans_players`, some
of them in the function that follows that definition too, and the laws have to refuse it.

Run it anywhere, with the names of edits or with none for all:

    python3 tools/definitions/try_all.py [EDIT..]

An edit is written as those in `must-fail/`, but its files are named from the folder `crates` on. It is tried on a copy
of `ans_model`, of `ans_laws` without the examples of texts, which are read by the scanner, and of `ans_players` and
`ans_players_laws`, so that no other crate has to be proved again. For each edit the script prints which of these crates
refuses it, and why; or that it does not fit, and goes on. It ends with 0 if each edit fits and is refused. It takes a
minute or two for each.
"""
import os
import re
import shutil
import subprocess
import sys
import tempfile

EDITS = os.path.dirname(os.path.abspath(__file__))
CRATES = os.path.abspath(f"{EDITS}/../../crates")
TRIED = ["ans_model", "ans_laws", "ans_players", "ans_players_laws"]
DEPENDENCIES = ("ans_model: arrayvec\nans_laws: ans_model\n"
                "ans_players: ans_model\nans_players_laws: ans_model ans_players\n")
# the examples of texts, which are read by the scanner
ABOVE = {
    "src/lib.rt": "pub mod text_examples;",
    "specs/Lib.antt": "pub mod TextExamples",
    "proofs/Lib.antt": "pub mod ComputedReading",
}
FILES_ABOVE = ["src/text_examples.rt", "specs/TextExamples.antt", "proofs/text_examples", "proofs/ComputedReading.antt"]


def without_what_stands_above(laws):
    """Takes the examples of texts out of a copy of ans_laws."""
    for path, line in ABOVE.items():
        with open(f"{laws}/{path}", encoding="utf-8") as it:
            kept = it.read().replace(f"{line}\n", "")
        with open(f"{laws}/{path}", "w", encoding="utf-8") as it:
            it.write(kept)
    for path in FILES_ABOVE:
        at = f"{laws}/{path}"
        shutil.rmtree(at) if os.path.isdir(at) else os.remove(at)


def copy_crates(room):
    """Makes a repository of these crates, with what is built of them."""
    os.makedirs(room)
    with open(f"{room}/crates.txt", "w", encoding="utf-8") as it:
        it.write(DEPENDENCIES)
    shutil.copy2(f"{CRATES}/../HANDLES", room)
    for name in TRIED:
        shutil.copytree(f"{CRATES}/{name}", f"{room}/crates/{name}", ignore=shutil.ignore_patterns("must-fail"))
    without_what_stands_above(f"{room}/crates/ans_laws")


def check(room, name):
    """Returns whether a crate is proved, and what the check says. It says this of the crates below first."""
    ran = subprocess.run(["rt", "check"], cwd=f"{room}/crates/{name}", stdout=subprocess.PIPE,
                         stderr=subprocess.STDOUT, text=True, errors="replace")
    proved = re.findall(r"^logic=(proved|not-proved)\b", ran.stdout, re.M)
    if not proved:
        sys.exit(f"{name} could not be checked:\n{ran.stdout[-2000:]}")
    return proved[-1] == "proved", ran.stdout


class Unfit(Exception):
    """An edit that does not fit its file."""


def apply(edit, room):
    """Makes the changes of an edit, or raises Unfit."""
    path = old = None
    with open(edit, encoding="utf-8") as it:
        lines = it.read().splitlines()
    for line in lines:
        key, _, text = line.partition(": ")
        if key == "file":
            path = f"{room}/crates/{text}"
        elif key == "old":
            old = text
        elif key == "new" or line == "new:":
            with open(path, encoding="utf-8") as it:
                whole = it.read()
            if whole.count(old) != 1:
                raise Unfit(f"this is {whole.count(old)} times in {os.path.relpath(path, room)}: {old}")
            with open(path, "w", encoding="utf-8") as it:
                it.write(whole.replace(old, text))


def refusal(edit, proved, at):
    """Returns the crate that refuses an edit, with its first complaint, or None. Raises Unfit if it does not fit."""
    shutil.copytree(proved, at, symlinks=True)
    apply(edit, at)
    for name in TRIED:
        well, said = check(at, name)
        if not well:
            first = re.search(r"\S+:\d+:\d+: error: .*", said)
            return f"{name}: {first[0][:120] if first else ''}"
    return None


def main(names):
    edits = sorted(name for name in os.listdir(EDITS) if name.endswith(".edit"))
    unknown = [name for name in names if f"{name}.edit" not in edits]
    if unknown:
        sys.exit(f"no edit here is named {unknown[0]}")
    missed = 0
    with tempfile.TemporaryDirectory(prefix="anscheck-definitions-") as room:
        proved = f"{room}/proved"
        copy_crates(proved)
        for name in TRIED:
            if not check(proved, name)[0]:
                sys.exit(f"{name} is not proved as it stands")
        for edit in [f"{name}.edit" for name in names] or edits:
            try:
                by = refusal(f"{EDITS}/{edit}", proved, f"{room}/tried")
                said = f"refused by {by}" if by else "NOT REFUSED"
            except Unfit as reason:
                by, said = None, f"DOES NOT FIT: {reason}"
            shutil.rmtree(f"{room}/tried")
            missed += by is None
            print(f"{edit}: {said}", flush=True)
    return 1 if missed else 0


if __name__ == "__main__":
    sys.exit(main(sys.argv[1:]))
