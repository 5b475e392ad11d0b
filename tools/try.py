#!/usr/bin/env python3
"""Runs the scripts that try anscheck outside the gate, and ends with one status.

    python3 tools/try.py PROGRAM [--quick] [--only NAME ..] [--strict] [--jobs N] [--library ARCHIVE] [--tests FOLDER]
    python3 tools/try.py --only edits --crates CRATE ..
    python3 tools/try.py --list

PROGRAM is the built `anscheck`. All rows of the table below are run, except the two that prove, `edits` and
`definitions`: these take hours, and are run only if --only names them. With --quick rows are run that take ten minutes
together, with fewer random files. --only takes the names of rows, or patterns such as 'second_*'. ARCHIVE is the built
`libans_c.a`, and FOLDER has the tests that `refused_calls.py` wants; without them those that are built in the crates
are taken. --crates names the crates whose edits are tried, all if there is none. With --jobs N rows are run at once,
the longest first; those that drive a browser take turns. --list prints the table, and what the scripts are that are not
run.

Each script gives a line as it ends: its name, its seconds, and `passed`, `FAILED` with the last 20 lines of its output,
or `left out` with the Debian packages, or other things, that are missing. That is no failure, but with --strict it is
one. A script that writes what git keeps is run on a copy, and fails if it changes something there. It is a failure too
if git lists a script that is not in this file. The last line has the sums; the status is 1 if there was a failure.

The minutes of the table are rough: those of scripts that need the library, DOSBox, other terminals than tmux, browsers,
`refused_calls.py` and proofs are guesses, and the others are from short runs on four processors that were busy.
"""
import argparse
import concurrent.futures
import contextlib
import filecmp
import fnmatch
import glob
import os
import pathlib
import shutil
import subprocess
import sys
import tempfile
import threading
import time
from typing import NamedTuple

TOP = pathlib.Path(__file__).resolve().parent.parent
ART = "/usr/share/doc/ansilove/examples/*/*.ans"
LINES_SHOWN = 20
SEED, DRAWINGS = 1, 1000
PLAYERS = "dosbox nasm ansilove tmux xterm rxvt-unicode xvfb libvterm-dev gcc"
BROWSERS = "chromium firefox-esr"
RUNNERS = {".test.js": ["node", "--test"], ".mjs": ["node"], ".py": [sys.executable]}

# What shows that a package is there: a program, or a file.
SHOWN_BY = {
    "ansilove": "ansilove", "binutils": "readelf", "chromium": "chromium", "clang": "clang", "dosbox": "dosbox",
    "firefox-esr": "firefox-esr", "g++": "c++", "gcc": "cc", "git": "git", "libvterm-dev": "/usr/include/vterm.h",
    "lld": "lld", "man-db": "man", "mandoc": "mandoc", "nasm": "nasm", "nodejs": "node", "pkgconf": "pkg-config",
    "rustc": "rustc", "rxvt-unicode": "urxvt", "tmux": "tmux", "webkit2gtk-driver": "WebKitWebDriver", "xterm": "xterm",
    "xvfb": "Xvfb", "the-rattle-kit": "rt",
}


class Row(NamedTuple):
    """A script, and how it is run."""

    name: str
    tries: str
    command: str  # the script, from the top, and its words; those in braces are put in their places
    minutes: float
    quick: float | None = None  # its minutes in --quick, if it is run there
    counts: tuple = ()  # what {count} is in --quick, and else
    packages: str = ""
    folder: str = "crates/anscheck"  # where it is run
    writes: str = ""  # what it writes, if it is run on a copy
    is_asked_for: bool = False  # whether it is run only if it is named


ROWS = [
    Row("run_all", "the rows of anscheck_rows and what only a system has", "tools/runs/run_all.py {program}", 0.1, 0.1),
    Row("try_pages", "the examples and commands of README and docs", "tools/runs/try_pages.py {program}", 0.1, 0.1),
    Row("made_drawings", "why, on mistakes that artists make", "tools/runs/made_drawings.py {program}", 0.1, 0.1),
    Row("spoiled_drawings", "why and mend, on drawings spoiled in 71 ways",
        "tools/runs/spoiled_drawings.py {program} 1 {count}", 4, 0.4, (210, 2000)),
    Row("definition_files", "whether DEFINITIONS.md lists the files and README counts them",
        "tools/definitions/files.py --check", 0.1, 0.1),
    Row("words", "the length, the links and the words of the pages", "tools/pages.py", 0.1, 0.1, packages="git"),
    Row("completions", "whether the completions are of the texts of help", "tools/completions.py --check", 0.1, 0.1),
    Row("manual", "whether MANUAL.md is of the manual page", "tools/manual.py --check", 0.1, 0.1, packages="mandoc"),
    Row("meanings", "whether FAULTS.md has the program's texts", "tools/runs/meanings.py --check", 0.1, 0.1),
    Row("flags", "whether the flags of mend are the same everywhere", "tools/flags.py", 0.1, 0.1),
    Row("help_words", "whether help explains each word that is printed", "tools/help_words.py {program}", 0.5, 0.5),
    Row("harbour", "whether harbour.ans is as it is drawn",
        "tools/pictures/draw_harbour.py data/harbour.ans", 0.1, 0.1, packages="git", writes="crates/anscheck/data"),
    Row("tables", "whether ans.h has the texts of the crates", "library/tables.py --check", 0.1, 0.1),
    Row("stamp", "whether module and page are up to date", "page/stamp.py", 0.1, 0.1),
    Row("corpus", "the corpus: pictures and faults", "conformance/compare.py --checker {program}", 0.1, 0.1),
    Row("corpus_made", "the corpus, made again and beside the samples", "conformance/make.py {program}", 0.1, 0.1,
        packages="git", writes="conformance"),
    Row("second_machine", "check, on random contents", "tools/compare/second_machine.py {program} 17 {count}", 5, 0.2,
        (3000, 100000)),
    Row("second_needs", "needs, on random contents", "tools/compare/second_machine.py {program} 17 {count} needs", 3,
        0.2, (500, 10000)),
    Row("second_why", "why, on random files", "tools/compare/second_why.py {program} 17 {count}", 2, 0.2, (300, 3000)),
    Row("second_mend", "mend, on random files", "tools/compare/second_mend.py {program} 33 {count}", 10, 1,
        (300, 4000)),
    Row("second_mend_long", "mend, near the limit of a file", "tools/compare/second_mend.py {program} 33 10 long", 2),
    Row("fixed_files", "the line fix: of why, run by sh, on random files",
        "tools/compare/fixed_files.py {program} 1 {count} 31", 15, 0.3, (100, 10000)),
    Row("second_players", "the lines of why on players", "tools/compare/second_players.py {program} 1 {count}", 5, 0.3,
        (1000, 20000)),
    Row("players_model", "the kinds of players, by the model", "tools/compare/second_players.py --model 1 {count}", 5,
        0.3, (1000, 20000)),
    Row("second_redraw", "redraw, on random files", "tools/compare/second_redraw.py {program} 77 {count}", 10, 0.4,
        (300, 10000)),
    Row("redraw_model", "the form of redraw, by the model", "tools/compare/second_redraw.py --model 1 {count}", 18, 0.4,
        (300, 20000)),
    Row("mutated_files", "all commands, on files changed at random",
        "tools/hostile/mutated_files.py {program} 1 {count} 1", 5, 0.3, (3000, 50000)),
    Row("written_files", "mend -i as root: killed, on a full disk, without permissions",
        "tools/hostile/written_files.py {program} 1 {count} 200", 5, 1, (200, 8000)),
    Row("bad_inputs", "the longest and slowest files, bad streams, little memory",
        "tools/hostile/bad_inputs.py {program}", 5),
    Row("refused_calls", "each allocation, open, read and write, refused",
        "tools/hostile/refused_calls.py {program} {tests}", 30, packages="gcc"),
    Row("library", "the library in C, C++, Rust and Python", "library/try.py {program} {library} {few}", 5, 0.5,
        packages="gcc g++ rustc binutils"),
    Row("library_sanitized", "the same under sanitizers", "library/try.py {program} {library} --sanitize", 8,
        packages="gcc g++ rustc binutils"),
    Row("release", "the archive of a release", "tools/try_release.py --program {program} --library {library}", 1, 0.5,
        packages="gcc git man-db pkgconf binutils"),
    Row("package", "the package for JavaScript", "library/js/test/package.test.js", 0.2, 0.2, packages="nodejs"),
    Row("package_readme", "its README", "library/js/test/readme.test.js", 0.1, 0.1, packages="nodejs"),
    Row("module", "the page's module in Node", "page/try_module.mjs {program} {many}", 5, 0.2, packages="nodejs"),
    Row("in_browser", "the package in Chromium", "library/js/test/in_browser.py", 0.2, 0.2, packages="chromium"),
    Row("page", "the page in two browsers, its stand-in too", "page/try.py {program} --stand-in", 8,
        packages=f"{BROWSERS} clang lld"),
    Row("page_webkit", "its drawings in WebKit", "page/try.py {program} --browser webkit", 3,
        packages="webkit2gtk-driver xvfb"),
    Row("page_folders", "how long it takes for many drawings", "page/try/folders.py", 5, packages=BROWSERS),
    Row("page_rows", "its table beside that of the program", "page/try/many_rows.py {program} {drawings}", 5,
        packages=BROWSERS),
    Row("package_files", "the package in browsers and in Node", "page/try/many_files.py {drawings}", 5,
        packages=f"{BROWSERS} nodejs"),
    Row("dosbox", "random drawings on DOSBox", "tools/compare/dosbox/dosbox.py {program} 2 3000", 10,
        packages="dosbox nasm"),
    Row("dosbox_mended", "mended drawings on DOSBox", "tools/compare/dosbox/mended.py {program} 1 300", 2,
        packages="dosbox nasm"),
    Row("tmux", "mended drawings in tmux", "tools/compare/tmux.py {program} 1 {count}", 0.2, 0.1, (30, 150),
        packages="tmux"),
    Row("ansilove", "pictures beside those of ansilove", "tools/compare/ansilove.py {program} {data} {art}", 0.5,
        packages="ansilove"),
    Row("ansilove_mended", "its own drawings, mended", "tools/compare/ansilove_mended.py {program} {art}", 0.5,
        packages="ansilove"),
    Row("players", "what is the same on every player, on seven", "tools/compare/players.py 350 1", 20,
        packages=PLAYERS),
    Row("redrawn_players", "redrawn drawings on seven players",
        "tools/compare/redrawn_players.py --program {program} 300 1", 10, packages=PLAYERS),
    Row("edits", "the must-fail edits outside the gate", "tools/edits/try_all.py {crates}", 240,
        packages="git the-rattle-kit", is_asked_for=True),
    Row("definitions", "the mistakes in definitions", "tools/definitions/try_all.py", 40,
        packages="the-rattle-kit", is_asked_for=True),
]

# The scripts that are not run, by what they are.
OTHERS = {
    "modules of the scripts above": """
        library/try/drawings.py library/js/test/rows.js page/modules.py page/try/browsers.py page/try/digests.mjs
        page/try/drawings.py page/try/driving.py page/try/expected.py page/try/painted.py page/try/stand_in.py
        page/try/tables.py page/try/webkit.py page/try/websocket.py tools/compare/mend_files.py
        tools/compare/named_colours.py tools/compare/pens.py tools/compare/plain_form.py
        tools/compare/player_drawings.py tools/compare/player_family.py tools/compare/player_pixels.py
        tools/compare/player_quirks.py tools/compare/player_screens.py tools/compare/redraw_files.py tools/runs/rows.py
        """,
    "makers, of what stamp compares, of archives, of random drawings, of programs, and of pictures": """
        page/build.sh page/lower.sh page/make.py tools/release.py page/try/random_drawings.py tools/bench/unproved.py
        tools/pictures/as_it_comes.py tools/pictures/show.py tools/pictures/take.py""",
    "times, and no tests": "tools/bench/library.py tools/bench/speed.py",
    "sources of the page, the package, the library and the release": """
        page/src/*.js library/js/*.js library/tell.py library/shared.sh tools/release/install.sh""",
    "this script": "tools/try.py",
}


# What is put in the places of the words.


class Places:
    """What is put for each word in braces: words, or None if it is not there."""

    def __init__(self, given, room):
        self.given, self.room = given, room
        self.browser, self.made = threading.Lock(), threading.Lock()
        self.data = sorted(glob.glob(f"{TOP}/crates/anscheck/data/*.ans"))
        self.program = given.program and os.path.abspath(given.program)
        self.library = os.path.abspath(given.library or TOP / "crates/ans_c/out/libans_c.a")

    def words(self, place, row):
        """The words of a place."""
        quick = self.given.quick
        return {
            "program": lambda: [self.program] if self.program else None,
            "library": lambda: [self.library] if os.path.exists(self.library) else None,
            "tests": self.tests,
            "count": lambda: [str(row.counts[0 if quick else 1])],
            "data": lambda: self.data,
            "few": lambda: self.data if quick else [],
            "drawings": self.drawings,
            "many": lambda: [] if quick else self.drawings(),
            "art": lambda: sorted(glob.glob(ART)) or None,
            "crates": lambda: self.given.crates,
        }[place]()

    def tests(self):
        """The words of refused_calls.py for the tests: none if they are built in the crates."""
        if self.given.tests:
            return ["--tests", os.path.abspath(self.given.tests)]
        return [] if glob.glob(f"{TOP}/crates/*/out/*_tests") else None

    def drawings(self):
        """A folder of random drawings, the same for all rows."""
        folder = os.path.join(self.room, "drawings")
        with self.made:
            if not os.path.exists(folder):
                words = [TOP / "page/try/random_drawings.py", folder, str(DRAWINGS), str(SEED)]
                subprocess.run([sys.executable, *words], check=True, env=environment(None))
        return [folder]

    def turn(self, row):
        """What a row holds while it runs: those that drive a browser open the same ports."""
        drives = any(name in row.packages for name in ("chromium", "webkit2gtk-driver"))
        return self.browser if drives else contextlib.nullcontext()


NAMED_BY = {"program": "PROGRAM", "library": "libans_c.a (--library)", "tests": "tests (--tests)",
            "art": "the drawings of ansilove"}


def filled(row, places):
    """The words of a row's script, and what is missing in them."""
    words, missing = [], []
    for word in row.command.split()[1:]:
        if not word.startswith("{"):
            words.append(word)
        elif (found := places.words(word[1:-1], row)) is None:
            missing.append(NAMED_BY[word[1:-1]])
        else:
            words += found
    return words, missing


def missing_packages(row):
    """The packages of a row that are not here."""
    return [name for name in row.packages.split() if not shutil.which(SHOWN_BY[name])
            and not os.path.isfile(SHOWN_BY[name])]


# How a row is run.


def environment(program):
    """What a script has in its environment: no byte code is left in the tree, and the package gets the program."""
    return {**os.environ, "PYTHONDONTWRITEBYTECODE": "1", **({"ANSCHECK": program} if program else {})}


def listed(*patterns):
    """The files that git lists or would list, of these patterns or all."""
    words = ["git", "ls-files", "-z", "--cached", "--others", "--exclude-standard", *patterns]
    names = subprocess.run(words, cwd=TOP, stdout=subprocess.PIPE, text=True, check=True).stdout.split("\0")
    return sorted({name for name in names if name and (TOP / name).is_file()})


def copy_of_the_top(folder):
    """Copies the files that git lists."""
    for name in listed():
        os.makedirs(os.path.dirname(folder / name), exist_ok=True)
        shutil.copy2(TOP / name, folder / name)


def changed(folder, where):
    """The files of a copy that are not as they are here, below a name."""
    there = [folder / where] if (folder / where).is_file() else (folder / where).rglob("*")
    names = {str(path.relative_to(folder)) for path in there if path.is_file()} | set(listed(where))
    return sorted(name for name in names if not ((folder / name).is_file() and (TOP / name).is_file()
                                                 and filecmp.cmp(folder / name, TOP / name, shallow=False)))


def ran(row, words, program, top):
    """Whether a script ends with status 0, run in this folder or its copy, and what it prints."""
    script = row.command.split()[0]
    runner = next(runner for ending, runner in RUNNERS.items() if script.endswith(ending))
    done = subprocess.run([*runner, top / script, *words], cwd=top / row.folder, env=environment(program),
                          stdin=subprocess.DEVNULL, stdout=subprocess.PIPE, stderr=subprocess.STDOUT, check=False)
    return done.returncode == 0, done.stdout.decode("utf-8", "replace")


def ran_on_a_copy(row, words, program):
    """The same on a copy, in which nothing may change."""
    with tempfile.TemporaryDirectory() as name:
        folder = pathlib.Path(name)
        copy_of_the_top(folder)
        passed, printed = ran(row, words, program, folder)
        others = changed(folder, row.writes)
    return passed and not others, printed + "".join(f"{other} is not what is written\n" for other in others)


def try_row(row, places):
    """Runs a row, prints its line, and returns the word for how it ended."""
    missing = missing_packages(row)
    words, not_there = filled(row, places) if not missing else ([], [])
    missing += not_there
    if missing:
        print(f"{row.name:18} {'':>6}    left out: needs {', '.join(missing)}", flush=True)
        return "left out"
    with places.turn(row):
        began = time.monotonic()
        passed, printed = (ran_on_a_copy(row, words, places.program) if row.writes
                           else ran(row, words, places.program, TOP))
    word = "passed" if passed else "FAILED"
    end = "" if passed else "".join(f"    {line}\n" for line in printed.splitlines()[-LINES_SHOWN:])
    print(f"{row.name:18} {time.monotonic() - began:6.0f} s  {word}\n{end}", end="", flush=True)
    return word


def try_rows(rows, places, jobs):
    """Runs rows, and returns the word for how each ended."""
    if jobs > 1:
        rows = sorted(rows, key=lambda row: -row.minutes)
    with concurrent.futures.ThreadPoolExecutor(jobs) as pool:
        return list(pool.map(lambda row: try_row(row, places), rows))


# The table.


def not_in_the_table():
    """The scripts that git lists and the table does not, and those of the table that are gone."""
    known = {row.command.split()[0] for row in ROWS} | {name for names in OTHERS.values() for name in names.split()}
    scripts = listed("*.py", "*.mjs", "*.sh", "*.js")
    paths = [pathlib.PurePath(name) for name in scripts]
    gone = [name for name in sorted(known) if not any(path.match(name) for path in paths)]
    new = [path for path in paths if not any(path.match(name) for name in known)]
    return [f"{name} is in no row of tools/try.py" for name in new] + [f"{name} is gone" for name in gone]


def chosen(given):
    """The rows that are asked for. A name that is none ends all."""
    if not given.only:
        return [row for row in ROWS if not row.is_asked_for and (row.quick or not given.quick)]
    unknown = [name for name in given.only if not fnmatch.filter([row.name for row in ROWS], name)]
    if unknown:
        sys.exit(f"no row is named {unknown[0]}: --list prints them")
    return [row for row in ROWS if any(fnmatch.fnmatch(row.name, name) for name in given.only)]


def print_table():
    """Prints each row, and then the scripts that are not run."""
    print(f"{'name':18} {'quick':>5} {'whole':>5}  {'script':39} what it tries (Debian packages)")
    for row in ROWS:
        quick = "" if row.quick is None else f"{row.quick:g}"
        packages = f" ({row.packages})" if row.packages else ""
        print(f"{row.name:18} {quick:>5} {row.minutes:>5g}  {row.command.split()[0]:39} {row.tries}{packages}")
    quick = sum(row.quick or 0 for row in ROWS)
    whole, asked = (sum(row.minutes for row in ROWS if row.is_asked_for == asked) for asked in (False, True))
    print(f"{len(ROWS)} rows; about {quick:.0f} minutes with --quick, {whole:.0f} whole, and {asked:.0f} for the two "
          "that prove, which are run only if --only names them")
    for what, names in OTHERS.items():
        print(f"\nNot run, {what}:")
        print("".join(f"    {name}\n" for name in names.split()), end="")


def main():
    """Runs the rows that are asked for."""
    asked = argparse.ArgumentParser(usage=__doc__.partition("\n\n")[2])
    asked.add_argument("program", nargs="?")
    asked.add_argument("--quick", action="store_true")
    asked.add_argument("--list", action="store_true")
    asked.add_argument("--strict", action="store_true")
    asked.add_argument("--only", nargs="+")
    asked.add_argument("--jobs", type=int, default=1)
    asked.add_argument("--library")
    asked.add_argument("--tests")
    asked.add_argument("--crates", nargs="+", default=[])
    given = asked.parse_args()
    if given.list:
        return print_table()
    if not given.program and not given.only or given.program and not os.path.isfile(given.program):
        asked.error("PROGRAM has to be the built anscheck")
    began, wrong = time.monotonic(), not_in_the_table()
    print("".join(f"FAILED: {line}\n" for line in wrong), end="")
    with tempfile.TemporaryDirectory() as room:
        places = Places(given, room)
        words = try_rows(chosen(given), places, given.jobs)
    counts = {word: words.count(word) for word in ("passed", "FAILED", "left out")}
    print(f"{len(words)} rows in {time.monotonic() - began:.0f} s: "
          + ", ".join(f"{count} {word}" for word, count in counts.items()))
    return bool(wrong or counts["FAILED"] or given.strict and counts["left out"])


if __name__ == "__main__":
    sys.exit(main())
