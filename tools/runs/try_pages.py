#!/usr/bin/env python3
"""Tries what README.md and the pages of docs/ show, on the built program.

Run it in `crates/anscheck`, after `rt run -- check --cleared data/hi.ans` has built the program:

    python3 ../../tools/runs/try_pages.py out/anscheck

- docs/FAULTS.md is what `meanings.py` makes. It has one heading for each fault and each note of ans_model, and
  none more, with an example that prints its title; and its table of contents leads to it. Its examples are rows of
  `fault_page.toml` of anscheck_rows, which the gate tries.
- `anscheck help` prints of each fault and each note the text that the page has.
- The program sets each of the 256 colour numbers as the table of docs/PROFILE.md says.
- The worked example of docs/CHANGING.md names each file that `git grep -lw EraseLine` finds.
- docs/MANUAL.md is what tools/manual.py makes of the manual page, if `mandoc` is there.
- Each command of a block of no language, on a line that begins with `$ `, has to print the lines
  that follow it. It is run by bash in this folder, with the program on the PATH. Blocks that are not
  to be run have the language `text`.

It prints each difference, and ends with status 1 where there is one. It is outside the gate.
"""
import os
import pathlib
import re
import shutil
import subprocess
import sys
import tempfile

sys.dont_write_bytecode = True

import meanings
from rows import file_of

TOP = pathlib.Path(__file__).resolve().parent.parent.parent
HERE = TOP / "crates" / "anscheck"
PAGE = TOP / "docs" / "FAULTS.md"
PROFILE = TOP / "docs" / "PROFILE.md"
CHANGING = TOP / "docs" / "CHANGING.md"
MODEL = TOP / "crates" / "ans_model" / "src"
DRAWINGS = "/usr/share/doc/ansilove/examples"

BLOCK = re.compile(r"^```(\w*)\n(.*?)^```$", re.DOTALL | re.MULTILINE)


# What is compared.


def printed(command, program, **kwargs):
    """What a command prints on a terminal: both streams, in their order."""
    path = f"{pathlib.Path(program).parent}{os.pathsep}{os.environ['PATH']}"
    done = subprocess.run(
        command, cwd=HERE, env={**os.environ, "PATH": path}, stdout=subprocess.PIPE,
        stderr=subprocess.STDOUT, timeout=120, check=False, **kwargs,
    )
    return done.stdout.decode("utf-8", "replace")


class Tried:
    """How many things were tried, and how many differ."""

    def __init__(self):
        self.count = self.differing = 0

    def compare(self, what, wanted, got):
        self.count += 1
        if wanted != got:
            self.differing += 1
            print(f"{what}\n  wanted {wanted!r}\n  got    {got!r}")


def sections(text):
    """The sections of the page below its headings of the second level: heading, text."""
    parts = re.split(r"^## (.*)$", text, flags=re.MULTILINE)
    return list(zip(parts[1::2], parts[2::2]))


def names_in(path, letter):
    """The numbers of the faults or the notes that a file of ans_model names, in their order."""
    return re.findall(rf"^ *///? ({letter}\d+):", path.read_text(), re.MULTILINE)


def try_headings(tried, text):
    headings = [heading for heading, _ in sections(text)]
    wanted = names_in(MODEL / "fault.rt", "F") + names_in(MODEL / "note.rt", "N")
    tried.compare("docs/FAULTS.md, headings", wanted, [heading.split()[0] for heading in headings])
    links = set(re.findall(r"\]\(#([\w-]+)\)", text))
    tried.compare("docs/FAULTS.md, links", {meanings.anchor(heading) for heading in headings}, links)
    for heading, body in sections(text):
        said = heading if heading.startswith("F") else "note: " + heading.split(" ", 1)[1]
        shown = any(said in line for line in body.splitlines() if line.startswith("- "))
        tried.compare(f"docs/FAULTS.md, an example that prints {said!r}", True, shown)


def try_meanings(tried, text, program):
    tried.compare("docs/FAULTS.md, beside what tools/runs/meanings.py makes", meanings.page(), text)
    for name, help_of_it in meanings.helps().items():
        tried.compare(f"anscheck help {name}", help_of_it, printed([program, "help", name], program))


# The colours.

# Old attributes, each with the sequence that sets it: between them each bit is set once and clear once.
OLD = {0x9E: b"\x1b[0;1;5;33;44m", 0x61: b"\x1b[0;34;43m"}


def renditions(text):
    """What the table of colours says of each number: the bits kept, and those set."""
    rows = re.findall(r"^\| (\d+) \| ([0-9A-F]{2})h \| ([0-9A-F]{2})h \|", text, re.MULTILINE)
    return {int(number): (int(keeps, 16), int(sets, 16)) for number, keeps, sets in rows}


def try_colours(tried, program):
    table = renditions(PROFILE.read_text())
    for old, begin in OLD.items():
        content = b"".join(begin + b"\x1b[%dmx" % number for number in range(256))
        with tempfile.NamedTemporaryFile(suffix=".ans") as file:
            file.write(file_of(content, 256, 1))
            file.flush()
            cells = printed([program, "check", "--cleared", "--cells", file.name], program).split("\n")[-2]
        for number in range(256):
            keeps, sets = table.get(number, (0xFF, 0))
            wanted = f"78{old & keeps | sets:02x}"
            tried.compare(f"docs/PROFILE.md, {number} on {old:02x}", wanted, cells[4 * number:4 * number + 4])


# The worked example, and the manual.


def try_worked_example(tried):
    """Each file that names the token has its name, without its ending, in the section or the paragraphs below it."""
    search = ["git", "grep", "-lw", "EraseLine", "--", ":!docs/CHANGING.md", ":!tools/runs"]
    found = subprocess.run(search, cwd=TOP, stdout=subprocess.PIPE, text=True, check=False)
    page = CHANGING.read_text()
    told = set(re.findall(r"\w+", page[page.index("## One letter, file by file"):]))
    missing = [file for file in found.stdout.split() if pathlib.PurePath(file).stem not in told]
    tried.compare("docs/CHANGING.md, files that the worked example does not name", [], missing)


def try_manual(tried):
    if shutil.which("mandoc") is None:
        print("skipped, since mandoc is missing: docs/MANUAL.md")
        return
    made = subprocess.run([sys.executable, TOP / "tools" / "manual.py", "--check"], stdout=subprocess.PIPE,
                          stderr=subprocess.DEVNULL, check=False)
    tried.compare("docs/MANUAL.md", 0, made.returncode)


# The commands of all pages.


def commands_of(block):
    """The commands of a block, each with the lines that follow it. A line `> ` goes on with a command."""
    for part in re.split(r"^\$ ", block, flags=re.MULTILINE)[1:]:
        lines = part.splitlines(keepends=True)
        count = 1
        while count < len(lines) and lines[count].startswith("> "):
            count += 1
        yield lines[0] + "".join(line[2:] for line in lines[1:count]), "".join(lines[count:])


def try_commands(tried, program):
    for page in [TOP / "README.md", *sorted((TOP / "docs").glob("*.md"))]:
        for language, block in BLOCK.findall(page.read_text()):
            for command, wanted in commands_of(block) if language == "" else ():
                if DRAWINGS in command and not os.path.isdir(DRAWINGS):
                    print(f"skipped, since {DRAWINGS} is missing: {command.strip()}")
                    continue
                got = printed(["bash", "-c", command], program, stdin=subprocess.DEVNULL)
                tried.compare(f"{page.relative_to(TOP)}, $ {command.strip()}", wanted, got)


def main(program):
    program = os.path.abspath(program)
    tried = Tried()
    text = PAGE.read_text()
    try_headings(tried, text)
    try_meanings(tried, text, program)
    try_colours(tried, program)
    try_worked_example(tried)
    try_manual(tried)
    try_commands(tried, program)
    print(f"{tried.count} examples, {tried.differing} differ")
    return 1 if tried.differing else 0


if __name__ == "__main__":
    sys.exit(main(sys.argv[1]))
