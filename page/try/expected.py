"""What the page is to show of a drawing, by what the program prints."""
import functools
import json
import pathlib
import re
import struct
import subprocess
import tempfile

RECORD, LINES, COMMENT_COUNT = 128, 98, 104
FLAGS = 105
FIX = re.compile(r"^(?:fix|everywhere|more): .*\n", re.MULTILINE)
TRY = re.compile(r"^(?:try:|see anscheck why for the place,) .*\n", re.MULTILINE)


def said(program, words, path):
    """What the program prints, and its status."""
    run = subprocess.run([program, *words, path], capture_output=True, check=False)
    return run.stdout.decode(), run.returncode


def fault_in(text):
    """The numbers of the fault in a report."""
    at, number, rest = re.search(r"^at (\d+): F(\d+) (.*)$", text, re.MULTILINE).groups()
    row, column = re.search(r"\(row (\d+), column (\d+)\)|$", rest).groups()
    return int(number), int(row or 0), int(column or 0), int(at)


def shortened(file, length):
    """The content's first bytes with the same record, as the page asks about them."""
    record = bytearray(file[-RECORD:])
    record[COMMENT_COUNT] = 0
    return file[:length] + b"\x1a" + bytes(record)


def with_lines(file, lines):
    """The same file with another number of lines in its record."""
    at = len(file) - RECORD + LINES
    return file[:at] + struct.pack("<H", lines) + file[at + 2:]


def changed(file, why, offset):
    """The file whose picture the page shows if this one is refused; and what the page calls it."""
    lines = re.search(r"^lines: (\d+)(, but the rows look broken)?$", why, re.MULTILINE)
    if lines:
        return with_lines(file, int(lines[1])), {"moreLines": int(lines[1])}
    return shortened(file, offset), {"upTo": offset}


def cells_in(report):
    """The cells of a report, or nothing."""
    return bytes.fromhex(report.partition("cells:\n")[2].replace("\n", "")) if "verdict: pass\n" in report else b""


def made(program, command, path):
    """The file that a command writes, or nothing, and what is said of it."""
    run = subprocess.run([program, command, path], capture_output=True, check=False)
    return run.stdout if run.returncode == 0 else None, run.stderr


def lines_of_why(program, path):
    """What why says, without the commands, which only the program has."""
    text = said(program, ["why"], path)[0]
    return FIX.sub("", text)


def without_flags(changes):
    """What mending says without the flags to try: only the program leaves out those that are no help."""
    return TRY.sub("", changes)


def expected(program, path):
    """What the program says of a drawing, in the form of the page."""
    mended, changes = made(program, "mend", path)
    told = {
        "why": lines_of_why(program, path),
        "record": record_lines(program, path),
        "changes": without_flags(changes.decode()),
    }
    told["advice"] = advice(program, told["why"])
    told["redrawn"] = redrawn(program, path)
    told["picture"] = picture_of(program, path.read_bytes()) or refused_picture(program, path, told["why"])
    if told["picture"] is None and mended is not None:
        told["picture"], told["redrawn"] = picture_of(program, mended), redrawn_of(program, mended)
    return told


def record_lines(program, path):
    """What is said before the lines of the record, and these: those of one that is not accepted are its fields."""
    text, status = said(program, ["sauce"], path)
    if status == 0:
        return ["", *text.splitlines()]
    row = json.loads(said(program, ["table", "--json"], path)[0])
    if "width" not in row:
        return ["There is none."]
    fault = re.search(r"F\d+ .*", text)[0]
    fields = [f"{name}: {row.get(name, '')}" for name in ("title", "author", "group", "date")]
    size = f"size: {row['width']} x {row['lines']}"
    flags = f"flags: {path.read_bytes()[FLAGS - RECORD]:02x}"
    return [f"It is not accepted: {fault}. What it says:", *fields, size, flags, f"font: {row.get('font', '')}"]


@functools.cache
def help_of(program, fault):
    """The program's text on a fault."""
    return subprocess.run([program, "help", fault], capture_output=True, check=True).stdout.decode()


def advice(program, why):
    """What the page says of the fault."""
    fault = re.search(r"^(?:fault|because): at \d+, (F\d+) ", why, re.MULTILINE)
    return help_of(program, fault[1]) if fault else ""


def refused_picture(program, path, why):
    """The picture of a drawing that is refused: that of a changed copy, and how it is changed; or nothing."""
    report = said(program, ["check", "--cleared"], path)[0]
    if "size: " not in report and "\nlines: " not in why:
        return None
    file, change = changed(path.read_bytes(), why, fault_in(report)[3])
    picture = picture_of(program, file, change)
    if "upTo" in change and all(is_blank(cell) for cell in picture["cells"]):
        return picture_without(program, path) or picture
    return picture


def is_blank(cell):
    """Whether a cell is a blank on black."""
    return cell[0] in (0x00, 0x20, 0xff) and cell[1] < 0x10


def picture_without(program, path):
    """The picture of a drawing without the sequences that are removed, if there is one that shows something."""
    for flags in (["--take-out"], ["--take-out", "--least-lines"]):
        run = subprocess.run([program, "mend", *flags, path], capture_output=True, check=False)
        taken = [line.split(", and ") for line in run.stderr.decode().splitlines()
                 if re.match(r"removed (?!\d+ line ends? )", line)]
        if run.returncode or not taken:
            continue
        count = sum(1 + int(more[0].split(" ")[0]) if more else 1 for _, *more in taken)
        first = min(int(line.rpartition(" at ")[2]) for line, *_ in taken)
        picture = picture_of(program, run.stdout, {"without": {"count": count, "first": first}})
        return None if all(is_blank(cell) for cell in picture["cells"]) else picture
    return None


def redrawn(program, path):
    """The file redrawn, or nothing; what is said of it, and how long it is and was."""
    file, changes = made(program, "redraw", path)
    if file is None:
        return None
    lengths = f"{len(file):,} bytes, {pathlib.Path(path).stat().st_size:,} before."
    return {"file": list(file), "changes": changes.decode(), "lengths": lengths}


def redrawn_of(program, file):
    """What comes of a file that is redrawn, which is on no disk."""
    with tempfile.NamedTemporaryFile(suffix=".ans") as copy:
        copy.write(file)
        copy.flush()
        return redrawn(program, copy.name)


def picture_of(program, file, change=None):
    """The picture of a file from the cleared start, and how the file was changed for it; or nothing."""
    with tempfile.NamedTemporaryFile(suffix=".ans") as copy:
        copy.write(file)
        copy.flush()
        report = said(program, ["check", "--cleared", "--cells"], copy.name)[0]
    if "verdict: pass\n" not in report:
        return None
    columns, lines = map(int, report.partition("size: ")[2].partition("\n")[0].split(" x "))
    data = cells_in(report)
    cells = [list(data[at:at + 2]) for at in range(0, len(data), 2)]
    return {"columns": columns, "lines": lines, "cells": cells, "isBright": file[-23] % 2 == 1,
            "text": report.partition("picture:\n")[2].partition("\ncells:\n")[0], **(change or {})}


def rows_of(program, paths):
    """The rows of the program's table, by the names of their columns."""
    printed = subprocess.run([program, "table", *paths], capture_output=True, check=False).stdout.decode()
    header, *rows = [line.split("\t") for line in printed.splitlines()]
    return [dict(zip(header, row)) for row in rows]


def name_shown(name):
    """A name as the program's table shows it."""
    def shown(character):
        code = ord(character)
        hides = code == 0x61c or code == 0xfeff or 0x200b <= code <= 0x200f or 0x202a <= code <= 0x202e \
            or 0x2060 <= code <= 0x2069
        if character in "\t\n\\":
            return {"\t": "\\t", "\n": "\\n", "\\": "\\\\"}[character]
        if code < 0x20 or 0x7f <= code <= 0x9f or hides:
            return "".join(f"\\x{byte:02x}" for byte in character.encode())
        return character
    return "".join(map(shown, name))
