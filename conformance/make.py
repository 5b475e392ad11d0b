#!/usr/bin/env python3
"""Makes the corpus: each content of the samples as a file, and what `check --cells` says of it.

Run it in `crates/anscheck`, after `rt run -- check --cleared data/hi.ans` has built the program:

    python3 ../../conformance/make.py out/anscheck

It reads `crates/ans_samples/src/rows.rt`, and writes `files/` and `index.tsv` anew. What the program says is
compared with what the samples expect, and its `players` and `needs_on_all_players` with what the model of
`tools/compare/second_players.py` finds; its status is 1 where one differs.
"""
import ast
import os
import re
import struct
import subprocess
import sys

HERE = os.path.dirname(os.path.abspath(__file__))
sys.dont_write_bytecode = True
sys.path.insert(0, os.path.join(HERE, "..", "tools", "compare"))

from second_players import of_start, offsets_of, parts_needed, spelled, walk
from second_why import cleared

ROWS = os.path.join(HERE, "..", "crates", "ans_samples", "src", "rows.rt")
FILES = os.path.join(HERE, "files")
CONTROLS = {7: "<BEL>", 8: "<BS>", 9: "<TAB>", 10: "<LF>", 13: "<CR>", 27: "<ESC>"}
CAUSES = ["NoRecord", "WrongVersion", "WrongKind", "CommentsMissing", "LinesUnstated", "WidthTooLarge",
          "LinesTooLarge", "BytesAfterEndMark", "BrokenSequence", "NumberTooLarge", "TooManyParameters",
          "EndInSequence", "UnknownSequence", "WrongParameters", "KeyReassigned", "ScreenMode", "ReportAsked", None,
          "OutsideScreen", "PrintBelow", "Scrolls", "PrintUnknownPlace", "EraseUnknownPlace", "MayScroll",
          "UnknownCell"]
GROUP = re.compile(r"/// ([^\n]*)\npub static (\w+): \[Row; (\d+)\] = rows! \{\n(.*?)\n\};", re.DOTALL)
ROW = re.compile(r'^ {4}(any|cleared|known [a-z ]+?)\((\d+) x (\d+), (b"(?:[^"\\]|\\.)*")\)'
                 r'\s*=> (shows|refused)\((.*?)\);$', re.MULTILINE | re.DOTALL)
SHOWN = re.compile(r'(b".*?")(?:, \[(.*)\])?', re.DOTALL)


def ans_file(content, width, lines):
    """The content, an end mark, and a SAUCE 00.5 record of type Character/ANSi."""
    head = b"SAUCE00" + b" " * 75 + b"19960101" + struct.pack("<I", len(content)) + b"\x01\x01"
    return content + b"\x1a" + head + struct.pack("<HHHHBB", width, lines, 0, 0, 0, 0) + bytes(22)


def quoted(content):
    """A content in one line, its control bytes by name and other bytes by two digits."""
    return "".join(CONTROLS.get(b, chr(b) if 32 <= b < 127 else f"<{b:02x}>") for b in content)


def flags(start):
    """The flags of `check` for a class of starts."""
    if start == "any":
        return []
    if start == "cleared":
        return ["--cleared"]
    return [f"--known-{part}" for part in start.split()[1:]]


def examples():
    """The group's title, the name, the class of starts, the size, the content and the word of each row."""
    with open(ROWS, encoding="utf-8") as file:
        text = file.read()
    for title, group, count, rows in GROUP.findall(text):
        found = ROW.findall(rows)
        if len(found) != int(count):
            sys.exit(f"{group}: a row that cannot be read")
        for number, (start, width, lines, content, word, rest) in enumerate(found, 1):
            name = f"{group.lower().replace('_', '-')}-{number:02}"
            yield title, name, start, int(width), int(lines), ast.literal_eval(content), word, rest


def is_told(told, word, rest):
    """Whether the cells or the refusal are what the samples expect: bytes, attributes where they are given, and the
    offset and the number of a fault, with the cell of F25."""
    if word == "refused":
        offset, cause, *place = re.findall(r"\w+", rest)
        cell = f" (row {place[0]}, column {place[1]})" if place else ""
        return told.startswith(f"at {offset}: F{CAUSES.index(cause) + 1} ") and told.endswith(cell + "\n")
    literal, attributes = SHOWN.fullmatch(rest).groups("")
    cells = bytes.fromhex(told.replace("\n", ""))
    wanted = bytes(int(a, 0) for a in attributes.split(",") if a.strip())
    return cells[::2] == ast.literal_eval(literal) and wanted in (b"", cells[1::2])


def modelled(content, width, lines):
    """`players` and `needs_on_all_players` of a content, by the model."""
    tokens = spelled(content)
    walked = walk(tokens, cleared(width, lines)) if tokens is not None else None
    if walked is None:
        return ["", ""]
    kinds = " ".join(offsets_of(walked.arisen)) or "all"
    if of_start(walked.arisen):
        return [kinds, ""]
    return [kinds, " ".join(parts_needed(tokens, width, lines, True)) or "nothing"]


def tabled(program, path):
    """The same of a file, by the program."""
    run = subprocess.run([program, "table", "--no-header", path], capture_output=True)
    return run.stdout.decode().split("\t")[2:4]


def main():
    """Writes the files and the index."""
    program, different = sys.argv[1], 0
    os.makedirs(FILES, exist_ok=True)
    for old in os.listdir(FILES):
        os.remove(os.path.join(FILES, old))
    index = ["name\tsize\tstart\texpected\tplayers\tneeds_on_all_players\tcontent\twhat it is for"]
    for title, name, start, width, lines, content, word, rest in examples():
        path = os.path.join(FILES, name)
        with open(path + ".ans", "wb") as file:
            file.write(ans_file(content, width, lines))
        run = subprocess.run([program, "check", *flags(start), "--cells", path + ".ans"], capture_output=True)
        report = run.stdout.decode()
        if run.returncode == 0:
            expected, told, kind = "picture", report.partition("cells:\n")[2], ".cells"
        else:
            told, kind = report.partition("verdict: refused\n")[2], ".fault"
            expected = told.strip()
        if (word == "shows") != (run.returncode == 0) or not is_told(told, word, rest):
            print(f"{name}: {report}")
            different += 1
        players = modelled(content, width, lines)
        if tabled(program, path + ".ans") != players:
            print(f"{name}: of players not {players}")
            different += 1
        with open(path + kind, "w", encoding="ascii") as file:
            file.write(told)
        row = [name, f"{width} x {lines}", start, expected, *players, quoted(content), title.rstrip(".")]
        index.append("\t".join(row))
    with open(os.path.join(HERE, "index.tsv"), "w", encoding="utf-8") as file:
        file.write("\n".join(index) + "\n")
    print(f"{len(index) - 1} contents, {different} differ from the samples")
    sys.exit(different > 0)


if __name__ == "__main__":
    main()
