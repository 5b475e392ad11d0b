#!/usr/bin/env python3
"""Times the commands of `anscheck` on files of the greatest size, beside a plain copy and a plain player.

Run it in `crates/anscheck`, after `rt run -- check --cleared data/hi.ans` has built the program:

    python3 ../../tools/bench/speed.py out/anscheck [DRAWING]

It writes each file to a folder of its own, runs each command five times, and prints the least time of
each in seconds, and how many times that of `check --cleared` it is. The plain player, `plain_player.rs`,
is built with rustc; it knows one screen, proves nothing and refuses next to nothing. The files that are
made to be slow are checked, and `needs`, `why` and `mend` are run on them once. In the end comes a table
of 10,000 drawings, copies of the first one that is named, `data/harbour.ans` where none is. Nothing here is
a test: no answer depends on a time.
"""
import os
import shutil
import struct
import subprocess
import sys
import tempfile
import time

LARGEST_FILE = 16_777_216
WIDTH, LINES = 1024, 8192


def record(width, lines, size):
    """A SAUCE record of type Character/ANSi, without texts."""
    return (
        b"SAUCE00" + b" " * 75 + b"19960101" + struct.pack("<I", size)
        + bytes([1, 1]) + struct.pack("<4H", width, lines, 0, 0) + bytes(24)
    )


CLEAR = b"\x1b[0m\x1b[?7h\x1b[2J"
ROOM = LARGEST_FILE - 128 - 1 - len(CLEAR)


def repeated(piece):
    """Content of the greatest size that clears the screen and then repeats a piece."""
    return CLEAR + piece * (ROOM // len(piece))


def drawings():
    """Content for each kind of work that a check does; every one passes from any start."""
    yield "text", repeated(b"\x1b[2;1H" + bytes(0x21 + i % 94 for i in range(WIDTH - 1)))
    yield "colours", repeated(b"\x1b[1;33;44mX\x1b[0mY\x1b[1;1H")
    yield "moves", repeated(b"\x1b[5;40Habc\x1b[3Cabc\x1b[s\x1b[uabc\rabc\x1b[Kabc")


def slow_files():
    """Content that is made to be slow; every one passes from any start."""
    yield "erased screens", repeated(b"\x1b[2J")
    yield "erased lines", repeated(b"\x1b[K")
    yield "erased screens and a few cells", repeated(b"\x1b[2J\x1b[200Bx\x1b[200Bx")
    yield "erased screens and all rows", repeated(b"\x1b[2J" + b"x\n" * 8000)
    yield "tabs", repeated(b"\t" * 127 + b"\r")
    yield "returns", repeated(b"\r")
    yield "many colours", repeated(b"\x1b[1;2;3;4;5;6;7;8;9;10;11;12;13;14;15;16m")
    yield "long numbers", repeated(b"\x1b[" + b"0" * 1000 + b"1m")
    yield "wrap", repeated(b"\x1b[?7l\x1b[?7h")


def seconds(command, times=5, given=None):
    """The least time, and whether the file is refused, as by mend where it has no room."""
    took = []
    for _ in range(times):
        start = time.monotonic()
        status = subprocess.run(command, input=given, stdout=subprocess.DEVNULL, stderr=subprocess.DEVNULL).returncode
        took.append(time.monotonic() - start)
        if status not in (0, 1):
            sys.exit(f"{command[0]} ended with status {status}")
    return min(took), status == 1


def line(name, took, check):
    """The line of a command: its time, and that as a multiple of the check's."""
    return f"  {name} {took[0]:.3f} s, {took[0] / check:.1f} x{', refused' if took[1] else ''}"


def saved(room, content):
    """The path of a file with this content."""
    path = os.path.join(room, "content.ans")
    with open(path, "wb") as file:
        file.write(content + b"\x1a" + record(WIDTH, LINES, len(content)))
    return path


def plain_player(room):
    """The path of the plain player, or None where there is no rustc."""
    path = os.path.join(room, "plain_player")
    source = os.path.join(os.path.dirname(os.path.abspath(__file__)), "plain_player.rs")
    if shutil.which("rustc") is None:
        return None
    subprocess.run(["rustc", "-C", "opt-level=3", "-o", path, source], check=True)
    return path


CHECK = ["check", "--cleared"]
FLAGS = ["--take-out", "--crlf", "--join-rows", "--least-lines", "--name-colours"]
COMMANDS = [
    ["check"], ["show"], ["show", "--vga"], ["show", "--html"], ["needs"], ["why"], ["mend"],
    *(["mend", flag] for flag in FLAGS), ["redraw"], ["sauce"], ["tokens"],
]
DRAWINGS = 10_000


def print_drawing(program, player, room, name, content):
    """The lines of a file on which every command is run."""
    path = saved(room, content)
    copy, _ = seconds(["cp", path, os.path.join(room, "copy")])
    check = seconds([program, *CHECK, path])
    print(f"{name}: {os.path.getsize(path)} bytes, copy {copy:.3f} s")
    print(line(" ".join(CHECK), check, check[0]))
    if player:
        print(line("plain player", seconds([player, path]), check[0]))
    for command in COMMANDS:
        print(line(" ".join(command), seconds([program, *command, path]), check[0]), flush=True)


def print_slow_file(program, room, name, content):
    """The line of a file that is made to be slow."""
    path = saved(room, content)
    check, _ = seconds([program, *CHECK, path])
    others = (f"{command} {seconds([program, command, path], 1)[0]:.3f} s" for command in ("needs", "why", "mend"))
    print(f"{name}: check --cleared {check:.3f} s, {', '.join(others)}", flush=True)


def print_table(program, room, drawing):
    """The line of a table of many copies."""
    names = [os.path.join(room, f"{number}.ans") for number in range(DRAWINGS)]
    for name in names:
        shutil.copy(drawing, name)
    took, _ = seconds([program, "table"], 3, "\0".join(names).encode())
    print(f"table of {DRAWINGS} copies of {os.path.basename(drawing)}: {took:.3f} s")


def main(program, drawing):
    with tempfile.TemporaryDirectory() as room:
        player = plain_player(room)
        for name, content in drawings():
            print_drawing(program, player, room, name, content)
        for name, content in slow_files():
            print_slow_file(program, room, name, content)
        print_table(program, room, drawing)


if __name__ == "__main__":
    main(shutil.which(sys.argv[1]) or sys.argv[1], *(sys.argv[2:] or ["data/harbour.ans"]))
