#!/usr/bin/env python3
"""Plays random contents on a second machine, and compares its answers with those of `check --cells`.

It shares no code with the program and none with the definitions: it reads the content whole, and plays
it from whole starts of the class, the lowest, the highest and six random ones, or from the cleared one
alone where each part is known. So it can tell a slip in the definitions. It follows the rules as this
project states them, its own choices among them, and is no source of its own: a rule that both misread
it cannot tell. Its screens are small, most of at most four columns, some of up to twenty, and of at most
three lines; its contents are short, and its records plain. The class of starts is one of all 32.

Run it in `crates/anscheck`, after `rt run -- check --cleared data/hi.ans` has built the program, with a
number that seeds the contents and how many there shall be:

    python3 ../../tools/compare/second_machine.py out/anscheck 1 10000

It prints each content whose answers differ, and then how many classes were asked and how often each
answer came. Its status is 1 where one differs.

With `needs` as a fourth word its answers are compared with those of `needs`: it plays each content
from the starts of all 32 classes, and a class is needed where the content passes from exactly the
classes that know each of its parts.
"""
import collections
import random
import re
import struct
import subprocess
import sys

FAULTS = {
    9: "broken sequence", 10: "number above 255", 11: "more than 16 parameters",
    12: "content ends in a sequence", 13: "unknown sequence", 14: "wrong parameters",
    15: "key reassigned", 16: "screen mode set", 17: "cursor report asked",
    19: "place outside the screen", 20: "print below the stated lines", 21: "scrolls",
    22: "print at an unknown place", 23: "erase at an unknown place", 24: "may scroll",
    25: "cell stays unknown",
}
CONTROLS = {7: "bell", 8: "backspace", 9: "tab", 10: "linefeed", 13: "return"}
REFUSED = {"keys": 15, "mode": 16, "ask": 17}
PARTS = ["screen", "cursor", "saved", "colours", "wrap"]
COLOURS = [0, 4, 2, 6, 1, 5, 3, 7]
STRING = object()


class Refused(Exception):
    """The number of the fault that ends the reading, and the place after the byte that decides it."""


def read_members(bytes_, at):
    """The members from here on, and the place of the letter after them."""
    members, member, begun = [], None, False
    while at < len(bytes_):
        char = chr(bytes_[at])
        if char in "0123456789":
            if member is STRING:
                raise Refused(9, at + 1)
            member, begun = 10 * (member or 0) + int(char), True
            if member > 255:
                raise Refused(10, at + 1)
        elif char == ";":
            members.append(member)
            member, begun = None, True
            if len(members) == 16:
                raise Refused(11, at + 1)
        elif char in "\"'":
            if member is not None:
                raise Refused(9, at + 1)
            at = bytes_.find(bytes_[at], at + 1)
            if at < 0:
                raise Refused(12, len(bytes_))
            member, begun = STRING, True
        elif re.fullmatch("[A-Za-z]", char):
            return members + [member] if begun else members, at
        else:
            raise Refused(9, at + 1)
        at += 1
    raise Refused(12, len(bytes_))


def meaning(mark, members, letter, after):
    """The token of a sequence, by its name and its numbers. The place after it is for a refusal."""
    if letter not in "ABCDHfJKmsuhlpn" or (mark and letter not in "hl"):
        raise Refused(13, after)
    if STRING in members and letter != "p":
        raise Refused(14, after)
    counted = [member or 1 for member in members] + [1, 1]
    if letter in "ABCD" and len(members) <= 1:
        return letter, counted[0]
    if letter in "Hf" and len(members) <= 2:
        return "place", counted[0], counted[1]
    if letter == "J" and members == [2]:
        return ("clear",)
    if letter == "K" and members in ([], [0]):
        return ("erase",)
    if letter in "su" and not members:
        return ("save" if letter == "s" else "restore",)
    if letter == "m":
        return "colours", [member or 0 for member in members] or [0]
    if letter in "hl":
        return ("wrap", letter == "h") if mark and members == [7] else ("mode",)
    if letter == "p":
        return ("keys",)
    if letter == "n" and members == [6]:
        return ("ask",)
    raise Refused(14, after)


def read_sequence(content, at):
    """The token that begins with the ESC at this place, and the place after it."""
    rest = at + 1
    if content[rest:rest + 1] != b"[":
        raise Refused(9, rest + 1) if rest < len(content) else Refused(12, rest)
    rest += 1
    mark = content[rest:rest + 1] in (b"=", b"?")
    members, letter = read_members(content, rest + mark)
    return meaning(mark, members, chr(content[letter]), letter + 1), letter + 1


def read(content):
    """Each token with its offset; and of a refusal its offset, its fault, and the place after what decides it."""
    tokens, at = [], 0
    while at < len(content):
        byte = content[at]
        if byte != 0x1B:
            name = CONTROLS.get(byte)
            tokens.append((at, (name,) if name else ("glyph", byte)))
            at += 1
            continue
        try:
            token, after = read_sequence(content, at)
        except Refused as refused:
            return tokens, (at, *refused.args)
        tokens.append((at, token))
        at = after
    return tokens, None


def recoloured(attribute, parameter):
    if parameter == 0:
        return 0x07
    if parameter in (1, 5):
        return attribute | (0x08 if parameter == 1 else 0x80)
    if parameter in (4, 7):
        return attribute & 0xF8 | (0x01 if parameter == 4 else 0x70)
    if parameter == 8:
        return attribute & 0x88
    if 30 <= parameter <= 37:
        return attribute & 0xF8 | COLOURS[parameter - 30]
    if 40 <= parameter <= 47:
        return attribute & 0x8F | COLOURS[parameter - 40] << 4
    return attribute


class Machine:
    """A screen of the stated lines and one spare row, played from one whole start."""

    def __init__(self, width, lines, number, place, wrap):
        self.width, self.lines = width, lines
        self.rows = [[(number(), number()) for _ in range(width)] for _ in range(lines + 1)]
        self.row, self.column = place()
        self.saved = place()
        self.attribute, self.wrap = number(), wrap

    def feed_line(self):
        if self.row < self.lines:
            self.row += 1
        else:
            self.rows = self.rows[1:] + [[(0x20, self.attribute)] * self.width]

    def put(self, byte):
        self.rows[self.row][self.column] = (byte, self.attribute)
        if self.column < self.width - 1:
            self.column += 1
        elif self.wrap:
            self.column = 0
            self.feed_line()

    def step(self, name, *given):
        last = self.width - 1
        if name == "glyph":
            self.put(*given)
        elif name == "linefeed":
            self.feed_line()
        elif name == "return":
            self.column = 0
        elif name == "backspace":
            self.column = max(0, self.column - 1)
        elif name == "A":
            self.row = max(0, self.row - given[0])
        elif name == "B":
            self.row = min(self.lines, self.row + given[0])
        elif name == "C":
            self.column = min(last, self.column + given[0])
        elif name == "D":
            self.column = max(0, self.column - given[0])
        elif name == "place":
            self.row, self.column = given[0] - 1, given[1] - 1
        elif name == "clear":
            blank = (0x20, self.attribute)
            self.rows = [[blank] * self.width for _ in range(self.lines + 1)]
            self.row = self.column = 0
        elif name == "erase":
            for column in range(self.column, self.width):
                self.rows[self.row][column] = (0x20, self.attribute)
        elif name == "save":
            self.saved = self.row, self.column
        elif name == "restore":
            self.row, self.column = self.saved
        elif name == "colours":
            for parameter in given[0]:
                self.attribute = recoloured(self.attribute, parameter)
        elif name == "wrap":
            self.wrap = given[0]


def known_parts(machine, known):
    """The machine, with each known part as on the cleared screen."""
    if "screen" in known:
        machine.rows = [[(0x20, 0x07)] * machine.width for _ in range(machine.lines + 1)]
    if "cursor" in known:
        machine.row = machine.column = 0
    if "saved" in known:
        machine.saved = 0, 0
    if "colours" in known:
        machine.attribute = 0x07
    if "wrap" in known:
        machine.wrap = True
    return machine


def starts(chance, width, lines, known):
    """The lowest start of the class, the highest, and some between."""
    low = Machine(width, lines, lambda: 0x00, lambda: (0, 0), False)
    high = Machine(width, lines, lambda: 0xFF, lambda: (lines, width - 1), True)
    between = [
        Machine(
            width, lines, lambda: chance.randrange(256),
            lambda: (chance.randrange(lines + 1), chance.randrange(width)),
            chance.random() < 0.5,
        )
        for _ in range(0 if len(known) == len(PARTS) else 6)
    ]
    return [known_parts(machine, known) for machine in [low, high] + between]


def fault_of(token, machines):
    """The number of the token's fault where these machines stand, or None."""
    name = token[0]
    width, lines = machines[0].width, machines[0].lines
    same_place = len({(machine.row, machine.column) for machine in machines}) == 1
    in_spare_row = [machine.row == lines for machine in machines]
    if name in REFUSED:
        return REFUSED[name]
    if name == "place" and (token[1] > lines + 1 or token[2] > width):
        return 19
    if name == "glyph":
        return 22 if not same_place else 20 if in_spare_row[0] else None
    if name == "erase":
        return None if same_place else 23
    if name == "linefeed" and any(in_spare_row):
        return 21 if all(in_spare_row) else 24
    return None


def play(token, machines):
    """Plays a token on each machine, unless it has a fault: then its number. A tab is its blanks."""
    if token[0] == "tab":
        for _ in range(8 - machines[0].column % 8):
            fault = play(("glyph", 0x20), machines)
            if fault:
                return fault
        return None
    fault = fault_of(token, machines)
    if not fault:
        for machine in machines:
            machine.step(*token)
    return fault


def fault_in(content, machines):
    """The offset and the number of the first fault of a token or of the reading, or None.

    The machines are left as they stand before it: in a tab before the blank that decides."""
    tokens, ending = read(content)
    for offset, token in tokens:
        fault = play(token, machines)
        if fault:
            return offset, fault
    return ending and ending[:2]


def unknown_cell(machines):
    """The row and the column of the first cell in which the machines differ, or None."""
    for row in range(machines[0].lines):
        for column in range(machines[0].width):
            if len({machine.rows[row][column] for machine in machines}) > 1:
                return row, column
    return None


def answer(content, machines):
    """The fault's line, or the picture as lines of cells."""
    fault = fault_in(content, machines)
    if fault:
        return f"at {fault[0]}: F{fault[1]} {FAULTS[fault[1]]}"
    cell = unknown_cell(machines)
    if cell:
        return f"at {len(content)}: F25 {FAULTS[25]} (row {cell[0] + 1}, column {cell[1] + 1})"
    picture = machines[0].rows[:-1]
    return ["".join(f"{byte:02x}{attribute:02x}" for byte, attribute in row) for row in picture]


def class_name(known):
    """What the report's second line calls the class."""
    if len(known) in (0, len(PARTS)):
        return "cleared" if known else "any"
    return " ".join(["known"] + known)


def classes():
    """Each class by the parts that it knows."""
    return [[part for i, part in enumerate(PARTS) if which >> i & 1] for which in range(2 ** len(PARTS))]


def needs_answer(chance, content, width, lines):
    """The line of the parts that the content needs, or the fault's line of the cleared start."""
    answers = [(known, answer(content, starts(chance, width, lines, known))) for known in classes()]
    if isinstance(answers[-1][1], str):
        return answers[-1][1]
    passing = [set(known) for known, given in answers if not isinstance(given, str)]
    least = set.intersection(*passing)
    if passing != [set(known) for known in classes() if least <= set(known)]:
        return f"passes from {passing}"
    return " ".join(["needs:"] + [part for part in PARTS if part in least]) if least else "needs: nothing"


def printed_of(words, file):
    """What the program prints of a file, line by line, and its status."""
    run = subprocess.run(words, input=file, stdout=subprocess.PIPE)
    return run.stdout.decode().splitlines(), run.returncode


def printed_lines(words, content, width, lines):
    """What it prints of the content as a file with a plain record, and its status."""
    record = (
        b"SAUCE00" + b" " * 75 + b"19960101" + struct.pack("<I", len(content))
        + bytes([1, 1]) + struct.pack("<4H", width, lines, 0, 0) + bytes(24)
    )
    return printed_of(words, content + b"\x1a" + record)


def asked(program, content, width, lines, known):
    """The same answer, as the program prints it; or its second line, if that names another class."""
    flags = [f"--known-{part}" for part in known]
    if len(known) == len(PARTS) and content[:1] < b"A":
        flags = ["--cleared"]
    words = [program, "check", "--cells"] + flags
    printed, status = printed_lines(words, content, width, lines)
    if printed[1] != "start: " + class_name(known):
        return printed[1]
    return printed[-lines:] if status == 0 else printed[-1]


def needs_asked(program, content, width, lines):
    """What the content needs, as the program prints it. The status tells a refusal."""
    printed, status = printed_lines([program, "needs"], content, width, lines)
    told = printed[-1]
    return told if (status == 0) == told.startswith("needs: ") else f"{told}, status {status}"


def a_number(chance):
    odd = [b"", b"", b"000255", b"256", b"00", b'"a"', b"'\x1b'", b'"p"']
    return chance.choice(odd) if chance.random() < 0.3 else b"%d" % chance.randrange(8)


def a_piece(chance, width, lines):
    """A few bytes that content may hold: mostly whole sequences, now and then broken ones."""
    kind = chance.random()
    if kind < 0.30:
        return bytes([chance.choice(b"AB \xdb\x00\xff\x7f")]) * chance.randrange(1, 3)
    if kind < 0.40:
        some = [b"\r\n", b"\r\n", b"\n", b"\r", b"\b", b"\x07", b"\t", b"\t", b"\t"]
        return chance.choice(some)
    if kind < 0.50:
        some = [b"", b"0", b"1", b"2", b"4", b"5", b"7", b"8", b"31", b"36", b"38", b"40", b"44"]
        return b"\x1b[" + b";".join(chance.choices(some, k=chance.randrange(4))) + b"m"
    if kind < 0.60:
        return b"\x1b[%d;%dH" % (chance.randrange(lines + 2), chance.randrange(width + 1))
    if kind < 0.78:
        some = [b"2J", b"K", b"0K", b"s", b"u", b"?7h", b"?7l", b"=7h"]
        return b"\x1b[" + chance.choice(some)
    if kind < 0.97:
        return b"\x1b[" + a_number(chance) + bytes([chance.choice(b"ABCD")])
    mark = chance.choice([b"", b"", b"=", b"?"])
    members = b";".join(a_number(chance) for _ in range(chance.choice([0, 1, 1, 2, 3, 17])))
    return b"\x1b[" + mark + members + bytes([chance.choice(b"ABHJKfhlmnpsutxz \x9b")])


def a_content(chance, width, lines, known):
    content = b""
    if chance.random() < 0.8:
        making = {"colours": b"\x1b[0m", "screen": b"\x1b[2J", "wrap": b"\x1b[?7h"}
        wanted = [making[part] for part in making if part not in known]
        content = b"".join(chance.sample(wanted, len(wanted)))
    content += b"".join(a_piece(chance, width, lines) for _ in range(chance.randrange(9)))
    return content[: chance.randrange(len(content) + 1)] if chance.random() < 0.1 else content


def kind_of(expected):
    """What an answer is counted as: its fault, a pass, or what is needed."""
    if not isinstance(expected, str):
        return "pass"
    return expected.split()[2] if expected.startswith("at ") else expected


def main(program, seed, count, what="check"):
    chance = random.Random(int(seed))
    seen, met, differing = collections.Counter(), set(), 0
    for _ in range(int(count)):
        width = chance.randrange(1, 5) if chance.random() < 0.7 else chance.randrange(5, 21)
        lines, which = chance.randrange(1, 4), chance.randrange(2 ** len(PARTS))
        known = classes()[which]
        content = a_content(chance, width, lines, known)
        if what == "needs":
            expected = needs_answer(chance, content, width, lines)
            printed = needs_asked(program, content, width, lines)
            if expected.startswith("needs: "):
                met.add(expected)
        else:
            expected = answer(content, starts(chance, width, lines, known))
            printed = asked(program, content, width, lines, known)
            met.add(which)
        seen[kind_of(expected)] += 1
        if expected != printed:
            differing += 1
            print(f"{width} x {lines} known={known} {content}: {expected}, not {printed}")
    counts = ", ".join(f"{n} {kind}" for kind, n in seen.most_common())
    print(f"{differing} of {count} differ, in {len(met)} classes; {counts}")
    return differing > 0


if __name__ == "__main__":
    sys.exit(main(*sys.argv[1:]))
