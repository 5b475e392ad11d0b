#!/usr/bin/env python3
"""Ways of single programs that are of no kind, each with a spelling that keeps away from it, for `players.py`.

A spelling changes nothing in the profile. A difference is put down to such ways where each of them changes the content,
and the player shows the picture of the content so spelled. Few ways are tried before many.
"""
import itertools
import re

SEQUENCE = re.compile(rb"\x1b\[([0-9;]*)([A-Zf-m])")
COLOURS = re.compile(rb"\x1b\[([0-9;]*)m")
PLACE = re.compile(rb"\x1b\[([0-9;]*)([Hf])")
WRAP_ON = re.compile(rb"\x1b\[[?=]0*7h")
WRAP_ON_BY_EQUALS = re.compile(rb"\x1b\[=0*7h")
ZERO_MOVE = re.compile(rb"\x1b\[0+([AB])")
ELEVEN_NUMBERS = re.compile(rb"\x1b\[(?:[0-9]*;){10}")
# More bytes than these behind `ESC[` ansilove does not take for a sequence.
LONGEST_OF_ANSILOVE = 14


def sequence(numbers, letter=b"m"):
    return b"\x1b[" + b";".join(numbers) + letter


def without_wrap_on(content):
    return WRAP_ON.sub(b"", content)


def with_wrap_on_by_question(content):
    return WRAP_ON_BY_EQUALS.sub(b"\x1b[?7h", content)


def bright_once(content):
    """No 1 where it is bright already."""
    is_bright = False

    def once(found):
        nonlocal is_bright
        numbers = []
        for number in found[1].split(b";"):
            value = int(number or 0)
            if value != 1 or not is_bright:
                numbers.append(number)
            is_bright = value == 1 or is_bright and value != 0
        return sequence(numbers) if numbers else b""
    return COLOURS.sub(once, content)


def places_from_1(content):
    """1 for each 0 of a place."""
    def from_1(found):
        numbers = found[1].split(b";")
        return sequence([b"1" if number and not number.strip(b"0") else number for number in numbers], found[2])
    return PLACE.sub(from_1, content)


def without_zeros(content):
    """No zeros in front of other figures."""
    return SEQUENCE.sub(lambda found: b"\x1b[" + re.sub(rb"(?<![0-9])0+(?=[0-9])", b"", found[1]) + found[2], content)


def in_short_sequences(content):
    """No zeros in front, and each number of a long sequence of colours by itself."""
    def short(found):
        if len(found[0]) <= len(b"\x1b[") + LONGEST_OF_ANSILOVE:
            return found[0]
        return b"".join(sequence([number]) for number in without_zeros(found[0])[2:-1].split(b";"))

    def no_zeros(found):
        return found[0] if len(found[0]) <= len(b"\x1b[") + LONGEST_OF_ANSILOVE else without_zeros(found[0])
    return SEQUENCE.sub(no_zeros, COLOURS.sub(short, content))


def without_zero_moves(content):
    """No 0 where a move up or down is by 1."""
    return ZERO_MOVE.sub(b"\x1b[\\1", content)


WAYS = {
    "DOSBox": {
        "prints 7h of ESC[?7h and ESC[=7h": without_wrap_on,
    },
    "ansilove": {
        "takes a 1 back by another": bright_once,
        "places the cursor outside at a row or column 0": places_from_1,
        "prints sequences of more than 14 bytes behind ESC[": in_short_sequences,
    },
    "tmux": {
        "drops sequences of more than 63 bytes between ESC[ and the letter": without_zeros,
        "ignores ESC[=7h": with_wrap_on_by_question,
    },
    "libvterm": {"ignores ESC[=7h": with_wrap_on_by_question},
    "xterm": {"ignores ESC[=7h": with_wrap_on_by_question},
    "urxvt by pixels": {"moves by 0 at ESC[0A and ESC[0B": without_zero_moves},
}


def breaks(name, content):
    """Whether what follows may go wrong too: DOSBox is remembered to have room for ten numbers alone."""
    return name == "DOSBox" and ELEVEN_NUMBERS.search(content)


def choices(name):
    """Some ways of the player at a time, few before many."""
    ways = WAYS.get(name, {})
    return [some for count in range(1, len(ways) + 1) for some in itertools.combinations(ways, count)]


def respelled(name, ways, content):
    """The content spelled so that it keeps away from these ways, or None where one of them changes nothing."""
    for way in ways:
        before, content = content, WAYS[name][way](content)
        if content == before:
            return None
    return content
