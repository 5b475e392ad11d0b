#!/usr/bin/env python3
"""Names the colours of a content, from the words of a rule, where something is printed or blanked in them.

A sequence of colours with a 0 or an omitted number gets 37 after the last of them, if something is printed or blanked
before the foreground is named or taken away anew; and so 40 for the background. The names stand in the sequence itself,
if it has no omitted number, and no more bytes then than ansilove takes for a sequence. Else they stand apart: the
sequence up to that 0, the names, and what is left of it. So no kind arises anew, `own-colours` does no more behind such
a sequence, and each cell stays.
"""
import sys

sys.dont_write_bytecode = True

from second_players import BOTH, NEITHER, PAINTS, named_behind, spelled

# More bytes than these behind `ESC[` ansilove prints as text.
LONGEST_SEQUENCE = 14


def names_wanted(tokens):
    """By the place among the tokens of each sequence with a 0: the names that are made use of behind the last one."""
    used, wanted = NEITHER, {}
    for place in reversed(range(len(tokens))):
        token = tokens[place][1]
        if token[0] in PAINTS:
            used = BOTH
        for number in reversed(token[1]) if token[0] == "colours" else []:
            if number == 0:
                wanted.setdefault(place, used)
                used = NEITHER
            elif number in range(30, 38):
                used = used - {"foreground"}
            elif number in range(40, 48):
                used = used - {"background"}
    return wanted


def a_sequence(numbers):
    return b"\x1b[" + b";".join(numbers) + b"m" if numbers else b""


def with_names(text, names):
    """The sequence with these names behind its last 0: in one, or apart where that is too long or a number omitted."""
    numbers = text[2:-1].split(b";")
    behind = 1 + max(at for at, number in enumerate(numbers) if not number.strip(b"0"))
    named = [b"37"] * ("foreground" in names) + [b"40"] * ("background" in names)
    whole = a_sequence(numbers[:behind] + named + numbers[behind:])
    if b"" not in numbers and len(whole) <= len(b"\x1b[") + LONGEST_SEQUENCE:
        return whole
    return a_sequence(numbers[:behind]) + a_sequence(named) + a_sequence(numbers[behind:])


def with_named_colours(content):
    """The content with its colours named, and the offsets of the sequences that get names. Where it cannot be read it
    stays."""
    tokens = spelled(content)
    wanted = names_wanted(tokens or [])
    texts = [with_names(text, wanted[place]) if wanted.get(place) else text
             for place, (_, _, text) in enumerate(tokens or [])]
    offsets = [tokens[place][0] for place in sorted(wanted) if wanted[place]]
    return b"".join(texts) if tokens is not None else content, offsets


def paints_before_a_zero(content):
    """Something is printed or blanked in colours that are not named, before the first 0 of a sequence."""
    named = NEITHER
    for _, token, _ in spelled(content):
        if token[0] == "colours" and 0 in token[1]:
            return False
        if token[0] in PAINTS and named != BOTH:
            return True
        named = named_behind(named, token)
    return False
