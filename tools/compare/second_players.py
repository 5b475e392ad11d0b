#!/usr/bin/env python3
"""Finds the kinds in which players part on the machine of `second_machine.py`, and compares with what `why` says.

It finds by itself, from the words of the definitions:

- `players`: it plays the content from the cleared start, and keeps beside the machine the sync of players with
  it, and which of the two colours the content has named. So it tells of each token in which kinds players may
  part there; from these the kinds, how often each arises, and the offset of the first token of each;
- `needs on all players`: it plays the content from all starts of five classes, each of which knows all parts but one: each
  cursor, each saved place, the attributes 00h, 07h and FFh, wrap on and off, and cells that are unlike any other. A
  part is needed where from these something goes wrong: a fault, what is printed or erased at several places, a cell
  that is not the same, or a kind but `own-colours`, which arises from each start alike. So it finds the parts of
  `needs` too, where kinds are no matter.

The lines that are compared are these, where the content passes from the cleared start, and none of them elsewhere:

    players: KIND KIND ..               or players: all
    players differ: KIND, N times, first at OFFSET      for each kind; if it is only one, KIND, once, at OFFSET
    needs on all players: PART PART ..  if players are all, or differ in `own-colours` only, and these parts are others
                                        than those of needs

Run it in `crates/anscheck`, on the built program, with a number that seeds the contents and how many there shall be:

    python3 ../../tools/compare/second_players.py out/anscheck 1 10000

It prints each content of which a line differs, and then how often each kind and class was met. Its status is 1 where
one differs.

With `--model` in the program's place it compares with no program, but with itself, on screens of a few columns and
at most three lines, and on contents that pass from the cleared start alone:

- each player of `player_family.py`, and some that have several of their traits, shows the picture of the machine where
  no kind of its own arises. It counts how often one of its kinds arises, and how often it then shows another picture;
  each player has to do so at least once;
- if players are all, or differ in `own-colours` only, the classes of all 32 for which nothing goes wrong are exactly
  those that know the parts that were found one by one; all cursors, a few saved places, the three attributes and wrap
  on and off are met together. From each of these starts of the least class each player shows the picture, but one with
  a white and a black of its own where `own-colours` arises; and the same of `needs` without kinds.

It follows the rules as this project states them, so it cannot tell a rule that both misread.
"""
import collections
import itertools
import random
import re
import sys
import time

sys.dont_write_bytecode = True

from player_family import FEW_COLOURS, PAGE_CONTROLS, TERMINAL_CONTROLS, TRAITS, Player, shown_by
from second_machine import PARTS, a_content, classes, play, printed_lines, read
from second_why import cleared

KINDS = [
    "wrap-at-once", "line-ends", "home-on-clear", "clear-in-colour", "save-place-only", "dos-colours", "tab-prints",
    "line-erased", "wrap-off", "stops-at-edge", "page-controls", "terminal-controls", "own-colours",
]
# The kind that arises from each start alike, since it is one of the tokens alone.
OF_TOKENS = "own-colours"
SAID = re.compile(r"players: .*|needs on all players: .*|players differ: .*")
# The sync of players with the machine: after what they may be elsewhere, and the kind in which they part there.
IN_SYNC, AFTER_WRAP = ("nothing", None), ("a wrap", "wrap-at-once")
AFTER_FEED, AFTER_RETURN = ("a line feed", "line-ends"), ("a return", "line-ends")
AFTER_CLEAR, AFTER_SAVE = ("a clear", "home-on-clear"), ("a save", "save-place-only")
COLOURS = re.compile(rb"\x1b\[([0-9;]*)m")
SAME_ALWAYS = {"place", "colours", "bell"}
SAME_FOR_ALL = {(AFTER_WRAP, "glyph"), (AFTER_FEED, "return"), (AFTER_RETURN, "linefeed"), (AFTER_RETURN, "return")}
PAINTS = {"glyph", "tab", "clear", "erase"}
NEITHER, BOTH = frozenset(), frozenset(["foreground", "background"])
UNKNOWN = "whatever was there"
Walked = collections.namedtuple("Walked", "places arisen picture")


# The kinds of a content from one start.


def spelled(content):
    """Each token with its offset and its bytes; or None where the reading is refused."""
    tokens, refusal = read(content)
    ends = [offset for offset, _ in tokens[1:]] + [len(content)]
    return None if refusal else [(at, token, content[at:end]) for (at, token), end in zip(tokens, ends)]


def own_kinds(token, text, machine):
    """The kinds in which players may part at the token, though they stand where this machine stands."""
    name, is_grey = token[0], machine.attribute == 0x07
    if name == "glyph":
        page, terminal = token[1] in PAGE_CONTROLS, token[1] in TERMINAL_CONTROLS
        return {"page-controls"} if page else {"terminal-controls"} if terminal else set()
    if name in ("bell", "backspace"):
        return {"page-controls"}
    if name == "tab":
        return {"tab-prints"}
    if name == "C":
        return {"stops-at-edge"} if machine.column + token[1] > machine.width - 1 else set()
    if name == "B":
        return {"stops-at-edge"} if machine.row + token[1] > machine.lines else set()
    if name == "clear":
        return set() if is_grey else {"clear-in-colour"}
    if name == "erase":
        return {"line-erased"} if is_grey else {"line-erased", "clear-in-colour"}
    if name == "restore":
        return {"save-place-only"}
    if name == "wrap":
        return set() if token[1] else {"wrap-off"}
    if name == "colours":
        is_omitted = b"" in text[2:-1].split(b";")
        is_common = FEW_COLOURS.issuperset(token[1]) and (not is_omitted or is_grey and not any(token[1]))
        return set() if is_common else {"dos-colours"}
    return set()


def named_behind(named, token):
    """The colours that are named behind the token: the numbers count in their order, and an omitted one is 0."""
    for number in token[1] if token[0] == "colours" else []:
        if number == 0:
            named = NEITHER
        elif number in range(30, 38):
            named = named | {"foreground"}
        elif number in range(40, 48):
            named = named | {"background"}
    return named


def kinds_at(sync, named, token, text, machine):
    """All kinds in which players may part at the token, where this is their sync with this machine."""
    own = own_kinds(token, text, machine) | ({OF_TOKENS} if token[0] in PAINTS and named != BOTH else set())
    is_same_for_all = sync == IN_SYNC or token[0] in SAME_ALWAYS or (sync, token[0]) in SAME_FOR_ALL
    return own if is_same_for_all else own | {sync[1]}


def sync_after(sync, name, place, machine):
    """The sync of players after a token that was met at this place and is played."""
    if name in ("colours", "bell") or (sync, name) == (AFTER_RETURN, "return"):
        return sync
    if name in ("glyph", "tab"):
        return AFTER_WRAP if machine.wrap and machine.column == 0 else IN_SYNC
    if name == "linefeed" and place[1] > 0:
        return AFTER_FEED
    if name == "return" and place[1] > 0 and sync != AFTER_FEED:
        return AFTER_RETURN
    if name in ("clear", "save") and place != (0, 0):
        return AFTER_CLEAR if name == "clear" else AFTER_SAVE
    return IN_SYNC


def walk(tokens, machine):
    """Where is printed and erased, the kinds of each token with its offset, and the picture; or None at a fault."""
    sync, named, places, arisen = IN_SYNC, NEITHER, [], []
    for offset, token, text in tokens:
        name, place = token[0], (machine.row, machine.column)
        arisen += [(offset, kind) for kind in kinds_at(sync, named, token, text, machine)]
        for _ in range(8 - machine.column % 8 if name == "tab" else 1):
            if name in ("glyph", "tab", "erase"):
                places.append((machine.row, machine.column))
            if play(("glyph", 0x20) if name == "tab" else token, [machine]):
                return None
        sync, named = sync_after(sync, name, place, machine), named_behind(named, token)
    return Walked(tuple(places), arisen, tuple(map(tuple, machine.rows[:-1])))


def of_start(arisen):
    """What has arisen of the kinds that may depend on the start."""
    return [(offset, kind) for offset, kind in arisen if kind != OF_TOKENS]


def offsets_of(arisen):
    """Of each kind, in their order, the offsets of the tokens at which it arises."""
    offsets = {kind: [offset for offset, its_kind in arisen if its_kind == kind] for kind in KINDS}
    return {kind: offsets[kind] for kind in KINDS if offsets[kind]}


# The least class.


def all_places(width, lines):
    return list(itertools.product(range(lines + 1), range(width)))


def a_start(width, lines, place=(0, 0), saved=(0, 0), attribute=0x07, wrap=True, cell=None):
    """A machine that is as the cleared one, but for these."""
    machine = cleared(width, lines)
    machine.rows = [[cell or (0x20, 0x07)] * width for _ in range(lines + 1)]
    machine.row, machine.column = place
    machine.saved, machine.attribute, machine.wrap = saved, attribute, wrap
    return machine


def starts_without(part, width, lines, places):
    """Starts of the class that knows all parts but this one, with these places for cursors."""
    values = {
        "screen": ("cell", [UNKNOWN]), "cursor": ("place", places),
        "saved": ("saved", places), "colours": ("attribute", [0x00, 0x07, 0xFF]),
        "wrap": ("wrap", [False, True]),
    }
    name, some = values[part]
    return [a_start(width, lines, **{name: value}) for value in some]


def is_same(walks, are_kinds_asked):
    """Nothing goes wrong in the walks: no fault, one place for all that is drawn, one picture, and no kind."""
    first = walks[0]
    return all(
        walked and (walked.places, walked.picture) == (first.places, first.picture)
        and not (are_kinds_asked and of_start(walked.arisen)) and not any(UNKNOWN in row for row in walked.picture)
        for walked in walks
    )


def parts_needed(tokens, width, lines, are_kinds_asked, places=all_places):
    """The parts that have to be known, each found by itself, from these places of a screen."""
    met = {part: starts_without(part, width, lines, places(width, lines)) for part in PARTS}
    return [part for part in PARTS if not is_same([walk(tokens, start) for start in met[part]], are_kinds_asked)]


# The lines.


def lines_of(content, width, lines):
    """What is to be said of the content."""
    tokens = spelled(content)
    walked = walk(tokens, cleared(width, lines)) if tokens is not None else None
    if walked is None:
        return []
    offsets = offsets_of(walked.arisen)
    said = ["players: " + (" ".join(offsets) or "all")]
    for kind, places in offsets.items():
        times = f"once, at {places[0]}" if len(places) == 1 else f"{len(places)} times, first at {places[0]}"
        said.append(f"players differ: {kind}, {times}")
    if not of_start(walked.arisen):
        same, needs = [parts_needed(tokens, width, lines, are_kinds_asked) for are_kinds_asked in (True, False)]
        said += ["needs on all players: " + " ".join(same)] if same != needs else []
    return said


def printed_of_players(program, content, width, lines):
    """The lines of these kinds that the program prints."""
    return [line for line in printed_lines([program, "why"], content, width, lines)[0] if SAID.fullmatch(line)]


# Contents.


def a_colour(chance, numbers):
    return b"\x1b[" + b";".join(b"%d" % chance.choice(numbers) for _ in range(chance.choice([1, 1, 2, 3]))) + b"m"


def a_plain_piece(chance, width, lines):
    """What mostly all players do alike: text, common colours, places, line ends; and moves."""
    kind = chance.random()
    if kind < 0.35:
        return bytes([chance.choice(b"AB \xdb\xff")]) * chance.choice([1, 1, 2, width, width])
    if kind < 0.50:
        return chance.choice([b"\r\n", b"\r\n", b"\n\r", b"\r\r\n", b"\r\x1b[1m\n", b"\n\x1b[0;31m\r", b"\n", b"\r"])
    if kind < 0.62:
        return a_colour(chance, [0, 0, 1, 5, *range(30, 38), *range(40, 48)])
    if kind < 0.80:
        some = [b"\x1b[H", b"\x1b[%d;%dH" % (chance.randrange(lines + 2), chance.randrange(width + 1)), b"\x1b[1;1f"]
        return chance.choice(some)
    if kind < 0.90:
        return b"\x1b[" + chance.choice([b"", b"0", b"1", b"1", b"2", b"3"]) + bytes([chance.choice(b"ABCD")])
    return chance.choice([b"\x1b[0m\x1b[2J\x1b[H", b"\x1b[H\x1b[s", b"\x1b[?7h", b"\x1b[0m\x1b[H\x1b[2J", b"\x1b[2J"])


def a_loose_piece(chance, kind, width):
    """What leaves the cursor anywhere in this kind; then mostly a token that counts on it; then mostly a byte."""
    before = {
        "wrap-at-once": [b"A" * width], "line-ends": [b"A\n", b"A\r"], "home-on-clear": [b"A\x1b[2J", b"\x1b[2J"],
        "save-place-only": [b"A\x1b[s", b"\x1b[s"],
    }
    between = [
        b"", b"\r", b"\n", b"\r\n", b"\n\r", b"\b", b"\t", b"\x07", b"\x1b[A", b"\x1b[B", b"\x1b[C", b"\x1b[D",
        b"\x1b[2J", b"\x1b[K", b"\x1b[s", b"\x1b[u", b"\x1b[1m", b"\x1b[1;1f", b"\x1b[?7h", b"\x1b[1m\n",
        b"\x1b[31m\r\n",
    ]
    return chance.choice(before[kind]) + chance.choice(between) + chance.choice([b"B", b"B", b"\x1b[H", b""])


def an_odd_piece(chance, kind, width):
    """What players may do differently in this kind."""
    some = {
        "clear-in-colour": [b"\x1b[1;31m\x1b[2J", b"\x1b[44m\x1b[H\x1b[2J\x1b[H", b"\x1b[5m\x1b[K"],
        "save-place-only": [
            b"\x1b[u", b"\x1b[uA", b"\x1b[1m\x1b[u", b"A\x1b[s\x1b[H", b"\x1b[s\x1b[1;31m\x1b[uA",
            b"\x1b[44m\x1b[s\x1b[0m\x1b[uA", b"A\x1b[s\x07\x1b[1;1HB\x1b[uC",
        ],
        "dos-colours": [
            b"\x1b[m", b"\x1b[;m", b"\x1b[;31m", b"\x1b[1;m", b"\x1b[31;;1m", b"\x1b[4m", b"\x1b[7m", b"\x1b[8m",
            b"\x1b[38;5;208m", b"\x1b[0;91m", b"\x1b[00;m", b"\x1b[0;;0m", b"\x1b[2m", b"\x1b[039m", b"\x1b[48;5;1m",
        ],
        "tab-prints": [b"\t", b"\x1b[H\t", b"A\t"],
        "line-erased": [b"\x1b[K", b"\x1b[0K", b"\x1b[H\x1b[K"],
        "wrap-off": [b"\x1b[?7l", b"\x1b[=7l", b"\x1b[?7lAAAAAA", b"\x1b[?7h"],
        "stops-at-edge": [
            b"\x1b[255C", b"\x1b[255CA", b"\x1b[255B", b"\x1b[255B\x1b[AA", b"\x1b[2C", b"\x1b[3C", b"\x1b[2B",
            b"\x1b[3B", b"\x1b[4B\x1b[2AA", b"\x1b[2CA",
        ],
        "page-controls": [b"\x07", b"\b", b"\x00", b"\x0b", b"\x0c", b"A\b", b"A\x07B"],
        "terminal-controls": [bytes([byte]) for byte in TERMINAL_CONTROLS],
        "own-colours": [
            b"\x1b[0m", b"\x1b[0m", b"\x1b[0mA", b"\x1b[37m", b"\x1b[40m", b"\x1b[37;40m", b"\x1b[0;37mA",
            b"\x1b[0;40mA", b"\x1b[37;0;40mA", b"\x1b[40;00;37m ", b"\x1b[0;1;5;37;40mA", b"\x1b[37;40;0m\x1b[31;41mA",
            b"\x1b[0m\x1b[37m\x1b[2J\x1b[H", b"\x1b[0m\x1b[2J\x1b[H\x1b[37;40m", b"\x1b[0;33m\x1b[44mA",
        ],
    }
    is_loose = kind not in some or kind == "save-place-only" and chance.random() < 0.5
    return a_loose_piece(chance, kind, width) if is_loose else chance.choice(some[kind])


def with_names(chance, piece):
    """The piece with names behind each sequence that takes some away: mostly with both."""
    def named(found):
        if all(number.strip(b"0") for number in found[1].split(b";")):
            return found[0]
        names = chance.choice([b"37;40"] * 9 + [b"30;47", b"1;37;5;40", b"37", b"40", b"36", b"47", b"29;38;39;48"])
        return b"\x1b[" + found[1] + b";" + names + b"m"
    return COLOURS.sub(named, piece)


def a_good_content(chance, width, lines):
    """One that passes from the cleared start: with pieces of no kind, of some, or of all; often with named colours."""
    beginning = [b"\x1b[0m", b"\x1b[2J", b"\x1b[H", b"\x1b[?7h", b"\x1b[m", b"\x1b[2J\x1b[H", b"\x1b[s"]
    is_named = chance.random() < 0.6
    pieces = chance.sample(beginning, chance.choice([0, 0, 1, 2, 3, 4, 5]))
    pieces = [b"\x1b[37;40m"] * is_named + pieces
    odd = chance.sample(KINDS + ["line-ends", "tab-prints"], chance.choice([0, 0, 0, 1, 1, 1, 2, 3, 13]))
    for _ in range(chance.randrange(1, 10)):
        is_odd = odd and chance.random() < 0.5
        piece = an_odd_piece(chance, chance.choice(odd), width) if is_odd else a_plain_piece(chance, width, lines)
        pieces.append(piece)
    content = b""
    for piece in [with_names(chance, piece) for piece in pieces] if is_named else pieces:
        if walk(spelled(content + piece), cleared(width, lines)):
            content += piece
    return content


def a_size(chance):
    """Few columns, now and then as many as a tab takes or one more; and at most three lines."""
    return chance.choice([chance.randrange(1, 6)] * 9 + [chance.choice([8, 9])]), chance.randrange(1, 4)


# The model compared with itself.


def some_players(chance):
    """The profile, each player with one trait, and some with several."""
    several = [chance.sample(list(TRAITS), chance.choice([2, 3, 5])) for _ in range(3)]
    return [()] + [(trait,) for trait in TRAITS] + [tuple(traits) for traits in several]


def try_players(chance, tokens, width, lines, walked, seen):
    """Each player that shows another picture though no kind of its own arises."""
    arisen = {kind for _, kind in walked.arisen}
    for traits in some_players(chance):
        picture = shown_by(Player(cleared(width, lines), *traits), tokens, lines)
        may_part = not arisen.isdisjoint(TRAITS[trait] for trait in traits)
        if len(traits) == 1:
            seen[f"{traits[0]}: its kind arises"] += may_part
            seen[f"{traits[0]}: shows another picture"] += may_part and picture != walked.picture
        if not may_part and picture != walked.picture:
            yield f"{', '.join(traits)}: shows {picture}, not {walked.picture}"


def some_starts(chance, width, lines):
    """All cursors, a few saved places, three attributes and wrap on and off, each with each."""
    places = all_places(width, lines)
    saved = {(0, 0), places[-1], chance.choice(places)}
    return list(itertools.product(places, sorted(saved), [0x00, 0x07, 0xFF], [False, True]))


def known_of(place, saved, attribute, wrap):
    """The parts that are as in the cleared start, beside the cells."""
    are_known = zip(PARTS[1:], [place == (0, 0), saved == (0, 0), attribute == 0x07, wrap])
    return frozenset(part for part, is_known in are_known if is_known)


def with_blanks(walked):
    """The same, from a cleared screen."""
    picture = tuple(tuple((0x20, 0x07) if cell == UNKNOWN else cell for cell in row) for row in walked.picture)
    return walked._replace(picture=picture)


def same_classes(walks, are_kinds_asked):
    """The classes for which nothing goes wrong, of the walks by what is known where they start."""
    for known in classes():
        among = set().union(*(some for parts, some in walks.items() if parts.issuperset(set(known) - {"screen"})))
        if None not in among:
            among = {walked._replace(arisen=walked.arisen if are_kinds_asked else ()) for walked in among}
            among = set(map(with_blanks, among)) if "screen" in known else among
        if is_same(list(among), are_kinds_asked):
            yield known


def try_classes(chance, tokens, width, lines, walked, seen):
    """What is wrong with the parts that are found one by one, and with the players from starts of that class."""
    walks, met = collections.defaultdict(set), some_starts(chance, width, lines)
    for start in met:
        found = walk(tokens, a_start(width, lines, *start, UNKNOWN))
        walks[known_of(*start)].add(found and found._replace(arisen=tuple(of_start(found.arisen)[:1])))
    needs, parts = [parts_needed(tokens, width, lines, are_kinds_asked) for are_kinds_asked in (False, True)]
    for are_kinds_asked, found in ((False, needs), (True, parts)):
        same = list(same_classes(walks, are_kinds_asked))
        if same != [known for known in classes() if set(found) <= set(known)]:
            yield f"found {found} one by one, but the same for {same} (kinds asked: {are_kinds_asked})"
    seen["needs on all players: " + (" ".join(parts) or "nothing")] += 1
    seen["needs on all players: other parts than needed"] += parts != needs
    of_class = [start for start in met if known_of(*start).issuperset(set(parts) - {"screen"})]
    cell, arisen = None if "screen" in parts else UNKNOWN, {kind for _, kind in walked.arisen}
    for start in chance.sample(of_class, min(6, len(of_class))):
        for traits in some_players(chance):
            if any(TRAITS[trait] == OF_TOKENS and OF_TOKENS in arisen for trait in traits):
                continue
            picture = shown_by(Player(a_start(width, lines, *start, cell), *traits), tokens, lines)
            if picture != walked.picture:
                yield f"{', '.join(traits)} from {start}: shows {picture}, not {walked.picture}"


def try_content(chance, content, width, lines, seen):
    """What is wrong with a content by the model alone."""
    tokens = spelled(content)
    walked = walk(tokens, cleared(width, lines))
    wrong = list(try_players(chance, tokens, width, lines, walked, seen))
    if not of_start(walked.arisen):
        wrong += try_classes(chance, tokens, width, lines, walked, seen)
    return wrong


# The runs.


def count_lines(said, seen):
    """Counts the kinds that are said, and the parts."""
    for line in said:
        key, _, rest = line.partition(": ")
        if key == "players":
            seen.update(rest.split())
        elif key == "needs on all players":
            seen[line] += 1
    seen["refused"] += not said


def compared(program, chance, seen):
    """A content and its size, and what differs between the program and the model."""
    width, lines = a_size(chance)
    if chance.random() < 0.2:
        width = chance.randrange(5, 21)
    make = a_good_content if chance.random() < 0.85 else lambda *size: a_content(*size, [])
    content = make(chance, width, lines)
    expected, printed = lines_of(content, width, lines), printed_of_players(program, content, width, lines)
    count_lines(expected, seen)
    return content, width, lines, [] if expected == printed else [f"expected {expected}, not {printed}"]


def modelled(chance, seen):
    """A content and its size, and what is wrong by the model alone."""
    width, lines = a_size(chance)
    content = a_good_content(chance, width, lines)
    offsets = offsets_of(walk(spelled(content), cleared(width, lines)).arisen)
    seen.update(list(offsets) or ["all"])
    return content, width, lines, try_content(chance, content, width, lines, seen)


def main(program, seed, count):
    chance, seen, differing, begun = random.Random(int(seed)), collections.Counter(), 0, time.monotonic()
    is_model = program == "--model"
    for _ in range(int(count)):
        content, width, lines, wrong = modelled(chance, seen) if is_model else compared(program, chance, seen)
        differing += bool(wrong)
        for what in wrong:
            print(f"{width} x {lines} {content}: {what}", flush=True)
    unmet = [trait for trait in TRAITS if is_model and not seen[f"{trait}: shows another picture"]]
    for trait in unmet:
        print(f"{trait}: never shows another picture")
    for what, times in sorted(seen.items()):
        print(f"  {times} {what}")
    print(f"{differing} of {count} differ, in {time.monotonic() - begun:.0f} s")
    return differing > 0 or bool(unmet)


if __name__ == "__main__":
    sys.exit(main(*sys.argv[1:]))
