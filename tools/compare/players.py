#!/usr/bin/env python3
"""Plays drawings on real players, and compares what they show with the picture that the profile has.

The players are DOSBox, ansilove, tmux, libvterm, xterm, and xterm and urxvt by their pixels, as Debian has them. The
drawings are those of `player_drawings.py`: random ones, and those of the repository and of ansilove, with at most 80
columns and 24 lines, also with their colours named, as `named_colours.py` does it. Where players may part, and what
the picture is, is said by the machines of `second_players.py` and `second_machine.py`, and by no program of this
repository.

First come drawings in which no kind arises, `players: all`. Each is played on a screen of its columns and 25 rows; and
small ones, of at most nine columns and three lines, on a screen of one row more than their lines:

- on a cleared screen, with the cursor at home;
- behind other text and colours, with the safe beginning in front, as `mend` writes it;
- behind other text and colours as it is, where it shows its picture from every start on every player.

Other text may scroll, turns wrap off now and then, and leaves the cursor and the saved place on the drawing's lines or
one row below, as a start of a screen of its size has them. DOSBox plays the drawings of 80 columns alone, on 25 rows.
So do xterm and urxvt by their pixels, a quarter of the random ones and without blink, and `ESC[?7h` for `ESC[=7h`.

Each cell is compared, by its byte and its attribute: of ansilove as the pixels show it, without blink, and of tmux and
xterm up to the last cell of a row that was written. tmux, libvterm and xterm tell their own colours from the named
ones, which alone the picture has. Screens are cleared in named colours before, since cells that nothing is written in
have what is there. By pixels a cell is compared as `player_pixels.py` says it: with the terminal's named colours, which
are measured first. A drawing that differs is played once more, and counts where it differs again. It is told with the
reason, where that is a way of one program that `player_quirks.py` knows, and with its bytes where it is not.

What is not seen: by pixels, blink, and which character it is but by its extent; of tmux and xterm the colours in which
they cleared what was not written since.

Then come random drawings in which one kind arises and no other, each kind in turn, a tenth as many, on a cleared screen
alone. A table tells how many of them look different on which player, beside its known ways.

    python3 tools/compare/players.py [--program PROGRAM] [NUMBER] [SEED] [PLAYER ..]

It makes NUMBER drawings of 80 columns, 1000 where nothing is said, a quarter as many of fewer, and as many small ones
as of 80 columns. Where players are named it plays these, as `tmux` or `urxvt-by-pixels`. Where a built `anscheck` is
given, that mends the drawings. It needs Debian's `dosbox`, `nasm`, `ansilove`, `tmux`, `xterm`, `rxvt-unicode`, `xvfb`,
`libvterm-dev` and `gcc`, and says which player cannot be played here. Its status is 1 where a drawing without kinds
differs for a reason that is not known.
"""
import collections
import os
import random
import sys

sys.dont_write_bytecode = True
sys.path.insert(1, os.path.join(os.path.dirname(os.path.abspath(__file__)), "dosbox"))

from ansilove import ans_file
from dosbox import said
from player_drawings import (
    COLUMNS, SMALL, found_drawings, is_free, other_text, random_drawings, small_drawings, steady,
    with_its_colours_named,
)
from player_pixels import PIXEL_PLAYERS
from player_quirks import breaks, choices, respelled
from player_screens import PLAYERS, ROWS
from second_players import KINDS, OF_TOKENS
from second_why import MENDING

BLANK = 0x20
Play = collections.namedtuple("Play", "drawing rows how content")
Difference = collections.namedtuple("Difference", "play place shown expected")


# What is played.


def mended(program, drawing):
    """The content with the safe beginning, or as the program mends it."""
    if not program:
        return MENDING + drawing.content
    return said(program, ["mend"], ans_file(drawing.content, drawing.columns, drawing.lines)).partition(b"\x1a")[0]


def plays_of(chance, program, drawing):
    """The ways to play a drawing without kinds. What is mended by nothing may need a part of the start elsewhere."""
    behind = other_text(chance, drawing.columns, drawing.lines)
    rows = drawing.lines + 1 if drawing.name == SMALL else ROWS
    yield Play(drawing, rows, "on a cleared screen", drawing.content)
    content = mended(program, drawing)
    if content != drawing.content:
        yield Play(drawing, rows, "mended, behind other text", behind + content)
    if is_free(drawing):
        yield Play(drawing, rows, "behind other text", behind + drawing.content)


def may_play(player, play):
    """Its screen can have this size, and it does not break at the content; blink is not seen by pixels."""
    fits = player.columns is None or (player.columns, ROWS) == (play.drawing.columns, play.rows)
    return fits and not breaks(player.name, play.content)


def steady_plays_of(chance, program, drawings):
    """Those for terminals whose pixels are compared: of 80 columns, and without blink."""
    for drawing in drawings:
        found = steady(drawing) if drawing.columns == COLUMNS and drawing.name != SMALL else None
        if found and found.content:
            yield from plays_of(chance, program, found)


def by_screen(plays):
    """The plays of each number of columns and rows."""
    groups = collections.defaultdict(list)
    for play in plays:
        groups[play.drawing.columns, play.rows].append(play)
    return sorted(groups.items())


# The comparison.


def first_difference(player, drawing, rows):
    """The place of the first cell that is not as in the picture, what is shown there, and what was meant; or None."""
    for row, column in ((row, column) for row in range(drawing.lines) for column in range(drawing.columns)):
        byte, attribute = drawing.picture[row][column]
        if row < len(rows) and column < len(rows[row]):
            shown, differs = rows[row][column], not player.shows(rows[row][column], drawing.picture, row, column)
            shown = player.told(shown) if differs else shown
        else:
            shown, differs = "nothing", byte != BLANK or attribute & 0x70
        if differs:
            return f"row {row + 1}, column {column + 1}", shown, (byte, attribute)
    return None


def differences(player, plays):
    """Each play that the player shows otherwise."""
    for (columns, count), group in by_screen(plays):
        for play, rows in zip(group, player.play(columns, count, [play.content for play in group])):
            found = first_difference(player, play.drawing, rows)
            if found:
                yield Difference(play, *found)


def reasons(player, found):
    """For each of these differences the known ways of the player without which it is gone, or None."""
    known = [None] * len(found)
    for ways in choices(player.name):
        spelled = {}
        for at, one in enumerate(found):
            content = known[at] is None and respelled(player.name, ways, one.play.content)
            if content:
                spelled[at] = one.play._replace(content=content)
        left = [one.play for one in differences(player, spelled.values())]
        for at, play in spelled.items():
            if not any(play is other for other in left):
                known[at] = ", ".join(ways)
    return known


# What is told.


def told_difference(player, one, reason):
    """A line for a difference, with all bytes where its reason is not known."""
    drawing = one.play.drawing
    where = f"{player.name}, {one.play.how}, {drawing.name} of {drawing.columns} x {drawing.lines}"
    if reason:
        return f"{where}: {reason}"
    return f"{where}: NOT KNOWN: {one.place}: {one.shown}, not {one.expected}: {one.play.content!r}"


def play_without_kinds(player, plays):
    """Plays the drawings without kinds, and tells each that differs: how many do for an unknown reason, and of all."""
    able = [play for play in plays if may_play(player, play)]
    first = list(differences(player, able))
    found = list(differences(player, [one.play for one in first]))
    known = reasons(player, found)
    for one, reason in zip(found, known):
        print(told_difference(player, one, reason), flush=True)
    drawings = len({play.drawing.content for play in able})
    counts = collections.Counter(play.how for play in able)
    print(f"{player.name}: {drawings} drawings: " + ", ".join(f"{count} {how}" for how, count in counts.items()))
    if player.is_seen_by_pixels:
        print("  its named colours: {}; as backgrounds: {}".format(*player.colours_told()))
    if len(first) > len(found):
        print(f"  {len(first) - len(found)} differ once, and not when they are played again")
    for reason, count in collections.Counter(filter(None, known)).most_common():
        print(f"  {count} differ: it {reason}")
    print(f"  {known.count(None)} differ for a reason that is not known", flush=True)
    return len({one.play.drawing.content for one, reason in zip(found, known) if not reason}), drawings


def play_kind(player, drawings):
    """Plays drawings of a kind: how many look different, but for known ways, and of how many; or nothing is told."""
    if not player.tells_cleared and "clear-in-colour" in drawings[0].kinds:
        return None
    if player.is_seen_by_pixels:
        drawings = [found for found in map(steady, drawings) if found and found.columns == COLUMNS]
    plays = [Play(drawing, ROWS, "on a cleared screen", drawing.content) for drawing in drawings]
    able = [play for play in plays if may_play(player, play)]
    return reasons(player, list(differences(player, able))).count(None), len(able)


def present_players(names):
    """The players of these names, or all, that can be played here."""
    for player in PLAYERS + PIXEL_PLAYERS:
        if not names or player.name.lower().replace(" ", "-") in names:
            missing = player.missing()
            print(f"{player.name}: not played, without {', '.join(missing)}" if missing
                  else f"{player.name}: {player.version()}", flush=True)
            if not missing:
                yield player


def print_row(first, cells):
    """Prints a row of the table."""
    print(f"| {first} | " + " | ".join(cells) + " |", flush=True)


def print_counts(kind, counts):
    """Prints how many drawings of how many look different on each player."""
    print_row(kind, [f"{count[0]} of {count[1]}" if count else "·" for count in counts])


def main(*words):
    program, words = (words[1], words[2:]) if words[:1] == ("--program",) else (None, words)
    number, seed, *names = (*words, *["1000", "1"][len(words):])
    chance, number = random.Random(int(seed)), int(number)
    players = list(present_players([name.lower() for name in names]))
    drawings = random_drawings(chance, number) + small_drawings(chance, number)
    found = list(found_drawings())
    found += [with_its_colours_named(drawing) for drawing in found if OF_TOKENS in drawing.kinds]
    found = [drawing for drawing in found if not drawing.kinds]
    plays = [play for drawing in drawings + found for play in plays_of(chance, program, drawing)]
    steady_plays = list(steady_plays_of(chance, program, drawings[:max(1, number // 4)] + found))
    without = [play_without_kinds(player, steady_plays if player.is_seen_by_pixels else plays) for player in players]
    print_row("The one kind", [player.name for player in players])
    print("|---|" + "---|" * len(players))
    print_counts("none", without)
    for kind in KINDS:
        of_kind = random_drawings(random.Random(f"{seed} {kind}"), max(1, number // 10), frozenset([kind]))
        print_counts(kind, [play_kind(player, of_kind) for player in players])
    return any(differ for differ, _ in without)


if __name__ == "__main__":
    sys.exit(main(*sys.argv[1:]))
