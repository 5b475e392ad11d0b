#!/usr/bin/env python3
"""tables.py [--check]: writes the constant texts of ans.h, from where the crates have them.

Between two marker comments ans.h has the ways in which players differ, what offending bytes are recognised as, and five
functions that give constant texts. This script writes all that: the faults and the notes have their texts from
`ans_report`, what bytes are recognised as comes from `ans_why`, the words of players from `ans_players`, and the names
of the parts from `ans_model`. With --check it writes nothing, and its status is 1 if ans.h is not as it would write it.
The last line says how many texts there are, and whether ans.h is as it was."""
import re
import sys
from pathlib import Path

HERE = Path(__file__).resolve().parent
CRATES = HERE.parent / "crates"
HEADER = HERE / "ans.h"
BEGIN = "/* The tables begin. library/tables.py writes them. */\n"
END = "/* The tables end. */\n"

NUMBERED = """\
/* {comment} */
static inline const char *{name}(uint32_t number) {{
    static const char *const texts[] = {{
{texts}
    }};
    return number < sizeof texts / sizeof *texts ? texts[number] : NULL;
}}
"""
OF_A_BIT = """\
/* {comment} */
static inline const char *{name}(uint32_t bit) {{
    static const char *const texts[] = {{
{texts}
    }};
    for (uint32_t i = 0; i < sizeof texts / sizeof *texts; i++)
        if (bit == (uint32_t)1 << i)
            return texts[i];
    return NULL;
}}
"""


def source(name):
    return (CRATES / name).read_text(encoding="utf-8")


def body(text, opening):
    """What is between a line and the next one that is indented no deeper and closes a block."""
    found = re.search(rf"^( *){opening}.*?^\1[}}\]]", text, re.DOTALL | re.MULTILINE)
    return found[0]


def by_variant(text, type_name, opening):
    """What a function gives for each variant of a type, a text or a number."""
    arm = rf'{type_name}::(\w+)(?: \{{[^}}]*\}})? => (?:"([^"]*)"|(\d+)),'
    return {name: text or int(number) for name, text, number in re.findall(arm, body(text, opening))}


def column(table):
    """The texts of a table of `ans_report`, without what they mean."""
    rows = body(source("ans_report/src/meanings.rt"), f"static {table}")
    return re.findall(r'^ {8}"([^"\\]+)",$', rows, re.MULTILINE)


def faults():
    """The texts of the faults by their numbers, or none."""
    found = {int(text[1:].split()[0]): text for text in column("FAULTS")}
    return [found.get(number) for number in range(max(found) + 1)]


def notes():
    return [None, *column("NOTES")]


def known():
    """What bytes are recognised as, by name, in the order of their numbers. One number is for all of Terminal."""
    texts = by_variant(source("ans_why/src/known_bytes.rt"), "Known", "pub fn text")
    texts["Terminal"] = "a sequence of modern terminals"
    arms = re.findall(r"Known::(\w+)(?:\(_\))?\) => (\d+),", source("ans_c/src/row_numbers.rt"))
    return {name: texts[name] for name, _ in sorted(arms, key=lambda arm: int(arm[1]))}


def kinds():
    """The words for the ways in which players differ, by name, in their order."""
    text = source("ans_players/src/difference.rt")
    numbers, words = (by_variant(text, "Difference", f"pub fn {it}") for it in ("number", "word"))
    return {name: words[name] for name in sorted(words, key=numbers.get)}


def parts():
    return re.findall(r'push_part\(&mut names, self\.\w+, "(\w+)"\)', source("ans_model/src/start.rt"))


def constant(prefix, name):
    """The name of a constant: DosColours is ANS_.._DOS_COLOURS."""
    return prefix + re.sub(r"(?<!^)(?=[A-Z])", "_", name).upper()


def constants(comment, prefix, numbers):
    lines = ",\n".join(f"    {constant(prefix, name)} = {number}" for name, number in numbers.items())
    return f"/* {comment} */\nenum {{\n{lines}\n}};\n"


def function(form, name, comment, texts):
    lines = ",\n".join("        NULL" if text is None else f'        "{text}"' for text in texts)
    return form.format(name=name, comment=comment, texts=lines)


def tables():
    """All that is between the markers."""
    is_known, players = known(), kinds()
    return "\n".join([
        constants("The ways in which players differ, added up. docs/PLAYERS.md explains each.", "ANS_PLAYERS_",
                  {name: 1 << i for i, name in enumerate(players)}),
        constants("What offending bytes are recognised as; 0 is nothing.", "ANS_KNOWN_",
                  {name: i + 1 for i, name in enumerate(is_known)}),
        function(NUMBERED, "ans_fault_text", 'The text of the fault Fn, such as "F21 scrolls". NULL: there is none.',
                 faults()),
        function(NUMBERED, "ans_note_text", "The text of the note Nn. NULL: there is none.", notes()),
        function(NUMBERED, "ans_known_text", 'What offending bytes are recognised as, such as "ANSI music". NULL: '
                 "nothing.", [None, *is_known.values()]),
        function(OF_A_BIT, "ans_part_name", 'The name of one part of the start, such as "screen" for ANS_SCREEN. NULL: '
                 "it is no part, or several.", parts()),
        function(OF_A_BIT, "ans_player_word", 'The word for one way in which players differ, such as "wrap-at-once". '
                 "NULL: it is none, or several.", players.values()),
    ])


def main(words):
    if words not in ([], ["--check"]):
        sys.exit(__doc__)
    header = HEADER.read_text(encoding="utf-8")
    before, rest = header.split(BEGIN)
    written = before + BEGIN + tables() + END + rest.split(END)[1]
    if not words:
        HEADER.write_text(written, encoding="utf-8")
    count = sum(text is not None for text in [*faults(), *notes(), *known(), *kinds(), *parts()])
    differs = written != header
    state = "is as it was" if not differs else "is not as here" if words else "was written again"
    print(f"{count} texts, ans.h {state}")
    return 1 if words and differs else 0


if __name__ == "__main__":
    sys.exit(main(sys.argv[1:]))
