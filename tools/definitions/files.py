#!/usr/bin/env python3
"""Writes the table of docs/DEFINITIONS.md, and the two sums of README: the files that have to be believed, their lines,
and what they say.

    python3 tools/definitions/files.py            # writes them
    python3 tools/definitions/files.py --check    # ends with 1 if they are not what would be written

What a file says is its first comment up to the first comma, colon, bracket or full stop, unless TEXTS has other words.
GROUPS lists the files in reading order. The script ends with 1, and writes nothing, if

- the first group is not FileVerdict and what it imports, directly or through others;
- a file imports another that is in no group, except for those of ONE_WORD, which the page names in prose;
- a file is in two groups, or its first comment says that only private contracts cite it;
- TEXTS or ONE_WORD has more than is there.
"""
import pathlib
import re
import sys
from typing import NamedTuple

TOP = pathlib.Path(__file__).resolve().parent.parent.parent
PAGE, README = TOP / "docs" / "DEFINITIONS.md", TOP / "README.md"
BEGIN, END = "<!-- written by tools/definitions/files.py -->\n", "<!-- to here -->\n"
ROOT = "ans_verdict/FileVerdict"


class Group(NamedTuple):
    """Files that are read together, and what they are for."""

    title: str
    names: list
    is_command: bool = True  # whether the files of the whole command `check` are to be believed too


GROUPS = [
    Group("`check`, of a file's bytes", """
        ans_model/Bytes ans_model/File/Record ans_model/File/Layout ans_model/File/NoteConditions
        ans_model/File/Refusals ans_model/Sequence/TokenKind ans_model/Sequence/Spelling ans_model/Sequence/Meaning
        ans_model/Sequence/Reads ans_model/Screen/Attribute ans_model/Screen/State ans_model/Screen/Step
        ans_model/Screen/StartClass ans_model/Verdict/TokenFault ans_model/Verdict/Good ans_model/Verdict/Certain
        ans_model/Verdict/TwoStarts ans_model/Verdict/FirstFault ans_model/Verdict/LastFault ans_sauce/Parts
        ans_sauce/RecordBytes ans_verdict/FileVerdict""".split()),
    Group("`check`, the whole command", """
        ans_model/Text/Characters ans_model/Text/Hexadecimal ans_model/Text/FaultText ans_model/Text/Words
        ans_model/Text/ReportText ans_report/Message ans_report/RecordReports ans_write/Tried ans_write/Writes
        ans_options/CommandLine ans_check/CommandText ans_check/Run ans_check/Served ans_check/Naming
        ans_check/Ending ans_check/Said ans_check/Answer""".split()),
    Group("`needs`", """
        ans_model/Verdict/Needs ans_sauce/Split ans_sauce/Judged ans_verdict/StartParts ans_verdict/FileNeeds
        ans_model/Text/NeedsText""".split()),
    Group("`sauce` and `tokens`", "ans_model/Text/RecordText ans_model/Text/TokensText".split()),
    Group("`help`", "ans_options/Topics ans_report/Meanings".split()),
    Group("`show`", "ans_show/Looks ans_show/Runs ans_show/TerminalText ans_show/PageText".split()),
    Group("players", """
        ans_model/Sequence/Omitted ans_players/Kinds ans_players/Names ans_players/Sync ans_players/Situations
        ans_players/Named ans_players/Classes ans_players/Players ans_kinds/KindsUsed
        ans_kinds/SaidOfPlayers""".split(), False),
    Group("`why`", """
        ans_model/Screen/Beginning ans_kinds/Mend ans_pens/Evidence ans_pens/Lines ans_pens/Taller ans_hints/Places
        ans_hints/Conditions ans_hints/Rows ans_pens/Counted ans_hints/RowEnds ans_hints/Hints ans_hints/OtherWidths
        ans_forms/Pieces ans_sauce/Grown ans_sauce/Found ans_sauce/WithoutLines ans_why/Blamed ans_why/TerminalLetters
        ans_why/Known ans_why/OtherFiles ans_why/TextDamage ans_why/Explained ans_report/Counted ans_report/Quoted
        ans_report/FaultTold ans_why/Fonts ans_why/HintRows ans_why/HintsText ans_why/WidthsText ans_why/PlayersText
        ans_why/WhyText ans_fix/FlagsText ans_fix/Suggested ans_save/Names ans_table/ShellWord ans_check/LastWords
        ans_check/WhyTold ans_check/WhyRows""".split()),
    Group("`table`", """
        ans_table/Unopened ans_table/Findings ans_table/Labels ans_table/NameText ans_table/Columns ans_table/JsonRow
        ans_table/RowText ans_table/Counting ans_sums/Summing ans_sums/Sums ans_check/Listing ans_check/FileRows
        ans_check/Further ans_check/Table""".split()),
    Group("`mend`", """
        ans_model/MendFlags ans_mend/Drafts ans_sauce/Fields ans_mend/Tail ans_mend/Recounted ans_mend/EndMark
        ans_sauce/Contents ans_mend/OlderRecord ans_mend/LineEnds ans_mend/NewRecord ans_mend/Columns
        ans_forms/Unwanted ans_mend/TakingOut ans_hints/FullRowEnds ans_mend/FullRows ans_mend/LastEnds ans_mend/NamedColours ans_mend/Mending
        ans_report/Changes ans_mend/IdleText ans_mend/MendedText ans_fix/Trials
        ans_check/Suggesting""".split()),
    Group("`redraw`", """
        ans_redraw/Colours ans_redraw/Form ans_redraw/RedrawnFile ans_redraw/Redrawing
        ans_redraw/RedrawnText""".split()),
    Group("files that are written", """
        ans_options/Mistakes ans_save/Deeds ans_save/Reasons ans_save/Places ans_save/Replacing ans_save/Saving
        ans_written/Outcomes ans_written/NamedLines ans_check/Fates""".split()),
    Group("the program on files and streams", ["ans_check/SystemInput"]),
    Group("the library", """
        ans_c/Numbers ans_c/Row ans_c/Told ans_screen/GridEdits ans_screen/LentRows ans_verdict/LentScreen
        ans_verdict/ScreenRoom ans_mend/MendingRoom""".split(), False),
]
FIRST, COMMAND, OTHERS = GROUPS[0].names, GROUPS[0].names + GROUPS[1].names, GROUPS[2:]
ALL = [name for group in GROUPS for name in group.names]

# Imports for a word or two, which are not followed.
ONE_WORD = {
    ("ans_hints/Rows", "ans_pens/Pens"), ("ans_hints/FullRowEnds", "ans_pens/Pens"),
    ("ans_verdict/FileNeeds", "ans_report/NeedsBytes"), ("ans_table/Labels", "ans_report/Words"),
    ("ans_redraw/Form", "ans_players/Mends"), ("ans_screen/GridEdits", "ans_screen/HalfCells"),
    ("ans_screen/GridEdits", "ans_screen/KnownBits"), ("ans_check/Fates", "ans_write/Puts"),
}
# What is said in other words than those of the file's comment.
TEXTS = {
    "ans_model/File/Refusals": "which files are accepted, and why others are refused",
    "ans_model/Verdict/TwoStarts": "what the low and the high start show of a fault",
    "ans_model/Text/Words": "the names of the parts of a start",
    "ans_report/Message": "the line on standard error",
    "ans_write/Tried": "whether a device has failed",
    "ans_check/CommandText": "what each command writes of a file",
    "ans_sauce/Judged": "when what is said of a file is true",
    "ans_options/Topics": "the words that ask about a fault, a note or a word",
    "ans_players/Kinds": "the kinds in which players differ",
    "ans_players/Sync": "how sure it is where the players' cursors are",
    "ans_players/Situations": "where each kind arises",
    "ans_players/Named": "which kinds arise, how often, and where first",
    "ans_kinds/KindsUsed": "what is said of these kinds",
    "ans_model/Screen/Beginning": "the safe beginning",
    "ans_kinds/Mend": "what the safe beginning does to good content",
    "ans_hints/Conditions": "what is worth a hint",
    "ans_pens/Counted": "how often something holds, and where first",
    "ans_sauce/Found": "what is in a file whose record or layout is refused",
    "ans_sauce/WithoutLines": "when a record lacks nothing but its lines",
    "ans_why/Blamed": "the offending bytes of a fault",
    "ans_why/Known": "what they are recognised as",
    "ans_why/Explained": "when what `why` says is true",
    "ans_table/Findings": "when what a row says is true",
    "ans_mend/Tail": "what is cut off after a record",
    "ans_mend/EndMark": "the end mark after the content",
    "ans_forms/Unwanted": "which sequences are taken out",
    "ans_mend/TakingOut": "a file without them",
    "ans_hints/FullRowEnds": "line ends after full rows",
    "ans_mend/FullRows": "a file without them",
    "ans_mend/NamedColours": "which colour sequences get names, and in what bytes",
    "ans_mend/Mending": "when a file is mended, or a reason is true",
    "ans_sauce/Fields": "fields of a record that are set",
    "ans_report/Changes": "the lines of what was changed",
    "ans_redraw/Redrawing": "which file is written, or when a reason is true",
    "ans_c/Numbers": "what is reported in numbers",
    "ans_c/Told": "when what a caller gets to know is true",
    "ans_verdict/ScreenRoom": "when `needs_on` and `why_on` answer",
    "ans_mend/MendingRoom": "when `mend_on` answers",
}


def path_of(name):
    crate, rest = name.split("/", 1)
    return TOP / "crates" / crate / "specs" / f"{rest}.antt"


def text_of(name):
    return path_of(name).read_text("utf-8")


def lines_of(names):
    return sum(len(text_of(name).splitlines()) for name in names)


def imports(name):
    """The files of the crates that it imports."""
    for crate, rest in re.findall(r"^(?:pub )?use Rattle\.(\w+)\.specs\.([\w.]+?)(?: as \w+|\.\{.*)?$", text_of(name),
                                  flags=re.MULTILINE):
        other = f"{crate}/{rest.replace('.', '/')}"
        if path_of(other).exists() and (name, other) not in ONE_WORD:
            yield other


def with_imports(names):
    found, left = set(), list(names)
    while left:
        name = left.pop()
        if name not in found:
            found.add(name)
            left += imports(name)
    return found


def comment_of(name):
    """Its first comment."""
    lines = re.match(r"(?:-- .*\n)*", text_of(name))[0].splitlines()
    return " ".join(line[3:] for line in lines)


def what_it_says(name):
    said = TEXTS.get(name) or re.split(r"[.,:](?: |$)| \(", comment_of(name))[0]
    return said[0].upper() + said[1:]


def short(name):
    return f"`{name.rpartition('/')[2]}`"


def and_list(parts):
    return " and ".join(filter(None, [", ".join(parts[:-1]), *parts[-1:]]))


def share(other, taken):
    """How many files of a group are taken, and which, if they are few."""
    both = [name for name in other.names if name in taken]
    some = f" ({', '.join(map(short, both))})" if len(both) < min(5, len(other.names)) else ""
    return f"{len(both)} of {other.title}{some}" if both else ""


def head_of(group):
    """The row above its files: all that is to be believed for it, and how much of that is in which group."""
    if group in GROUPS[:2]:
        taken, parts = FIRST if group is GROUPS[0] else COMMAND, []
    else:
        taken = with_imports(group.names) | set(COMMAND if group.is_command else [])
        parts = [share(other, taken) for other in OTHERS if other is not group]
        parts = [f"{len(group.names)} here", f"{len(taken & set(COMMAND))} of `check`", *filter(None, parts)]
    said = f"{len(taken)} files{': ' if parts else ''}{and_list(parts)}"
    return f"| **{group.title}** | **{lines_of(taken):,}** | {said} |"


def table():
    rows = [f"They are {len(ALL)} files, {lines_of(ALL):,} lines with their imports and comments. What `check` says of "
            f"a file's bytes takes {len(FIRST)} files, {lines_of(FIRST):,} lines; the whole command takes "
            f"{len(COMMAND)} files, {lines_of(COMMAND):,} lines.", "",
            "| File | Lines | What it says |", "|---|--:|---|"]
    for group in GROUPS:
        rows.append(head_of(group))
        for name in group.names:
            where = path_of(name).relative_to(TOP)
            rows.append(f"| [`{name}`](../{where}) | {lines_of([name])} | {what_it_says(name)} |")
    return "\n".join(rows) + "\n"


def mistakes():
    if with_imports([ROOT]) != set(FIRST):
        yield f"the first group is not what {ROOT} imports: {with_imports([ROOT]) ^ set(FIRST)}"
    for name in sorted(set(ALL)):
        yield from (f"{name} imports {other}, which is in no group" for other in imports(name) if other not in ALL)
        if ALL.count(name) > 1:
            yield f"{name} is in two groups"
        if "Only private contracts" in comment_of(name):
            yield f"{name}: {comment_of(name)}"
    yield from (f"TEXTS has {name}, which is in no group" for name in TEXTS if name not in ALL)
    for name, other in sorted(ONE_WORD):
        if name not in ALL or f"Rattle.{other.replace('/', '.specs.', 1).replace('/', '.')}" not in text_of(name):
            yield f"{name} does not import {other}"


def written():
    """What each page would be."""
    before, rest = PAGE.read_text("utf-8").split(BEGIN)
    after = rest.split(END)[1]
    readme, count = re.subn(
        r"\d+ files of definitions, [\d,]+ lines; of the whole command, \d+ files, [\d,]+ lines",
        f"{len(FIRST)} files of definitions, {lines_of(FIRST):,} lines; of the whole command, {len(COMMAND)} files, "
        f"{lines_of(COMMAND):,} lines", README.read_text("utf-8"))
    if count != 1:
        raise SystemExit("README does not say how many files have to be believed")
    return {PAGE: f"{before}{BEGIN}\n{table()}\n{END}{after}", README: readme}


def main(arguments):
    wrong = list(mistakes())
    if wrong:
        print("\n".join(wrong))
        return 1
    differ = {page: text for page, text in written().items() if page.read_text("utf-8") != text}
    for page, text in differ.items():
        if arguments != ["--check"]:
            page.write_text(text, "utf-8")
        print(f"{page.relative_to(TOP)} {'differs' if arguments == ['--check'] else 'is written'}")
    print(f"{len(ALL)} files, {lines_of(ALL):,} lines; {len(differ)} pages differ{'' if arguments else 'ed'}")
    return 1 if differ and arguments == ["--check"] else 0


if __name__ == "__main__":
    sys.exit(main(sys.argv[1:]))
