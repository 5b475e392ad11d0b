#!/usr/bin/env python3
"""Makes docs/FAULTS.md of what the program says of each fault and each note, and of the examples that the gate tries.

    python3 tools/runs/meanings.py            # writes it
    python3 tools/runs/meanings.py --check    # ends with 1 if it is not what would be written

The texts are those of the tables in `crates/ans_report/src/meanings.rt`, which `anscheck help F20` prints, and the
examples are the rows of `crates/anscheck_rows/data/fault_page.toml`. What else the page says is below. `try_pages.py`
compares the texts with what the program prints, and `page/make.py` takes those of the page for browsers from here.
"""
import pathlib
import re
import sys

sys.dont_write_bytecode = True

from rows import file_bytes, input_of, plain_record, tables, words_of  # noqa: E402

TOP = pathlib.Path(__file__).resolve().parent.parent.parent
TEXTS = TOP / "crates" / "ans_report" / "src" / "meanings.rt"
PAGE = TOP / "docs" / "FAULTS.md"

FAULT = re.compile(r'^ {8}"(F\d+) ([^"]*)",\n {8}Help::\w+,\n {8}"\\\n(.*?)"\n {4}\),$', re.DOTALL | re.MULTILINE)
NOTE = re.compile(r'^ {8}(\d+),\n {8}"([^"]*)",\n {8}"\\\n(.*?)"\n {4}\),$', re.DOTALL | re.MULTILINE)

INTRODUCTION = """
# The faults, and how to fix a drawing

`anscheck` refuses a file for its first fault, in a line such as `fault: at 249, F21 scrolls: <LF>`, or, of `check`,
`at 249: F21 scrolls`. This page has what `anscheck help F21` prints of that fault, and examples. The number after
`at` counts the bytes before the place, from the file's start. `anscheck FILE` has the bytes there, the hints and the
cursor; once the fault is fixed, another may show.

`anscheck mend -o FIXED` writes a copy under that name, and with `-i` in its place the drawing itself
([more](MANUAL.md#writing-files)). It writes nothing that would still be refused, so if there are several faults, give
all flags at once. What it writes passes from every start; look at its picture. [The manual](MANUAL.md) has the flags,
and `anscheck help WORD` explains the others of its words.

In the examples `ESC` is the byte 1Bh, `<CR>`, `<LF>` and `<TAB>` are 0Dh, 0Ah and 09h, `<1A>` is the byte of that
number, and `<RECORD>` the 128 bytes of a record that suits the drawing, except for the bytes that are named, which
are hexadecimal if they are numbers. A size is in columns x lines. If nothing else is said, the line is that of
`check --cleared`.
"""

# The parts of the page: a heading, the first of its faults or notes, and what is said of all of them.
PARTS = (
    ("The record", "F1", """
The record is the last 128 bytes of the file. Its faults are looked for in this order, and if it has one, the content
is not looked at. Most drawing programs write it again when they save the drawing. `mend --columns N` sets the width,
`--lines N` the lines if too few are stated, and `--ice` the flag for bright backgrounds (iCE colours) in place of
blink. No command sets the texts. In a hex editor, or by these lines, a field is set on a copy, at its offset: for F2 to
F7 the number after `at`, else the file's size, less 128, plus [that in the record](PROFILE.md#the-file). This sets two
bytes to 25 and 0, the low byte first, in octal digits.

```text
printf '\\31\\0' | dd of=COPY bs=1 seek=101 conv=notrunc
```

To cut off what follows a record (F1), find where it begins, here at 3, and keep what is before its end. To cut out
what is after the end mark (F8), here at 3, keep what is before it, and the record:

```text
grep -abo SAUCE00 FILE | tail -1
head -c $((3 + 128)) FILE > FIXED
(head -c 3 FILE; tail -c 128 FILE) > FIXED
```
"""),
    ("Broken sequences", "F9", """
A sequence is `ESC[`, numbers with `;` between them, and one letter: `ESC[1;33m`. After the `[` there may be a mark,
`?` or `=`. The offset is that of the ESC. Modern colours by `m` are not refused: `ESC[38;5;208m` is three numbers to
ANSI.SYS, of which 5 makes the text blink.
"""),
    ("What is not allowed", "F15", ""),
    ("Place", "F19", """
The screen has the record's width and lines, and one more row below them, the *spare row*. The cursor may be there, as
it is after a full last row, but nothing may be printed there: the picture is the stated lines.

UTF-8 takes two to four bytes for one character, and each byte is a character here. `iconv` converts the drawing, but
not its record, whose numbers are no text: give it the content only, whose length `anscheck check` prints, here 5000
bytes. `sed` removes a mark at its start.

```text
(head -c 5000 FILE | sed '1s/^\\xEF\\xBB\\xBF//' | iconv -f UTF-8 -t CP437 && tail -c +5001 FILE) > CONVERTED
anscheck mend CONVERTED -o FIXED
```
"""),
    ("Start", "F22", """
A viewer may begin a drawing on any screen: with old text on it, with the cursor anywhere, in colours left over, with
wrap off. Each of these is a *start*. `check` asks for the same picture from every start, and these faults say that
there are two starts from which it differs. `check --cleared` knows only the cleared start, and never finds them.
Between the two, each flag makes one part of the start known: `--known-screen`, `--known-cursor`, `--known-saved`,
`--known-colours` and `--known-wrap`; the starts that are left are a *class of starts*. `anscheck needs FILE` says
which parts a drawing needs.
"""),
    ("Notes", "N1", """
A note says what is odd about a record. It refuses nothing.
"""),
)


def plain(text):
    """A text without the escapes of its literal."""
    return re.sub(r"\\(.)", r"\1", text)


def titles():
    """The title of each fault and each note, by its name: what is printed of it without its offset."""
    text = TEXTS.read_text(encoding="utf-8")
    faults = {name: title for name, title, _ in FAULT.findall(text)}
    return faults | {f"N{number}": title for number, title, _ in NOTE.findall(text)}


def meanings():
    """What each fault and each note means, by its name: what help prints, without the title and the line after it."""
    text = TEXTS.read_text(encoding="utf-8")
    faults = {name: plain(meaning) for name, _, meaning in FAULT.findall(text)}
    return faults | {f"N{number}": plain(meaning) for number, _, meaning in NOTE.findall(text)}


def helps():
    """What help prints of each fault and each note, by its name."""
    named, meant = titles(), meanings()
    return {name: f"{name} {named[name]}\n\n{meant[name]}" for name in named}


# The examples.


def shown(data):
    """Bytes as the page writes them."""
    names = {0x1B: "ESC", 0x0D: "<CR>", 0x0A: "<LF>", 0x09: "<TAB>"}
    return "".join(names.get(byte) or (chr(byte) if 0x20 <= byte < 0x7F else f"<{byte:02X}>") for byte in data)


def quoted(data):
    """Bytes as the page quotes them."""
    return f"`{shown(data)}`" if data else "no byte"


def field_of(at, text):
    """What is in a field of a record: its texts are before byte 90, and its numbers after them."""
    return f"`{text}`" if at < 90 else f"`{text.encode('latin-1').hex(' ').upper()}`"


def file_shown(given):
    """The bytes of a file, and what of it is not in them: its size, or the fields of its record that differ."""
    if "drawing" in given:
        content, columns, lines = given["drawing"]
        return quoted(content.encode("latin-1")), f"{columns} x {lines}"
    record = file_bytes({"record": given["record"]}) if "record" in given else b""
    data = file_bytes(given)
    for held in filter(None, (record, plain_record(2, 1, 2))):
        data = data.replace(held, b"\0RECORD\0")
    fields = [f"{field_of(at, text)} at byte {at} of the record" for at, text in given.get("record", [])]
    return quoted(data).replace("<00>RECORD<00>", "<RECORD>"), " and ".join(fields)


def shown_command(words):
    """How the words of an example are said, if they are not those of most."""
    said = {"check --cleared": "", "check": "from every start"}
    return said.get(" ".join(words), f"by `{' '.join(words)}`")


def line_of(printed, title):
    """The line of a report that has the title, or else the verdict."""
    lines = printed.splitlines()
    return next((line for line in lines if title in line), None) or next(line for line in lines if "verdict" in line)


def examples():
    """The lines of the page for each fault and each note, by its name. A file that passes follows one that fails."""
    named, found, name = titles(), {}, None
    table = dict(tables())["fault_page.toml"]
    for row in table["row"]:
        name = next((it for it, title in named.items() if title in row["prints"]), name)
        data, besides = file_shown(input_of(row))
        words = [part for part in (besides, shown_command(words_of(table, row)[0])) if part]
        line = line_of(row["prints"], named[name])
        found.setdefault(name, []).append(", ".join([data, *words]) + f": `{line}`")
    return found


# The page.


def section(name, title, meaning, lines):
    """The section of a fault or a note."""
    listed = "".join(f"- {line}\n" for line in lines)
    return f"## {name} {title}\n\n```text\n{meaning}```\n\n{listed}"


def anchor(heading):
    """What a link to a heading ends in."""
    return re.sub(r"[^\w -]", "", heading.lower()).replace(" ", "-")


def contents(named):
    """A link to each fault and each note."""
    return ", ".join(f"[{name}](#{anchor(f'{name} {title}')})" for name, title in named.items()) + "\n"


def joined(text):
    """A text whose paragraphs are a line each, and whose blocks stay."""
    parts = re.split(r"(^```.*?^```$)", text.strip(), flags=re.DOTALL | re.MULTILINE)
    paragraphs = [it for n, part in enumerate(parts) for it in ([part] if n % 2 else part.strip().split("\n\n"))]
    return "\n\n".join(it if it.startswith("```") else " ".join(it.split()) for it in paragraphs if it) + "\n"


def page():
    """The whole page."""
    named, meant, found = titles(), meanings(), examples()
    heads = {first: f"# {heading}\n" + (f"\n{joined(said)}" if said else "") for heading, first, said in PARTS}
    parts = [joined(INTRODUCTION), contents(named)]
    for name, title in named.items():
        if name in heads:
            parts.append(heads[name])
        parts.append(section(name, title, meant[name], found[name]))
    return "\n".join(parts)


def main(arguments):
    made = page()
    if arguments == ["--check"]:
        same = PAGE.read_text(encoding="utf-8") == made
        print(f"docs/FAULTS.md is {'up to date' if same else 'not what tools/runs/meanings.py makes'}")
        return 0 if same else 1
    PAGE.write_text(made, encoding="utf-8", newline="\n")
    return 0


if __name__ == "__main__":
    sys.exit(main(sys.argv[1:]))
