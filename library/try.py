#!/usr/bin/env python3
"""try.py PROGRAM ARCHIVE [--sanitize] [FILE..]: compares the library with the program.

PROGRAM is the built anscheck, ARCHIVE the built libans_c.a. `tell` is built in C, in C++ and in Rust and run in Python.
About each FILE (by default the drawings of conformance/ and of crates/anscheck/data, those of try/drawings.py and of
tools/runs/made_drawings.py, and a file that is too long) each must say what the program says: the verdict and each
cell from three classes of starts, what the file needs, all numbers of its row, the text of why, what the record says,
the fixed file with its text, without options and with all of them, and the redrawn file with its text. Left out are
the lines that only the program has, since it tries what mends a file: `fix:` and `more:` of a refused one, and the
flags to try. With --sanitize `tell` is also built by cc with -fsanitize=address,undefined, and has to be silent.

Besides the drawings it tries that header, library, program, ans.pc and the package for JavaScript have one version;
that the constant texts of the header are those of the crates, of the library and of the program; what the calls answer
on scratch of any length and alignment (try/scratch.c), and if malloc refuses memory (try/memory.c); and each example of
README.md, as C and as C++. These two are built with sanitizers in any case. It needs cc, c++ and rustc. The last line
is 'N files in L languages and T other trials, M differ'."""
import importlib.util
import json
import re
import subprocess
import sys
import tempfile
from pathlib import Path

HERE = Path(__file__).resolve().parent
TOP = HERE.parent
sys.path.insert(0, str(HERE))
sys.dont_write_bytecode = True
import tables  # noqa: E402
import tell  # noqa: E402

PARTS = {name: 1 << i for i, name in enumerate(tables.parts())}
PLAYERS = {word: 1 << i for i, word in enumerate(tables.kinds().values())}
KNOWN = {text: i + 1 for i, text in enumerate(tables.known().values())}
ASPECTS = {"stretch": 1, "square": 2}
CLASSES = {0: [], 3: ["--known-screen", "--known-cursor"], 31: ["--cleared"]}
ALL_CHANGES = ["--take-out", "--crlf", "--join-rows", "--least-lines", "--name-colours", "--mixed", "--ice",
               "--record", "--add-record", "80"]
CHANGES = {(0, 0): [], (255, 80): ALL_CHANGES}
# Where a record has its texts (docs/PROFILE.md), from the file's end, and how long these are.
PLACES = {"font": (22, 22), "date": (46, 8), "title": (121, 35), "author": (86, 20), "group": (66, 20)}
FLAGS = 23
LOW_GLYPHS = " ☺☻♥♦♣♠•◘○◙♂♀♪♫☼►◄↕‼¶§▬↨↑↓→←∟↔▲▼"
QUOTED = {0: "<00>", 9: "<TAB>", 10: "<LF>", 13: "<CR>", 27: "<ESC>", 32: "<SP>"}
# If a piece has no bytes, its start says nothing.
NO_BYTES = re.compile(rb"^(bytes|comments|font|date|title|author|group) \d+ 0 $", re.MULTILINE)
# The last lines of a refused file in a text of why, and the flags to try in what mending says, with its length.
FIX = re.compile(rb"^(?:fix|everywhere|more): .*\n", re.MULTILINE)
FLAGS_TO_TRY = re.compile(rb"^(mended 1) \d+\n(.*\n)(?:try:|see anscheck why for the place,) .*\n", re.MULTILINE)
TOO_LONG, LONGEST_FILE, LONGEST_QUOTE = 3, 16_777_216, 32
STRICT = ["-O2", "-Wall", "-Wextra", "-Werror", "-pedantic", f"-I{HERE}"]
LANGUAGES = {"C": ["cc", "-std=c99", *STRICT], "C++": ["c++", "-std=c++11", *STRICT, "-x", "c++"]}
SANITIZE = ["-g", "-fsanitize=address,undefined", "-fno-sanitize-recover=all"]


def run(words):
    return subprocess.run([str(word) for word in words], capture_output=True, check=False)


def compiled(words, source, archive, out):
    subprocess.run([*words, source, "-x", "none", archive, "-o", out], check=True)
    return out


def build(archive, folder, sanitize):
    """Builds the callers, and returns how each is run."""
    callers = {}
    for name, words in LANGUAGES.items():
        callers[name] = [compiled(words, HERE / "tell.c", archive, folder / f"tell_{name}")]
    rust = folder / "tell_rust"
    subprocess.run(["rustc", "-O", HERE / "tell.rs", "-C", f"link-arg={archive}", "-o", rust], check=True)
    callers["Rust"] = [rust]
    callers["Python"] = [sys.executable, HERE / "tell.py", shared(archive, folder)]
    if sanitize:
        words = [*LANGUAGES["C"], *SANITIZE]
        callers["C with sanitizers"] = [compiled(words, HERE / "tell.c", archive, folder / "tell_sanitized")]
    return callers


def shared(archive, folder):
    """The shared library of an archive."""
    ran = subprocess.run([HERE / "shared.sh", archive, folder / "shared"], check=True, capture_output=True, text=True)
    return ran.stdout.strip()


def fault_of(line):
    """Returns the numbers of the fault in a line."""
    found = re.fullmatch(r"at (\d+): F(\d+) .*?(?: \(row (\d+), column (\d+)\))?", line)
    offset, number, row, column = found.groups()
    return f"{number} {offset} {row or 0} {column or 0}"


def glyphs(data):
    """The characters by which bytes are shown."""
    return "".join(LOW_GLYPHS[it] if it < 32 else "⌂" if it == 127 else bytes([it]).decode("cp437") for it in data)


def quoted(data):
    """Bytes as why quotes them."""
    text = "".join(QUOTED.get(it) or glyphs([it]) for it in data[:LONGEST_QUOTE])
    return text + " .." if len(data) > LONGEST_QUOTE else text


def piece(name, data, start, length):
    return f"{name} {start if length else 0} {length} {data[start:start + length].hex()}\n"


def blamed(data, at, quote, told_length):
    """The piece of the offending bytes. If the quote does not show all of them, their number is the reported one."""
    if not quote:
        return piece("bytes", data, 0, 0)
    fitting = [count for count in [*range(1, LONGEST_QUOTE + 1), told_length] if quoted(data[at:at + count]) == quote]
    return piece("bytes", data, at, fitting[0]) if fitting else f"nothing at {at} is shown as {quote}\n"


def place(line):
    """The numbers of a position; for a cell, or if there is none, twice 0."""
    found = re.fullmatch(r"row (\d+), column (\d+)", line)
    return f"{found[1]} {found[2]}" if found else "0 0"


def passing_line(row):
    def bits(name, values):
        return sum(values[word] for word in row.get(name, []))

    numbers = bits("needs", PARTS), bits("players", PLAYERS), bits("needs_on_all_players", PARTS)
    return "passing {} {} {} {}\n".format(*numbers, int(row.get("taller_screens") == "same"))


def fault_and_bytes(lines):
    """The fault that why names, as check prints it, and the offending bytes as why quotes them, if there are any."""
    said = lines.get("fault", lines.get("because", "at 0, F0 "))
    place_of_it, fault = said.split(", ", 1)
    fault, _, bytes_quoted = fault.partition(": ")
    return f"{place_of_it}: {fault}", bytes_quoted


def known_of(lines):
    """The number of what why recognises. A file that passes blames nothing, and sequences of terminals have one."""
    said = lines.get("is", "") if lines["verdict"] == "refused" else ""
    return KNOWN.get(said.split(": ")[0], 0)


def blame_lines(data, row, why, told_length):
    """What the row blames, by the lines of why, with which the row of the table has to agree."""
    lines = dict(line.split(": ", 1) for line in why.splitlines() if ": " in line)
    fault, bytes_quoted = fault_and_bytes(lines)
    at = int(fault[3:].split(":")[0])
    low = lines.get("from the top left", lines.get("cursor", ""))
    high = lines.get("from the bottom right", lines.get("cursor", ""))
    least = lines.get("lines", "0").split(",")[0]
    if "fault" in row and (not fault.startswith(f"at {row['at']}: {row['fault']} ")
                           or place(low) != f"{row.get('row', 0)} {row.get('column', 0)}"):
        return f"why and the table differ: {fault}, {low}, {row}\n"
    return (f"fault {fault_of(fault)}\n{blamed(data, at, bytes_quoted, told_length)}low {place(low)}\n"
            f"high {place(high)}\nknown {known_of(lines)}\nlines {least}\nmends {int('because' in lines and 'fix' in lines)}\n")


def parts_lines(data, row):
    count = 64 * len(row.get("comments", []))
    notes = sum(1 << int(label[1:]) for label in row.get("notes", []))
    comments = piece("comments", data, len(data) - 128 - count, count)
    return f"content {row.get('content', 0)}\nnotes {notes}\n{comments}"


def fields_lines(data, row):
    """What the row has of the record, by the row of the table and by the places of the texts in a record."""
    if "width" not in row:
        return "fields 0 0 0 0 0 0 0\n" + "".join(piece(name, data, 0, 0) for name in PLACES)
    flags, aspect = data[len(data) - FLAGS], ASPECTS.get(row.get("aspect"), 0)
    numbers = flags, int(row["ice"]), row.get("spacing", 0), aspect, row["width"], row["lines"]
    text = "fields 1 {} {} {} {} {} {}\n".format(*numbers)
    for name, (before_end, length) in PLACES.items():
        start = len(data) - before_end
        field = data[start:start + length].rstrip(b" \0")
        if glyphs(field) != row[name]:
            return f"{name} is {row[name]!r} in the table\n"
        text += piece(name, data, start, len(field))
    return text


def without_fix(why):
    """A text of why without the commands, which only the program has."""
    return FIX.sub(b"", why)


def row_lines(program, file, told_length):
    """What a caller has to say of a file's row, by what `table --json` and `why` say."""
    data, ran = Path(file).read_bytes(), run([program, "table", "--json", file])
    row, why = json.loads(ran.stdout), run([program, "why", file]).stdout.decode()
    head = f"row {int(row['verdict'] == 'refused')}\n"
    return "".join([head, passing_line(row), blame_lines(data, row, why, told_length), parts_lines(data, row),
                    fields_lines(data, row)]).encode()


def version_line():
    return f"version 0 {stated_versions()['ans.h']}\n".encode()


def wanted(program, file, told_length=0):
    """What a caller has to say of a file, by what the program says. The program does not say how many offending bytes
    there are if they are more than 32; the reported number is taken then."""
    told = [version_line()]
    for known, flags in CLASSES.items():
        ran = run([program, "check", "--cells", *flags, file])
        report = ran.stdout.decode()
        if ran.returncode:
            said = "refused " + fault_of(report.splitlines()[-1])
        else:
            said = "pass " + "".join(report.split("\ncells:\n")[1].split("\n"))
        told.append(f"check {known} {said}\n".encode())
    ran = run([program, "needs", file])
    last = ran.stdout.decode().splitlines()[-1]
    bits = 0 if ran.returncode else sum(PARTS.get(word, 0) for word in last.split()[1:])
    told.append((f"needs refused {fault_of(last)}\n" if ran.returncode else f"needs pass {bits}\n").encode())
    told.append(row_lines(program, file, told_length))
    for name, command in (("why", "why"), ("record", "sauce")):
        ran = run([program, command, file])
        text = without_fix(ran.stdout) if command == "why" else ran.stdout
        told.append(f"{name} {ran.returncode} {len(text)}\n".encode() + text)
    for (classes, add_record), flags in CHANGES.items():
        ran = run([program, "mend", *flags, file])
        told.append(f"mend {classes} {add_record} {len(ran.stdout)}\n".encode() + ran.stdout)
        told.append(f"mended {ran.returncode} {len(ran.stderr)}\n".encode() + ran.stderr)
    ran = run([program, "redraw", file])
    told.append(f"redraw {len(ran.stdout)}\n".encode() + ran.stdout)
    told.append(f"redrawn {ran.returncode} {len(ran.stderr)}\n".encode() + ran.stderr)
    return b"".join(told)


def wanted_of_too_long():
    answers = [f"check {known} answer {TOO_LONG}\n" for known in CLASSES] + [f"needs answer {TOO_LONG}\n"]
    texts = [f"row {TOO_LONG}\nwhy {TOO_LONG} 0\nrecord {TOO_LONG} 0\n"]
    mends = [f"mend {classes} {added} 0\nmended {TOO_LONG} 0\n" for classes, added in CHANGES]
    redraw = f"redraw 0\nredrawn {TOO_LONG} 0\n"
    return version_line() + "".join([*answers, *texts, *mends, redraw]).encode()


def other_line(came, text):
    """The first line that is another than is wanted."""
    for line, right in zip([*came.splitlines(), b""], [*text.splitlines(), b""]):
        if line != right:
            return f"{line[:200]!r}, not {right[:200]!r}"
    return f"{len(came)} bytes, not {len(text)}"


def differing(callers, program, file, text=None):
    """The callers that say of a file what is not wanted: the language, and the first line that is another."""
    told = {language: run([*words, file]) for language, words in callers.items()}
    if text is None:
        lengths = re.findall(rb"^bytes \d+ (\d+)", next(iter(told.values())).stdout, re.MULTILINE)
        text = FLAGS_TO_TRY.sub(rb"\1\n\2", wanted(program, file, int(lengths[0]) if lengths else 0))
    for language, ran in told.items():
        came = FLAGS_TO_TRY.sub(rb"\1\n\2", NO_BYTES.sub(rb"\1 0 0 ", ran.stdout + ran.stderr))
        if came != text or ran.returncode:
            yield language, other_line(came, text)


def stated_versions():
    """The version that each file states."""
    return {
        "ans.h": re.search(r'^#define ANS_VERSION "(.*)"$', (HERE / "ans.h").read_text("utf-8"), re.MULTILINE)[1],
        "ans.pc": re.search(r"^Version: (.*)$", (HERE / "ans.pc").read_text("utf-8"), re.MULTILINE)[1],
        "js/package.json": json.loads((HERE / "js/package.json").read_text("utf-8"))["version"],
    }


def wrong_versions(program, library):
    """Each place whose version is not that of the header."""
    versions = {**stated_versions(), "the program": run([program, "--version"]).stdout.decode().split()[1],
                "the library": tell.text_of(library.ans_copy_version)[1].decode()}
    return [f"{where} is of version {it}, ans.h of {versions['ans.h']}" for where, it in versions.items()
            if it != versions["ans.h"]]


def wanted_texts(library):
    """The constant texts: faults and notes as the library has them, the other words as the crates have them."""
    found = set()
    for number in range(41):
        for name, copy in (("fault", library.ans_copy_fault_text), ("note", library.ans_copy_note_text)):
            answer, text, _ = tell.text_of(copy, number)
            if answer == tell.PASS:
                found.add(f"{name} {number} {text.decode()}")
    for name, numbers in (("known", KNOWN), ("part", PARTS), ("player", PLAYERS)):
        found.update(f"{name} {number} {text}" for text, number in numbers.items())
    return found


def wrong_texts(library, folder):
    """Each constant text of the header that is not wanted, and each that is missing, in C and in C++."""
    version = stated_versions()["ans.h"]
    right = {f"version {version} {version}", *wanted_texts(library)}
    for name, words in LANGUAGES.items():
        out = folder / f"texts_{name}"
        subprocess.run([*words, HERE / "try/texts.c", "-o", out], check=True)
        ran = run([out])
        yield from (f"a text in {name}: {line}" for line in right ^ set(ran.stdout.decode().splitlines()))
        if ran.returncode:
            yield f"the number of the version, in {name}"


def found_by(name, archive, folder, files, more):
    """What try/NAME.c finds, built with more words, and how many trials it made."""
    ran = run([compiled([*LANGUAGES["C"], *more], HERE / f"try/{name}.c", archive, folder / name), *files])
    lines = (ran.stdout + ran.stderr).decode().splitlines()
    ended = re.fullmatch(r"(\d+) trials, \d+ failed", lines[-1])
    return (lines[:-1], int(ended[1])) if ended else (lines, 1)


def examples():
    """The examples of README.md, each as a function that takes a file, or as the program that it is."""
    for block in re.findall(r"^```c\n(.*?)^```$", (HERE / "README.md").read_text("utf-8"), re.DOTALL | re.MULTILINE):
        includes = "".join(re.findall(r"^#include .*\n", block, re.MULTILINE))
        rest = re.sub(r"^#include .*\n", "", block, flags=re.MULTILINE)
        head = "#include <ans_easy.h>\n#include <stdio.h>\n#include <stdlib.h>\n#include <string.h>\n" + includes
        if "int main(" in block:
            yield block
        else:
            yield f"{head}void example(const uint8_t *file, size_t length);\n" \
                  f"void example(const uint8_t *file, size_t length) {{\n{rest}}}\n" + EXAMPLE_MAIN


EXAMPLE_MAIN = """
int main(int argc, char **argv) {
    static uint8_t bytes[ANS_LONGEST_FILE + 1];
    FILE *input = fopen(argv[argc - 1], "rb");
    size_t length = input ? fread(bytes, 1, sizeof bytes, input) : 0;
    example(bytes, length);
    return input && fclose(input) == 0 ? 0 : 1;
}
"""


def wrong_examples(archive, folder, files):
    """Each example that is not built or does not run on each file, as C and as C++, and how many trials there were."""
    wrong, count = [], 0
    for i, text in enumerate(examples()):
        source, out = folder / f"example_{i}.c", folder / f"example_{i}"
        source.write_text(text, encoding="utf-8")
        for name, words in LANGUAGES.items():
            count += 1
            built = run([*words, *SANITIZE, source, "-x", "none", archive, "-o", out])
            said = built.stderr + b"".join(run([out, file]).stderr for file in files if not built.returncode)
            if said:
                wrong.append(f"example {i + 1} of README.md, as {name}:\n{said.decode()}")
    return wrong, count


def other_trials(program, archive, folder, files, sanitize):
    """What is wrong beside the drawings, and how many trials there were."""
    library = tell.opened(shared(archive, folder))
    wrong = [*wrong_versions(program, library), *wrong_texts(library, folder)]
    if tables.main(["--check"]):
        wrong.append("ans.h is not as tables.py writes it")
    of_scratch, scratch_count = found_by("scratch", archive, folder, files, SANITIZE if sanitize else [])
    some = [*files[::50], *files[-4:]]
    of_memory, memory_count = found_by("memory", archive, folder, some, SANITIZE)
    of_examples, example_count = wrong_examples(archive, folder, some)
    count = 1 + len(stated_versions()) + 2 + 2 * len(wanted_texts(library))
    count += scratch_count + memory_count + example_count
    return [*wrong, *of_scratch, *of_memory, *of_examples], count


def module(path):
    """A script, as a module."""
    spec = importlib.util.spec_from_file_location(path.stem, path)
    loaded = importlib.util.module_from_spec(spec)
    sys.modules[path.stem] = loaded
    spec.loader.exec_module(loaded)
    return loaded


def made_drawings(folder):
    """Drawings that are made here, and those with mistakes that artists make, as files in a folder."""
    mistakes = module(TOP / "tools/runs/made_drawings.py")
    made = [it.file() for it in mistakes.MISTAKES + mistakes.MEANT + mistakes.SPOKEN_OF]
    for i, data in enumerate([*made, *module(HERE / "try/drawings.py").files()]):
        file = folder / f"made_{i}.ans"
        file.write_bytes(data)
        yield file


def drawings():
    return [*sorted((TOP / "conformance").rglob("*.ans")), *sorted((TOP / "crates/anscheck/data").glob("*.ans"))]


def main(words):
    sanitize, words = "--sanitize" in words, [word for word in words if word != "--sanitize"]
    if len(words) < 2:
        print(__doc__, file=sys.stderr)
        return 2
    program, archive, *names = words
    program, archive = Path(program).resolve(), Path(archive).resolve()
    differ = 0
    with tempfile.TemporaryDirectory() as name:
        folder = Path(name)
        files = [Path(name) for name in names] or [*made_drawings(folder), *drawings()]
        callers = build(archive, folder, sanitize)
        cases = [(file, None) for file in files]
        if not names:
            long_file = folder / "long.ans"
            long_file.write_bytes(bytes(LONGEST_FILE + 1))
            cases.append((long_file, wanted_of_too_long()))
        for file, text in cases:
            for language, line in differing(callers, program, file, text):
                differ += 1
                print(f"{file}: {language} says {line}")
        wrong, count = other_trials(program, archive, folder, files, sanitize)
    print("".join(f"{line}\n" for line in wrong), end="")
    differ += len(wrong)
    print(f"{len(cases)} files in {len(callers)} languages and {count} other trials, {differ} differ")
    return 1 if differ else 0


if __name__ == "__main__":
    sys.exit(main(sys.argv[1:]))
