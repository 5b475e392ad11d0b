#!/usr/bin/env python3
"""Compares the names and the bits of the flags of `mend` in all places that have them.

    python3 tools/flags.py

The flags are those of `crates/ans_model/src/mends.rt`: a table of those without a value, each with its bit, and the
fields that hold a number. The manual page, the completions, ans.h, the package for JavaScript and the page for browsers
have the same, in their own spelling: `--join-rows`, `ANS_JOIN_ROWS`, `joinRows`. The manual page and the completions
also have `--suggested`, which names no change, and the options that say how files are written, which the page has in a
list of their own. It prints each difference, and ends with status 1 if there is one.
"""
import pathlib
import re
import sys

TOP = pathlib.Path(__file__).resolve().parent.parent
COMPLETIONS = "crates/anscheck/completions"


# the flag of the program that names no change
CHOOSING = ["suggested"]
# those that say how files are written, with the letters that stand for them
WRITING = {"output": "o", "in-place": "i", "dry-run": "n"}


def text_of(name):
    return (TOP / name).read_text(encoding="utf-8")


def between(name, start, end):
    """The part of a file from what the first pattern finds up to what the second finds after it."""
    text = text_of(name)
    found = re.search(start, text)
    if not found:
        sys.exit(f"{name}: nothing is like {start}")
    rest = text[found.end():]
    return rest[:re.search(end, rest).start()]


def in_capitals(flag):
    return "ANS_" + flag.upper().replace("-", "_")


def in_camel_case(flag):
    first, *others = flag.split("-")
    return first + "".join(map(str.capitalize, others))


def bits():
    """The flags without a value, each with its bit."""
    table = between("crates/ans_model/src/mends.rt", r"const MEND_FLAGS: .*= \[\n", r"\n\];")
    return {name: int(bit) for name, bit in re.findall(r'name: "([\w-]+)",\s+bit: (\d+),', table)}


def valued():
    """The flags with a number."""
    fields = between("crates/ans_model/src/mends.rt", r"pub struct Mends \{\n", r"\n\}")
    return [name.replace("_", "-") for name in re.findall(r"pub (\w+): Option<u16>", fields)]


# What the places have.


def flags_of_manual():
    """The flags in the synopsis, and in the list of options."""
    synopsis = between("docs/anscheck.1", r"\.Cm mend\n", r"\n\.Nm")
    options = between("docs/anscheck.1", r"For\n\.Cm mend :\n", r"\n\.El")
    yield "docs/anscheck.1, synopsis", re.findall(r"^\.Op Fl Fl ([\w-]+)", synopsis, re.MULTILINE)
    yield "docs/anscheck.1, options", re.findall(r"^\.It Fl Fl ([\w-]+)", options, re.MULTILINE)


def writing_of_manual():
    """The letters in the synopsis of each command that writes files, and the letters and names in the list of them."""
    for command in ("mend", "redraw"):
        synopsis = between("docs/anscheck.1", rf"\.Cm {command}\n", r"\n\.Nm")
        yield f"docs/anscheck.1, letters of {command}", re.findall(r"Fl (\w)\b(?! Fl)", synopsis)
    options = between("docs/anscheck.1", r"\.Sh WRITING FILES\n", r"\n\.El")
    names = re.findall(r"^\.It Fl (\w)(?: Ar \w+)? , Fl Fl ([\w-]+)", options, re.MULTILINE)
    yield "docs/anscheck.1, options of writing", [f"{letter} {name}" for letter, name in names]


def flags_of_completions():
    """The flags that each shell completes, except --help."""
    bash = between(f"{COMPLETIONS}/anscheck.bash", r'mend\) flags="', '"')
    zsh = between(f"{COMPLETIONS}/_anscheck", r"\n +mend\)\n", r";;")
    fish = text_of(f"{COMPLETIONS}/anscheck.fish")
    yield f"{COMPLETIONS}/anscheck.bash", [name for name in re.findall(r"--([\w-]+)", bash) if name != "help"]
    yield f"{COMPLETIONS}/_anscheck", [name for name in re.findall(r"'--([\w-]+)", zsh) if name != "help"]
    yield f"{COMPLETIONS}/anscheck.fish", re.findall(r'subcommand_from mend"(?: -s \w)? -l ([\w-]+)', fish)


def bits_of_header():
    """The names and bits of the enumeration that has ANS_TAKE_OUT."""
    body = next(body for body in re.findall(r"enum (?:\w+ )?\{(.*?)\}", text_of("library/ans.h"), re.DOTALL)
                if "ANS_TAKE_OUT" in body)
    return {name: int(bit) for name, bit in re.findall(r"(ANS_\w+) = (\d+)", body)}


def bits_of_package():
    """The names and bits of the object that has takeOut."""
    body = re.search(r"\{([^{}]*\btakeOut: [^{}]*)\}", text_of("library/js/numbers.js"))[1]
    return {name: int(bit) for name, bit in re.findall(r"(\w+): (\d+)", body)}


def options_of_package():
    """The options of the interface that has takeOut: those that are true or false, and those that are numbers."""
    body = next(body for body in re.findall(r"interface \w+ \{(.*?)^\}", text_of("library/js/index.d.ts"),
                                            re.DOTALL | re.MULTILINE) if "takeOut" in body)
    return {kind: sorted(name for name, it in re.findall(r"(\w+)\?: (\w+);", body) if it == kind)
            for kind in ("boolean", "number")}


def bits_of_page():
    """The flags and bits of the page's boxes, and the flags of its fields for numbers."""
    labels = re.findall(r"<label>.*?</label>", text_of("page/src/check.html"), re.DOTALL)
    flags = {flag[1]: label for label in labels if (flag := re.search(r"\(--([\w-]+)\)", label))}
    boxes = {flag: int(re.search(r'value="(\d+)"', label)[1]) for flag, label in flags.items() if "checkbox" in label}
    return boxes, sorted(flag for flag, label in flags.items() if 'type="number"' in label)


def names_used():
    """Each name that a script takes from the package's object of bits."""
    for folder in ("library/js", "page/src"):
        for path in sorted((TOP / folder).glob("*.js")):
            for name in re.findall(r"\bCLASSES\.(\w+)", path.read_text(encoding="utf-8")):
                yield f"{path.relative_to(TOP)}, CLASSES.{name}", name


def places():
    """Each place, with what it has to have and what it has."""
    flags, numbers = bits(), valued()
    in_package, options = {in_camel_case(it): flags[it] for it in flags}, options_of_package()
    boxes, fields = bits_of_page()
    for place, found in flags_of_manual():
        yield place, sorted([*flags, *numbers, *CHOOSING]), sorted(found)
    for place, found in flags_of_completions():
        yield place, sorted([*flags, *numbers, *CHOOSING, *WRITING]), sorted(found)
    for place, found in writing_of_manual():
        wanted = [f"{WRITING[name]} {name}" if "options" in place else WRITING[name] for name in WRITING]
        yield place, wanted, found
    yield "library/ans.h", {in_capitals(it): flags[it] for it in flags}, bits_of_header()
    yield "library/js/numbers.js", in_package, bits_of_package()
    yield "library/js/index.d.ts, true or false", sorted(in_package), options["boolean"]
    yield "library/js/index.d.ts, numbers", sorted(map(in_camel_case, numbers)), options["number"]
    yield "page/src/check.html, boxes", flags, boxes
    yield "page/src/check.html, numbers", sorted(numbers), fields


def differences():
    """What differs, a line each."""
    for place, wanted, found in places():
        if wanted != found:
            yield f"{place}\n  wanted {wanted}\n  found  {found}"
    for place, name in names_used():
        if name not in map(in_camel_case, bits()):
            yield f"{place}: no such flag"


def main():
    found = list(differences())
    print("".join(f"{line}\n" for line in found), end="")
    print(f"{len(bits())} flags with bits, {len(valued())} with numbers, {len(found)} differences")
    return 1 if found else 0


if __name__ == "__main__":
    sys.exit(main())
