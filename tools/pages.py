#!/usr/bin/env python3
"""Holds the pages to budgets of words, counts words that plain English does without, and follows links.

    python3 tools/pages.py           # ends with 1 if a page or a count is above what is agreed, or a link leads nowhere
    python3 tools/pages.py --list    # prints each place of such a word too

- A page that is above its budget is made shorter, or the budget is raised on purpose. Words are those of `wc -w`.
- AVOIDED has the words, and AGREED how many there may be, in the pages and in the comments of src and specs; fewer is
  a reason to lower it. The program's own texts do not count: what is in a block, in backticks or quoted with `>`, and
  what a macro of the manual page holds. Nor does MANUAL.md, which is made of the manual page.
- A link has to lead to a file of the repository, and its anchor to a heading. Addresses of the web are not followed.

tools/release/README.md has no budget, and its links are for the archive.
"""
import os
import pathlib
import re
import subprocess
import sys

TOP = pathlib.Path(__file__).resolve().parent.parent

BUDGETS = {
    "CHANGELOG.md": 570, "CONTRIBUTING.md": 665, "README.md": 1720, "conformance/README.md": 385,
    "docs/CHANGING.md": 1410, "docs/DECISIONS.md": 3925, "docs/DEFINITIONS.md": 4115, "docs/DESIGN.md": 3150,
    "docs/FAULTS.md": 3490, "docs/FOLDERS.md": 1280, "docs/GLOSSARY.md": 1100, "docs/MANUAL.md": 4270,
    "docs/PLAYERS.md": 3250, "docs/PROFILE.md": 2915, "docs/PROVED.md": 3145, "docs/SECURITY.md": 1465,
    "docs/SPEED.md": 760, "docs/TRIED.md": 2520, "docs/anscheck.1": 4640, "library/README.md": 1415,
    "library/js/README.md": 1464, "page/README.md": 930,
}

# The words, as patterns, each with what is mostly better.
AVOIDED = {
    r"behind": "after",
    r"in front": "before, at the start",
    r"stands?(?!-| for\b)": "is, are, or nothing",
    r"tells|told": "reports, prints, says",
    r"alone": "only, by itself",
    r"torn|tears?": "broken",
    r"anew": "again, from scratch",
    r"but for": "except for",
    r"wants": "needs",
    r"(?-i:Of) (?:which|it|them|these|those)": "the subject first",
    r"of (?:today|later)": "modern",
    r"so many": "that many",
    r"players part": "players differ",
    r"ma(?:de|kes?) use of": "uses",
    r"bytes to blame": "the offending bytes",
}
FOUND = re.compile(rf"\b(?:{'|'.join(AVOIDED)})\b", re.IGNORECASE)
AGREED = {"pages": 1, "comments": 0}

# A block's beginning or end, a line's comment, and where a link leads.
FENCE = re.compile(r" *(?://[/!]?|--)? ?(?:```|\.[BE]d\b)")
COMMENT = re.compile(r" *(?://[/!]?|--) ?(.*)")
LINK = re.compile(r"\]\(([^)\s]+)\)|(?:src|href)=\"([^\"]+)\"")


def listed(*patterns):
    """The files that git lists or would list."""
    words = ["git", "ls-files", "-z", "--cached", "--others", "--exclude-standard", *patterns]
    names = subprocess.run(words, cwd=TOP, stdout=subprocess.PIPE, text=True, check=True).stdout.split("\0")
    return sorted(name for name in names if name and (TOP / name).is_file())


def text_of(name):
    return (TOP / name).read_text("utf-8")


def without_blocks(text):
    """The lines that are not in a block of code, with their numbers."""
    in_block = False
    for number, line in enumerate(text.splitlines(), 1):
        if FENCE.match(line):
            in_block = not in_block
        elif not in_block:
            yield number, line


def prose_of_line(name, line):
    """What of a line is prose: without code, quotes, the targets of links, and the macros of the manual page."""
    if name.startswith("crates/"):
        comment = COMMENT.match(line)
        line = comment[1] if comment else ""
    if line.startswith(">") or name.endswith(".1") and line.startswith("."):
        return ""
    return re.sub(r"\]\([^)]*\)", "]", re.sub(r"(`+).*?\1", "`", line))


def places(names):
    """Each place of a word that is avoided: the file, the line, and what is around it."""
    for name in names:
        for number, line in without_blocks(text_of(name)):
            prose = prose_of_line(name, line)
            for word in FOUND.finditer(prose):
                yield f"{name}:{number}: {prose[max(word.start() - 60, 0):word.end() + 60].strip()}"


def anchors(name):
    """What links to a page's headings end in. A heading that came before gets a number."""
    found = []
    for _, line in without_blocks(text_of(name)):
        if head := re.match(r"#+ (.*)", line):
            text = re.sub(r"\]\([^)]*\)", "", head[1]).lower()
            found.append(re.sub(r"[^\w -]", "", text).replace(" ", "-"))
    return {f"{anchor}-{found[:at].count(anchor)}" if anchor in found[:at] else anchor
            for at, anchor in enumerate(found)}


def links(name):
    """The links of a page that are no addresses, each with its line."""
    for number, line in without_blocks(text_of(name)):
        for found in LINK.findall(re.sub(r"(`+).*?\1", "`", line)):
            target = found[0] or found[1]
            if not re.match(r"[a-z]+:", target):
                yield number, target


def leads_somewhere(name, target):
    """Whether a link leads to a file or a folder, and to a heading if it is of a page."""
    path, _, anchor = target.partition("#")
    other = os.path.normpath(os.path.join(os.path.dirname(name), path)) if path else name
    if not (TOP / other).exists() or other.startswith(".."):
        return False
    return not anchor or not other.endswith(".md") or anchor in anchors(other)


def mistakes_of_pages(pages):
    """Pages above their budgets, or without one, and links that lead nowhere."""
    yield from (f"{name} is {'in no budget' if name in pages else 'gone'}" for name in set(pages) ^ set(BUDGETS))
    for name in pages:
        words = len(text_of(name).split())
        if words > BUDGETS.get(name, words):
            yield f"{name} has {words} words, above its budget of {BUDGETS[name]}"
        for number, target in links(name):
            if not leads_somewhere(name, target):
                yield f"{name}:{number}: the link {target} leads nowhere"


def main(arguments):
    pages = [name for name in listed("*.md", "*.1") if name != "tools/release/README.md"]
    sources = [name for name in listed("crates/*/src/*", "crates/*/specs/*") if name.endswith((".rt", ".antt"))]
    counted = {"pages": [name for name in pages if name != "docs/MANUAL.md"], "comments": sources}
    found = {where: list(places(names)) for where, names in counted.items()}
    if arguments == ["--list"]:
        print("\n".join(found["pages"] + found["comments"]))
    wrong = list(mistakes_of_pages(pages))
    wrong += [f"{len(found[where])} words to avoid in {where}, above {AGREED[where]}: --list prints them"
              for where in AGREED if len(found[where]) > AGREED[where]]
    print("".join(f"{line}\n" for line in wrong), end="")
    print(f"{len(pages)} pages, {sum(len(text_of(name).split()) for name in pages):,} words; to avoid: "
          f"{len(found['pages'])} of {AGREED['pages']} agreed in pages, {len(found['comments'])} of "
          f"{AGREED['comments']} in comments")
    return 1 if wrong else 0


if __name__ == "__main__":
    sys.exit(main(sys.argv[1:]))
