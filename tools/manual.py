#!/usr/bin/env python3
"""Makes docs/MANUAL.md of the manual page, docs/anscheck.1, by `mandoc` (Debian's package of that name).

    python3 tools/manual.py            # writes it
    python3 tools/manual.py --check    # ends with 1 if it is not what would be written
"""
import pathlib
import re
import subprocess
import sys
import textwrap

DOCS = pathlib.Path(__file__).resolve().parent.parent / "docs"
PAGE, MANUAL = DOCS / "anscheck.1", DOCS / "MANUAL.md"
HEAD = "# The manual\n\nThis is the manual page, [anscheck.1](anscheck.1), made into Markdown by `tools/manual.py`.\n"
# what mandoc escapes beyond need, and its line ends of two blanks
PLAIN = {"&#45;": "-", "&nbsp;": " ", "&zwnj;": "", "&lt;": "<", "&gt;": ">"}


def plain_synopsis(body):
    """The synopsis as a block of text, a command a line; a long one goes on below its first word."""
    def block(section):
        commands = re.sub(r"[*`\\]", "", section[1]).strip().split("  \n")
        lines = [
            textwrap.fill(" ".join(command.split()), 79, subsequent_indent=" " * 14, break_on_hyphens=False)
            for command in commands
        ]
        return "## Synopsis\n\n```text\n" + "\n".join(lines) + "\n```\n\n## Description"
    return re.sub(r"## Synopsis\n(.*?)## Description", block, body, flags=re.DOTALL)


def with_links(body):
    """The names of sections and pages as links, and a list of the sections at the top."""
    heads = re.findall(r"^## (.*)$", body, flags=re.MULTILINE)
    for head in heads:
        body = body.replace(f"*{head.upper()}*", f"[{head}]({anchor(head)})")
    body = re.sub(r"\*docs/(\w+\.md)\*", r"[\1](\1)", body)
    return " · ".join(f"[{head}]({anchor(head)})" for head in heads) + "\n\n" + body


def anchor(head):
    return "#" + head.lower().replace(" ", "-")


def manual():
    """The page in Markdown: its own heads a level lower, and without mandoc's first and last line."""
    made = subprocess.run(["mandoc", "-T", "markdown", PAGE], stdout=subprocess.PIPE, check=True, text=True).stdout
    body = made[made.index("# NAME"):].rstrip("\n").rsplit("\n", 1)[0].rstrip("\n")
    for escaped, plain in PLAIN.items():
        body = body.replace(escaped, plain)
    body = re.sub(r"^# (.*)$", lambda head: f"## {head[1].capitalize()}", body, flags=re.MULTILINE)
    return f"{HEAD}\n{with_links(plain_synopsis(body))}\n"


def main(arguments):
    made = manual()
    if arguments == ["--check"]:
        same = MANUAL.read_text() == made
        print(f"docs/MANUAL.md is {'up to date' if same else 'not what tools/manual.py makes of docs/anscheck.1'}")
        return 0 if same else 1
    MANUAL.write_text(made)
    return 0


if __name__ == "__main__":
    sys.exit(main(sys.argv[1:]))
