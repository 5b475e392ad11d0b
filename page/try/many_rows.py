#!/usr/bin/env python3
"""Compares the page's table of many files with the program's.

    python3 page/try/many_rows.py PROGRAM FOLDER [--browser chromium|firefox] [--page PAGE]

The page is given all .ans files of FOLDER at once, in both browsers or in the one that is named. For each the table has
to have what `PROGRAM table` says: the verdict, what it needs, the players, the fault and its byte, the notes, the
title, the author and the size. The last line is `N files: M differ`, and the status is 1 if one differs.
"""
import argparse
import pathlib
import subprocess
import sys

TRY = pathlib.Path(__file__).resolve().parent
sys.path.insert(0, str(TRY))
sys.dont_write_bytecode = True

import browsers  # noqa: E402

BROWSERS = {"chromium": browsers.Chromium, "firefox": browsers.Firefox}
KEYS = ["verdict", "needs", "players", "fault", "at", "notes", "title", "author", "size"]
SHOWN = f"drawingTable.rows.map((row) => [row.name, {', '.join(f'row.{key}' for key in KEYS)}])"


def by_program(program, paths):
    """The rows of the program's table, by name: what KEYS say, with only the fault's number."""
    names = "".join(f"{path}\0" for path in paths).encode()
    printed = subprocess.run([program, "table"], input=names, capture_output=True, check=False).stdout.decode()
    heading, *lines = (line.split("\t") for line in printed.splitlines())
    rows = {}
    for line in lines:
        row = dict(zip(heading, line, strict=True))
        size = f"{row['width']} x {row['lines']}" if row["width"] else ""
        texts = [row[key].replace("\\\\", "\\") for key in ("title", "author")]
        told = [row[key] for key in ("verdict", "needs", "players", "fault", "at", "notes")]
        rows[pathlib.Path(row["file"]).name] = [*told, *texts, size]
    return rows


def by_page(browser, page, paths):
    """The rows of the page's table, by name."""
    browser.open(page.as_uri())
    browser.choose("files", paths)
    browser.wait(f"element('status').textContent.startsWith('{len(paths)} of {len(paths)} checked')", 1800)
    rows = browser.value(SHOWN)
    return {name: [*told[:3], told[3].split(" ")[0], *told[4:]] for name, *told in rows}


def main():
    """Compares them."""
    words = argparse.ArgumentParser(description=__doc__, formatter_class=argparse.RawDescriptionHelpFormatter)
    words.add_argument("program", type=pathlib.Path)
    words.add_argument("folder", type=pathlib.Path)
    words.add_argument("--browser", choices=BROWSERS)
    words.add_argument("--page", type=pathlib.Path, default=TRY.parent / "check.html")
    given = words.parse_args()
    paths = sorted(given.folder.resolve().glob("*.ans"))
    wanted = by_program(given.program.resolve(), paths)
    differ = set()
    for each in [given.browser] if given.browser else BROWSERS:
        browser = BROWSERS[each]()
        told = by_page(browser, given.page.resolve(), paths)
        browser.close()
        others = sorted(name for name in wanted if told.get(name) != wanted[name])
        for name in others[:10]:
            print(f"{browser.name}, {name}: {told.get(name)}, expected {wanted[name]}")
        print(f"{browser.name}: {len(wanted)} files, {len(others)} differ")
        differ |= set(others)
    print(f"{len(paths)} files: {len(differ)} differ")
    sys.exit(bool(differ) or len(wanted) != len(paths))


if __name__ == "__main__":
    main()
