#!/usr/bin/env python3
"""Compares what the package for JavaScript says in browsers with what it says in Node.

    python3 page/try/many_files.py FOLDER [--browser chromium|firefox|webkit]

Chromium and Firefox (or the browser that is named) and Node are asked for all that the package answers about each .ans
file of FOLDER, and the digests of the answers are compared. `try_module.mjs` compares what Node says with the program.
The last line is `N files: M differ`, and the status is 1 if one differs.
"""
import argparse
import json
import pathlib
import shutil
import subprocess
import sys
import tempfile

TRY = pathlib.Path(__file__).resolve().parent
TOP = TRY.parent.parent
PACKAGE = TOP / "library" / "js"
sys.path[:0] = [str(TRY), str(PACKAGE / "test")]
sys.dont_write_bytecode = True

import browsers  # noqa: E402
import in_browser  # noqa: E402
import webkit  # noqa: E402

BROWSERS = {"chromium": browsers.Chromium, "firefox": browsers.Firefox, "webkit": webkit.WebKit}
USUAL = ["chromium", "firefox"]
BATCH = 200
BEGIN = """(async () => {
  const { load } = await import("./anscheck/index.js");
  const { digestsOf } = await import("./digests.mjs");
  const checker = await load();
  const bytes = new Uint8Array(await (await fetch("files")).arrayBuffer());
  window.digestsFor = (ends) => digestsOf(checker, ends.map(([start, end]) => bytes.slice(start, end)));
  return "begun";
})()"""


def by_node(folder):
    """What Node says: the names of the files, and their digests."""
    printed = subprocess.run(["node", TRY / "digests.mjs", folder], capture_output=True, text=True, check=True).stdout
    pairs = [line.split(" ", 1) for line in printed.splitlines()]
    return [name for _, name in pairs], [digest for digest, _ in pairs]


def by_browser(browser, address, ends):
    """The digests that a browser finds, some files at a time."""
    browser.open(address)
    browser.value(BEGIN)
    digests = []
    for first in range(0, len(ends), BATCH):
        digests += browser.value(f"window.digestsFor({json.dumps(ends[first:first + BATCH])})")
    return digests


def served(folder, files):
    """Puts the page, the package and the files where they are served from. Returns where each file starts and ends."""
    shutil.copytree(PACKAGE, pathlib.Path(folder, "anscheck"))
    shutil.copy(TRY / "digests.mjs", folder)
    pathlib.Path(folder, "index.html").write_text("<!doctype html><title>many files</title>", encoding="utf-8")
    pathlib.Path(folder, "files").write_bytes(b"".join(files))
    ends = [sum(map(len, files[:1]))] if files else []
    for file in files[1:]:
        ends.append(ends[-1] + len(file))
    return [[end - len(file), end] for file, end in zip(files, ends)]


def main():
    """Tries them."""
    words = argparse.ArgumentParser(description="Compares the package in browsers with the package in Node.")
    words.add_argument("folder", type=pathlib.Path)
    words.add_argument("--browser", choices=BROWSERS)
    given = words.parse_args()
    names, wanted = by_node(given.folder)
    differ = set()
    with tempfile.TemporaryDirectory() as folder:
        ends = served(folder, [(given.folder / name).read_bytes() for name in names])
        server, address = in_browser.serve(folder)
        for each in [given.browser] if given.browser else USUAL:
            browser = BROWSERS[each]()
            found = by_browser(browser, address, ends)
            browser.close()
            others = {name for name, one, other in zip(names, found, wanted, strict=True) if one != other}
            print(f"{browser.name}: {len(names)} files, {len(others)} differ", *sorted(others)[:10])
            differ |= others
        server.shutdown()
    print(f"{len(names)} files: {len(differ)} differ")
    sys.exit(bool(differ))


if __name__ == "__main__":
    main()
