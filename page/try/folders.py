#!/usr/bin/env python3
"""Measures how long the page takes for folders of drawings, in Chromium and Firefox.

    python3 page/try/folders.py [--page PAGE] [--browser NAME] [--times N] [COUNT ..]

Each folder has COUNT drawings (500 and 5000 if none is named): copies of those of conformance/ and of
crates/anscheck/data, one after the other, under names of their own. Printed are the seconds from the choice to the last
row, the least of N (3), how many times those of the smallest folder they are, and the longest time in which the page
did not answer. The status is 1 if a drawing of a folder takes more than one and a half times as long as one of the
smallest.
"""
import argparse
import pathlib
import sys
import tempfile

HERE = pathlib.Path(__file__).resolve().parent
TOP = HERE.parent.parent
sys.path.insert(0, str(HERE))
sys.dont_write_bytecode = True

import browsers  # noqa: E402

KINDS = {"chromium": browsers.Chromium, "firefox": browsers.Firefox}
MOST_FOR_EACH = 1.5
CONFORMANCE = TOP / "conformance" / "files"
DATA = TOP / "crates" / "anscheck" / "data"

BEGIN = """(() => {
  element("status").textContent = "";
  window.longest = 0;
  window.last = performance.now();
  clearInterval(window.pulse);
  window.pulse = setInterval(() => {
    const now = performance.now();
    longest = Math.max(longest, now - last);
    last = now;
  }, 10);
  window.began = 0;
  window.took = 0;
  const isDone = (text) => text.startsWith("%d of %d checked");
  new MutationObserver(() => {
    const text = element("status").textContent;
    if (began === 0 && text !== "") {
      began = last = performance.now();
      longest = 0;
    }
    if (took === 0 && isDone(text) && busy === 0) requestAnimationFrame(() => setTimeout(() => {
      took = performance.now() - began;
    }));
  }).observe(element("status"), { childList: true, characterData: true, subtree: true });
  return true;
})()"""


def make_folder(folder, count):
    """The paths of as many drawings."""
    files = [path.read_bytes() for path in [*sorted(CONFORMANCE.glob("*.ans")), *sorted(DATA.glob("*.ans"))]]
    folder.mkdir()
    for number in range(count):
        (folder / f"drawing-{number:05}.ans").write_bytes(files[number % len(files)])
    return sorted(folder.iterdir())


def measured(kind, page, paths):
    """The seconds until all rows are in the table, and the longest pause."""
    browser = kind()
    try:
        browser.look(1000, 900)
        browser.open(page.as_uri())
        browser.value(BEGIN % (len(paths), len(paths)))
        browser.choose("files", paths)
        browser.wait("took > 0", 900, pause=0.5)
        rows = browser.value("element('rows').childElementCount")
        if rows != len(paths):
            sys.exit(f"{browser.name}: {rows} rows of {len(paths)} drawings")
        took, longest = browser.value("[took, longest]")
        return browser.name, took / 1000, longest
    finally:
        browser.close()


def compare(kind, page, folders, times):
    """Prints what each folder takes, and says whether one takes too long."""
    first, slow = None, False
    for paths in folders:
        runs = [measured(kind, page, paths) for _ in range(times)]
        name, took, longest = min(runs, key=lambda run: run[1])
        first = first or (took, len(paths))
        ratio, most = took / first[0], MOST_FOR_EACH * len(paths) / first[1]
        slow |= ratio > most
        print(f"{name}: {len(paths)} drawings in {took:.2f} s, {ratio:.1f} x (at most {most:.1f} x); "
              f"longest pause {longest:.0f} ms", flush=True)
    return slow


def main():
    """Measures each browser."""
    words = argparse.ArgumentParser(description=__doc__, formatter_class=argparse.RawDescriptionHelpFormatter)
    words.add_argument("--page", type=pathlib.Path, default=HERE.parent / "check.html")
    words.add_argument("--browser", choices=KINDS)
    words.add_argument("--times", type=int, default=3)
    words.add_argument("counts", type=int, nargs="*", metavar="COUNT")
    given = words.parse_args()
    kinds = [KINDS[given.browser]] if given.browser else list(KINDS.values())
    with tempfile.TemporaryDirectory() as name:
        folders = [make_folder(pathlib.Path(name, str(count)), count) for count in sorted(given.counts or (500, 5000))]
        slow = [compare(kind, given.page.resolve(), folders, given.times) for kind in kinds]
    sys.exit(any(slow))


if __name__ == "__main__":
    main()
