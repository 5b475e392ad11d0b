#!/usr/bin/env python3
"""Tries the page in Chromium and Firefox beside the command line program.

    python3 page/try.py PROGRAM [--page PAGE] [--stand-in] [--pictures FOLDER] [--browser NAME] [DRAWING ..]

PROGRAM is the built `anscheck`. Each drawing of conformance/ and crates/anscheck/data, and each that is named, is given
to the page. Compared are the lines of why, the text on the fault, the record, what is changed to fix it, the redrawn
file with what is said of it, the cells of the picture, its text, and the colours that are painted: `N drawings,
0 differ`. Then come fixing with its boxes, redrawing, the table with its filter, the keyboard, names that hide
something, touch, files that cannot be read or take too long, and a browser that is too old. The status is 1 if
something differs.

PAGE is page/check.html if it is not named. With `--browser webkit` the drawings are compared in WebKit, and no more
is tried; that needs Debian's `webkit2gtk-driver` and `xvfb`. With --stand-in the page is tried too with a module that
stops or never ends, which needs `clang` and `lld` for wasm32. With --pictures pictures of the page are written to
FOLDER: light, dark, and 360 points wide.
"""
import argparse
import pathlib
import shutil
import subprocess
import sys
import tempfile

HERE = pathlib.Path(__file__).resolve().parent
TOP = HERE.parent
sys.path.insert(0, str(HERE / "try"))
sys.dont_write_bytecode = True

import browsers  # noqa: E402
import stand_in  # noqa: E402
import webkit  # noqa: E402
from drawings import HIDDEN, NEAR, hostile_contents, largest, make_drawings  # noqa: E402
from driving import Tries, column, saved, saved_names, show  # noqa: E402
from expected import expected, made, name_shown, picture_of, redrawn_of, rows_of, without_flags  # noqa: E402
from painted import BLINKS, PAINTED, looks_as  # noqa: E402
from tables import try_filter, try_many, try_steps, try_table  # noqa: E402

BROWSERS = {"chromium": browsers.Chromium, "firefox": browsers.Firefox, "webkit": webkit.WebKit}
USUAL = ["chromium", "firefox"]
DATA = TOP / "crates" / "anscheck" / "data"
LONGEST_PAUSE = 1000

SHOWN = """({
  why: [...element("why").children].map((line) => line.textContent + "\\n").join(""),
  record: [element("record-note").textContent, ...[...element("record").children].map((line) => line.textContent)],
  advice: element("advice").hidden ? "" : element("advice-text").textContent,
  changes: [...element("changes").children].map((line) => line.textContent + "\\n").join(""),
  redrawn: element("redraw-part").hidden ? null : {
    file: [...redrawing.bytes],
    changes: [...element("redrawn-changes").children].map((line) => line.textContent + "\\n").join(""),
    lengths: element("redrawn-sentence").textContent.split(": ")[1],
  },
  picture: element("picture-part").hidden ? null : {
    columns: pictureView.picture.columns, lines: pictureView.picture.lines,
    upTo: pictureView.picture.upTo, moreLines: pictureView.picture.moreLines, without: pictureView.picture.without,
    isBright: pictureView.picture.brightBackgrounds,
    cells: [...pictureView.picture.glyphs].map((glyph, cell) => [glyph, pictureView.picture.attributes[cell]]),
    text: pictureView.rowsAsText(pictureView.picture.lines),
  },
})"""


# Under which name the page saves the fixed drawing. Browsers may leave out what hides in it.
SAVED_NAME = """(() => {
  const { click } = HTMLAnchorElement.prototype;
  let name;
  HTMLAnchorElement.prototype.click = function () { name = this.download; };
  element("save-mended").click();
  HTMLAnchorElement.prototype.click = click;
  return name;
})()"""


def compare(browser, tries, program, paths):
    """Gives each drawing to the page."""
    different = 0
    for path in paths:
        show(browser, [path])
        shown, wanted = browser.value(SHOWN), expected(program, path)
        shown["changes"] = without_flags(shown["changes"])
        same = tries.want(f"{path.name}: name", browser.value("element('name').textContent"), path.name)
        for key in ("why", "advice", "record", "changes", "redrawn"):
            same &= tries.want(f"{path.name}: {key}", shown[key], wanted[key])
        trimmed = [None if each is None else {**each, "text": [row.rstrip() for row in each["text"].split("\n")]}
                   for each in (shown["picture"], wanted["picture"])]
        same &= tries.want(f"{path.name}: picture", *trimmed)
        if same and shown["picture"]:
            painted = browser.value(PAINTED)
            is_bright = shown["picture"]["isBright"]
            wrong = [number for number, (cell, dots) in enumerate(zip(shown["picture"]["cells"], painted))
                     if not looks_as(cell, dots, is_bright)]
            same &= tries.want(f"{path.name}: cells whose colours differ", [
                (number, shown["picture"]["cells"][number], painted[number]) for number in wrong[:3]], [])
            same &= tries.want(f"{path.name}: painted cells", len(painted), len(shown["picture"]["cells"]))
        different += not same
    print(f"{tries.name}: {len(paths)} drawings, {different} differ")


def try_mending(browser, tries, program):
    """A drawing fixed without a box and by one: the file that is saved, the picture, and a number out of range."""
    show(browser, [DATA / "hi.ans"])
    mended = made(program, "mend", DATA / "hi.ans")[0]
    tries.want("hi.ans: fixed", saved(browser, "save-mended", "fixed-hi.ans").read_bytes(), mended)
    browser.value("element('show-after').click()")
    picture = picture_of(program, mended)
    tries.want("hi.ans: fixed cells", browser.value(SHOWN)["picture"]["cells"], picture["cells"])
    tries.want("hi.ans: its note", browser.value("element('picture-note').textContent"), "2 x 1, fixed.")
    show(browser, [DATA / "rows.ans"])
    tries.want("rows.ans: not without a box", browser.value("element('save-mended').disabled"))
    browser.value("document.querySelector('#mend-part [value=\"4\"]').click()")
    browser.wait("busy === 0")
    run = subprocess.run([program, "mend", "--join-rows", DATA / "rows.ans"], capture_output=True, check=True)
    tries.want("rows.ans: changes", browser.value(SHOWN)["changes"], run.stderr.decode())
    tries.want("rows.ans: fixed", saved(browser, "save-mended", "fixed-rows.ans").read_bytes(), run.stdout)
    browser.value("(() => { const lines = document.querySelector('#mend-part [name=lines]'); lines.value = '8193'; "
                  "lines.dispatchEvent(new Event('change')); })()")
    tries.want("a number out of range", browser.value("element('mended-sentence').textContent"),
               "Lines have to be a number from 1 to 8192, and columns one from 1 to 1024.")
    tries.want("no file for it", browser.value("element('save-mended').disabled"))


def try_redrawing(browser, tries, program):
    """A drawing redrawn as it is and fixed: the file that is saved, and what is said. One that is refused is not."""
    text = lambda part: browser.value(f"element('{part}').textContent")
    show(browser, [DATA / "hi.ans"])
    file = made(program, "redraw", DATA / "hi.ans")[0]
    tries.want("hi.ans: redrawn", saved(browser, "save-redrawn", "redrawn-hi.ans").read_bytes(), file)
    sentence = "Redrawn, it is the same picture, written so that it looks the same in all players"
    tries.want("hi.ans: how it is redrawn", text("redrawn-sentence"), f"{sentence}: {len(file)} bytes, 131 before.")
    alike = "it looks the same in all players that differ only in the known ways, "
    whatever = "whatever was on the screen before."
    tries.want("hi.ans: players before", text("players-before"),
               f"As it is: in named colours {alike}if they start with the cursor at the top left and white on black; "
               "a light theme shows its own black and white.")
    tries.want("hi.ans: players after", text("players-after"), f"Redrawn: {alike}{whatever}")
    browser.value("element('show-after').click()")
    browser.wait("busy === 0")
    mended = redrawn_of(program, made(program, "mend", DATA / "hi.ans")[0])
    tries.want("hi.ans: fixed and redrawn", browser.value(SHOWN)["redrawn"], mended)
    tries.want("hi.ans: players of the fixed", text("players-before"), f"Fixed: {alike}{whatever}")
    show(browser, [DATA / "rows.ans"])
    tries.want("rows.ans: nothing to redraw", browser.value(
        "element('redraw-part').hidden && element('save-redrawn').hidden"))


def try_long(browser, tries, folder):
    """A file that is too long."""
    path = folder / "long.ans"
    with open(path, "wb") as file:
        file.truncate((1 << 24) + 1)
    show(browser, [path])
    tries.want("too long", browser.value("element('verdict').textContent"),
               "It is longer than 16,777,216 bytes, and was not checked.")


def try_stopped(kind, tries, folder):
    """Answers that do not come, of a page with a stand-in for the module."""
    page = folder / "check.html"
    subprocess.run([sys.executable, HERE / "make.py", stand_in.build(folder), page], check=True)
    (folder / "traps.ans").write_bytes(b"traps")
    (folder / "never.ans").write_bytes(b"never ends")
    browser = kind()
    verdict = lambda: browser.value("element('verdict').textContent")
    try:
        browser.open(page.as_uri())
        show(browser, [folder / "traps.ans"])
        tries.want("a trap", "started again" in verdict())
        browser.value("checks.longestWait = 1000")
        show(browser, [folder / "never.ans"])
        tries.want("no answer", "in time" in verdict())
        browser.value("checks.longestWait = LONGEST_WAIT")
        browser.choose("files", [folder / "never.ans"])
        browser.wait("!element('stop').hidden")
        browser.value("element('stop').click()")
        browser.wait("busy === 0")
        tries.want("what was stopped", verdict(), "The check was ended.")
        show(browser, [DATA / "hi.ans"])
        tries.want("the next one", verdict(), "Refused at byte 0: F1 no SAUCE record.")
        show(browser, [DATA / "hi.ans", folder / "traps.ans"])
        tries.want("an answer and none", browser.value("tableFilter.counts"),
                   {"all": 2, "refused": 1, "cleared": 0, "unanswered": 1})
        browser.value("document.querySelector('[data-filter=unanswered]').click()")
        tries.want("the one without an answer", column(browser, "name"), ["traps.ans"])
    finally:
        browser.close()


def try_notes(browser, tries, folder):
    """What is said of a picture without the sequences that are removed, and where its fault is marked."""
    for name, note in (
            ("one goes", "Without the sequence at byte 0, on 3 x 1. Marked: row 1, column 1."),
            ("bright and more", "Without 4 sequences, the first at byte 0, on 8 x 1. Marked: row 1, column 1."),
            ("more lines", "Without the sequence at byte 0, and with 2 lines. The record states 4 x 1. "
                           "Marked: row 1, column 1."),
            ("one stays", "What comes before byte 0, on 2 x 1. Marked: row 1, column 1."),
            ("blue", "What comes before byte 9, on 2 x 1. Marked: row 1, column 1."),
            ("no lines", "As it is with 2 lines. The record states none.")):
        show(browser, [folder / f"{name}.ans"])
        tries.want(f"{name}: its note", browser.value("element('picture-note').textContent"), note)


def try_names(browser, tries, program, folder):
    """Names with characters that turn the text or hide in it, wherever the page shows a name."""
    folder = folder / f"names of {browser.name.partition('/')[0]}"
    folder.mkdir()
    names = [f"a{HIDDEN}b{NEAR}.ans", "gnp.\u202eans", "plain.ans"]
    paths = [folder / name for name in names]
    for path in paths:
        shutil.copy(DATA / "hi.ans", path)
    wanted = [name_shown(name) for name in names]
    tries.want("the names of the table", [row["file"].rpartition("/")[2] for row in rows_of(program, paths)], wanted)
    show(browser, paths)
    tries.want("names in the table", sorted(column(browser, "name")), sorted(wanted))
    tries.want("names that are saved", sorted(saved_names(browser)), sorted(["name", *wanted]))
    for path, name in zip(paths, wanted):
        show(browser, [path])
        tries.want("the name of a drawing", browser.value("element('name').textContent"), name)
        tries.want("the status", browser.value("element('status').textContent").partition(": ")[0], name)
        tries.want("the name of the picture", browser.value("element('canvas').ariaLabel").partition(", ")[0],
                   f"Picture of {name}")
        shown = browser.value("document.documentElement.outerHTML.replace(/<script[^]*?<\\/script>/g, '')")
        tries.want(f"{name}: characters that turn or hide", [each for each in HIDDEN[:-3] if each in shown], [])
    show(browser, [paths[1]])
    tries.want("the name of the file that is saved", browser.value(SAVED_NAME), f"fixed-{names[1]}")


def try_blink(browser, tries, folder):
    """Bit 7 blinks, or is the background's bright bit."""
    for name, count in (("blink", 2), ("bright", 1)):
        show(browser, [folder / f"{name}.ans"])
        tries.want(f"{name}: how a cell is painted", browser.value(BLINKS), count)


def try_hostile(browser, tries, folder):
    """Each ends with an answer or a message."""
    record = largest()[-128:]
    for name, content in hostile_contents():
        path = folder / f"{name}.ans"
        path.write_bytes(content + b"\x1a" + record)
        show(browser, [path])
        tries.want(f"{name}: a sentence", browser.value("element('verdict').textContent !== ''"))
        print(f"{tries.name}: {name}: {browser.value('element(`verdict`).textContent')}")
        path.unlink()


def try_largest(browser, tries, path):
    """The largest size: the page answers while it is checked, and paints a part at a time."""
    browser.value("(window.longest = 0, window.last = performance.now(), window.pulse = setInterval(() => {"
                  "const now = performance.now(); longest = Math.max(longest, now - last); last = now; }, 10), 0)")
    show(browser, [path])
    lines = browser.value("pictureView.picture?.lines")
    tries.want("lines of the largest", lines, 8192)
    tries.want("a small canvas", browser.value(
        "element('canvas').width <= innerWidth && element('canvas').height <= innerHeight"))
    browser.value("new Promise((done) => { element('view').scrollTop = 1e6; setTimeout(done, 300); })")
    longest = browser.value("(clearInterval(pulse), Math.round(longest))")
    tries.want(f"a pause of {longest} ms", longest < LONGEST_PAUSE)


def try_touch_and_drop(browser, tries, folder):
    """A touch on a line that names a position, and a folder that is dropped."""
    browser.look(360, 700, is_touch=True)
    show(browser, [DATA / "harbour.ans"])
    tries.want("nothing wider than the page", browser.value("document.documentElement.scrollWidth <= innerWidth"))
    browser.value("document.querySelector('#why li button').scrollIntoView({ block: 'center' })")
    box = browser.value("(({ x, y, width, height }) => [x + width / 2, y + height / 2])("
                        "document.querySelector('#why li button').getBoundingClientRect())")
    browser.tap(*box)
    browser.wait("document.activeElement.id === 'view'", 10)
    browser.look(1000, 900)
    if not hasattr(browser, "drop"):
        return
    inner = folder / "pack" / "inner"
    inner.mkdir(parents=True)
    for name in ("hi.ans", "box.ans", "rows.ans"):
        shutil.copy(DATA / name, inner / name.upper())
    (folder / "pack" / "readme.txt").write_text("no drawing")
    browser.value("(scrollTo(0, 0), element('status').textContent = '')")
    browser.drop([folder / "pack"], 200, 200)
    browser.wait("busy === 0 && element('status').textContent.includes('1 other file was left out')")
    names = ["pack/inner/BOX.ANS", "pack/inner/HI.ANS", "pack/inner/ROWS.ANS"]
    tries.want("names of a folder that is dropped", sorted(column(browser, "name")), names)
    show(browser, [folder / "pack"], "folder")
    tries.want("names of a folder that is chosen", sorted(column(browser, "name")), names)


def try_old_browser(kind, tries, address):
    """A browser that runs no module, one that unpacks none, or one in which the script fails, says so at once."""
    no_modules = "WebAssembly.Module = function () { throw new WebAssembly.CompileError('not allowed'); };"
    for change in (no_modules, "delete window.DecompressionStream;", "delete window.ResizeObserver;"):
        browser = kind()
        try:
            browser.before(change)
            browser.open(address)
            tries.want(f"{change} the warning", browser.value(
                "!document.getElementById('too-old').hidden && document.getElementById('choose').hidden"))
        finally:
            browser.close()


def take_pictures(kind, address, folder, paths):
    """Pictures of the page, light and dark, wide and narrow."""
    for is_dark in (False, True):
        browser = kind(is_dark)
        try:
            for width in (1200, 360):
                browser.look(width, 900, is_touch=width == 360)
                browser.open(address)
                name = f"{kind.__name__.lower()}-{'dark' if is_dark else 'light'}-{width}"
                browser.take_picture(folder / f"{name}-empty.png")
                for drawing in ("harbour", "rows"):
                    show(browser, [DATA / f"{drawing}.ans"])
                    browser.take_picture(folder / f"{name}-{drawing}.png")
                    browser.value("element('picture-heading').scrollIntoView()")
                    browser.take_picture(folder / f"{name}-{drawing}-picture.png")
                show(browser, paths)
                browser.value("scrollTo(0, 0)")
                browser.take_picture(folder / f"{name}-table.png")
        finally:
            browser.close()


def try_in(kind, page, program, paths, folder):
    """All tries in one browser."""
    browser = kind()
    tries = Tries(browser.name)
    try:
        browser.look(1000, 900)
        browser.open(page.as_uri())
        compare(browser, tries, program, paths)
        if kind is webkit.WebKit:
            return tries
        try_mending(browser, tries, program)
        try_redrawing(browser, tries, program)
        try_blink(browser, tries, folder)
        try_notes(browser, tries, folder)
        try_names(browser, tries, program, folder)
        rows = try_table(browser, tries, program, paths[::9])
        try_steps(browser, tries, try_filter(browser, tries, rows))
        try_many(browser, tries)
        try_long(browser, tries, folder)
        try_largest(browser, tries, folder / "largest.ans")
        try_hostile(browser, tries, folder)
        try_touch_and_drop(browser, tries, folder / browser.name.replace("/", "-"))
        tries.want("complaints and requests", browser.complaints(), [])
        asked = browser.value("fetch('data:,').then(() => 'answered', () => 'refused')")
        tries.want("a request of the page", asked, "refused")
    finally:
        browser.close()
    try_old_browser(kind, tries, page.as_uri())
    return tries


def main():
    """Tries each browser."""
    words = argparse.ArgumentParser(usage=__doc__.partition("\n\n")[2])
    words.add_argument("program")
    words.add_argument("--page", type=pathlib.Path, default=HERE / "check.html")
    words.add_argument("--stand-in", action="store_true")
    words.add_argument("--pictures", type=pathlib.Path)
    words.add_argument("--browser", choices=BROWSERS)
    words.add_argument("drawings", type=pathlib.Path, nargs="*")
    given = words.parse_intermixed_args()
    paths = sorted((TOP / "conformance" / "files").glob("*.ans")) + sorted(DATA.glob("*.ans")) + given.drawings
    kinds = [BROWSERS[given.browser]] if given.browser else [BROWSERS[name] for name in USUAL]
    with tempfile.TemporaryDirectory() as name:
        folder, page = pathlib.Path(name), given.page.resolve()
        (folder / "largest.ans").write_bytes(largest())
        paths += make_drawings(folder)
        different = 0
        for kind in kinds:
            tries = try_in(kind, page, given.program, paths, folder)
            if given.stand_in:
                try_stopped(kind, tries, folder)
            print(f"{tries.name}: {tries.differences} differences")
            different += tries.differences
        if given.pictures:
            given.pictures.mkdir(parents=True, exist_ok=True)
            for kind in kinds:
                take_pictures(kind, page.as_uri(), given.pictures.resolve(), paths[::9])
    sys.exit(different > 0)


if __name__ == "__main__":
    main()
