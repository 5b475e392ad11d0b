#!/usr/bin/env python3
"""Says what is out of date: the checker's module, or the page.

    python3 page/stamp.py
    python3 page/stamp.py --crates [TOP]

A stamp is the SHA-256 of files, of their names and bytes, in the order of their names. `library/js/anscheck.sources`
has that of the crates that the module beside it was built from, as `page/build.sh` writes it, and the module's own
SHA-256. The page has a stamp of its sources, its module and that file, as `page/make.py` writes it: the `content` of
its `<meta name="anscheck-sources">`. The first line compares them with what is here, and the status is 1 if
something is out of date. The second prints the stamp of the crates at TOP, which is this repository if it is not
named.
"""
import hashlib
import pathlib
import re
import sys

sys.dont_write_bytecode = True

from modules import SCRIPT, SOURCES, WORKER, modules_of  # noqa: E402

HERE = pathlib.Path(__file__).resolve().parent
TOP = HERE.parent
PACKAGE = TOP / "library" / "js"
MODULE = PACKAGE / "anscheck.wasm"
PAGE = HERE / "check.html"
TEXTS = [TOP / "tools" / "runs" / "meanings.py", TOP / "crates" / "ans_report" / "src" / "meanings.rt"]
CRATE = "ans_c"
PARTS_OF_A_CRATE = ("src", "specs", "proofs")
LINE_OF_A_CRATE = re.compile(r"^(\w+)(?: [^:]*)?:(.*)$", re.MULTILINE)


def stamp_of(files):
    """The stamp of files, which are given as their names and bytes."""
    stamp = hashlib.sha256()
    for name, content in sorted(files):
        stamp.update(f"{name}\n{len(content)}\n".encode() + content)
    return stamp.hexdigest()


def crates_below(top, name):
    """A crate and those that it uses, as crates.txt has them. The others are of the kit."""
    text = (top / "crates.txt").read_text(encoding="utf-8")
    below = {crate: words.split() for crate, words in LINE_OF_A_CRATE.findall(text)}
    found, waiting = set(), [name]
    while waiting:
        crate = waiting.pop()
        if crate in below and crate not in found:
            found.add(crate)
            waiting += below[crate]
    return found


def crates_stamp(top=TOP):
    """The stamp of what the module is built from."""
    folders = [top / "crates" / crate / part for crate in crates_below(top, CRATE) for part in PARTS_OF_A_CRATE]
    paths = [path for folder in folders for path in folder.rglob("*") if path.is_file()] + [top / "crates.txt"]
    return stamp_of([(path.relative_to(top).as_posix(), path.read_bytes()) for path in paths])


def sources_beside(module):
    """The file that says what a module was built from."""
    return module.with_suffix(".sources")


def page_stamp(module=MODULE):
    """The stamp of what the page is made from with this module."""
    modules = {*modules_of(SCRIPT), *modules_of(WORKER)}
    paths = {HERE / "make.py", HERE / "modules.py", *SOURCES.iterdir(), *modules, *TEXTS}
    files = [(path.relative_to(TOP).as_posix(), path.read_bytes()) for path in paths]
    built = sources_beside(module)
    crates = built.read_bytes() if built.exists() else b""
    return stamp_of([*files, ("module", module.read_bytes()), ("crates", crates)])


def module_faults():
    """What is wrong with the module."""
    built = sources_beside(MODULE)
    if not built.exists():
        yield f"nothing says which crates {MODULE.name} was built from: there is no {built.name}"
        return
    told = dict(line.split() for line in built.read_text(encoding="utf-8").splitlines())
    if told["module"] != hashlib.sha256(MODULE.read_bytes()).hexdigest():
        yield f"{built.name} is of another {MODULE.name}: run page/build.sh"
    if told["crates"] != crates_stamp():
        yield f"{MODULE.name} was built from other crates: run page/build.sh"


def page_faults():
    """What is wrong with the page."""
    stamp = re.search(r'<meta name="anscheck-sources" content="(\w*)">', PAGE.read_text(encoding="utf-8"))
    if not stamp or stamp[1] != page_stamp():
        yield f"{PAGE.name} was made from other sources: run page/make.py"


def main(words):
    """Compares, or prints the stamp of crates."""
    if words[:1] == ["--crates"] and len(words) < 3:
        print(crates_stamp(*map(pathlib.Path, words[1:])))
        return
    if words:
        sys.exit(__doc__)
    faults = [*module_faults(), *page_faults()]
    print("\n".join(faults) or "up to date")
    sys.exit(bool(faults))


if __name__ == "__main__":
    main(sys.argv[1:])
