"""The page's scripts, each of which is written as modules that import what they use, as one text."""
import pathlib
import re
import sys

HERE = pathlib.Path(__file__).resolve().parent
SOURCES = HERE / "src"
SCRIPT = SOURCES / "check.js"
WORKER = SOURCES / "worker.js"

IMPORT = re.compile(r'^import \{[^}]*\} from "([^"]+)";\n', re.MULTILINE)
EXPORT = re.compile(r"^export \{[^}]*\};\n", re.MULTILINE)
LEFT = re.compile(r"^(?:import|export)\b", re.MULTILINE)


def modules_of(path, above=()):
    """The modules that one imports, each after those that it imports itself, and that one last."""
    if path in above:
        sys.exit(f"{path}: it imports itself")
    found = []
    for name in IMPORT.findall(path.read_text(encoding="utf-8")):
        found += modules_of((path.parent / name).resolve(), (*above, path))
    return [*dict.fromkeys(found), path]


def source(path):
    """The text of a source, which is inside of an element."""
    text = path.read_text(encoding="utf-8")
    if "</script" in text or "</style" in text:
        sys.exit(f"{path}: it would end its element")
    return text


def plain(path):
    """A module without its imports and exports."""
    text = EXPORT.sub("", IMPORT.sub("", source(path)))
    if LEFT.search(text):
        sys.exit(f"{path}: an import or export of another form")
    return text.strip("\n") + "\n"


def joined(path):
    """A module with all that it imports, as a plain script."""
    return "\n".join(['"use strict";\n', *map(plain, modules_of(path))])
