#!/usr/bin/env python3
"""Makes page/check.html, one file with the module and all sources inside.

    python3 page/make.py [MODULE [OUT]]

MODULE is library/js/anscheck.wasm if it is not named, which page/build.sh built, and OUT is page/check.html. The
policy in the page names the hashes of its style and its scripts, so that it runs no others. By its stamp
`page/stamp.py` finds whether it is out of date.
"""
import base64
import gzip
import hashlib
import json
import pathlib
import re
import sys
import textwrap

HERE = pathlib.Path(__file__).resolve().parent
sys.path[:0] = [str(HERE), str(HERE.parent / "tools" / "runs")]
sys.dont_write_bytecode = True

from meanings import helps  # noqa: E402
from modules import SCRIPT, SOURCES, WORKER, joined, source  # noqa: E402
from stamp import page_stamp  # noqa: E402

MODULE = HERE.parent / "library" / "js" / "anscheck.wasm"


def faults():
    """The text of each fault, as `anscheck help F20` prints it, by its number."""
    return {name[1:]: text for name, text in helps().items() if name.startswith("F")}


def hash_of(text):
    """How a policy names a script or a style."""
    return "'sha256-" + base64.b64encode(hashlib.sha256(text.encode()).digest()).decode() + "'"


def policy(style, *scripts):
    """Nothing is loaded, and nothing is run except what is in the page."""
    return "; ".join((
        "default-src 'none'", f"script-src {' '.join(map(hash_of, scripts))} 'wasm-unsafe-eval'",
        f"style-src {hash_of(style)}", "worker-src blob:", "img-src data:", "base-uri 'none'", "form-action 'none'",
    ))


def main():
    """Writes the page."""
    if len(sys.argv) > 3:
        sys.exit(__doc__)
    given = [*map(pathlib.Path, sys.argv[1:])]
    path, out = given + [MODULE, HERE / "check.html"][len(given):]
    packed = base64.b64encode(gzip.compress(path.read_bytes(), mtime=0)).decode()
    style, code, last = source(SOURCES / "check.css"), joined(SCRIPT), source(SOURCES / "last.js")
    parts = {
        "POLICY": policy(style, code, last), "STAMP": page_stamp(path), "STYLE": style, "SCRIPT": code, "LAST": last,
        "FAULTS": json.dumps(faults(), ensure_ascii=False).replace("<", "\\u003c"),
        "MODULE": "\n".join(textwrap.wrap(packed, 120)), "WORKER": joined(WORKER),
    }
    page = re.sub("@([A-Z]+)@", lambda part: parts[part[1]], (SOURCES / "check.html").read_text(encoding="utf-8"))
    out.write_text(page, encoding="utf-8", newline="\n")
    print(f"{out}: {len(page.encode())} bytes")


if __name__ == "__main__":
    main()
