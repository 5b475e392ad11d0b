#!/usr/bin/env python3
"""Tries the package in Chromium: the page of README.md, and a module that is given as bytes.

    python3 library/js/test/in_browser.py

The last line is `Chrome/N: M differences`, and the status is 1 if there is one.
"""
import functools
import http.server
import pathlib
import re
import shutil
import sys
import tempfile
import threading

PACKAGE = pathlib.Path(__file__).resolve().parent.parent
TOP = PACKAGE.parent.parent
sys.path.insert(0, str(TOP / "page" / "try"))
sys.dont_write_bytecode = True

import browsers  # noqa: E402

README = (PACKAGE / "README.md").read_text(encoding="utf-8")
PAGE = re.search(r"^```html\n(.*?)^```$", README, re.DOTALL | re.MULTILINE)[1]
WHY = re.search(r"^(size: 64 x 18\n.*?)^```$", README, re.DOTALL | re.MULTILINE)[1]
REDRAWN = 2860 + 129
BY_BYTES = """(async () => {
  const { load } = await import("./anscheck/index.js");
  const module = await (await fetch("./anscheck/anscheck.wasm")).arrayBuffer();
  const checker = await load(module);
  const file = new Uint8Array(await (await fetch("harbour.ans")).arrayBuffer());
  const { verdict, width, lines, glyphs } = checker.check(checker.mend(file).file);
  return [verdict, width, lines, glyphs.length, checker.redraw(file).file.length];
})()"""


class Quiet(http.server.SimpleHTTPRequestHandler):
    """Serves a folder, and says nothing."""

    def log_message(self, *words):
        """Nothing is said."""


def serve(folder):
    """A server of the folder, and its address."""
    server = http.server.ThreadingHTTPServer(("127.0.0.1", 0), functools.partial(Quiet, directory=folder))
    threading.Thread(target=server.serve_forever, daemon=True).start()
    return server, f"http://127.0.0.1:{server.server_port}/"


def differences(browser, address):
    """What the browser shows otherwise than it should."""
    browser.open(address)
    browser.wait("document.body.lastChild?.data?.trim()")
    told = (browser.value("document.body.lastChild.data"), browser.value(BY_BYTES))
    return [pair for pair in zip(told, (WHY, ["pass", 64, 18, 64 * 18, REDRAWN])) if pair[0] != pair[1]]


def main():
    """Tries it."""
    browser = browsers.Chromium()
    with tempfile.TemporaryDirectory() as folder:
        shutil.copytree(PACKAGE, pathlib.Path(folder, "anscheck"))
        shutil.copy(TOP / "crates" / "anscheck" / "data" / "harbour.ans", folder)
        pathlib.Path(folder, "index.html").write_text("<!doctype html><title>try</title><body>" + PAGE, encoding="utf-8")
        server, address = serve(folder)
        try:
            found = differences(browser, address)
        finally:
            browser.close()
            server.shutdown()
    for told, wanted in found:
        print(f"{told!r}, expected {wanted!r}")
    print(f"{browser.name}: {len(found)} differences")
    sys.exit(bool(found))


if __name__ == "__main__":
    main()
