#!/usr/bin/env python3
"""The library and the page beside the program, on the same drawings.

    python3 tools/bench/library.py PROGRAM ARCHIVE [--page PAGE] FILE ..

PROGRAM is the built `anscheck`, ARCHIVE the built `libans_c.a`. Of each FILE it prints processor seconds, the least of
nine: the program's `check --cleared`, which writes its report to nowhere, and a process that reads the file and calls
`ans_check`. With --page (page/check.html) it also prints clock seconds, the least of twenty after a first one: one call
of the library, and one in a worker of the page in Chromium.
"""
import argparse
import base64
import os
import pathlib
import subprocess
import sys
import tempfile

HERE = pathlib.Path(__file__).resolve().parent
TOP = HERE.parent.parent
PIECE = 1 << 20

# A worker of the page's own sources, which checks one drawing again and again.
WORKER = """
onmessage = async ({ data }) => {
  module = await WebAssembly.compile(await unpacked(data.packedModule));
  const times = [];
  for (let call = 0; call < 21; call++) {
    checker ??= newChecker();
    checker.open(data.file);
    const began = performance.now();
    const answer = checker.check(CLEARED).answer;
    times.push([answer, performance.now() - began]);
  }
  postMessage(times);
};
"""

ASK = """new Promise((done) => {
  const text = element("worker").textContent + %s;
  const worker = new Worker(URL.createObjectURL(new Blob([text])));
  worker.onmessage = ({ data }) => done(data);
  const length = window.pieces.reduce((sum, piece) => sum + piece.length, 0);
  const file = new Uint8Array(length);
  let at = 0;
  for (const piece of window.pieces) { file.set(piece, at); at += piece.length; }
  worker.postMessage({ packedModule, file });
})"""


def processor_seconds(command, path):
    """The processor seconds of a command with the file as standard input, the least of nine."""
    least = float("inf")
    for _ in range(9):
        with open(path, "rb") as file:
            process = subprocess.Popen(command, stdin=file, stdout=subprocess.DEVNULL)
            _, status, used = os.wait4(process.pid, 0)
        process.returncode = os.waitstatus_to_exitcode(status)
        if process.returncode not in (0, 1):
            sys.exit(f"{command}: status {process.returncode}")
        least = min(least, used.ru_utime + used.ru_stime)
    return least


def in_page(browser, path):
    """Clock seconds of a call in the page's worker, the least but for the first."""
    content = pathlib.Path(path).read_bytes()
    browser.value("(window.pieces = [], true)")
    for at in range(0, len(content), PIECE):
        piece = base64.b64encode(content[at:at + PIECE]).decode()
        browser.value(f"(window.pieces.push(Uint8Array.from(atob('{piece}'), (c) => c.charCodeAt(0))), true)")
    times = browser.value(ASK % repr(WORKER))
    return min(milliseconds for _, milliseconds in times[1:]) / 1000


def main():
    words = argparse.ArgumentParser(description=__doc__, formatter_class=argparse.RawDescriptionHelpFormatter)
    words.add_argument("program")
    words.add_argument("archive")
    words.add_argument("files", nargs="+", metavar="FILE")
    words.add_argument("--page")
    words = words.parse_args()
    with tempfile.TemporaryDirectory() as folder:
        caller = str(pathlib.Path(folder, "library"))
        subprocess.run(["cc", "-O2", "-I", TOP / "library", "-o", caller, HERE / "library.c", words.archive], check=True)
        browser = None
        if words.page:
            sys.path.insert(0, str(TOP / "page" / "try"))
            import browsers  # noqa: E402
            browser = browsers.Chromium()
            browser.open(pathlib.Path(words.page).resolve().as_uri())
        for path in words.files:
            program = processor_seconds([words.program, "check", "--cleared"], path)
            library = processor_seconds([caller, path, "1"], path)
            line = f"{pathlib.Path(path).name}: program {program:.3f}, library {library:.3f} ({library / program:.2f} x)"
            if browser:
                call = float(subprocess.run([caller, path, "21"], capture_output=True, text=True, check=True).stdout.split()[2])
                page = in_page(browser, path)
                line += f"; one call {call:.3f}, in the page {page:.3f} ({page / call:.1f} x)"
            print(line, flush=True)
        if browser:
            browser.close()


if __name__ == "__main__":
    main()
