#!/usr/bin/env python3
"""try_release.py [--program PROGRAM] [--library LIBRARY]: makes the archive by release.py, and tries it.

It makes the archive twice and compares the bytes, unpacks it, and installs it below an empty folder whose name has a
blank, and once more below DESTDIR. There it tries the program, by all runs of `tools/runs` and by `why`, `check` and
`redraw` of each drawing of `crates/anscheck/data`; the manual, by `man`; the completions, by bash, and by zsh and fish
where they are installed; the links of the documents; the library, by `tell.c`, built by what pkg-config says
with the static and with the shared one, and by `tell.py`, which have to say what the program says; the module for
JavaScript, where it is in the archive and Node is installed. At last it takes away what is listed, and
nothing may be left. It prints what fails, and in the last line how many trials there were and how many failed; its
status is 1 where one did.
"""
import hashlib
import importlib.util
import os
import re
import shutil
import subprocess
import sys
import tarfile
import tempfile
from pathlib import Path

TOOLS = Path(__file__).resolve().parent
TOP = TOOLS.parent
DRAWINGS = sorted((TOP / "crates/anscheck/data").glob("*.ans"))
LIST = "share/anscheck/installed"
CALLERS = "share/doc/anscheck/library"
COMPLETED = {
    "anscheck re": "redraw",
    "anscheck help F2": "F2 F20 F21 F22 F23 F24 F25",
    "anscheck mend --l": "--least-lines --lines",
}
# For bash: reads the completions of $1, and prints those of the line $2.
COMPLETE = """
source "$1"
complete -p anscheck > /dev/null || exit
read -ra COMP_WORDS <<< "$2"
COMP_CWORD=$((${#COMP_WORDS[@]} - 1))
_anscheck
echo "${COMPREPLY[*]}"
"""
# For Node: prints what the module $1 says of the file $2.
WHY = """
const [at, file] = process.argv.slice(1);
const { load } = await import(at);
const { readFile } = await import("node:fs/promises");
process.stdout.write((await load()).why(await readFile(file)).text);
"""
sys.dont_write_bytecode = True


class Trials:
    """Counts what was tried and what failed, and says of each failure what it is."""

    def __init__(self):
        self.count = self.failed = 0

    def want(self, what, holds, said=""):
        self.count += 1
        if not holds:
            self.failed += 1
            print(f"failed: {what}\n{said}".rstrip())

    def same(self, what, came, wanted):
        self.want(what, came == wanted, f"  came:   {came!r:.300}\n  wanted: {wanted!r:.300}")


def run(*words, **more):
    return subprocess.run([str(word) for word in words], capture_output=True, check=False, **more)


def text_of(*words, **more):
    ran = run(*words, **more)
    return (ran.stdout + ran.stderr).decode(errors="replace").strip()


def files_below(folder):
    """The names of the files below a folder."""
    return sorted(str(file.relative_to(folder)) for file in folder.rglob("*") if file.is_file())


def try_modes(trials, folder):
    """Everybody may read all that is below a folder, and run what is to be run."""
    for file in folder.rglob("*"):
        runs = file.is_dir() or file.name == "install.sh" or file.parent.name == "bin"
        trials.same(f"mode of {file}", file.stat().st_mode & 0o777, 0o755 if runs else 0o644)


def prefixes_of(folder):
    """What ans.pc states as its prefix."""
    file = folder / "lib/pkgconfig/ans.pc"
    return re.findall(r"^prefix=(.*)$", file.read_text(encoding="utf-8"), re.MULTILINE) if file.is_file() else []


def try_archive(trials, folder, words):
    """Makes the archive twice, and returns the folder that it unpacks to."""
    made = []
    for name, mask in (("first", 0o022), ("second", 0o077)):
        ran = run(sys.executable, TOOLS / "release.py", folder / name, *words, umask=mask)
        if ran.returncode:
            sys.exit(ran.stderr.decode().strip())
        made.append(Path(ran.stdout.decode().strip()))
    archive = made[0]
    trials.want("the archive is the same twice", archive.read_bytes() == made[1].read_bytes())
    sums = Path(f"{archive}.sha256").read_text(encoding="ascii")
    trials.same("its sum", sums, f"{hashlib.sha256(archive.read_bytes()).hexdigest()}  {archive.name}\n")
    with tarfile.open(archive) as tar:
        names = tar.getnames()
        trials.same("its names are sorted", names, sorted(names))
        trials.same("its times are one", len({entry.mtime for entry in tar}), 1)
    run("tar", "xzf", archive, "-C", folder, umask=0o022)
    top = folder / archive.name.removesuffix(".tar.gz")
    try_modes(trials, top)
    return top


def try_install(trials, top, folder):
    """Installs below a folder and below DESTDIR, and returns the folder."""
    prefix, staged, final = folder / "a prefix", folder / "staged", folder / "final"
    ran = run(top / "install.sh", prefix, umask=0o077)
    if ran.returncode:
        sys.exit(f"install.sh failed: {ran.stderr.decode().strip()}")
    trials.same("install.sh says what it did in a line", len(ran.stdout.splitlines()), 1)
    files = files_below(prefix)
    trials.same("what is installed is listed", files, (prefix / LIST).read_text(encoding="ascii").split())
    try_modes(trials, prefix)
    trials.same("ans.pc names the prefix", prefixes_of(prefix), [str(prefix).replace(" ", "\\ ")])
    # This prefix is below the folder too, so that nothing is put elsewhere even where DESTDIR is not heeded.
    run("./install.sh", f"{final}/", cwd=top, env={**os.environ, "DESTDIR": str(staged)})
    below = Path(f"{staged}{final}")
    trials.same("with DESTDIR the same is installed", files_below(below), files)
    trials.want("and nothing without it", not final.exists())
    trials.same("ans.pc then names the prefix", prefixes_of(below), [str(final)])
    run(top / "install.sh", top.name, cwd=folder)
    trials.same("installed into itself all stays", files_below(top), sorted([*files, "README.md", "install.sh"]))
    trials.same("install.sh without words", run(top / "install.sh").returncode, 2)
    return prefix


def try_program(trials, program):
    runs = run(sys.executable, TOOLS / "runs/run_all.py", program, cwd=TOP / "crates/anscheck")
    trials.same("the runs of tools/runs", runs.returncode, 0)
    print(runs.stdout.decode().strip().splitlines()[-1])
    for drawing in DRAWINGS:
        why, check = run(program, "why", drawing), run(program, "check", drawing)
        trials.want(f"why {drawing.name}", why.returncode < 2 and b"verdict: " in why.stdout)
        trials.want(f"check {drawing.name}", check.returncode < 2 and b"verdict: " in check.stdout)
        redrawn = run(program, "redraw", drawing)
        trials.same(f"redraw {drawing.name} ends as why", redrawn.returncode, why.returncode)
        if redrawn.returncode == 0:
            needs = run(program, "needs", input=redrawn.stdout).stdout
            trials.same(f"{drawing.name} redrawn", needs.splitlines()[-1:], [b"needs: nothing"])


def try_manual(trials, prefix):
    pages = prefix / "share/man"
    trials.same("man finds the page", text_of("man", "-M", pages, "-w", "anscheck"), str(pages / "man1/anscheck.1"))
    page = text_of("man", "-M", pages, "anscheck", env={**os.environ, "LC_ALL": "C.UTF-8"})
    trials.want("man shows it", "ANSCHECK(1)" in page and "redraw" in page, page[:300])


def try_completions(trials, prefix):
    bash = prefix / "share/bash-completion/completions/anscheck"
    for line, wanted in COMPLETED.items():
        trials.same(f"bash completes '{line}'", text_of("bash", "-c", COMPLETE, "bash", bash, line), wanted)
    others = {"zsh": "zsh/site-functions/_anscheck", "fish": "fish/vendor_completions.d/anscheck.fish"}
    for shell, name in others.items():
        if shutil.which(shell):
            trials.same(f"{shell} reads its completions", text_of(shell, "-n", prefix / "share" / name), "")
        else:
            print(f"not tried: there is no {shell}")


def anchors_of(page):
    """The anchors that the headings of a page get."""
    headings = re.findall(r"^#+ (.*)$", re.sub(r"^```.*?^```$", "", page, flags=re.DOTALL | re.MULTILINE), re.MULTILINE)
    return {re.sub(r"[^\w\- ]", "", heading.lower()).replace(" ", "-") for heading in headings}


def try_links(trials, folder):
    """Each link of each document below a folder leads to a file, and to a heading of it where it names one."""
    count = 0
    for page in sorted(folder.rglob("*.md")):
        text = re.sub(r"^```.*?^```$", "", page.read_text(encoding="utf-8"), flags=re.DOTALL | re.MULTILINE)
        for target, anchor in re.findall(r"\[[^\[\]]*\]\(([^)\s#]*)(?:#([^)\s]*))?\)", text):
            if re.match(r"[a-z]+:", target):
                continue
            count += 1
            file = page.parent / target if target else page
            found = file.is_file() and (not anchor or anchor in anchors_of(file.read_text(encoding="utf-8")))
            trials.want(f"link of {page.relative_to(folder)} to {target}#{anchor}", found)
    print(f"{count} links of documents")


def calls_of(header):
    """The calls that a header declares and the library exports."""
    return sorted(re.findall(r"^enum ans_answer (ans_\w+)\(", header.read_text(encoding="utf-8"), re.MULTILINE))


def build_tell(trials, prefix, folder):
    """Builds tell.c by what pkg-config says, with the shared and with the static library."""
    finds = {**os.environ, "PKG_CONFIG_PATH": str(prefix / "lib/pkgconfig")}
    trials.same("pkg-config takes ans.pc", text_of("pkg-config", "--validate", "ans", env=finds), "")
    told = {name: text_of("pkg-config", *words.split(), "ans", env=finds) for name, words in {
        "flags": "--cflags", "libs": "--libs", "static": "--static --libs", "folder": "--variable=libdir"}.items()}
    script = 'eval "cc -std=c11 -O2 -Wall -Wextra -Werror -pedantic $1"'
    source, shared, static = prefix / CALLERS / "tell.c", folder / "tell_shared", folder / "tell_static"
    built = {
        shared: f"'{source}' {told['flags']} {told['libs']} -Wl,-rpath,{told['folder']} -o '{shared}'",
        static: f"'{source}' {told['flags']} -Wl,-Bstatic {told['static']} -Wl,-Bdynamic -o '{static}'",
    }
    for tell, words in built.items():
        trials.same(f"cc builds {tell.name}", text_of("sh", "-c", script, "sh", words), "")
        linked = "libans_c.so" in text_of("readelf", "-d", tell)
        trials.same(f"{tell.name} wants libans_c.so", linked, tell == shared)
    return {tell.name: [tell] for tell in built if tell.is_file()}


def try_library(trials, prefix, folder):
    spec = importlib.util.spec_from_file_location("library_try", TOP / "library/try.py")
    beside = importlib.util.module_from_spec(spec)
    spec.loader.exec_module(beside)
    shared = prefix / "lib/libans_c.so"
    trials.want("libans_c.so is a link to its soname", shared.is_symlink() and f"[{os.readlink(shared)}]" in text_of(
        "readelf", "-d", shared))
    exports = [line.split()[-1] for line in text_of("nm", "-D", "--defined-only", shared).splitlines()]
    trials.same("what libans_c.so exports", sorted(exports), calls_of(prefix / "include/ans.h"))
    callers = build_tell(trials, prefix, folder)
    callers["Python"] = [sys.executable, prefix / CALLERS / "tell.py", shared]
    for drawing in DRAWINGS:
        others = dict(beside.differing(callers, prefix / "bin/anscheck", drawing))
        for language in callers:
            trials.want(f"{language} on {drawing.name}", language not in others, f"  it says {others.get(language)}")


def try_script(trials, prefix):
    folder = prefix / "share/anscheck/js"
    if not folder.is_dir() or not shutil.which("node"):
        print("not tried: there is no module for JavaScript, or no node")
        return
    for drawing in DRAWINGS:
        words = "node", "--input-type=module", "-e", WHY, (folder / "index.js").as_uri(), drawing
        wanted = run(prefix / "bin/anscheck", "why", drawing).stdout
        trials.same(f"JavaScript on {drawing.name}", run(*words).stdout, wanted)


def try_removal(trials, prefix):
    run("sh", "-c", f"xargs rm < {LIST}", cwd=prefix)
    trials.same("nothing is left of it", files_below(prefix), [])


def main(*words):
    trials = Trials()
    with tempfile.TemporaryDirectory() as name:
        folder = Path(name)
        top = try_archive(trials, folder, words)
        try_links(trials, top)
        prefix = try_install(trials, top, folder)
        try_links(trials, prefix)
        try_program(trials, prefix / "bin/anscheck")
        try_manual(trials, prefix)
        try_completions(trials, prefix)
        try_library(trials, prefix, folder)
        try_script(trials, prefix)
        try_removal(trials, prefix)
    print(f"{trials.count} trials, {trials.failed} failed")
    return 1 if trials.failed else 0


if __name__ == "__main__":
    sys.exit(main(*sys.argv[1:]))
