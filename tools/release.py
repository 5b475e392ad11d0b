#!/usr/bin/env python3
"""release.py OUT [VERSION] [--program PROGRAM] [--library LIBRARY]: makes the archive of a built tree.

It writes `OUT/anscheck-VERSION-x86_64-linux.tar.gz`, and its SHA-256 sum beside it: the program, its manual and
completions, the library, static and shared, the page, and the documents that users need, with `install.sh` and a
README. PROGRAM is `crates/anscheck/out/anscheck` and LIBRARY `crates/ans_c/out/libans_c.a` unless others are named;
where one is missing it says what builds it. VERSION is the program's own; one that is given has to be that.
`library/shared.sh` makes the shared library, by `cc`.

The same tree gives the same bytes: names are sorted, the owner is root, and each time is that of the last commit, or of
SOURCE_DATE_EPOCH where that is set. A link in a document leads to its file in the archive; where the archive has none,
its words stay alone. `try_release.py` tries all that.
"""
import argparse
import ctypes
import gzip
import hashlib
import io
import os
import posixpath
import re
import subprocess
import sys
import tarfile
import tempfile
from pathlib import Path

TOP = Path(__file__).resolve().parent.parent
BUILDS = {
    "program": ("crates/anscheck/out/anscheck", "cd crates/anscheck && rt run -- check --cleared data/hi.ans"),
    "library": ("crates/ans_c/out/libans_c.a", "cd crates/ans_c && rt lib"),
}
DOCS = "share/doc/anscheck"
DOCUMENTS = ["README.md", "CHANGELOG.md", "library/README.md", "library/tell.c", "library/tell.rs", "library/tell.py"]
PAGES = ["MANUAL", "FAULTS", "FOLDERS", "PLAYERS", "PROFILE", "GLOSSARY", "PROVED", "SECURITY"]
# Files of the tree, and where they stand in the archive.
PLACES = {
    "docs/anscheck.1": "share/man/man1/anscheck.1",
    "crates/anscheck/completions/anscheck.bash": "share/bash-completion/completions/anscheck",
    "crates/anscheck/completions/_anscheck": "share/zsh/site-functions/_anscheck",
    "crates/anscheck/completions/anscheck.fish": "share/fish/vendor_completions.d/anscheck.fish",
    "library/ans.h": "include/ans.h",
    "library/ans_easy.h": "include/ans_easy.h",
    "library/ans.pc": "lib/pkgconfig/ans.pc",
    "page/check.html": "share/anscheck/check.html",
    "tools/release/README.md": "README.md",
    "tools/release/install.sh": "install.sh",
}
LIST = "share/anscheck/installed"
NOT_INSTALLED = ["README.md", "install.sh"]
LINK = re.compile(r"!?\[([^\[\]]*)\]\(([^)\s#]+)(#[^)\s]*)?\)")


class Missing(Exception):
    """What stops a release, in words."""


def places():
    """Where each file of the tree that is taken stands in the archive."""
    found = dict(PLACES)
    found.update((name, f"{DOCS}/{name}") for name in [*DOCUMENTS, *(f"docs/{page}.md" for page in PAGES)])
    for folder in ("docs", "tools/pictures"):
        found.update((f"{folder}/{file.name}", f"{DOCS}/docs/{file.name}") for file in (TOP / folder).glob("*.png"))
    for file in (TOP / "crates/anscheck/data").glob("*.ans"):
        found[f"crates/anscheck/data/{file.name}"] = f"{DOCS}/data/{file.name}"
    for file in (TOP / "library/js").glob("*"):
        if file.is_file():
            found[f"library/js/{file.name}"] = f"share/anscheck/js/{file.name}"
    return found


def with_links(text, source, found):
    """A document with links that lead to the archive's files, and without those that lead to none."""
    def placed(link):
        target = posixpath.normpath(posixpath.join(posixpath.dirname(source), link[2]))
        if re.match(r"[a-z]+:", link[2]):
            return link[0]
        if target not in found:
            return link[1]
        path = posixpath.relpath(found[target], posixpath.dirname(found[source]) or ".")
        return link[0].replace(f"]({link[2]}", f"]({path}")

    # Every second part is a block of code.
    parts = re.split(r"(^```.*?^```$)", text, flags=re.DOTALL | re.MULTILINE)
    return "".join(part if i % 2 else LINK.sub(placed, part) for i, part in enumerate(parts))


class Link(bytes):
    """A link of the archive; its bytes are the name of what it leads to."""


def shared_library(archive, version):
    """The shared library of the static one, and the link to it, by name. Its version has to be the program's."""
    with tempfile.TemporaryDirectory() as folder:
        try:
            words = [TOP / "library/shared.sh", archive, folder]
            link = subprocess.run(words, check=True, stdout=subprocess.PIPE, text=True).stdout.strip()
        except (OSError, subprocess.CalledProcessError):
            raise Missing(f"library/shared.sh makes no shared library of {archive}") from None
        text, length = (ctypes.c_uint8 * 64)(), ctypes.c_size_t()
        ctypes.CDLL(link).ans_copy_version(text, ctypes.c_size_t(64), ctypes.byref(length))
        told = bytes(text[: length.value]).decode()
        if told != version:
            raise Missing(f"the library is of version {told}, the program of {version}")
        shared = Path(os.readlink(link))
        return {shared.name: (Path(folder) / shared).read_bytes(), Path(link).name: Link(shared.name.encode())}


def version_of(program, wanted):
    """The program's version, which has to be the one that is wanted."""
    try:
        told = subprocess.run([program, "--version"], capture_output=True, text=True, check=True).stdout.split()[1]
    except (OSError, subprocess.CalledProcessError, IndexError):
        raise Missing(f"{program} does not tell its version") from None
    if wanted not in (None, told):
        raise Missing(f"the program is of version {told}, not {wanted}")
    for name, line in (("ans.pc", "^Version: (.*)$"), ("ans.h", '^#define ANS_VERSION "(.*)"$')):
        stated = re.search(line, (TOP / "library" / name).read_text(encoding="utf-8"), re.MULTILINE)[1]
        if stated != told:
            raise Missing(f"library/{name} states version {stated}, the program {told}")
    return told


def glibc_of(binary):
    """The greatest version of the C library that a binary asks for."""
    return max((tuple(map(int, it.split(b"."))) for it in re.findall(rb"GLIBC_(2[.\d]*\d)", binary)), default=(2,))


def own_readme(text, version, glibc, files):
    """The archive's README, with its versions, and without rows of a table that name nothing in the archive."""
    text = text.replace("@VERSION@", version).replace("@GLIBC@", ".".join(map(str, glibc)))
    rows = re.compile(r"^\| `((?:bin|include|lib|share)/[^`]*)`.*\n", re.MULTILINE)
    return rows.sub(lambda row: row[0] if any(name.startswith(row[1]) for name in files) else "", text)


def files_of(program, library, version):
    """The archive's files, by name."""
    found = places()
    files = {to: (TOP / name).read_bytes() for name, to in found.items()}
    files["bin/anscheck"] = program.read_bytes()
    files["lib/libans_c.a"] = library.read_bytes()
    shared = shared_library(library, version)
    files.update((f"lib/{name}", data) for name, data in shared.items())
    files[LIST] = b""
    for name, to in found.items():
        if to.endswith(".md") and to not in NOT_INSTALLED:
            files[to] = with_links(files[to].decode(), name, found).encode()
    glibc = max(map(glibc_of, [files["bin/anscheck"], *shared.values()]))
    files["README.md"] = own_readme(files["README.md"].decode(), version, glibc, files).encode()
    # Before it is installed, ans.pc finds what stands beside it.
    files["lib/pkgconfig/ans.pc"] = re.sub(rb"^prefix=.*", rb"prefix=${pcfiledir}/../..", files["lib/pkgconfig/ans.pc"])
    files[LIST] = "".join(f"{name}\n" for name in sorted(files) if name not in NOT_INSTALLED).encode()
    return files


def entry_of(name, data, time, runs):
    """The head of a file of the archive, of a link or, without data, of a folder."""
    entry = tarfile.TarInfo(name)
    entry.mtime, entry.uname, entry.gname = time, "root", "root"
    entry.mode = 0o755 if data is None or runs else 0o644
    entry.type = tarfile.DIRTYPE if data is None else tarfile.REGTYPE
    if isinstance(data, Link):
        entry.type, entry.mode, entry.linkname = tarfile.SYMTYPE, 0o777, data.decode()
    elif data is not None:
        entry.size = len(data)
    return entry


def packed(files, top, time):
    """The archive's bytes: the files below a folder, each with the same time and owner."""
    folders = {str(parent) for name in files for parent in Path(top, name).parents} - {"."}
    entries = sorted([*((name, None) for name in folders), *((f"{top}/{name}", data) for name, data in files.items())])
    packing = io.BytesIO()
    with gzip.GzipFile(filename="", mode="wb", fileobj=packing, mtime=0) as zipped:
        with tarfile.open(fileobj=zipped, mode="w", format=tarfile.USTAR_FORMAT) as tar:
            for name, data in entries:
                entry = entry_of(name, data, time, name in (f"{top}/bin/anscheck", f"{top}/install.sh"))
                tar.addfile(entry, io.BytesIO(data) if entry.isreg() else None)
    return packing.getvalue()


def time_of_tree():
    """The time that each file of the archive gets."""
    if "SOURCE_DATE_EPOCH" in os.environ:
        return int(os.environ["SOURCE_DATE_EPOCH"])
    told = subprocess.run(["git", "log", "-1", "--format=%ct"], cwd=TOP, capture_output=True, text=True, check=False)
    if told.returncode:
        raise Missing("there is no commit here whose time could be taken; set SOURCE_DATE_EPOCH")
    return int(told.stdout)


def built(named):
    """The built program and library; `named` has the paths that stand in place of the usual ones."""
    files, missing = [], []
    for what, (path, command) in BUILDS.items():
        files.append(Path(named[what] or TOP / path).resolve())
        if not files[-1].is_file():
            missing.append(f"there is no {named[what] or path}; this builds the {what}: {command}")
    if missing:
        raise Missing("\n".join(missing))
    return files


def release(words):
    """Writes the archive and its sum, and returns the archive's name."""
    program, library = built(vars(words))
    version = version_of(program, words.version)
    top = f"anscheck-{version}-x86_64-linux"
    archive = packed(files_of(program, library, version), top, time_of_tree())
    out = Path(words.out)
    out.mkdir(parents=True, exist_ok=True)
    name = f"{top}.tar.gz"
    (out / name).write_bytes(archive)
    (out / f"{name}.sha256").write_text(f"{hashlib.sha256(archive).hexdigest()}  {name}\n", encoding="ascii")
    return out / name


def main():
    asked = argparse.ArgumentParser(description="Makes the archive of a built tree.")
    asked.add_argument("out")
    asked.add_argument("version", nargs="?")
    asked.add_argument("--program")
    asked.add_argument("--library")
    try:
        print(release(asked.parse_args()))
    except Missing as what:
        print("".join(f"release.py: {line}\n" for line in str(what).splitlines()), end="", file=sys.stderr)
        return 1
    return 0


if __name__ == "__main__":
    sys.exit(main())
