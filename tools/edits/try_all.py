#!/usr/bin/env python3
"""Tries the edits that stand below this folder, a folder for each crate: the prover has to refuse each of them.

Run it anywhere, with the names of crates or with none for all:

    python3 tools/edits/try_all.py [CRATE..]
    python3 tools/edits/try_all.py --kept CRATE[/EDIT]..
    python3 tools/edits/try_all.py --together CRATE[/EDIT]..

The gate tries the edits in each crate's `must-fail/`. Those here tell less, or as much as one there. They are
kept apart because each takes 6 to 40 seconds of a processor, and the gate is to end within three hours on two slow
cores. They are tried on a copy of the repository, in which the crates below are built. Run it for each crate that
changes, before work on it is called done.

With `--kept` each edit is tried over what `rt check` has kept of its crate, and its line is printed at once. So it
begins without a check from nothing, and a run that is cut loses nothing; the crate has to be proved. Edits are named
as `ans_mend/tail_told_at_the_record`. An edit that cannot be read, that is refused only because a name is gone, or by a
limit alone, counts as one that is let through: such a refusal shows nothing. It reads the kit's `rt` for all that, so
another kit may want another script.

With `--together` one check tries many edits, each in another function: a proof of a function reads the contracts of
those that it calls, and not what is in them. An edit counts as refused if its own function is not proved. The others,
and those outside of functions, are then tried one by one as with `--kept`. That takes a fourth of the time.
"""
import collections
import importlib.machinery
import importlib.util
import os
import re
import shutil
import subprocess
import sys
import tempfile

EDITS = os.path.dirname(os.path.abspath(__file__))
ROOT = os.path.abspath(f"{EDITS}/../..")


def copy_sources(room):
    """Copies the tracked files, but not the edits of the gate."""
    tracked = subprocess.run(["git", "ls-files", "-z"], cwd=ROOT, stdout=subprocess.PIPE, check=True).stdout
    for path in tracked.decode().split("\0"):
        if path and "/must-fail/" not in path and os.path.isfile(f"{ROOT}/{path}"):
            os.makedirs(os.path.dirname(f"{room}/{path}"), exist_ok=True)
            shutil.copy2(f"{ROOT}/{path}", f"{room}/{path}")


def copy_built(room, crates):
    """Copies what is built of these crates."""
    for crate in crates:
        if os.path.isdir(f"{ROOT}/crates/{crate}/out"):
            shutil.copytree(f"{ROOT}/crates/{crate}/out", f"{room}/crates/{crate}/out", dirs_exist_ok=True)


def load_rt():
    """The kit's command `rt`, as a module."""
    loader = importlib.machinery.SourceFileLoader("rt_of_the_kit", os.path.realpath(shutil.which("rt")))
    module = importlib.util.module_from_spec(importlib.util.spec_from_loader(loader.name, loader))
    loader.exec_module(module)
    return module


def edits_named(name):
    """A crate, and its edits, or the one that is named."""
    crate, _, edit = name.partition("/")
    named = [f"{edit}.edit"] if edit else sorted(os.listdir(f"{EDITS}/{crate}"))
    return crate, [f"{EDITS}/{crate}/{each}" for each in named]


def try_over_kept(rt, crate, edits, room, together):
    """Tries edits over a copy of the crate's kept work, and returns how many are not refused."""
    for below in crate.below():
        if below.build_rlib(["--jobs", "1"], anew=False):
            sys.exit(f"{below.name} could not be built")
    not_refused = 0
    with tempfile.TemporaryDirectory(prefix="anscheck-kept-") as kept:
        shutil.copytree(f"{room}/crates/{crate.name}/out/incremental", kept, dirs_exist_ok=True)
        for edit in try_together(rt, crate, edits, kept) if together else edits:
            came, line = rt.must_fail(crate, edit, ["--jobs", "1"], kept)
            is_refused = came == rt.REFUSED and "(only because" not in line
            not_refused += not is_refused
            print(f"{'' if is_refused else 'NOT SO: '}{line}", flush=True)
    return not_refused


# An edit in one function: its file, that function's name and line, and its pairs of old and new texts.
Place = collections.namedtuple("Place", "edit file function line pairs")
FUNCTION = re.compile(r"\s*(?:pub(?:\(\w+\))? )?(?:const )?fn (\w+)")
GONE = re.compile(r"has no field|is not in scope|has no `|was not admitted")


def functions_of(text):
    """The name of each function of a file, and its first and last line, counted from 1."""
    lines, found = text.split("\n"), []
    for first, line in enumerate(lines, 1):
        begins = FUNCTION.match(line)
        if begins:
            end = line[:len(line) - len(line.lstrip())] + "}"
            last = next((n for n in range(first, len(lines)) if lines[n] == end), len(lines) - 1)
            found.append((begins[1], first, last + 1))
    return found


def place_of(crate, edit):
    """Where an edit is, if it is in one function."""
    with open(edit, encoding="utf-8") as its:
        lines = its.read().split("\n")
    told = {word: [line[len(word):] for line in lines if line.startswith(word)] for word in ("file: ", "old: ", "new: ")}
    file = told["file: "][0]
    with open(f"{crate.folder}/{file}", encoding="utf-8") as its:
        text = its.read()
    hit = set()
    for old in told["old: "]:
        line = text[:text.find(old)].count("\n") + 1
        hit |= {function[:2] for function in functions_of(text) if function[1] <= line <= function[2]} or {None}
    if not file.startswith("src/") or len(hit) != 1 or None in hit or any(text.count(old) != 1 for old in told["old: "]):
        return None
    (name, line), = hit
    return Place(edit, file, name, line, list(zip(told["old: "], told["new: "])))


def in_batches(places):
    """Lists of places, each in another function."""
    batches = []
    for place in places:
        free = (batch for batch in batches if all((it.file, it.line) != (place.file, place.line) for it in batch))
        batch = next(free, None)
        if batch is None:
            batches.append(batch := [])
        batch.append(place)
    return batches


def is_refused(crate, place, said):
    """Whether a check said that the edit's own function is not proved, for more than a name that is gone."""
    module = re.sub(r"(^|::)(lib|main|mod)$", "", place.file[len("src/"):-len(".rt")].replace("/", "::"))
    path = re.escape("::".join(filter(None, [crate.name, module])))
    verdict = re.search(rf"^fn {path}::(?:\w+::)*{place.function}: (not proved|no proof: expected answers)", said, re.M)
    errors = re.findall(rf"^(?:\./)?proofs/\S*/{place.function}/\S+:\d+:\d+: error.*", said, re.M)
    return bool(verdict) and not (verdict[1] == "not proved" and errors and all(map(GONE.search, errors)))


def is_unreadable(crate, place, said):
    """Whether the compiler or the prover could not read what the edit wrote."""
    with open(f"{crate.folder}/{place.file}", encoding="utf-8") as its:
        last = next(it[2] for it in functions_of(its.read()) if it[1] == place.line)
    lines = re.findall(rf"^(?:\./)?{re.escape(place.file)}:(\d+):\d+: error", said, re.M)
    return any(place.line <= int(line) <= last for line in lines)


def checked_together(rt, crate, batch, kept):
    """What a check says of the crate with all these edits."""
    texts = {}
    for place in batch:
        text = texts.get(place.file) or open(f"{crate.folder}/{place.file}", encoding="utf-8").read()
        for old, new in place.pairs:
            text = text.replace(old, new)
        texts[place.file] = text
    return rt.checked(crate, texts, ["--jobs", "1"], kept).stdout


def try_together(rt, crate, edits, kept):
    """Tries edits in batches, and returns those that no batch shows to be refused."""
    places = [place_of(crate, edit) for edit in edits]
    left = [edit for edit, place in zip(edits, places) if place is None]
    for batch in in_batches([place for place in places if place]):
        said = checked_together(rt, crate, batch, kept)
        while unreadable := [place for place in batch if is_unreadable(crate, place, said)]:
            # those that are refused before the prover keep it from the others
            left += [place.edit for place in unreadable]
            batch = [place for place in batch if place not in unreadable]
            said = checked_together(rt, crate, batch, kept)
        refused = [place for place in batch if is_refused(crate, place, said)]
        left += [place.edit for place in batch if place not in refused]
        print(f"{crate.name}: of {len(batch)} edits tried together {len(refused)} are refused", flush=True)
    return left


def main_over_kept(names, together):
    rt, not_refused, wanted = load_rt(), 0, {}
    for name in names:
        crate, edits = edits_named(name)
        wanted.setdefault(crate, []).extend(edits)
    rt.rtlib.guarded()
    with tempfile.TemporaryDirectory(prefix="anscheck-edits-") as room:
        copy_sources(room)
        os.chdir(room)
        crates = {crate.name: crate for crate in rt.rtlib.crates_below(room)}
        for crate, edits in wanted.items():
            copy_built(room, [crate, *(below.name for below in crates[crate].below())])
            not_refused += try_over_kept(rt, crates[crate], edits, room, together)
        os.chdir(ROOT)
    return 1 if not_refused else 0


def main(names):
    if names[:1] in (["--kept"], ["--together"]):
        return main_over_kept(names[1:], together=names[0] == "--together")
    crates = [name for name in sorted(os.listdir(EDITS)) if os.path.isdir(f"{EDITS}/{name}")]
    unknown = [name for name in names if name not in crates]
    if unknown:
        sys.exit(f"no edits stand here for {unknown[0]}: there are some for {', '.join(crates)}")
    with tempfile.TemporaryDirectory(prefix="anscheck-edits-") as room:
        copy_sources(room)
        copy_built(room, os.listdir(f"{ROOT}/crates"))
        for name in crates:
            shutil.copytree(f"{EDITS}/{name}", f"{room}/crates/{name}/must-fail")
        return subprocess.run(["rt", "must-fail", *(names or crates)], cwd=room).returncode


if __name__ == "__main__":
    sys.exit(main(sys.argv[1:]))
