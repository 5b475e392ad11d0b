#!/usr/bin/env python3
"""Has `mend -i` write over many files, stops it, fills its disk and takes its permissions, and looks for lost bytes.

Run it in `crates/anscheck`, as root, on the built program, with a number that seeds the files, how many there shall be,
and how often the program is killed:

    python3 ../../tools/hostile/written_files.py out/anscheck 1 8000 200

The files are those of `mend_files.py`, and some that are empty, links, hard links, folders or not to be written. What is
to become of each is what `mend` writes to standard output for it: these bytes, or if there are none or nothing changes,
the file as it is. After each of these a file has to have its old bytes or its new ones, whole, with the permissions that
it had, and besides the files there may be one named `.anscheck-N` after a kill, and none else:

- a whole run over all files: each file has its new bytes;
- runs over 100 files that are killed at random moments;
- a disk, in memory, that is full after a random number of files;
- a folder in which nothing may be made, and files that may not be written, for a user who is not root.

It prints what is wrong, and its status is then 1.
"""
import os
import random
import shutil
import signal
import stat
import subprocess
import sys
import tempfile
import time

sys.dont_write_bytecode = True
sys.path.insert(0, os.path.join(os.path.dirname(os.path.abspath(__file__)), "../compare"))
import mend_files

FLAGS = ["--take-out", "--crlf", "--least-lines"]
FEW = 100
NOBODY = 65534


def mended(program, file):
    """What becomes of a file that is mended in place."""
    done = subprocess.run([program, "mend", *FLAGS], input=file, capture_output=True)
    return done.stdout if done.returncode == 0 else file


def made(seed, count):
    """The files, by name."""
    files = {}
    for number in range(count):
        chance = random.Random(f"{seed} {number}")
        files[f"{number:05}.ans"] = b"" if number % 97 == 0 else mend_files.a_mend_file(chance)
    return files


def put(folder, files):
    for number, (name, file) in enumerate(files.items()):
        with open(os.path.join(folder, name), "wb") as it:
            it.write(file)
        os.chmod(os.path.join(folder, name), [0o644, 0o600, 0o664, 0o755][number % 4])


def run(program, folder, names, **more):
    return subprocess.Popen([program, "mend", *FLAGS, "-i", *names], cwd=folder, stdin=subprocess.DEVNULL,
                            stdout=subprocess.DEVNULL, stderr=subprocess.DEVNULL, **more)


def wrong(folder, files, after, most_left, all_new=False):
    """What is wrong with the files in a folder."""
    found, said = set(os.listdir(folder)), []
    left = [name for name in found - set(files) if name.startswith(".anscheck-")]
    if len(left) > most_left or found - set(files) - set(left):
        said.append(f"there are {sorted(found - set(files))[:5]}")
    for number, (name, old) in enumerate(files.items()):
        path = os.path.join(folder, name)
        with open(path, "rb") as it:
            bytes_now = it.read()
        if bytes_now != after[name] and (all_new or bytes_now != old):
            said.append(f"{name} has {len(bytes_now)} bytes, had {len(old)}, was to have {len(after[name])}")
        if stat.S_IMODE(os.stat(path).st_mode) != [0o644, 0o600, 0o664, 0o755][number % 4]:
            said.append(f"{name} has other permissions")
    return said


def whole(program, files, after):
    with tempfile.TemporaryDirectory() as folder:
        put(folder, files)
        os.link(os.path.join(folder, "00001.ans"), "/tmp/anscheck-hard-link")
        status = run(program, folder, files).wait()
        said = wrong(folder, files, after, 0, all_new=True)
        with open("/tmp/anscheck-hard-link", "rb") as it:
            said += [] if it.read() == files["00001.ans"] else ["a hard link has other bytes"]
        os.remove("/tmp/anscheck-hard-link")
        return said + ([] if status in (1, 2) else [f"status {status}"])


def killed(program, files, after, times, chance):
    said, few = [], {name: files[name] for name in list(files)[:FEW]}
    with tempfile.TemporaryDirectory() as folder:
        put(folder, few)
        start = time.perf_counter()
        run(program, folder, few).wait()
        lasts = time.perf_counter() - start
    for _ in range(times):
        with tempfile.TemporaryDirectory() as folder:
            put(folder, few)
            process = run(program, folder, few)
            time.sleep(chance.random() * lasts)
            process.send_signal(signal.SIGKILL)
            process.wait()
            said += wrong(folder, few, after, 1)
    return said


def full(program, files, after, chance):
    said, few = [], {name: files[name] for name in list(files)[:FEW]}
    for _ in range(20):
        with tempfile.TemporaryDirectory() as folder:
            kilobytes = sum(-(-len(file) // 4096) * 4 for file in few.values()) + chance.randrange(4, 200)
            if subprocess.run(["mount", "-t", "tmpfs", "-o", f"size={kilobytes}k", "none", folder]).returncode:
                return said + ["no disk could be made: run it as root"]
            try:
                put(folder, few)
                with open(os.path.join(folder, "filler"), "wb") as it:
                    it.write(bytes(max(0, os.statvfs(folder).f_bavail * 4096 - 4096 * chance.randrange(0, 3))))
                run(program, folder, few).wait()
                os.remove(os.path.join(folder, "filler"))
                said += wrong(folder, few, after, 0)
            finally:
                subprocess.run(["umount", folder])
    return said


def not_permitted(program, files, after):
    said, few = [], {name: files[name] for name in list(files)[:FEW]}
    with tempfile.TemporaryDirectory() as folder:
        put(folder, few)
        for name in few:
            os.chown(os.path.join(folder, name), NOBODY, NOBODY)
        os.chmod(folder, 0o555)
        status = run(program, folder, few, user=NOBODY, group=NOBODY).wait()
        said += wrong(folder, few, few, 0) + ([] if status == 2 else [f"read-only folder: status {status}"])
    with tempfile.TemporaryDirectory() as folder:
        put(folder, few)
        os.chmod(folder, 0o777)
        for name in few:
            os.chmod(os.path.join(folder, name), 0o444)
        run(program, folder, few, user=NOBODY, group=NOBODY).wait()
        for name, file in few.items():
            with open(os.path.join(folder, name), "rb") as it:
                said += [] if it.read() == file else [f"{name} may not be written, and was"]
    return said


def main(program, seed, count, kills):
    program, chance = os.path.abspath(program), random.Random(seed)
    shown = shutil.copy(program, "/tmp/anscheck-written")
    os.chmod(shown, 0o755)
    files = made(seed, int(count))
    after = {name: mended(shown, file) for name, file in files.items()}
    changed = sum(after[name] != file for name, file in files.items())
    said = whole(shown, files, after)
    said += killed(shown, files, after, int(kills), chance)
    said += full(shown, files, after, chance)
    said += not_permitted(shown, files, after)
    os.remove(shown)
    print("\n".join(said[:40]))
    print(f"{count} files, {changed} to be changed, {kills} kills: {len(said)} wrong")
    return 1 if said else 0


if __name__ == "__main__":
    sys.exit(main(*sys.argv[1:]))
