#!/usr/bin/env python3
"""Writes random drawings, about which the page's module and the program have to say the same.

    python3 page/try/random_drawings.py FOLDER COUNT [SEED]

FOLDER is made, and given COUNT drawings of each kind: such as `second_mend.py` mends, such as `second_redraw.py`
redraws, and such as `mutated_files.py` changes; and the made ones of `made_drawings.py`. The same SEED gives the same
drawings.
"""
import pathlib
import random
import sys

TOP = pathlib.Path(__file__).resolve().parent.parent.parent
sys.path[:0] = [str(TOP / "tools" / name) for name in ("compare", "hostile", "runs")]
sys.dont_write_bytecode = True

import made_drawings  # noqa: E402
import mend_files  # noqa: E402
import mutated_files  # noqa: E402
import redraw_files  # noqa: E402


def main(folder, count, seed="1"):
    """Writes them."""
    folder = pathlib.Path(folder)
    folder.mkdir(parents=True)
    seeds = mutated_files.seeds()
    kinds = {"mend": mend_files.a_mend_file, "redraw": redraw_files.a_redraw_file,
             "mutated": lambda chance: mutated_files.a_file(chance, seeds)}
    for kind, make in kinds.items():
        for number in range(int(count)):
            file = make(random.Random(f"{kind} {seed} {number}"))
            (folder / f"{kind}-{number:05}.ans").write_bytes(file)
    made = made_drawings.MISTAKES + made_drawings.MEANT + made_drawings.SPOKEN_OF
    for number, drawing in enumerate(made):
        (folder / f"made-{number:05}.ans").write_bytes(drawing.file())


if __name__ == "__main__":
    if len(sys.argv) not in (3, 4):
        sys.exit(__doc__)
    main(*sys.argv[1:])
