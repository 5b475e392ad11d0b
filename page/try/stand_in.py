"""Builds the stand-in for the checker's module, which stops or never ends if it is asked to."""
import pathlib
import subprocess

HERE = pathlib.Path(__file__).resolve().parent
EXPORTS = ("ans_size", "ans_row_on", "ans_why_on", "ans_record", "ans_mend_on", "ans_copy_fault_text",
           "ans_copy_version", "__heap_base")


def build(folder):
    """Builds the module in a folder."""
    module = folder / "stand_in.wasm"
    subprocess.run(["clang", "--target=wasm32-unknown-unknown", "-std=c11", "-Wall", "-O2", "-nostdlib",
                    "-ffreestanding", "-Wl,--no-entry", *(f"-Wl,--export={name}" for name in EXPORTS),
                    "-o", module, HERE / "stand_in.c"], check=True)
    return module
