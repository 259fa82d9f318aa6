"""Builds der_tool with `run_strict` in place of `run`, unproved: strict.py FILE copies the program to this file.

No program calls `run_strict`. Its lines and its want of memory are looked at through this one.
"""
import pathlib
import shutil
import sys
import tempfile

from builds import INPUTS, unproved_program
from tests import copy_of

CALLED = "use crate::tool::{fault_text, run, status};"
CALLS = "use crate::tool::{fault_text, run_strict as run, status};"


def main(path):
    with tempfile.TemporaryDirectory() as folder:
        room = pathlib.Path(folder)
        crate = copy_of("der_tool", room)
        root = crate / "src/main.rt"
        text = root.read_text()
        if CALLED not in text:
            sys.exit(f"der_tool: main does not say `{CALLED}`")
        root.write_text(text.replace(CALLED, CALLS))
        (room / "build").mkdir()
        program, said = unproved_program(crate, room / "build", *INPUTS["der_tool"])
        if program is None:
            sys.exit("der_tool was not built:\n" + said[-3000:])
        shutil.copy(program, path)


if __name__ == "__main__":
    main(sys.argv[1])
