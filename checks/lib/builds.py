"""Programs for checks: as `rt ci` left them, proved and built by `rt run`, or built without any proof.

    builds.py proved CRATE FOLDER      builds the program of the crate, and links it into the folder; a line says that
    builds.py unproved CRATE FOLDER    its stored run was another, or what `rt` said where it was not built
"""
import os
import pathlib
import subprocess
import sys
import tempfile
import time

TOP = pathlib.Path(__file__).resolve().parent.parent.parent
CRATES = TOP / "crates"

# a document of NULLs, which takes the program some seconds
LONG = bytes([5, 0]) * 6_000_000
# other input on which a program takes some seconds, and words behind its name
INPUTS = {
    "der_signed": (bytes([0x30, 0x82]) * 4_000_000, ()),
    "der_tool": (b"0280\n" * 3_000_000, ()),
    "example_certificate": (LONG, ()),
    "test_calls": (b"read 02 01 00\n" * 2_000_000, ()),
}


def program(crate):
    """The built program of the crate: in the folder that PROGRAM_DIR names, or as `rt ci` and `rt run` leave it."""
    folder = os.environ.get("PROGRAM_DIR", CRATES / crate / "out")
    path = pathlib.Path(folder, crate).resolve()
    if not os.access(path, os.X_OK):
        sys.exit(f"{crate} is not built: {path}")
    return path


class StoredRun:
    """The stored run of a program: its input, its words, its files, and what it has to print and end with."""

    def __init__(self, crate):
        self.folder = CRATES / crate
        self.input = (self.folder / "stdin").read_bytes()
        self.output = (self.folder / "stdout").read_bytes()
        self.words = self.said("args", "").split()
        self.status = int(self.said("status", "0"))

    def said(self, name, other):
        path = self.folder / name
        return path.read_text() if path.exists() else other

    def run(self, path):
        """What the program prints, and its status."""
        with tempfile.TemporaryDirectory() as room:
            data = self.folder / "data"
            ran = subprocess.run([path, *self.words], input=self.input, capture_output=True,
                                 cwd=data if data.is_dir() else room)
        return ran.stdout, ran.returncode

    def wanted(self):
        return self.output, self.status


def proved_program(crate):
    """The program of the crate, proved where that is to be done, or None, and what `rt` said."""
    stored, path = StoredRun(crate), CRATES / crate / "out" / crate
    ran = subprocess.run(["rt", "run"], cwd=CRATES / crate, input=stored.input, stdout=subprocess.DEVNULL,
                         stderr=subprocess.PIPE)
    said = ran.stderr.decode(errors="replace")
    is_built = "rt: running" in said and os.access(path, os.X_OK)
    if is_built and stored.run(path) != stored.wanted():
        return None, said + f"{crate}: its stored run prints something else\n"
    return (path if is_built else None), said


def unproved_program(crate, room, given=LONG, words=("-",)):
    """The program of the crate, kept in the folder `room`, or None and what `rt` said.

    `rt try` deletes the program that it builds: it stands in the folder of temporary files while it runs on long input,
    with the arguments `words`.
    """
    temporary, program, log = room / "temporary", room / crate.name, room / "log"
    temporary.mkdir()
    (room / "long").write_bytes(given)
    with open(room / "long", "rb") as long, open(log, "wb") as told:
        job = subprocess.Popen(["rt", "try", "--seconds", "8", "--", *words], cwd=crate, stdin=long,
                               stdout=subprocess.DEVNULL, stderr=told, env={**os.environ, "TMPDIR": str(temporary)})
        while job.poll() is None:
            for path in temporary.rglob("program"):
                try:
                    if not program.exists() or not os.path.samefile(path, program):
                        program.unlink(missing_ok=True)
                        os.link(path, program)
                except FileNotFoundError:
                    pass
            time.sleep(0.05)
    return (program if program.exists() else None), log.read_text()


def main(words):
    how, crate, folder = words
    if how == "proved":
        path, said = proved_program(crate)
        if path:
            os.symlink(path, pathlib.Path(folder, crate))
    else:
        with tempfile.TemporaryDirectory(dir=folder) as room:
            path, said = unproved_program(CRATES / crate, pathlib.Path(room), *INPUTS.get(crate, ()))
            if path:
                os.rename(path, pathlib.Path(folder, crate))
    if not path:
        print(f"{crate} was not built:\n{said[-3000:]}")
    return 0 if path else 1


if __name__ == "__main__":
    sys.exit(main(sys.argv[1:]))
