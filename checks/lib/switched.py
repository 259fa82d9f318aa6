"""Wrong bodies behind a switch, in a copy of the crates that is built once, unproved.

checks/run arms and checks/run memory write the bodies; here are the copy, its building, and the bodies that may stay
unseen.
"""
import pathlib
import re
import shutil
import subprocess
import sys

from builds import unproved_program

TOP = pathlib.Path(__file__).resolve().parent.parent.parent

# the switch in the copy: a call of the C library that the loaded library answers
SWITCH = """// Which wrong body runs.
unsafe extern "C" {
    pub safe fn getpgid(n: i32) -> i32;
}

pub fn is_wrong(n: i32) -> bool {
    getpgid(n) == -77
}
"""


def wrong_copy(room, names, bodies_of, switch=SWITCH):
    """A copy of the crates with all wrong bodies of these, and the bodies.

    bodies_of(crate, path, start) gives the text of a file with its bodies, numbered from start on, and these.
    """
    shutil.copy(TOP / "crates.txt", room)
    for crate in sorted((TOP / "crates").iterdir()):
        for part in ["src", "specs", "proofs"]:
            if (crate / part).is_dir():
                shutil.copytree(crate / part, room / "crates" / crate.name / part)
    if (TOP / "HANDLES").exists():
        shutil.copy(TOP / "HANDLES", room)
    bodies = []
    for name in names:
        source = room / "crates" / name / "src"
        before = len(bodies)
        for path in sorted(source.rglob("*.rt")):
            text, found = bodies_of(name, path, 1 + len(bodies))
            path.write_text(text)
            bodies += found
        if len(bodies) > before:
            (source / "switch.rt").write_text(switch)
            root = source / "lib.rt"
            root.write_text(re.sub(r"^((?:pub )?mod )", r"mod switch;\n\1", root.read_text(), count=1, flags=re.M))
    return bodies


def built(room, crate, *how):
    """The program of the copy: `how` is what it is run on, as of unproved_program."""
    program, said = unproved_program(room / "crates" / crate, room, *how)
    if program is None:
        sys.exit("the copy was not built:\n" + said[-3000:])
    return program


def switch_library(room, *others):
    """The library that is loaded before others: the switch, and these files of checks/lib."""
    library = room / "switch.so"
    sources = [TOP / "checks" / "lib" / name for name in ["switch.c", *others]]
    subprocess.run(["cc", "-shared", "-fPIC", "-O1", "-o", library, *sources], check=True)
    return library


def allowed(path):
    """The bodies that may stay unseen, by their names, and why: the lines of the file."""
    found = {}
    for line in path.read_text().splitlines():
        if line and not line.startswith("#"):
            name, _, why = line.partition(" -- ")
            found[name] = why
    return found
