"""Runs built programs over rows: words, input and files, and what a run has to write and end with, to the byte.

    checks/run rows [-- PROGRAM..]    the rows crates/PROGRAM/rows/*.rows of these programs, or of all that have some

The program is crates/PROGRAM/out/PROGRAM, as `rt ci` and `rt run` leave it, or PROGRAM in the folder that the
environment names in PROGRAM_DIR. A row is a paragraph, and an empty line ends it. Lines that begin with # are comments.

    run WORDS            the words behind the program's name, parted as a shell does; this line names the row
    hex 30 03            standard input: octets
    text LINE            a line of it, with its line feed
    text- LINE           so, without one
    file NAME hex 30     a file that lies where the program runs; also file NAME text LINE, file NAME text- LINE
    > LINE               standard output: a line of it
    >- LINE              so, without a line feed
    >hex 05 00           octets of it
    has LINE             in place of these: a line that is somewhere in it
    ! LINE               a line of standard error
    status 1             the exit status, where it is not 0

What comes more than once is joined in order.
"""
import collections
import concurrent.futures
import os
import pathlib
import shlex
import subprocess
import sys
import tempfile

import builds

TOP = pathlib.Path(__file__).resolve().parent.parent.parent
SECONDS = 60


def with_line_feed(text):
    return text.encode() + b"\n"


PARTS = {"hex": bytes.fromhex, "text": with_line_feed, "text-": str.encode}
INPUT = {word: ("input", part) for word, part in PARTS.items()}
OUTPUT = {">": ("output", with_line_feed), ">-": ("output", str.encode), ">hex": ("output", bytes.fromhex),
          "!": ("error", with_line_feed)}
OCTETS = INPUT | OUTPUT


class Row:
    """One run: what the program is given, and what it has to do."""

    def __init__(self, place, words):
        self.place = place
        self.words = shlex.split(words)
        self.files = {}
        self.octets = {"input": b"", "output": b"", "error": b""}
        self.lines = []
        self.status = None

    def add(self, word, rest):
        """Takes in one more line of the row."""
        if word in OCTETS:
            stream, part = OCTETS[word]
            self.octets[stream] += part(rest)
        elif word == "file":
            name, kind, *text = rest.split(" ", 2)
            self.files[name] = self.files.get(name, b"") + PARTS[kind](text[0] if text else "")
        elif word == "has":
            self.lines.append(rest.encode())
        elif word == "status" and self.status is None:
            self.status = int(rest)
        else:
            raise ValueError("no such line in a row")

    def wanted(self):
        return self.octets["output"], self.octets["error"], self.status or 0

    def run(self, program, environment=None):
        """What the program does in a folder with the row's files alone."""
        with tempfile.TemporaryDirectory() as folder:
            for name, octets in self.files.items():
                pathlib.Path(folder, name).write_bytes(octets)
            ran = subprocess.run([program, *self.words], input=self.octets["input"], capture_output=True, cwd=folder,
                                 timeout=SECONDS, env=environment)
        if self.lines and set(self.lines) <= set(ran.stdout.split(b"\n")):
            return self.octets["output"], ran.stderr, ran.returncode
        return ran.stdout, ran.stderr, ran.returncode


def rows_of(path):
    """The rows of a file."""
    rows, row = [], None
    for number, line in enumerate(path.read_bytes().decode().split("\n"), 1):
        place = f"{path.relative_to(TOP)}:{number}"
        word, _, rest = line.partition(" ")
        if line.startswith("#"):
            continue
        try:
            if not line:
                row = None
            elif row is None:
                if word != "run":
                    raise ValueError("a row begins with run")
                row = Row(f"{place}: {line}", rest)
                rows.append(row)
            else:
                row.add(word, rest)
        except (KeyError, ValueError) as error:
            sys.exit(f"rows: {place}: {line}: {error}")
    return rows


def is_right(program, row):
    """Whether the run is the row's; where it is not, the row is told."""
    try:
        got = row.run(program)
    except subprocess.TimeoutExpired:
        print(f"rows: {row.place}\n  no end in {SECONDS} seconds")
        return False
    for name, is_so, shall in zip(("output", "standard error", "status"), got, row.wanted()):
        if is_so != shall:
            print(f"rows: {row.place}\n  {name}: {is_so!r}\n  wanted: {shall!r}")
    return got == row.wanted()


def main(names):
    found = collections.defaultdict(list)
    for path in sorted(TOP.glob("crates/*/rows/*.rows")):
        name = path.parent.parent.name
        if not names or name in names:
            found[name] += rows_of(path)
    missing = [name for name in names or ["any program"] if not found[name]] if names or not found else []
    if missing:
        sys.exit(f"rows: there are none of {', '.join(missing)}")
    wrong = 0
    for name, rows in found.items():
        program = builds.program(name)
        with concurrent.futures.ThreadPoolExecutor(os.cpu_count()) as pool:
            bad = list(pool.map(lambda row: is_right(program, row), rows)).count(False)
        print(f"rows: {name}: {len(rows)} rows, {bad} wrong")
        wrong += bad
    return 1 if wrong else 0


if __name__ == "__main__":
    sys.exit(main(sys.argv[1:]))
