"""The rows of calls of the library: those of crates/test_calls, and those of checks/tried, whose calls are not proved.

    checks/run calls [-- NAME..]            each row, or those of the calls of these names
    checks/run calls -- --fmt               gives the files of checks/tried the layout of `rt fmt`
    checks/run calls -- --program FILE      copies the program to this file

The program test_calls is proved. It shows that the prover finds what a caller of the library has to show. The calls of
checks/tried are not proved. `rt` reads sources in crates alone, so theirs have another ending: they become the module
`tried` in a copy of test_calls, which is built once with them, with the address sanitizer. The program is kept in
checks/tried/out until something that it is made of changes.

A row is a line of `stdin` with its answer in `stdout`. A line that begins with `#` is a comment and has no answer.
"""
import collections
import concurrent.futures
import fcntl
import hashlib
import itertools
import os
import pathlib
import shutil
import subprocess
import sys
import tempfile

from builds import CRATES, INPUTS, TOP, unproved_program

TRIED = TOP / "checks/tried"
CRATE = CRATES / "test_calls"
KEPT = TRIED / "out"
# the crates that the calls of checks/tried stand on beside those of the program
MORE = ("der_forms",)
# in which the rows are answered
SECONDS = 900
# calls of documents that are too large to be run again for each place where memory may run out
LARGE = ("large_octet_string", "nested")


def lines_of_crates():
    """The lines of crates.txt by their crates, where the program stands on what its calls do."""
    lines = [it.partition("#")[0].rstrip() for it in (TOP / "crates.txt").read_text().splitlines()]
    found = {it.split(":")[0].split()[0]: it for it in lines if ":" in it}
    found[CRATE.name] = " ".join([found[CRATE.name], *MORE])
    return found


def crates_below():
    """The crates that the program is made of."""
    lines, found = lines_of_crates(), []
    waiting = [CRATE.name]
    while waiting:
        name = waiting.pop()
        if name in lines and name not in found:
            found.append(name)
            waiting += lines[name].split(":")[1].split()
    return sorted(found)


def sources():
    """The files of checks/tried, each with its place in the crate."""
    root = TRIED / "calls.rattle"
    inner = [(it, f"src/tried/{it.stem}.rt") for it in sorted((TRIED / "calls").glob("*.rattle"))]
    return [(root, "src/tried.rt"), *inner]


def with_calls(folder):
    """Gives the crate test_calls of a copy, whose top is the folder, the calls of checks/tried."""
    crate = folder / "crates" / CRATE.name
    (crate / "src/tried").mkdir()
    for path, place in sources():
        shutil.copy(path, crate / place)
    there = [line for name, line in lines_of_crates().items() if (folder / "crates" / name).is_dir()]
    (folder / "crates.txt").write_text("".join(f"{line}\n" for line in there))
    return crate


def copy_into(folder):
    """A copy of the crates that the program is made of, with these calls. The crate test_calls of it."""
    for name in crates_below():
        for part in ("src", "specs", "proofs"):
            if (CRATES / name / part).is_dir():
                shutil.copytree(CRATES / name / part, folder / "crates" / name / part)
    shutil.copy(TOP / "HANDLES", folder)
    return with_calls(folder)


def digest():
    """What the program is made of, as one number: the kit, and the sources and definitions of its crates."""
    made = hashlib.sha256()
    kit = pathlib.Path("/opt/rattle/KIT-ID")
    files = [kit] if kit.exists() else []
    for name in crates_below():
        for part in ("src", "specs"):
            files += sorted(it for it in (CRATES / name / part).rglob("*") if it.is_file())
    for path in [*files, *(path for path, _ in sources()), pathlib.Path(__file__)]:
        made.update(f"{path}\0".encode() + path.read_bytes())
    return made.hexdigest()


def tried_program():
    """The program, kept or built anew, or None and what `rt` said. Nobody else builds it meanwhile."""
    KEPT.mkdir(exist_ok=True)
    with open(KEPT / "lock", "w") as lock:
        fcntl.flock(lock, fcntl.LOCK_EX)
        program = KEPT / digest()
        if program.exists():
            return program, ""
        with tempfile.TemporaryDirectory() as folder:
            room = pathlib.Path(folder)
            crate = copy_into(room)
            (room / "build").mkdir()
            built, said = unproved_program(crate, room / "build", *INPUTS[CRATE.name])
            if built is None:
                return None, said
            for path in KEPT.iterdir():
                if path.name != "lock":
                    path.unlink()
            shutil.copy(built, KEPT / "new")
            os.rename(KEPT / "new", program)
    return program, ""


def rows_of(folder):
    """The rows of a stored run, each a line that is answered, and its answer. An empty line parts groups of rows."""
    lines = [it for it in (folder / "stdin").read_text().splitlines() if not it.startswith("#")]
    answers = (folder / "stdout").read_text().splitlines()
    if len(lines) != len(answers):
        raise ValueError(f"{folder}: {len(lines)} lines have {len(answers)} answers")
    return [row for row in zip(lines, answers) if row[0]]


def all_rows():
    """The rows of the proved program, and those of the tried calls."""
    return rows_of(CRATE) + rows_of(TRIED)


def rows_of_call(name):
    """The octets that the rows of a call of the proved program have."""
    digits = [line.partition("#")[0].split()[1:] for line, answer in rows_of(CRATE) if call_of((line, answer)) == name]
    return [bytes.fromhex("".join(it)) for it in digits]


def small_rows():
    """Those rows, each once, that are run again and again."""
    return list(dict(row for row in all_rows() if call_of(row) not in LARGE).items())


def call_of(row):
    """The name of the call, or that there is none."""
    return row[0].split()[0] if row[1] != "badline" else "no call"


def laid_out():
    """The files of checks/tried that have another layout than that of `rt fmt`, each with its text in that."""
    with tempfile.TemporaryDirectory() as folder:
        crate = copy_into(pathlib.Path(folder))
        ran = subprocess.run(["rt", "fmt"], cwd=crate, stdout=subprocess.PIPE, stderr=subprocess.STDOUT, text=True)
        if ran.returncode:
            sys.exit(f"calls: rt fmt: {ran.stdout[-2000:]}")
        texts = [(path, (crate / place).read_text()) for path, place in sources()]
    return [(path, text) for path, text in texts if path.read_text() != text]


def wrong_rows(program, rows):
    """How many rows the program answers otherwise, which it runs in as many parts as there are processors."""
    parts = [part for part in (rows[at::os.cpu_count()] for at in range(os.cpu_count())) if part]
    with concurrent.futures.ThreadPoolExecutor(len(parts) or 1) as pool:
        return sum(pool.map(wrong_part, itertools.repeat(program), parts))


def wrong_part(program, rows):
    """How many of these rows the program answers otherwise; the first of them are told."""
    given = "".join(f"{line}\n" for line, _ in rows).encode()
    ran = subprocess.run([program], input=given, capture_output=True, timeout=SECONDS)
    came = ran.stdout.decode(errors="replace").split("\n")[:-1]
    wrong = [(row, it) for row, it in zip(rows, came + [None] * len(rows)) if it != row[1]]
    for (line, answer), it in wrong[:20]:
        print(f"calls: {line[:200]}\n  answered: {it}\n  wanted:   {answer}")
    if ran.returncode or ran.stderr or len(came) != len(rows):
        print(f"calls: status {ran.returncode}, {len(came)} answers: {ran.stderr.decode(errors='replace')[-2000:]}")
        return max(1, len(wrong))
    return len(wrong)


def main(words):
    if words == ["--fmt"]:
        for path, text in laid_out():
            path.write_text(text)
        return 0
    program, said = tried_program()
    if program is None:
        print(f"calls: {CRATE.name} was not built:\n{said[-3000:]}")
        return 1
    if words[:1] == ["--program"]:
        shutil.copy(program, words[1])
        return 0
    rows = [row for row in all_rows() if not words or call_of(row) in words]
    layout = [os.path.relpath(path, TOP) for path, _ in laid_out()]
    for path in layout:
        print(f"calls: {path}: run checks/run calls -- --fmt")
    wrong = wrong_rows(program, rows) + len(layout)
    calls = collections.Counter(map(call_of, rows))
    print(f"calls: {len(rows)} rows of {len(calls)} calls, {wrong} wrong")
    return 1 if wrong or not rows else 0


if __name__ == "__main__":
    sys.exit(main(sys.argv[1:]))
