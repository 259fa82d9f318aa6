"""Each call of the bindings, and each look of der_dump, on each shape of documents: the time that it takes for twice
the size, and what it answers, which plain readers say.

    documents.py WORK KIND=PROGRAM..    with checks/lib on Python's path

KIND is `c`, `rust` or `python`: PROGRAM is given files, and prints for each call on each of them its name, its
processor time in microseconds and its status. KIND is `dump` for der_dump. All is timed once, and again where it is not
well. In short each fourth shape is tried.
"""
import os
import resource
import subprocess
import sys

import wanted
from bounds import RUNS, SIZES, is_well
from shapes import ACCOUNTED, DOCUMENTS, TEXTS, UNREAD, kind_of
from short import part

# seconds: what takes longer is ended
LIMIT, NO_END = 120, -1
# octets that are enough for the status of a shape: the plain readers of X.690 take the cube of the depth, and that of
# the grammar has to see more levels than the crate for Rust reads
SMALL, DEEP = 250, 4_000
LOOKS = {
    "lines": [], "--full": ["--full"], "--color": ["--color", "always"], "--json": ["--json"], "--html": ["--html"],
    "--strict": ["--strict"], "--json --strict": ["--json", "--strict"], "--text": ["--text"],
}
# of the block at an offset
AT = {"--at": ["--at"], "--json --at": ["--json", "--at"], "--extract": ["--extract"], "--contents": ["--contents"]}


def middle(octets):
    """The offset of an encoding that has half as many around it as the innermost of the first ones."""
    offsets, place = [0], 0
    while octets[place] & 0x20 and octets[place] & 0x1F != 0x1F:
        place += 2 + max(octets[place + 1] - 0x80, 0)
        if place + 1 >= len(octets) or octets[place : place + 2] == b"\0\0":
            break
        offsets.append(place)
    return offsets[len(offsets) // 2]


def used():
    """Seconds of processor time of all programs that have ended."""
    found = resource.getrusage(resource.RUSAGE_CHILDREN)
    return found.ru_utime + found.ru_stime


def timed_dump(program, words, path):
    """The time and the status of der_dump with these words, on a file."""
    before = used()
    with open(path, "rb") as given:
        try:
            ran = subprocess.run([program, *words], stdin=given, stdout=subprocess.DEVNULL, timeout=LIMIT)
        except subprocess.TimeoutExpired:
            return LIMIT, NO_END
    return used() - before, ran.returncode


def dumped(program, paths, offsets, names=None):
    """The times and statuses of each look, or of these, for each of the files."""
    found = {}
    for name, words in {**LOOKS, **(AT if offsets else {})}.items():
        if names is None or name in names:
            ends = [[str(it)] for it in offsets] if name in AT else [[]] * len(paths)
            found[name] = [timed_dump(program, [*words, *end], path) for path, end in zip(paths, ends)]
    return found


def called(program, paths, _offsets, _names=None):
    """The times and statuses of each call for each of the files."""
    words, found = [*program.split(), *paths], {}
    try:
        said = subprocess.run(words, stdout=subprocess.PIPE, timeout=LIMIT, check=True, text=True).stdout
    except subprocess.SubprocessError:
        return {"all": [(LIMIT, NO_END)]}
    for line in said.splitlines():
        name, took, status = line.rsplit(" ", 2)
        found.setdefault(name, []).append((int(took) / 1e6, int(status)))
    return found


def seconds(found):
    return [time for time, _ in found]


def least(kind, *given):
    """As timed once, and where it is not well with the least times of some runs."""
    run = dumped if kind == "dump" else called
    found = run(*given)
    for _ in range(RUNS - 1):
        slow = [name for name in found if not is_well(seconds(found[name]))]
        again = run(*given, slow) if slow else {}
        for name in again.keys() & slow:
            found[name] = list(map(min, found[name], again[name]))
    return found


def answers(name, make, is_text):
    """What each call has to answer of a shape, by the kind of program."""
    if is_text:
        return {"dump": dict.fromkeys(LOOKS, int(name in UNREAD)) | {"--text": 1}}
    look, strict = wanted.of_dump(make(SMALL))
    library = wanted.of_library(make(DEEP), make(SMALL), kind_of(name))
    crate = wanted.of_crate(make(DEEP))
    dump = dict.fromkeys(LOOKS, look) | {"--strict": strict, "--json --strict": strict}
    return {"c": library, "python": library, "rust": crate, "dump": dump | {"--text": int(name not in ACCOUNTED)}}


def tell(kind, shape, found, answer):
    """Says how long the slowest call took, and which are wrong. Returns how many are."""
    wrong = 0
    for name, runs in found.items():
        # whether there is a block at the offset is no matter here
        is_right = name in AT or all(status == answer.get(name) for _, status in runs)
        if not is_right or not is_well(seconds(runs)):
            wrong += 1
            statuses = ", ".join(str(it) for _, it in runs)
            print(f"growth: {kind} {name}, {shape}: {shown(runs)}, status {statuses}: WRONG", flush=True)
    slowest = max(found, key=lambda name: found[name][-1][0])
    print(f"growth: {kind}, {shape}: {len(found)} calls, the slowest {slowest} {shown(found[slowest])}", flush=True)
    return wrong


def shown(runs):
    return ", ".join(f"{time * 1000:.1f}" for time in seconds(runs)) + " ms"


def main():
    work, tried, wrong = sys.argv[1], 0, 0
    programs = dict(word.split("=", 1) for word in sys.argv[2:])
    # the plain readers are recursive
    sys.setrecursionlimit(50_000)
    for shape, make in part({**DOCUMENTS, **TEXTS}.items(), 4):
        documents = [make(size) for size in SIZES]
        paths = [os.path.join(work, f"{size}.der") for size in SIZES]
        for path, octets in zip(paths, documents):
            with open(path, "wb") as file:
                file.write(octets)
        right = answers(shape, make, shape in TEXTS)
        offsets = [] if shape in TEXTS else list(map(middle, documents))
        for kind in filter(programs.get, right):
            found = least(kind, programs[kind], paths, offsets)
            tried, wrong = tried + len(found), wrong + tell(kind, shape, found, right[kind])
    print(f"growth: {tried} calls on shapes, {wrong} wrong")
    sys.exit(1 if wrong else 0)


main()
