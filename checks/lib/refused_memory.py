"""The allocations of each line of a stored run refused in turn: one by one, or each 64th of many.

PROGRAM CRATE WORK: the program, the folder of its stored run, and one for files. PROGRAM CRATE WORK strict: der_tool,
where it reads strictly, and lines for that.
"""
import concurrent.futures
import os
import pathlib
import subprocess
import sys

from calls import LARGE

program, crate, work = sys.argv[1:4]
is_strict = sys.argv[4:] == ["strict"]
name = "run_strict" if is_strict else pathlib.Path(crate).name
# programs of calls, whose comments have no line of their own among the answers
CALLS = ("test_calls", "tried")
# what a run ends with where memory ran out: its status, what it wrote, and what stands on standard error
RAN_OUT = (2, b"", b"out of memory\n")
# lines of each kind in one run of der_tool, the last of them empty, and their answers
TOGETHER = ("0280\n3000\nzz\n0489\n",
            "ok 020100\nok 3000\nbadhex\nrefused LengthTooLarge 9\nrefused EmptyBuffer")
# such lines, where they are read strictly
STRICTLY = ("0101ff\nzz\n050001012a", "ok 0101FF\nbadhex\nrefused NotCanonical 2")
# calls that read an `Outline` or `Headers`, or so many, which guess room for their entries, and ask for less where that
# much is refused. Where the first guess is too small for the entries, they guess once more. As many refused allocations
# of each may leave the answer of a line as it is
GUESSING = {"Outline::": 1, "BlockRef::": 1, "Entry::": 1, "Headers::": 1, "Inside::inside": 4, "Inside::": 2,
            "first": 1}
GUESSES = 2
# of the allocations of one line, so many are refused one by one, and behind them each of so many
FIRST, STEP = 256, 64


def refusing():
    """The environment in which allocations are refused; of a program of `rt try` it has the places where these are."""
    places = {"___interceptor_malloc": "MALLOC_AT", "___interceptor_realloc": "REALLOC_AT"}
    symbols = subprocess.run(["nm", program], capture_output=True, text=True).stdout.splitlines()
    found = {places[it.split()[2]]: it.split()[0] for it in symbols if it.split()[-1] in places}
    return {**os.environ, "LD_PRELOAD": f"{work}/fail_alloc.so", **found}


def rows():
    """The lines of the stored run that are answered, each once, with their answers."""
    if is_strict:
        return [STRICTLY]
    lines = pathlib.Path(crate, "stdin").read_text().splitlines()
    if name in CALLS:
        lines = [it for it in lines if not it.startswith("#")]
    answers = pathlib.Path(crate, "stdout").read_text().splitlines()
    assert len(lines) == len(answers), f"{name}: {len(lines)} lines have {len(answers)} answers"
    together = [TOGETHER] if name == "der_tool" else []
    found = [it for it in dict(zip(lines, answers)).items() if it[0] and not it[0].startswith(("#", *LARGE))]
    return found + together


def called(line, answer):
    """The call that the line names."""
    if name not in CALLS:
        return "run"
    return line.split()[0] if answer not in ("", "badline") else "no call"


def ran(line, number, mark):
    """How the run ended in which the allocation of this number is refused, and whether there was one."""
    words = {**environment, "FAIL_ALLOC": str(number), "REFUSED": mark}
    run = subprocess.run([program], input=f"{line}\n".encode(), capture_output=True, env=words)
    met = os.path.exists(mark)
    if met:
        os.unlink(mark)
    return (run.returncode, run.stdout, run.stderr), met


def refused_in_turn(at, line, answer):
    """How many allocations were refused, and what was wrong."""
    number, some, wrong, mark = 0, 0, [], f"{work}/refused{at}"
    right = (0, f"{answer}\n".encode(), b"")
    call = called(line, answer)
    guesses = GUESSES * next((count for name, count in GUESSING.items() if call.startswith(name)), 0)
    while True:
        number += 1 if number < FIRST else STEP
        ended, met = ran(line, number, mark)
        if not met:
            if ended != right:
                wrong.append(f"none refused: {ended}"[:200])
            return some, wrong
        some += 1
        if ended == right and guesses:
            guesses -= 1
        elif ended != RAN_OUT:
            wrong.append(f"allocation {number} refused: {ended}"[:200])


environment = refusing()
lines = rows()
with concurrent.futures.ThreadPoolExecutor(os.cpu_count()) as pool:
    counts = list(pool.map(refused_in_turn, range(len(lines)), *zip(*lines)))
calls = {}
for (line, answer), (count, wrong) in zip(lines, counts):
    call = calls.setdefault(called(line, answer), [0, 0, 0])
    call[0] += 1
    call[1] += count
    call[2] = max(call[2], count)
    for it in wrong:
        print(f"{line[:60]!r}: {it}")
for call, (some, count, most) in calls.items():
    print(f"refused-memory: {name} {call}: {some} lines, {count} allocations refused, at most {most} in one")
total, bad = sum(it for it, _ in counts), sum(len(it) for _, it in counts)
print(f"refused-memory: {name}: {len(lines)} lines, {total} allocations refused, {bad} wrong")
sys.exit(1 if bad or not total else 0)
