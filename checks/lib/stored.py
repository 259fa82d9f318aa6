"""The stored run of each program prints what is stored, and ends with its status.

    checks/run stored [-- CRATE..]    of these programs, or of all that have one
"""
import itertools
import sys

from builds import CRATES, StoredRun, program


def is_as_stored(crate):
    stored = StoredRun(crate)
    printed, status = stored.run(program(crate))
    if (printed, status) == stored.wanted():
        return True
    pairs = zip(printed.split(b"\n"), stored.output.split(b"\n"))
    same = sum(1 for _ in itertools.takewhile(lambda it: it[0] == it[1], pairs))
    print(f"stored: {crate}: status {status}; the first {same} lines are those of stdout, and no more")
    return False


def main(words):
    crates = words or sorted(it.parent.name for it in CRATES.glob("*/stdin"))
    wrong = [is_as_stored(it) for it in crates].count(False)
    print(f"stored: {len(crates)} stored runs, {wrong} wrong")
    return 1 if wrong or not crates else 0


if __name__ == "__main__":
    sys.exit(main(sys.argv[1:]))
