"""The processor time and the memory that `rt ci` takes for each crate, and what took more than the last time.

    times.py LOG    writes data/times anew, from what a gate has printed that proved everything

A crate has up to four parts: `proof`, `tests`, `edits`, which are the wrong bodies of must-fail, and `compile`, what
compiles a program. What is kept from an earlier run takes no time, and is not compared. What takes a fifth more than
the stored list says is named, and fails nothing, since machines differ.
"""
import collections
import os
import pathlib
import re
import sys
import threading

DATA = pathlib.Path(__file__).resolve().parent.parent / "data" / "times"
PARTS = ("proof", "tests", "edits", "compile")
EACH = 0.5  # seconds from one look at the processes to the next
TICKS = os.sysconf("SC_CLK_TCK")
# what is less grows by chance
MORE, LEAST_SECONDS, LEAST_MEGABYTES = 1.2, 10, 200
LINE = re.compile(r"time: (\w+) (\w+): (\d+) s, (\d+) MB")


class Process:
    """A process, as /proc has it: its parent, its start, and the seconds that it and what it waited for have used."""

    def __init__(self, number):
        self.number = number
        text = pathlib.Path(f"/proc/{number}/stat").read_text()
        fields = text[text.rindex(")") + 2:].split()
        self.parent, self.start = int(fields[1]), fields[19]
        self.seconds = sum(map(int, fields[11:15])) / TICKS

    def look(self):
        """The crate that it is for, and which part of it; None where it is no run of the prover."""
        words = pathlib.Path(f"/proc/{self.number}/cmdline").read_bytes().decode(errors="replace").split("\0")
        if pathlib.Path(words[0]).name != "rattle" or "--crate-name" not in words:
            return None
        folder = os.readlink(f"/proc/{self.number}/cwd")
        part = "compile" if "--backend" in words else "edits" if "rt-edit-" in folder else \
            "tests" if "--test" in words else "proof"
        return words[words.index("--crate-name") + 1], part

    def megabytes(self):
        status = pathlib.Path(f"/proc/{self.number}/status").read_text()
        found = re.search(r"VmHWM:\s+(\d+)", status)
        return int(found[1]) // 1000 if found else 0


class Sampler:
    """Looks at the processes below one, twice a second, until it is left."""

    def __init__(self, root):
        self.root, self.seen, self.is_over = root, {}, threading.Event()
        self.thread = threading.Thread(target=self.look_on, daemon=True)

    def __enter__(self):
        self.thread.start()
        return self

    def __exit__(self, *_):
        self.is_over.set()
        self.thread.join()

    def look_on(self):
        while not self.is_over.wait(EACH):
            self.look()

    def look(self):
        processes = {}
        for name in os.listdir("/proc"):
            if name.isdigit():
                try:
                    processes[int(name)] = Process(int(name))
                except (OSError, ValueError):
                    pass  # it has ended
        for it in processes.values():
            if self.is_below(it, processes):
                try:
                    found = it.look()
                    if found:
                        self.seen[it.number, it.start] = (*found, it.seconds, it.megabytes())
                except (OSError, ValueError, IndexError):
                    pass  # it has ended; what was seen last counts

    def is_below(self, process, processes):
        while process and process.number != self.root:
            process = processes.get(process.parent)
        return process is not None

    def found(self):
        """Of each part of each crate the seconds of all its processes, and the most memory of one."""
        sums = collections.defaultdict(lambda: (0, 0))
        for crate, part, seconds, megabytes in self.seen.values():
            before = sums[crate, part]
            sums[crate, part] = (before[0] + seconds, max(before[1], megabytes))
        return dict(sums)


def stored():
    """The list, of each part of each crate."""
    found = {}
    for line in DATA.read_text().splitlines() if DATA.exists() else []:
        if line and not line.startswith("#"):
            crate, part, seconds, megabytes = line.split()
            found[crate, part] = (int(seconds), int(megabytes))
    return found


def grown(new, old, least):
    return new > MORE * old and new - old >= least


def lines(found):
    """What is printed: a line for each part, their sum, and what grew."""
    known = stored()
    for (crate, part), (seconds, megabytes) in sorted(found.items()):
        yield f"time: {crate} {part}: {seconds:.0f} s, {megabytes} MB"
    total = sum(seconds for seconds, _ in found.values())
    yield f"time: {total:.0f} s of processor time for {len({crate for crate, _ in found})} crates that were not kept"
    count = 0
    for (crate, part), (seconds, megabytes) in sorted(found.items()):
        if (crate, part) in known:
            was = known[crate, part]
            says = [f"{seconds:.0f} s, and {was[0]} s before"] if grown(seconds, was[0], LEAST_SECONDS) else []
            says += [f"{megabytes} MB, and {was[1]} MB before"] if grown(megabytes, was[1], LEAST_MEGABYTES) else []
            count += bool(says)
            yield from (f"time: GREW: {crate} {part}: {it}" for it in says)
    yield f"time: {count} parts grew by a fifth, beside checks/data/times"


def main(words):
    log, = words
    found = LINE.findall(pathlib.Path(log).read_text(errors="replace"))
    if not found:
        print(f"times: {log} has no times of crates")
        return 1
    head = [line for line in DATA.read_text().splitlines() if line.startswith("#")]
    DATA.write_text("".join(f"{line}\n" for line in [*head, *(" ".join(it) for it in found)]))
    print(f"times: {len(found)} parts of {len({it[0] for it in found})} crates")
    return 0


if __name__ == "__main__":
    sys.exit(main(sys.argv[1:]))
