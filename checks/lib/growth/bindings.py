"""Documents of which a careless call takes more than linear time: a long number as a component, as a tag or as an
INTEGER, and many items.

    bindings.py WORK KIND=PROGRAM..    with checks/lib on Python's path

KIND is `c`, `rust` or `python`, of which PROGRAM is given a call and a file, and prints the processor time of the call
in microseconds and a status; or `json`, for `der_dump`. It fails where twice the size takes more than three times as
long, or where 100 kB take more than a second. With PATIENCE=N in the environment each call is timed once. Of `memory`,
PROGRAM is given a call and a shape, and prints how many kB it takes for 100 MB without room for what it writes, a
status and a count. Of `signed`, PROGRAM is `der_signed`, which may take twice its input. `der_dump` may take its input
and 20 MiB: as lines, as JSON and on a page, of many items and of many groups, and in an account.
"""
import filecmp
import json
import os
import shutil
import subprocess
import sys
import tempfile

from bounds import PATIENCE, RUNS, SIZES, is_well
from shapes import ALGORITHM, LIST_FRONT, REVOKED, SIGNATURE, plain_words
from x690 import Nest, encoding, header


def long_number(size):
    """In base 128."""
    return b"\xff" * (size - 1) + b"\x7f"


def long_component(size):
    return encoding(0x06, b"\x2a" + long_number(size))


def signed(size):
    algorithm = encoding(0x30, long_component(size))
    return encoding(0x30, bytes.fromhex("3003020101") + algorithm + bytes.fromhex("03020099"))


def messages(size):
    """Messages of CMP (RFC 4210, 5.1), each in the body of another: a path to one leads through all around it."""
    head = bytes.fromhex("300b 020102 a4023000 a4023000")
    nest = Nest(encoding(0x30, head + bytes.fromhex("b3020500")))
    while nest.size < size:
        nest.around(0x30)
        nest.around(0xB4)
        nest.around(0x30, head)
    return nest.octets()


SHAPES = {
    "a long component": long_component,
    "many long components": lambda size: encoding(0x06, b"\x2a" + long_number(10) * (size // 10)),
    "many components": lambda size: encoding(0x06, b"\x2a" + b"\x05" * size),
    "a long tag": lambda size: b"\x9f" + long_number(size) + b"\x00",
    "a long INTEGER": lambda size: encoding(0x02, b"\x7f" + b"\xff" * size),
    "a long BIT STRING": lambda size: encoding(0x03, b"\x00" + b"\xff" * size),
    "many items": lambda size: encoding(0x30, bytes.fromhex("0500") * (size // 2)),
    "many blocks": lambda size: bytes.fromhex("0500") * (size // 2),
    "a long algorithm": signed,
    "messages in messages": messages,
}

# the status that is right, and the calls
OK, RANGE, TOO_LONG = 0, 13, 17
CALLS = {
    "c": {
        "a long component": {OK: "read rewrite shortest_oid", RANGE: "components", TOO_LONG: "oid dotted"},
        "many long components": {OK: "read rewrite shortest_oid", RANGE: "components", TOO_LONG: "oid dotted"},
        "many components": {OK: "read rewrite shortest_oid components", TOO_LONG: "oid dotted"},
        "a long tag": {OK: "read rewrite", TOO_LONG: "tag"},
        "a long INTEGER": {OK: "read rewrite each", RANGE: "int64"},
        "many items": {OK: "read rewrite each"},
        "a long algorithm": {OK: "read signed"},
    },
    "rust": {
        "a long component": {OK: "from_der components == to_der made"},
        "many long components": {OK: "from_der components == to_der made"},
        "many components": {OK: "from_der components == to_der made"},
        "a long tag": {OK: "from_der == to_der"},
        "a long INTEGER": {OK: "from_der == to_der"},
        "many items": {OK: "from_der == to_der"},
    },
    "python": {
        "a long component": {OK: "read oid hasattr"},
        "many long components": {OK: "read oid hasattr"},
        "a long tag": {OK: "read repr"},
        "a long INTEGER": {OK: "read integer repr"},
        "a long BIT STRING": {OK: "read bits repr"},
        "many items": {OK: "read block[i] each-repr"},
        "many blocks": {OK: "read document[i]"},
        "a long algorithm": {OK: "read Signed"},
    },
    "json": {shape: {OK: "--json"} for shape in SHAPES},
}

# what each call without room answers of a shape: a status and a count; `a value` has room for one. At the end of the
# documents of `kept` and `refused rewrite` a header is cut off: `kept` reads [0] around NULLs, which stays as it came,
# and `refused rewrite` NULLs alone. `signed triple` finds what was signed, many NULLs
INCOMPLETE, NO_ROOM, NOT_SIGNED = 8, 11, 14


def without_room(records):
    """Of a document with so many records."""
    values = {"values": (NO_ROOM, 1), "no values": (OK, 0), "a value": (OK, 1)}
    read = dict.fromkeys(("read", "outline"), (NO_ROOM, records))
    return read | values | {"check": (OK, 0), "signed": (NOT_SIGNED, 0)}


def of_der(records):
    """The same, with what rewrites DER and looks for what is not."""
    strict = {"read_strict": (NO_ROOM, records), "rewrite": (NO_ROOM, 100_000_000), "departures": (OK, 0)}
    return without_room(records) | strict


# how many octets are written of documents that are not canonical
NOT_CANONICAL = {
    "long INTEGERs": 75_000_000, "long groups": 90_000_000, "long nests": 70_000_000, "long attempts": 87_500_000,
    "one INTEGER": 3, "one OBJECT IDENTIFIER": 50_000_004,
}

MEMORY = {
    "NULLs": of_der(50_000_000) | {
        "kept": (NO_ROOM, 1), "refused rewrite": (INCOMPLETE, 0), "signed triple": (OK, 49_999_988),
    },
    "empty groups": of_der(50_000_000),
    "groups": of_der(25_000_000),
    "nests": of_der(50_000_000),
    "attempts": without_room(12_500_000),
    "a cut-off OBJECT IDENTIFIER": dict.fromkeys(("read", "check", "rewrite"), (INCOMPLETE, 0)),
} | {shape: {"rewrite": (NO_ROOM, octets)} for shape, octets in NOT_CANONICAL.items()}
MEMORY_CALLS = [(shape, call) for shape, calls in MEMORY.items() for call in calls]
MOST_KILOBYTES = 4_096

# how many times its input der_signed may hold: the room that it reads into may be twice as large
SIGNED_SIZE, MOST_TIMES = 20_000_000, 2

# the words for the looks of a dump, and how many bytes it may take beside its input
DUMPS = [], ["--json"], ["--html"]
DUMPED_SIZE, MOST_BESIDE = 20_000_000, 20 * 2**20


def ran(kind, program, call, path):
    """Processor time in microseconds, and status."""
    words = [*program.split(), call, path]
    if kind != "json":
        took, status = subprocess.run(words, stdout=subprocess.PIPE, check=True).stdout.split()
        return int(took), int(status)
    with tempfile.TemporaryFile() as shown:
        child = subprocess.Popen(words, stdout=shown)
        _, status, used = os.wait4(child.pid, 0)
        child.returncode = status
        shown.seek(0)
        blocks = json.load(shown)["blocks"] if status == 0 else []
    is_whole = sum(block["size"] for block in blocks if block["depth"] == 0) == os.path.getsize(path)
    return (used.ru_utime + used.ru_stime) * 1e6, int(not is_whole)


def seconds(kind, program, call, path):
    """Processor time and status, with the least time of some runs."""
    took, status = min(ran(kind, program, call, path) for _ in range(RUNS))
    return took / 1e6, status


def memory(program):
    """How many calls took too much memory, or answered something else."""
    wrong = 0
    for shape, call in MEMORY_CALLS:
        said = subprocess.run([program, call, shape], stdout=subprocess.PIPE, check=True).stdout.split()
        kilobytes, *answer = map(int, said)
        good = kilobytes <= MOST_KILOBYTES and tuple(answer) == MEMORY[shape][call]
        wrong += not good
        print(f"growth: {call} of 100 MB of {shape} takes {kilobytes} kB" + ("" if good else ": WRONG"), flush=True)
    return wrong


def signed_memory(program, work):
    """Whether the program writes what was signed, of many items, and holds no more than a few times its input."""
    content, given, written = (os.path.join(work, name) for name in ("content.der", "signed.der", "written"))
    # piece by piece: what is measured of a child begins with the memory that this process holds
    with open(content, "wb") as file:
        file.write(header(0x30, SIGNED_SIZE))
        for _ in range(SIGNED_SIZE // 2_000):
            file.write(bytes.fromhex("0500") * 1_000)
    with open(content, "rb") as signed_part, open(given, "wb") as file:
        file.write(header(0x30, os.path.getsize(content) + len(ALGORITHM + SIGNATURE)))
        shutil.copyfileobj(signed_part, file)
        file.write(ALGORITHM + SIGNATURE)
    with open(given, "rb") as source, open(written, "wb") as out:
        child = subprocess.Popen([program], stdin=source, stdout=out)
        _, status, used = os.wait4(child.pid, 0)
        child.returncode = status
    is_right = status == 0 and filecmp.cmp(content, written, shallow=False)
    good = is_right and used.ru_maxrss * 1024 <= MOST_TIMES * SIGNED_SIZE
    print(f"growth: der_signed of 20 MB takes {used.ru_maxrss} kB" + ("" if good else ": WRONG"), flush=True)
    return int(not good)


def write_items(path):
    """Writes a SEQUENCE of many OCTET STRINGs, piece by piece, as above."""
    write_in_one(path, header(0x04, 38) + bytes(range(38)))


def write_groups(path):
    """Writes a SEQUENCE of many SEQUENCEs, each of an OCTET STRING."""
    write_in_one(path, encoding(0x30, encoding(0x04, bytes(range(4)))))


def write_in_one(path, item):
    """Writes a SEQUENCE of so many of these that the size is reached."""
    with open(path, "wb") as file:
        file.write(header(0x30, DUMPED_SIZE))
        for _ in range(DUMPED_SIZE // (1_000 * len(item))):
            file.write(item * 1_000)


def write_list(path):
    """Writes a list of many revoked certificates, piece by piece."""
    count = DUMPED_SIZE // len(REVOKED) // 1_000 * 1_000
    revoked = header(0x30, count * len(REVOKED))
    size = len(LIST_FRONT) + len(revoked) + count * len(REVOKED)
    content = header(0x30, size) + LIST_FRONT + revoked
    with open(path, "wb") as file:
        file.write(header(0x30, len(content) + count * len(REVOKED) + len(ALGORITHM + SIGNATURE)) + content)
        for _ in range(count // 1_000):
            file.write(REVOKED * 1_000)
        file.write(ALGORITHM + SIGNATURE)


def write_string(path):
    """Writes one long OCTET STRING, which is no text."""
    with open(path, "wb") as file:
        file.write(header(0x04, DUMPED_SIZE))
        for _ in range(DUMPED_SIZE // 1_000):
            file.write(b"\xff" * 1_000)


# what writes a document, what it is of, and the words for the looks
DUMPED = [
    (write_items, "items", DUMPS), (write_groups, "groups", DUMPS), (write_list, "revoked certificates", [["--text"]]),
    (write_string, "one OCTET STRING", [[], ["--json"], ["--contents", "0"]]),
]


def dump_memory(program, work):
    """How many looks of a dump of many items took more memory than the input and some."""
    path, wrong = os.path.join(work, "dumped.der"), 0
    for write, what, looks in DUMPED:
        write(path)
        for words in looks:
            with open(path, "rb") as source:
                child = subprocess.Popen([program, *words], stdin=source, stdout=subprocess.DEVNULL)
                _, status, used = os.wait4(child.pid, 0)
                child.returncode = status
            good = status == 0 and used.ru_maxrss * 1024 <= DUMPED_SIZE + MOST_BESIDE
            wrong += not good
            print(f"growth: {' '.join(['der_dump', *words])} of 20 MB of {what} takes {used.ru_maxrss} kB" +
                  ("" if good else ": WRONG"), flush=True)
    return wrong


# of text without a document, which takes three seconds on a busy machine, and two of plain English
TEXT_SIZE, MOST_SECONDS_OF_TEXT = 100_000_000, 10.0


def text_time(program, work):
    """Whether a text without a document takes too long, or is said to have one."""
    path = os.path.join(work, "words")
    with open(path, "wb") as file:
        for _ in range(TEXT_SIZE // 1_000_000):
            file.write(plain_words(1_000_000))
    with open(path, "rb") as source:
        child = subprocess.Popen([program], stdin=source, stdout=subprocess.DEVNULL)
        _, status, used = os.wait4(child.pid, 0)
        child.returncode = os.waitstatus_to_exitcode(status)
    took = used.ru_utime + used.ru_stime
    good = child.returncode == 1 and took <= MOST_SECONDS_OF_TEXT * PATIENCE
    print(f"growth: der_dump of 100 MB of words takes {took:.1f} s" + ("" if good else ": WRONG"), flush=True)
    return int(not good)


def main():
    work, wrong, tried = sys.argv[1], 0, 0
    programs = dict(word.split("=", 1) for word in sys.argv[2:])
    if "memory" in programs:
        wrong += memory(programs.pop("memory"))
        tried += len(MEMORY_CALLS)
    if "signed" in programs:
        wrong += signed_memory(programs.pop("signed"), work)
        tried += 1
    if "json" in programs:
        wrong += dump_memory(programs["json"], work)
        wrong += text_time(programs["json"], work)
        tried += sum(len(looks) for _, _, looks in DUMPED) + 1
    for shape, make in SHAPES.items():
        paths = [os.path.join(work, f"{size}.der") for size in SIZES]
        for path, size in zip(paths, SIZES):
            with open(path, "wb") as file:
                file.write(make(size))
        for kind, program in programs.items():
            for status, calls in CALLS[kind].get(shape, {}).items():
                for name in calls.split():
                    found = [seconds(kind, program, name, path) for path in paths]
                    times = [time for time, _ in found]
                    good = is_well(times) and all(it == status for _, it in found)
                    tried, wrong = tried + 1, wrong + (not good)
                    print(f"growth: {kind} {name}, {shape}: {', '.join(f'{time * 1000:.1f}' for time in times)} ms" +
                          ("" if good else ": WRONG"), flush=True)
    print(f"growth: {tried} calls of the bindings, {wrong} wrong")
    sys.exit(1 if wrong else 0)


main()
