"""The time that test_calls takes for large and for nested documents, at twice the size: at most three times as long.

Nested documents that fail are answered as by a plain recursive reader.
"""
import os
import random
import subprocess
import sys
import tempfile
import threading

import builds
import reader
from x690 import Nest, encoding

program, work = None, None
wrong = 0
has_ended = False


def two_blocks(nest):
    nest.around(0xA0, after=bytes.fromhex("0500"))


def broken_header(nest):
    nest.around(0xA0, after=bytes.fromhex("0205"))


def broken_sequence(nest):
    nest.around(0xA0, after=bytes.fromhex("30020205"))


def sequence_around(nest):
    nest.around(0x30)
    nest.around(0xA0, after=bytes.fromhex("0205"))


SHAPES = [two_blocks, broken_header, broken_sequence, sequence_around]


def nested(shape, levels, seed=0):
    chance, nest = random.Random(seed), Nest(bytes.fromhex("0500"))
    for _ in range(levels):
        (shape or chance.choice([*SHAPES, lambda it: it.around(0x30), lambda it: it.around(0xA0)]))(nest)
    return nest.octets()


def ran(call, octets, runs):
    """The answer, and the time that the program took, in seconds of a processor: the least of so many runs."""
    with open(f"{work}/in", "w") as it:
        it.write(f"{call} {octets.hex()}\n")
    least, answer = None, None
    for _ in range(runs):
        with open(f"{work}/in") as given, open(f"{work}/out", "w") as out:
            child = subprocess.Popen([program], stdin=given, stdout=out)
            _, status, used = os.wait4(child.pid, 0)
            child.returncode = status
        took = used.ru_utime + used.ru_stime
        least = took if least is None else min(least, took)
        with open(f"{work}/out") as out:
            answer = out.read(200).rstrip("\n") if status == 0 else f"status {status}"
    return answer, least


def time_of(call, octets, runs=3):
    """The answer, the time of the call without that of reading the line, and the latter time."""
    answer, took = ran(call, octets, runs)
    reading = ran("nothing", octets, runs)[1]
    return answer, max(took - reading, 1e-4), reading


def grows(name, call, documents, most=3.0):
    """The times of documents, each of twice the size of the one before."""
    global wrong
    answers, times, readings = zip(*(time_of(call, it) for it in documents))
    ratios = [b / a for a, b in zip(times, times[1:])]
    # (10 ms are nothing, nor is a fifth of the time that was taken off)
    is_well = all(b <= most * a + 0.01 + c / 5 for a, b, c in zip(times, times[1:], readings[1:]))
    is_well = is_well and not any(it.startswith("status") for it in answers)
    wrong += not is_well
    print(f"growth: {call} {name}: {', '.join(f'{len(it):,}' for it in documents)} octets: " +
          f"{', '.join(f'{it * 1000:.0f} ms' for it in times)}, ratios {', '.join(f'{it:.2f}' for it in ratios)}: " +
          f"{answers[-1][:40]}{'' if is_well else ', WRONG'}", flush=True)


def compared(count):
    """Nested documents that fail, as a plain recursive reader answers them."""
    global wrong
    documents = [nested(shape, levels) for shape in SHAPES for levels in (1, 2, 3, 7, 50, 300)]
    documents += [nested(None, levels, seed) for seed in range(count) for levels in (3, 10, 40)]
    lines = "".join(f"{call} {it.hex()}\n" for it in documents for call in ("read", "count"))
    given = subprocess.run([program], input=lines, capture_output=True, text=True, check=True).stdout.splitlines()
    wanted = [it for octets in documents for it in reader.read(octets)]
    bad = sum(a != b for a, b in zip(given, wanted)) + abs(len(given) - len(wanted))
    wrong += bad
    print(f"growth: {len(documents)} nested documents that fail, {bad} answered otherwise than by a recursive reader")


def alike(levels):
    """SETs of two equal items, inside one another."""
    octets = bytes.fromhex("020105")
    for _ in range(levels):
        octets = encoding(0x31, octets + octets)
    return octets


def side_by_side(size):
    """Failed attempts side by side, in a SEQUENCE alone and in one inside an attempt that ends well."""
    attempts = encoding(0xA0, encoding(0x04, bytes(size)) + b"\x02\x05") * (16_000_000 // (size + 16))
    outside, inside = encoding(0x30, attempts), encoding(0xA0, encoding(0x30, attempts))
    (_, alone, _), (_, within, _) = time_of("count", outside, 15), time_of("count", inside, 15)
    print(f"growth: failed attempts of {size + 4} octets side by side: {alone * 1000:.0f} ms, inside one that ends " +
          f"well {within * 1000:.0f} ms: ratio {within / alone:.2f}", flush=True)


def look():
    global has_ended
    levels = [25_000, 50_000, 100_000, 200_000]
    sizes = [4_000_000, 8_000_000, 16_000_000]
    compared(400)
    for shape in [*SHAPES, None]:
        name = shape.__name__.replace("_", " ") if shape else "these mixed by chance"
        grows(f"attempts that fail, {name}", "count", [nested(shape, it) for it in levels])
    for call in ("count", "rewrite", "strict", "clone", "is_faithful", "is_der"):
        grows("SEQUENCEs", call, [nested(lambda it: it.around(0x30), it) for it in levels])
        grows("explicit blocks", call, [nested(lambda it: it.around(0xA0), it) for it in levels])
    grows("SETs of two equal items", "is_der", [alike(it) for it in (17, 18, 19, 20)])
    for size in (0, 20, 60, 100):
        side_by_side(size)
    for call in ("count", "rewrite", "strict", "clone", "is_faithful", "is_der"):
        grows("an OCTET STRING", call, [encoding(0x04, bytes(it)) for it in sizes])
        grows("an INTEGER", call, [encoding(0x02, b"\x01" * it) for it in sizes])
        grows("small explicit blocks", call, [bytes.fromhex("A0020500") * (it // 16) for it in sizes])
        grows("a tag", call, [b"\x9f" + b"\x81" * (it // 16) + b"\x01\x00" for it in sizes])
        grows("a subidentifier", call, [encoding(0x06, b"\x2a" + b"\x81" * (it // 16) + b"\x01") for it in sizes])
    print(f"growth: {wrong} wrong")
    has_ended = True


def main(_words):
    global program, work
    program = builds.program("test_calls")
    # the plain reader is recursive
    sys.setrecursionlimit(1_000_000)
    threading.stack_size(512 * 2**20)
    with tempfile.TemporaryDirectory() as work:
        thread = threading.Thread(target=look)
        thread.start()
        thread.join()
    return 0 if has_ended and not wrong else 1


if __name__ == "__main__":
    sys.exit(main(sys.argv[1:]))
