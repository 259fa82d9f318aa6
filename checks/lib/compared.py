"""Documents that a program answers, a line each, beside the answers of a plain reader."""
import functools
import itertools
import multiprocessing
import subprocess

COUNT = 1000  # documents a task
LEVELS = 1_000_000


def answers(program, lines):
    """The program's answers to the lines, or none at all if it fails."""
    ran = subprocess.run([program], input="".join(lines), capture_output=True, text=True, timeout=600)
    return ran.stdout.splitlines() if ran.returncode == 0 else []


def checked(answered, documents):
    """How many of the documents have the answer that is counted, and those that the program answers otherwise."""
    given, wanted = answered.given(documents), [answered.wanted(it) for it in documents]
    if len(given) != len(documents):
        return 0, documents
    return sum(map(answered.is_counted, wanted)), [it for it, a, b in zip(documents, given, wanted) if a != b]


def compare_all(answered, documents):
    """How many documents there are, how many have the answer that is counted, and which are answered otherwise."""
    rest = iter(documents)
    tasks = list(iter(lambda: list(itertools.islice(rest, COUNT)), []))
    counted, wrong = 0, []
    with multiprocessing.Pool() as pool:
        for number, others in pool.imap_unordered(functools.partial(checked, answered), tasks):
            counted, wrong = counted + number, wrong + others
    for octets in wrong[:10]:
        print(f"{answered.name}: {octets.hex(' ')}: the reader says {answered.wanted(octets)}")
    return sum(map(len, tasks)), counted, wrong


def is_deep(answered, kind, around, inner, wanted):
    """Whether a million such encodings around the inner octets, which `around` puts there, get the wanted answer on a
    stack of 256 kB; {} in it stands for the offset of the inner octets."""
    octets = around(LEVELS, bytes.fromhex(inner))
    small = ["sh", "-c", 'ulimit -s 256 && exec "$0"', answered.program]
    ran = subprocess.run(small, input=answered.line(octets), capture_output=True, text=True)
    place = len(octets) - len(inner) // 2
    is_well = ran.returncode == 0 and ran.stdout == wanted.format(place) + "\n"
    end = "" if is_well else f", WRONG, status {ran.returncode}"
    print(f"{answered.name}: a million {kind} around {inner}: {ran.stdout.strip()[:60]}{end}")
    return is_well


def status(total, wrong, deep):
    """The status of a check: 0 if there were documents, and nothing is wrong."""
    return 0 if total and not wrong and all(deep) else 1
