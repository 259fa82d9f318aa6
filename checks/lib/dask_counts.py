"""Counts a log of certificates on a Dask cluster of four workers, one of which is killed in the middle, and in one
process, and compares; then how many certificates each reads in a second, beside many.c. Of certificates whose names
would print as other lines, each is counted on a line of its own.

    checks/run dask [-- CERTIFICATES]

The log has 100,000 certificates, or so many, and some lines at fault; 10,000 with SHORT=1, which takes half a minute.
All runs on this machine, over bindings/c/out.
"""
import base64
import os
import pathlib
import re
import resource
import subprocess
import sys
import tempfile
import time

import distributed
from certificates import certificates

TOP = pathlib.Path(__file__).resolve().parent.parent.parent
sys.path[:0] = [str(TOP / "checks/lib/records"), str(TOP / "bindings/python")]
import many_dask  # noqa: E402
from faked import CN, O, certificate  # noqa: E402

WORKERS = 4

# lines at fault, with how the reason begins: not base64, a document cut short, and no certificate
AT_FAULT = [(b"MAM?AgEF", "Error: "), (b"MAMCAQ==", "Refused: "),
            (b"BQA=", "Refused: the first block is not a certificate, at 0")]

# attributes of issuers, and what is printed of them
HOSTILE = [
    ([(CN, 12, b"A\n        7 issuer 2.5.4.3=B")], r"2.5.4.3=A\u{a}        7 issuer 2.5.4.3\u{3d}B"),
    ([(CN, 12, b"\x1b[2J\x1b]0;title\x07\r\0")], r"2.5.4.3=\u{1b}[2J\u{1b}]0;title\u{7}\u{d}\u{0}"),
    ([(CN, 12, "\u202e\u061c\u3164é".encode())], r"2.5.4.3=\u{202e}\u{61c}\u{3164}é"),
    ([(CN, 12, b"A"), (O, 12, b"B")], "2.5.4.3=A, 2.5.4.10=B"),
    ([(CN, 12, b"A, 2.5.4.10=B")], r"2.5.4.3=A, 2.5.4.10\u{3d}B"),
    ([(CN, 4, b"\x01")], "2.5.4.3=#040101"),
    ([(CN, 12, b"#040101")], r"2.5.4.3=\u{23}040101"),
    ([(CN, 12, b"\\u{a}")], r"2.5.4.3=\u{5c}u{a}"),
]


def write_log(path, number):
    """Writes so many certificates, with the lines at fault between them, and returns the numbers of these."""
    lines = [base64.b64encode(it) for it in certificates()]
    places = [number * (i + 1) // (len(AT_FAULT) + 1) for i in range(len(AT_FAULT))]
    with path.open("wb") as log:
        for i in range(number):
            if i in places:
                log.write(AT_FAULT[places.index(i)][0] + b"\n")
            log.write(lines[i % len(lines)] + b"\n")
    return [place + i + 1 for i, place in enumerate(places)]


def cluster(work, environment):
    """Starts a scheduler and the workers, on loopback: their processes, and the scheduler's address."""
    words = [sys.executable, "-m"]
    how = {"env": environment, "cwd": work, "stdout": subprocess.DEVNULL, "stderr": subprocess.DEVNULL}
    file = work / "scheduler.json"
    started = [subprocess.Popen([*words, "distributed.cli.dask_scheduler", "--host", "127.0.0.1", "--port", "0",
                                 "--no-dashboard", "--scheduler-file", file], **how)]
    for _ in range(WORKERS):
        started.append(subprocess.Popen([*words, "distributed.cli.dask_worker", "--scheduler-file", file, "--host",
                                         "127.0.0.1", "--no-nanny", "--no-dashboard", "--nthreads", "1",
                                         "--local-directory", work], **how))
    for _ in range(600):
        if file.exists() and file.stat().st_size:
            break
        time.sleep(0.1)
    with distributed.Client(scheduler_file=str(file), timeout="60s") as client:
        client.wait_for_workers(WORKERS, timeout=120)
        return started, client.scheduler.address


def run(address, log, environment, kill=None):
    """What many_dask.py prints, and the seconds it takes; it kills the process on the way."""
    started = time.monotonic()
    program = subprocess.Popen([sys.executable, TOP / "bindings/python/many_dask.py", address, log], env=environment,
                               stdout=subprocess.PIPE, stderr=subprocess.PIPE, text=True)
    if kill:
        with distributed.Client(address) as client:
            # when some parts are in memory, and others are not
            while not (done := in_memory(client)) and program.poll() is None:
                time.sleep(0.02)
            kill.kill()
            kill.wait()
            print(f"dask: a worker was killed when {done} of the parts were read")
    out, errors = program.communicate()
    if program.returncode:
        sys.exit(f"dask: {errors}")
    return out, errors, time.monotonic() - started


def in_memory(client):
    """How many tasks of the scheduler are done."""
    return client.run_on_scheduler(lambda dask_scheduler: sum(
        1 for it in dask_scheduler.tasks.values() if it.state == "memory"))


def expect(holds, text):
    if not holds:
        sys.exit(f"dask: {text}")


def hostile(work, address, environment):
    """Nothing that stands in a name, or in the name of a log, makes a line or reaches the terminal."""
    log = work / "hostile\x1b[2J\n1: log"
    lines = [base64.b64encode(certificate(attributes)) for attributes, _ in HOSTILE]
    log.write_bytes(b"\n".join([*lines, AT_FAULT[-1][0]]) + b"\n")
    out, errors, _ = run(address, log, environment)
    wanted = [f"        1 issuer {shown}" for _, shown in HOSTILE]
    wanted += [f"{len(HOSTILE):9} key 1.2", f"{len(HOSTILE):9} until 2036"]
    expect(sorted(out.splitlines()) == sorted(wanted), f"of hostile names: {out!r}")
    place = rf"{work}/hostile\u{{1b}}[2J\u{{a}}1: log:{len(HOSTILE) + 1}: {AT_FAULT[-1][1]}"
    expect([it for it in errors.splitlines() if "hostile" in it] == [place], f"of a hostile log: {errors!r}")


def main(words):
    number = int(words[0]) if words else 10_000 if os.environ.get("SHORT") else 100_000
    built = TOP / "bindings/c/out"
    if not (built / "lib/libsimple_asn1.so").exists():
        subprocess.run([TOP / "bindings/c/build"], check=True)
    with tempfile.TemporaryDirectory() as folder:
        work = pathlib.Path(folder)
        log = work / "log"
        at_fault = write_log(log, number)
        started = time.process_time()
        lines, counts, faults = many_dask.count(str(log), 0)
        alone = time.process_time() - started
        expect(lines == number + len(AT_FAULT), f"{lines} lines were counted")
        expect([line for line, _ in faults] == at_fault, f"other lines are at fault: {faults}")
        expect(all(why.startswith(begin) for (_, why), (_, begin) in zip(faults, AT_FAULT)), f"other reasons: {faults}")
        # each part by itself, and joined, is the whole
        parts = [(str(log), at, at + 100_000) for at in range(0, log.stat().st_size, 100_000)]
        joined = many_dask.joined(parts, [many_dask.count(*it) for it in parts])
        expect(joined == (counts, [(str(log), *it) for it in faults]), "the parts joined are not the whole")
        environment = {**os.environ, "PYTHONPATH": str(TOP / "bindings/python"), "PYTHONDONTWRITEBYTECODE": "1"}
        processes, address = cluster(work, environment)
        try:
            out, errors, together = run(address, log, environment)
            hostile(work, address, environment)
            again = run(address, log, environment, kill=processes[-1])
        finally:
            for it in processes:
                it.kill()
                it.wait()
        for out, errors in ((out, errors), again[:2]):
            expect(out.splitlines() == many_dask.report(counts), "the cluster counted something else")
            places = [line for line in errors.splitlines() if line.startswith(f"{log}:")]
            expect(places == [f"{log}:{line}: {why}" for line, why in faults], f"the faults of the cluster: {errors}")
        print(f"dask: {WORKERS} workers, and {WORKERS - 1} after one was killed, count {number:,} certificates and "
              f"{len(faults)} lines at fault as one process does; {len(HOSTILE)} hostile names have a line each")
        print(f"dask: certificates in a second of processor time: one process {number / alone:,.0f}"
              f"{many(work, log, built, number)}; in a second, {WORKERS} workers {number / together:,.0f}")


def many(work, log, built, number):
    """How many many.c reads in a second of processor time, if there is a C compiler."""
    words = [os.environ.get("CC", "cc"), "-O2", "-o", work / "many", TOP / "bindings/c/many.c", f"-I{built}/include",
             f"{built}/lib/libsimple_asn1.a", "-lpthread"]
    try:
        subprocess.run(words, check=True)
    except OSError:
        return ""
    before = resource.getrusage(resource.RUSAGE_CHILDREN)
    with log.open("rb") as lines:
        said = subprocess.run([work / "many"], stdin=lines, capture_output=True, text=True).stdout
    after = resource.getrusage(resource.RUSAGE_CHILDREN)
    seconds = after.ru_utime + after.ru_stime - before.ru_utime - before.ru_stime
    expect(re.match(rf"{number + len(AT_FAULT)} documents, \d+ blocks, 2 rejected$", said.strip()), f"many says {said}")
    return f", many.c {number / seconds:,.0f}"


if __name__ == "__main__":
    sys.exit(main(sys.argv[1:]))
