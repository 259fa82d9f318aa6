"""`rt ci` in the gate: its verdict, and the processor time and memory of each crate beside those of a stored list."""
import os
import re
import subprocess
import sys

import times

VERDICT = re.compile(r"(\d+) passed, (\d+) failed")


def lanes():
    """How many checks `rt` runs at once, or nothing, which leaves it to `rt`.

    It expects twice the memory that a check takes: here half as many run as there are processors, and two on two of
    them, where 3 GB are there for each. More would slow each other, and take a fifth more processor time.
    """
    processors = len(os.sched_getaffinity(0))
    count = processors if processors < 3 else (processors + 1) // 2
    with open("/proc/meminfo") as lines:
        free = next(int(line.split()[1]) for line in lines if line.startswith("MemAvailable"))
    return str(count) if count * 3_000_000 <= free else ""


def prove(report, *words):
    """How many `rt ci`, run with these words, says passed and failed; says what took longer than it did."""
    environment = {**os.environ, "RT_JOBS": os.environ.get("RT_JOBS") or lanes()}
    environment.pop("PYTHONPATH", None)
    last = ""
    ran = subprocess.Popen(["rt", "ci", *words], stdin=subprocess.DEVNULL, stdout=subprocess.PIPE,
                           stderr=subprocess.STDOUT, env=environment)
    try:
        with times.Sampler(ran.pid) as sampler:
            for line in ran.stdout:
                sys.stdout.buffer.write(line)
                sys.stdout.flush()
                last = line.decode(errors="replace").strip() or last
            status = ran.wait()
    finally:
        ran.terminate()
    for line in times.lines(sampler.found()):
        report.tell(line)
    verdict = VERDICT.fullmatch(last)
    if not verdict:
        report.tell("gate: rt ci gave no verdict")
        return 0, 1
    passed, failed = map(int, verdict.groups())
    if status and not failed:
        report.tell(f"gate: rt ci ended with status {status}")
        failed = 1
    return passed, failed
