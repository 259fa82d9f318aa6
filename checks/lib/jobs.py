"""Commands that run side by side, each after those that it needs, and what they said."""
import concurrent.futures
import dataclasses
import os
import signal
import subprocess
import sys
import tempfile
import threading
import time

NOT_CHECKED = "NOT CHECKED"
# so many lines of what failed are told again at the end
LAST = 12


@dataclasses.dataclass(frozen=True)
class Job:
    """A command with a name, which begins when the jobs named in `after` are over."""

    name: str
    command: tuple
    environment: dict = dataclasses.field(default_factory=dict)
    after: frozenset = frozenset()
    limit: int = 3600
    is_alone: bool = False
    # whether it is run again, alone, where it fails
    is_tried_again: bool = False
    # why it is not run at all
    lacks: str = ""


class Report:
    """Which jobs passed and failed, and what was not checked."""

    def __init__(self, title):
        self.title, self.passed, self.failed, self.not_checked = title, [], [], {}
        # the last lines of each that failed, since whoever reads a long log reads its end
        self.ends = {}
        self.lock = threading.Lock()

    def tell(self, line):
        with self.lock:
            print(line, flush=True)

    def look_at(self, text):
        """Keeps the lines that say what was not checked, each once."""
        for line in text.splitlines():
            if NOT_CHECKED in line:
                self.not_checked.setdefault(line.strip())

    def add(self, job, text, shown, is_well, took):
        """Says what came of a job, behind what of its text was not shown before."""
        with self.lock:
            self.look_at(text)
            end = "" if is_well else ", FAILED"
            if not is_well:
                self.ends[job.name] = text.splitlines()[-LAST:]
            if not is_well and job.is_tried_again:
                end += " beside others, and is run again alone"
            else:
                (self.passed if is_well else self.failed).append(job.name)
            print(f"{shown}{self.title}: {job.name}: {took}{end}", flush=True)

    def skip(self, job, why):
        with self.lock:
            print(f"{self.title}: {job.name}: {why}", flush=True)
            self.look_at(f"{job.name}: {why}")
            if NOT_CHECKED not in why:
                self.failed.append(job.name)

    def tell_what_was_not_checked(self):
        """What was not checked and its number, and what failed."""
        print(f"{NOT_CHECKED}, {len(self.not_checked)}{':' if self.not_checked else ''}")
        for line in self.not_checked:
            print(f"    {line}")
        for name, lines in self.ends.items():
            print(f"{name} FAILED{'' if name in self.failed else ' beside others, and passed alone'}; its last lines:")
            print(*(f"    {line}" for line in lines), sep="\n")
        if self.failed:
            print(f"FAILED: {', '.join(self.failed)}")

    def end(self, more=""):
        """The status, behind a line that says what came of all."""
        self.tell_what_was_not_checked()
        print(f"{self.title}: {len(self.passed)} passed, {len(self.failed)} failed{more}")
        return 1 if self.failed else 0


def lanes():
    """How many jobs run side by side: as JOBS says, or as there are processors, where 3 GB are there for each."""
    if os.environ.get("JOBS"):
        return int(os.environ["JOBS"])
    with open("/proc/meminfo") as lines:
        free = next(int(line.split()[1]) for line in lines if line.startswith("MemAvailable"))
    return max(1, min(len(os.sched_getaffinity(0)), free // 3_000_000))


# the processes that run, each with a group of its own
RUNNING = set()


def end_running():
    """Ends all that was started."""
    for number in list(RUNNING):
        os.killpg(number, signal.SIGKILL)


def run(job, report, is_streamed):
    """Runs the command, with all that it starts ended at its limit; its lines are shown as they come, or at its end."""
    began = time.monotonic()
    with tempfile.TemporaryFile() as log:
        process = subprocess.Popen(job.command, stdin=subprocess.DEVNULL, stderr=subprocess.STDOUT,
                                   stdout=subprocess.PIPE if is_streamed else log, start_new_session=True,
                                   env={**os.environ, **job.environment})
        RUNNING.add(process.pid)
        end = threading.Timer(job.limit, os.killpg, (process.pid, signal.SIGKILL))
        end.start()
        try:
            for line in process.stdout or ():
                log.write(line)
                sys.stdout.buffer.write(line)
                sys.stdout.flush()
            _, status, used = os.wait4(process.pid, 0)
        finally:
            RUNNING.discard(process.pid)
            end.cancel()
        process.returncode = os.waitstatus_to_exitcode(status)
        seconds = time.monotonic() - began
        log.seek(0)
        text = log.read().decode(errors="replace")
    late = f"no end in {job.limit} seconds\n" if seconds >= job.limit else ""
    took = f"{seconds:.0f} s, {used.ru_utime + used.ru_stime:.0f} s of processor time"
    report.add(job, text + late, late if is_streamed else text + late, process.returncode == 0, took)
    return process.returncode == 0


def run_all(jobs, report, count):
    """Runs the jobs, so many at once, the first ones first; those that need quiet come last, one after another. What
    fails beside others is run again by then: a busy machine makes it fail once, and what is wrong fails twice."""
    waiting, lacking = [], set()
    for job in jobs:
        if job.lacks or job.after & lacking:
            without = f"there is no {job.lacks}" if job.lacks else f"nor was {', '.join(job.after & lacking)}"
            report.skip(job, f"{NOT_CHECKED}, {without}")
            lacking.add(job.name)
        else:
            waiting.append(dataclasses.replace(job, is_tried_again=count > 1 and not job.is_alone))
    names, over, failed, running = {it.name for it in waiting}, set(), set(), {}
    with concurrent.futures.ThreadPoolExecutor(count) as pool:
        while waiting or running:
            ready = [it for it in waiting if it.after & names <= over]
            for job in ready:
                is_quiet = not running and all(it.is_alone for it in ready)
                if len(running) == count or (job.is_alone and not is_quiet):
                    continue
                waiting.remove(job)
                if job.after & failed:
                    report.skip(job, f"NOT RUN, FAILED: {', '.join(sorted(job.after & failed))}")
                    over.add(job.name)
                    failed.add(job.name)
                else:
                    running[pool.submit(run, job, report, count == 1)] = job
            done, _ = concurrent.futures.wait(running, return_when=concurrent.futures.FIRST_COMPLETED)
            for future in done:
                job = running.pop(future)
                is_well = future.result()
                if not is_well and job.is_tried_again:
                    waiting.append(dataclasses.replace(job, is_alone=True, is_tried_again=False))
                    continue
                over.add(job.name)
                if not is_well:
                    failed.add(job.name)
