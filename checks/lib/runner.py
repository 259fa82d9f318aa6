"""checks/run: lists the checks, and runs them by name, as `quick`, as `gate`, or all. Its usage is at its top."""
import os
import pathlib
import random
import signal
import subprocess
import sys
import tempfile
import textwrap

import catalogue
import proofs
from catalogue import BY_HAND, LIBRARIES, SECONDS, SHORT, TOP, UNPROVED, WHOLE
from jobs import Job, Report, end_running, lanes, run_all
from tests import crates_with_tests

BUILDS = TOP / "checks/lib/builds.py"
OF_GATE = [*SECONDS, *WHOLE, *SHORT]
WHOLE_BY_HAND = [it for it in BY_HAND if it.name != "times"]
BY_NAME = {it.name: it for it in [*SECONDS, *UNPROVED, *WHOLE, *SHORT, *BY_HAND, LIBRARIES]}
# the longest first, so that none is left alone at the end
LONGEST = ("libraries", "arms", "bindings", "release", "refused-memory", "json", "memory", "pages", "named-bodies")
OPTIONS = ("--unproved", "--built", "--short", "--anew")


def told(check):
    """The line of a check: what it shows, and what it needs."""
    asked = [("needs", check.needs), ("runs", check.programs), ("for a part", check.uses)]
    parts = [f"{word} {', '.join(names.split())}" for word, names in asked if names]
    missing = check.lacks(f"{check.needs} {check.uses}")
    parts += [f"NOT HERE: {', '.join(missing)}"] if missing else []
    return f"{check.shows} ({'; '.join(parts)})" if parts else check.shows


def show_list():
    titles = [("first in the gate, in seconds", SECONDS), ("in the gate, behind rt ci", WHOLE),
              ("in the gate in a short form", SHORT), ("in quick, as rt ci does it", UNPROVED), ("by hand", BY_HAND)]
    for title, checks in titles:
        print(f"{title}:")
        for it in checks:
            lines = textwrap.wrap(told(it), 100)
            print(f"  {it.name:15} {lines[0]}", *(f"  {'':15} {line}" for line in lines[1:]), sep="\n")
        print()
    print("checks/run NAME.. | NAME -- WORD.. | quick | gate | all; the top of checks/run says more")


def ordered(checks):
    """Those that take longest first."""
    return sorted(checks, key=lambda it: LONGEST.index(it.name) if it.name in LONGEST else len(LONGEST))


def job_of(check, words, programs, is_short, **environment):
    """The job of a check, over the programs in a folder."""
    if is_short:
        environment["SHORT"] = "1"
    if programs:
        environment["PROGRAM_DIR"] = str(programs)
    after = frozenset([*check.after.split(), *(f"build {it}" for it in check.programs.split())])
    command = tuple(map(str, [*check.command(), *words]))
    lacks = ", ".join(check.lacks(check.needs))
    return Job(check.name, command, environment, after, check.limit, check.is_alone, lacks)


def build_of(crate, how, folder):
    return Job(f"build {crate}", (sys.executable, str(BUILDS), how, crate, str(folder)), limit=3600)


def take_built(folder, crates):
    """Links what `rt ci` left into the folder."""
    for crate in crates:
        for path in (TOP / "crates" / crate / "out").glob(f"{crate}*"):
            if os.access(path, os.X_OK) and path.is_file():
                (folder / path.name).symlink_to(path)


def programs_of(checks, words=()):
    """The crates whose programs these checks run; if words name some of them, these alone."""
    crates = {crate for it in checks for crate in it.programs.split()}
    return sorted(crates & set(words) or crates)


def by_name(names, words, options):
    """Runs these checks, and returns the status."""
    checks = [BY_NAME[it] for it in names]
    is_made = (TOP / "bindings/c/out/lib/libsimple_asn1.a").exists()
    needs_libraries = "bindings" in names or (not is_made and any(LIBRARIES.name in it.after.split() for it in checks))
    report = Report("run")
    with tempfile.TemporaryDirectory() as room:
        folder, jobs = pathlib.Path(room), []
        if "PROGRAM_DIR" in os.environ:
            folder = pathlib.Path(os.environ["PROGRAM_DIR"])
        elif "--built" in options:
            take_built(folder, programs_of(checks, words))
        else:
            how = "unproved" if "--unproved" in options else "proved"
            jobs = [build_of(it, how, folder) for it in programs_of(checks, words)]
        if needs_libraries and "--built" not in options:
            jobs.append(job_of(LIBRARIES, (), None, False))
        jobs += [job_of(it, words or it.words, folder, "--short" in options) for it in checks]
        run_all(jobs, report, lanes() if "--unproved" in options and len(jobs) > 1 else 1)
    return report.end()


def run_everything():
    """Each check whole, over what `rt ci` left."""
    report, checks = Report("all"), ordered([*OF_GATE, *UNPROVED, *WHOLE_BY_HAND, LIBRARIES])
    with tempfile.TemporaryDirectory() as room:
        take_built(pathlib.Path(room), programs_of(checks))
        jobs = [job_of(it, it.words, room, False) for it in checks]
        run_all(jobs, report, lanes())
    return report.end()


def quick():
    """What the gate would fail on, but for proofs."""
    report, layout, stored = Report("quick"), BY_NAME["layout"], BY_NAME["stored"]
    with tempfile.TemporaryDirectory() as room:
        jobs = [build_of(it, "unproved", room) for it in ("test_calls", *programs_of([BY_NAME["rows"]]))]
        jobs += [job_of(BY_NAME[it], (), room, False) for it in ("calls", "pages")]
        jobs += [job_of(it, it.words, None, False) for it in [*SECONDS, layout]]
        jobs += [build_of(it, "unproved", room) for it in programs_of([stored]) if not any(
            job.name == f"build {it}" for job in jobs)]
        for crate in crates_with_tests():
            job = job_of(BY_NAME["tests"], (crate,), None, False)
            jobs.append(Job(f"tests of {crate}", job.command, job.environment))
        jobs += [job_of(stored, (), room, False), job_of(BY_NAME["rows"], (), room, False)]
        run_all(jobs, report, lanes())
    return report.end("; nothing was proved")


def gate(*how):
    """Everything: what takes seconds, `rt ci`, with --anew from nothing, and what runs what it built."""
    commit = subprocess.run(["git", "rev-parse", "HEAD"], cwd=TOP, capture_output=True, text=True).stdout.strip()
    print(f"gate: {commit}", flush=True)
    if os.environ.get("CI"):
        subprocess.run(["sh", str(TOP / "checks/scripts/packages"), *debian_packages()], check=False)
    os.environ.pop("SHORT", None)
    # a check that fails beside others, and is run again, tries the same random documents
    os.environ.setdefault("SEED", str(random.getrandbits(32)))
    report, passed, failed = Report("gate"), 0, 0
    run_all([job_of(it, it.words, None, False) for it in SECONDS], report, lanes())
    if not report.failed:
        passed, failed = proofs.prove(report, *how)
        if not failed:
            over_what_is_built(report)
    report.tell_what_was_not_checked()
    passed, failed = passed + len(report.passed), failed + len(report.failed)
    print(f"{passed} passed, {failed} failed", flush=True)
    return 1 if failed else 0


def over_what_is_built(report):
    """What runs the programs and libraries that `rt ci` left."""
    with tempfile.TemporaryDirectory() as room:
        take_built(pathlib.Path(room), programs_of(OF_GATE))
        checks = ordered([LIBRARIES, *WHOLE, *SHORT])
        jobs = [job_of(it, it.words, room, it in SHORT, AFTER_CI="1", PATIENCE="10") for it in checks]
        run_all(jobs, report, lanes())


def debian_packages():
    """The packages of all that the checks of the gate need or use."""
    tools = {tool for it in [LIBRARIES, *OF_GATE] for tool in f"{it.needs} {it.uses}".split()}
    return sorted({name for it in tools for name in catalogue.PACKAGES.get(it, "").split()})


def end(number, _frame):
    """What was started ends with this."""
    end_running()
    sys.exit(128 + number)


def main(words):
    # whoever reads the lines may have seen enough
    signal.signal(signal.SIGPIPE, signal.SIG_DFL)
    signal.signal(signal.SIGTERM, end)
    signal.signal(signal.SIGINT, end)
    options = [it for it in words if it in OPTIONS]
    names = [it for it in words[:words.index("--")] if it not in OPTIONS] if "--" in words else \
        [it for it in words if it not in OPTIONS]
    given = words[words.index("--") + 1:] if "--" in words else []
    whole = {"quick": quick, "gate": gate, "all": run_everything}
    if not names:
        show_list()
        return 0
    if names == ["gate"] and options == ["--anew"] and not given:
        return gate("--anew")
    if len(names) == 1 and names[0] in whole and not given and not options:
        return whole[names[0]]()
    unknown = [it for it in names if it not in BY_NAME]
    if unknown or (given and len(names) > 1):
        print(f"run: there is no check {', '.join(unknown)}" if unknown else "run: words behind -- are for one check")
        return 2
    return by_name(names, given, options)


if __name__ == "__main__":
    sys.exit(main(sys.argv[1:]))
