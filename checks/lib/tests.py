"""The tests in Rattle pass, built without a proof.

    checks/run tests                 those of checks/tried/tests, which `rt ci` does not run
    checks/run tests -- --all        all; -- CRATE..: those of these crates; -- tried:CRATE..: of these folders there
    checks/run tests -- --fmt        gives the files of checks/tried/tests the layout of `rt fmt`

Most tests stand in the crate that they test, and `rt ci` proves them as well. Those of checks/tried/tests promise
nothing that a caller rests on, so that they are only run. `rt` reads sources in crates alone: a folder there becomes
the module `tests` in a copy of the crate of its name, or a crate of its own, whose line is in the file `crates` there.
"""
import concurrent.futures
import os
import pathlib
import re
import shutil
import subprocess
import sys
import tempfile

from builds import CRATES, TOP

TEST = re.compile(r"^ *#\[test\]$", re.M)
TRIED = TOP / "checks/tried/tests"


def crates_with_tests():
    """The crates that have tests, and then the folders of tests that are only run, whose names begin with `tried:`."""
    return proved_with_tests() + [f"tried:{it}" for it in tried_folders()]


def proved_with_tests():
    return sorted({it.relative_to(CRATES).parts[0] for it in CRATES.glob("*/src/**/*.rt")
                   if TEST.search(it.read_text())})


def tried_folders():
    return sorted(it.name for it in TRIED.iterdir() if it.is_dir())


def lines_of_crates():
    """The lines of crates.txt, and of crates that are tests alone, by their crates."""
    lines = [it.partition("#")[0].rstrip() for path in [TOP / "crates.txt", TRIED / "crates"]
             for it in path.read_text().splitlines()]
    return {it.split(":")[0].split()[0]: it for it in lines if ":" in it}


def copy_of(crate, room):
    """A copy of the crate and of those below it, with its tests, in the folder."""
    lines, names, waiting = lines_of_crates(), [], [crate]
    while waiting:
        name = waiting.pop()
        if name in lines and name not in names:
            names.append(name)
            waiting += lines[name].split(":")[1].split()
    for name in names:
        for part in ("src", "specs", "proofs"):
            if (CRATES / name / part).is_dir():
                shutil.copytree(CRATES / name / part, room / "crates" / name / part)
    shutil.copy(TOP / "HANDLES", room)
    (room / "crates.txt").write_text("".join(f"{lines[name]}\n" for name in names))
    source = room / "crates" / crate / "src"
    source.mkdir(parents=True, exist_ok=True)
    for path, place in sources(crate):
        shutil.copy(path, source / place)
    for root in source.glob("main.rt"), source.glob("lib.rt"):
        for path in root:
            if (source / "tests.rt").exists():
                path.write_text(with_tests(path.read_text()))
    return room / "crates" / crate


def with_tests(text):
    """The text of a crate's root with the module `tests`."""
    line = "#[cfg(test)]\nmod tests;\n"
    if re.search(r"^(?:pub )?mod ", text, re.M):
        return re.sub(r"^(?=(?:pub )?mod )", line, text, count=1, flags=re.M)
    return re.sub(r"^#!\[tactic\(auto\)\]\n", rf"\g<0>\n{line}", text, count=1, flags=re.M)


def sources(folder):
    """The files of a folder of tests, each with its name in the crate."""
    return [(it, f"{it.stem}.rt") for it in sorted((TRIED / folder).glob("*.rattle"))]


def laid_out(folder):
    """The files of the folder that have another layout than that of `rt fmt`, each with its text in that."""
    with tempfile.TemporaryDirectory() as room:
        crate = copy_of(folder, pathlib.Path(room))
        ran = subprocess.run(["rt", "fmt"], cwd=crate, stdout=subprocess.PIPE, stderr=subprocess.STDOUT, text=True)
        if ran.returncode:
            sys.exit(f"tests: rt fmt: {ran.stdout[-2000:]}")
        texts = [(path, (crate / "src" / place).read_text()) for path, place in sources(folder)]
    return [(path, text) for path, text in texts if path.read_text() != text]


def do_pass(crate):
    if not crate.startswith("tried:"):
        return do_pass_in(CRATES / crate, crate)
    folder = crate.removeprefix("tried:")
    with tempfile.TemporaryDirectory() as room:
        is_right = do_pass_in(copy_of(folder, pathlib.Path(room)), folder)
    layout = laid_out(folder)
    for path, _ in layout:
        print(f"tests: {os.path.relpath(path, TOP)}: run checks/run tests -- --fmt")
    return is_right and not layout


def do_pass_in(folder, name):
    ran = subprocess.run(["rt", "try", "--test"], cwd=folder, stdout=subprocess.PIPE, stderr=subprocess.STDOUT,
                         text=True, errors="replace")
    if ran.returncode:
        print(f"tests: {name}:\n{ran.stdout[-3000:]}")
    return ran.returncode == 0


def main(words):
    if words == ["--fmt"]:
        for path, text in [it for folder in tried_folders() for it in laid_out(folder)]:
            path.write_text(text)
        return 0
    crates = crates_with_tests() if words == ["--all"] else words or [f"tried:{it}" for it in tried_folders()]
    with concurrent.futures.ThreadPoolExecutor(os.cpu_count()) as pool:
        wrong = list(pool.map(do_pass, crates)).count(False)
    print(f"tests: {len(crates)} crates, {wrong} wrong")
    return 1 if wrong or not crates else 0


if __name__ == "__main__":
    sys.exit(main(sys.argv[1:]))
