"""Builds each program and each function of the pages, unproved, runs the programs, and compares what they print. It
makes the guide's first program by the commands that the page has for it, and runs the commands of docs/DUMP.md and of
the README's first screen.

    checks/run pages                                all pages
    checks/run pages -- [--in FOLDER] PAGE..        the programs and functions of these; in FOLDER, which stays, so that
                                                    one can prove the crate `pages` there with `rt check`

A block of Rust is a program if it has a `main`, else a function if it has a `use` line; it has to be whole. A run of a
program is an indented line with `rt run` or `rt try` behind it, before the next heading; the indented lines behind
that, after an empty one, are what it prints, an error included. Lines directly before it that begin with `printf` make
files, which the arguments behind `--` name. A run begins in the folder of a crate. A block of Rust without a `use` line
is a part of something and is not built.

All of them become modules of one crate, in a new folder that `bindings/rattle/add` brings the library to, and
`rt try --cases` builds it once. An indented line `NAME: LIBRARIES` before a program is its line of crates.txt.

The guide's first program is made in a new repository of its own, and run once.
"""
import concurrent.futures
import itertools
import pathlib
import re
import subprocess
import sys
import tempfile

import builds
from samples import wrong_samples

TOP = pathlib.Path(__file__).resolve().parent.parent.parent
PAGES = ["README.md", "docs/GUIDE.md", "docs/OWN_TYPES.md", "docs/DIFFERENCES.md", "docs/CALLING.md",
         *sorted(str(it.relative_to(TOP)) for it in TOP.glob("docs/calling/*.md")), "docs/DUMP.md"]
GUIDE, DUMPED = "docs/GUIDE.md", ["docs/DUMP.md", "README.md"]
LIBRARIES = ["simple_asn1", "asn1_certificate", "asn1_types", "der_forms", "dump_names", "dump_shapes"]
BLOCK = re.compile(r"^```rust\n(.*?)^```$", re.S | re.M)
RUN = re.compile(r"^    (.*\brt (?:run|try)\b.*)$")
ARGUMENTS = re.compile(r"\s*-- ([^|<]*)")
CRATE = TOP / "crates/simple_asn1"


class Module:
    """A block of Rust of a page."""

    def __init__(self, page, line, text, before):
        self.page, self.line, self.text = page, line, text
        self.is_program = bool(re.search(r"^fn main\(rt: HostRuntime\)", text, re.M))
        self.runs = []
        listed = re.findall(r"^    (\w+): (simple_asn1[ \w]*)$", before, re.M)
        self.libraries = listed[-1][1].split() if listed else None

    def used(self):
        """The libraries that it names."""
        text = re.sub(r"^\s*//.*$", "", self.text, flags=re.M)
        found = re.findall(r"^(?:pub )?use (\w+)", text, re.M) + re.findall(r"^ghost use Rattle\.(\w+)", text, re.M)
        found += re.findall(r"\b(hex|jiff)::", text)
        return {it for it in found if it not in ("std", "core", "super", "crate", "self")}

    def fault(self):
        missing = sorted(self.used() - set(self.libraries)) if self.libraries and self.is_program else []
        return f"{self.page}:{self.line}: the line of crates.txt lacks {', '.join(missing)}" if missing else None

    def error_type(self):
        found = re.search(r"^fn main\(rt: HostRuntime\) -> (?:io::)?Result<\(\)(?:, (\w+))?>", self.text, re.M)
        return found[1]

    def module(self):
        text = self.text.replace("#![tactic(auto)]\n", "")
        text = re.sub(r"^fn main\(", "pub fn main(", text, flags=re.M)
        return re.sub(rf"^enum {self.error_type()}\b", f"pub enum {self.error_type()}", text, flags=re.M) \
            if self.is_program and self.error_type() else text


def runs_in(text):
    """The runs that a text shows: each a command, and what it prints."""
    found, lines = [], re.sub(r" \\\n {8}", " ", text.partition("\n#")[0]).splitlines()
    for at, line in enumerate(lines):
        command = RUN.match(line)
        if command:
            made = itertools.takewhile(lambda it: it.startswith("    printf "), reversed(lines[:at]))
            before = "".join(f"{it.strip()}\n" for it in reversed(list(made)))
            shown = []
            for later in lines[at + 1:]:
                if later.strip() and not later.startswith("    ") or RUN.match(later):
                    break
                shown.append(later[4:])
            found.append((before + command[1], "\n".join(shown).strip("\n")))
    return found


def modules_of(page):
    text, found = (TOP / page).read_text(), []
    blocks = list(BLOCK.finditer(text))
    ends = [0] + [it.end() for it in blocks]
    starts = [it.start() for it in blocks] + [len(text)]
    for at, block in enumerate(blocks):
        if re.search(r"^(?:pub )?use ", block[1], re.M):
            line = text.count("\n", 0, block.start()) + 1
            found.append(Module(page, line, block[1], text[ends[at]:starts[at]]))
            if found[-1].is_program:
                found[-1].runs = runs_in(text[ends[at + 1]:starts[at + 1]])
    return found


def root(modules):
    """The crate's main file: its first byte of input says which program runs."""
    programs = [(number, it) for number, it in enumerate(modules) if it.is_program]
    variants, arms = [], []
    for order, (number, it) in enumerate(programs):
        path = f"m{number}::{it.error_type()}" if it.error_type() else "io::Error"
        variants.append(f"    P{number}({path}),")
        arms.append(f"        {65 + order} => match m{number}::main(rt) {{\n            Ok(()) => Ok(()),\n"
                    f"            Err(e) => Err(PagesErr::P{number}(e)),\n        }},")
    return "\n".join([
        "//! The programs and functions of the pages.", "#![tactic(auto)]", "",
        *[f"mod m{number};" for number, _ in enumerate(modules)], "",
        "use std::io;", "use std::io::Read;", "",
        "#[derive(Debug, Drop)]", "enum PagesErr {", "    Stream(io::Error),", *variants, "}", "",
        "impl From<io::Error> for PagesErr {", "    fn from(e: io::Error) -> PagesErr {",
        "        PagesErr::Stream(e)", "    }", "}", "",
        "fn main(rt: HostRuntime) -> Result<(), PagesErr> {", "    let mut first = [0u8; 1];",
        "    rt.stdin().read(&mut first)?;", "    match first[0] {", *arms, "        _ => Ok(()),", "    }", "}", ""])


def parts_of(command):
    """What makes the input of a run, its arguments, and what its output goes through."""
    before, after = re.split(r"\brt (?:run|try)\b", command, maxsplit=1)
    given = ARGUMENTS.match(after)
    if given:
        return before, given[1].split(), after[given.end():].lstrip("|").strip()
    source = re.match(r"\s*< (\S+)(.*)", after)
    if source:
        return f"cat {source[1]}", [], source[2].strip().lstrip("|").strip()
    return before.strip().rstrip("|").strip() or "true", [], after.strip().lstrip("|").strip()


def shell(command, text=b"", place=CRATE):
    return subprocess.run(["bash", "-c", command], cwd=place, input=text, capture_output=True, check=True).stdout


def wrong_runs(modules, cases, printed):
    """The runs that print something else."""
    for number, it, at, (command, expected) in cases:
        name = f"r{number}x{at}"
        begin, end = f"^== {name}\n".encode(), f"case={name} run=".encode()
        found = re.search(begin + b"(.*?)" + end, printed, re.S | re.M)
        there = found[1] if found else b""
        behind = parts_of(command)[2]
        there = shell(behind, there.removesuffix(b"\n")) if behind else there
        there = there.decode(errors="replace").strip("\n")
        there = re.sub(rf"^Error: P{number}\((.*)\)$", r"Error: \1", there, flags=re.M)
        if not found or there != expected:
            yield f"{it.page}:{it.line}: {command}\n  prints:\n{there}\n  where the page has:\n{expected}"


def write_crate(folder, modules):
    """A repository with the library and the crate `pages`; returns the folder of the crate."""
    subprocess.run(["git", "init", "-q", folder], check=True)
    libraries = sorted(set().union(*(it.used() for it in modules), LIBRARIES))
    ours = [it for it in libraries if (TOP / "crates" / it).is_dir()]
    subprocess.run([TOP / "bindings/rattle/add", folder, *ours], check=True, capture_output=True)
    source = folder / "crates/pages/src"
    source.mkdir(parents=True)
    (source / "main.rt").write_text(root(modules))
    for number, it in enumerate(modules):
        (source / f"m{number}.rt").write_text(it.module())
    with open(folder / "crates.txt", "a") as lines:
        lines.write(f"pages: {' '.join(libraries)}\n")
    return source.parent


def write_inputs(folder, data, modules):
    """The input of each run, behind the byte of its program, and its arguments; the files that they name go into the
    folder `data`. Returns the runs."""
    programs = [it for it in modules if it.is_program]
    cases = [(number, it, at, run) for number, it in enumerate(modules) for at, run in enumerate(it.runs)]
    folder.mkdir()
    data.mkdir()
    (folder / "none").write_bytes(b"-")
    for number, it, at, (command, _) in cases:
        order = bytes([65 + programs.index(it)])
        source, arguments, _ = parts_of(command)
        (folder / f"r{number}x{at}").write_bytes(order + shell(source, place=data if arguments else CRATE))
        if arguments:
            (folder / f"r{number}x{at}.args").write_text("\n".join(arguments) + "\n")
    return cases


def tried(folder, modules):
    """What is wrong with the modules, and the number of runs."""
    crate = write_crate(folder, modules)
    cases = write_inputs(folder / "inputs", folder / "data", modules)
    files = [word for it in sorted((folder / "data").iterdir()) for word in ("--data", f"{it.name}={it}")]
    said = subprocess.run(["rt", "try", "--cases", folder / "inputs", *files], cwd=crate, stdout=subprocess.PIPE,
                          stderr=subprocess.STDOUT).stdout
    if b"cases=" in said:
        return list(wrong_runs(modules, cases, said)), len(cases)
    print(said.decode(errors="replace"))
    place = re.search(rb"src/m(\d+)\.rt", said)
    where = modules[int(place[1])] if place else None
    return [f"{where.page}:{where.line}: is not built" if where else "nothing is built"], len(cases)


def first_program(folder):
    """What is wrong with the guide's first program, made in a new repository as the page says; and 1, for its run."""
    section = re.search(r"^## Your first program\n(.*?)^## ", (TOP / GUIDE).read_text(), re.S | re.M)[1]
    program = BLOCK.search(section)
    commands = re.search(r"^(?:    (?:rt new|rm) .*\n)+", section, re.M)[0]
    name, libraries = re.search(r"^    (\w+): (.*)$", section, re.M).groups()
    command, shown = runs_in(section[program.end():])[0]
    subprocess.run(["git", "init", "-q", folder], check=True)
    subprocess.run([TOP / "bindings/rattle/add", folder, *libraries.split()], check=True, capture_output=True)
    made = subprocess.run(["bash", "-ec", commands], cwd=folder, capture_output=True, text=True)
    if made.returncode:
        return [f"{GUIDE}: {commands}{made.stdout}{made.stderr}"], 1
    with open(folder / "crates.txt", "a") as lines:
        lines.write(f"{name}: {libraries}\n")
    crate = folder / "crates" / name
    (crate / "src/main.rt").write_text(program[1])
    ran = subprocess.run(["bash", "-c", command], cwd=crate, capture_output=True, text=True)
    if ran.stdout.strip("\n") == shown:
        return [], 1
    return [f"{GUIDE}: in a new repository {command}\n  prints:\n{ran.stdout}{ran.stderr}"], 1


def dump_samples(folder, pages):
    """What is wrong with the commands of pages that show what der_dump prints, and how many were run."""
    folder.mkdir()
    program = builds.program("der_dump")
    found = [wrong_samples(TOP, program, page, folder / pathlib.Path(page).stem) for page in pages]
    return [fault for faults, _ in found for fault in faults], sum(runs for _, runs in found)


def checked(folder, kept, pages, modules):
    """What is wrong with the pages, and how many runs they have."""
    jobs = [lambda: tried(pathlib.Path(kept or folder / "pages"), modules)] if modules else []
    jobs += [lambda: first_program(folder / "first")] if GUIDE in pages else []
    dumped = [it for it in pages if it in DUMPED]
    jobs += [lambda: dump_samples(folder / "dump", dumped)] if dumped else []
    with concurrent.futures.ThreadPoolExecutor(len(jobs)) as pool:
        found = list(pool.map(lambda job: job(), jobs))
    return [fault for faults, _ in found for fault in faults], sum(runs for _, runs in found)


def main(words):
    kept = words[words.index("--in") + 1] if "--in" in words else None
    pages = [it for it in words if it not in ("--in", kept)] or PAGES
    modules = [it for page in pages for it in modules_of(page)]
    wrong = [it.fault() for it in modules if it.fault()]
    wrong += [f"{it.page}:{it.line}: no run of this program" for it in modules if it.is_program and not it.runs]
    with tempfile.TemporaryDirectory() as folder:
        found, runs = checked(pathlib.Path(folder), kept, pages, modules)
    for fault in wrong + found:
        print(f"pages: {fault}")
    programs = sum(it.is_program for it in modules)
    bad = len(wrong + found)
    print(f"pages: {len(modules)} built, {programs} of them programs, with {runs} runs, {bad} wrong")
    return 1 if bad else 0


if __name__ == "__main__":
    sys.exit(main(sys.argv[1:]))
