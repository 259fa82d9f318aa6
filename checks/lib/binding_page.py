"""The whole programs of the pages of the languages print what the pages show: binding_page.py TOP CC WORK

A program is a block of C with a `main`, of Rust with a `main`, or of Python that imports the package. Behind it, before
the next heading, stand indented commands, and behind each, after an empty line, what it prints, errors included. Those
of C are built by the page's own command, those of Rust as a crate over bindings/rust/records.
"""
import os
import pathlib
import re
import shutil
import subprocess
import sys

PAGES = ("docs/c.md", "docs/rust.md", "docs/python.md", "bindings/python/README.md")
BLOCK = re.compile(r"^```(c|rust|python)\n(.*?)^```$", re.S | re.M)
WHOLE = {"c": r"^int main\(", "rust": r"^fn main\(", "python": r"^import simple_asn1$"}


def commands_in(text):
    """The indented commands of a text, each with what the page says that it prints."""
    parts = re.findall(r"(?:^    .*\n)+", text.partition("\n#")[0], re.M)
    lines = [[line[4:] for line in part.splitlines()] for part in parts]
    found = []
    for at, part in enumerate(lines):
        if re.match(r"(cc|printf|\./|cargo|python3) ?", part[0]):
            behind = lines[at + 1] if at + 1 < len(lines) else []
            shown = [] if behind and re.match(r"(cc|printf|\./|cargo|python3)\b", behind[0]) else behind
            found += [(command, []) for command in part[:-1]] + [(part[-1], shown)]
    return found


def programs(page):
    """The whole programs of the page: language, text, and the commands behind each."""
    text = page.read_text()
    blocks = list(BLOCK.finditer(text)) + [None]
    for block, later in zip(blocks, blocks[1:]):
        if re.search(WHOLE[block[1]], block[2], re.M):
            yield block[1], block[2], commands_in(text[block.end():later.start() if later else len(text)])


def prepare(language, text, commands, top, work):
    """Writes the program into a folder of its own, under the name that its command has; returns the folder."""
    folder = work / f"page-{language}-{len(list(work.glob('page-*')))}"
    folder.mkdir()
    if language == "rust":
        (folder / "src").mkdir()
        (folder / "src/main.rs").write_text(text)
        records = top / "bindings/rust/records"
        (folder / "Cargo.toml").write_text(
            f'[package]\nname = "page"\nversion = "1.0.0"\nedition = "2021"\n\n[dependencies]\n'
            f'simple_asn1_records = {{ path = "{records}" }}\n')
        return folder
    name = re.search(r"(\w+\.(?:c|py))\b", " ".join(command for command, _ in commands))[1]
    (folder / name).write_text(text)
    (folder / "bindings").symlink_to(top / "bindings")
    return folder


def run(command, top, cc, folder):
    """What the command prints, in the folder of its program."""
    command = re.sub(r"^cc ", f"{cc} ", command)
    command = re.sub(r"^cargo run ", "cargo run -q ", command)
    environment = {**os.environ, "PYTHONPATH": str(top / "bindings/python"), "PYTHONDONTWRITEBYTECODE": "1"}
    said = subprocess.run(["bash", "-c", command], cwd=folder, stdout=subprocess.PIPE, stderr=subprocess.STDOUT,
                          env=environment)
    return said.stdout.decode(errors="replace").rstrip("\n")


def main(top, cc, work):
    if not shutil.which("xxd"):
        print("bindings: NOT CHECKED, the programs of docs/c.md, there is no xxd")
        return
    count = wrong = 0
    found = [(page, *program) for page in PAGES for program in programs(top / page)]
    for page in set(PAGES) - {page for page, *_ in found}:
        print(f"bindings: {page} has no program")
        wrong += 1
    for page, language, text, commands in found:
        if language == "rust" and not shutil.which("cargo"):
            print("bindings: NOT CHECKED, the page's program in Rust, there is no cargo")
            continue
        folder = prepare(language, text, commands, top, work)
        if not commands:
            print(f"bindings: {page}: no command behind a program:\n{text}")
            wrong += 1
        for command, shown in commands:
            there = run(command, top, cc, folder)
            count += bool(shown)
            if there != "\n".join(shown):
                print(f"bindings: {page}: {command}\n  prints:\n{there}\n  where the page has:",
                      *shown, sep="\n")
                wrong += 1
    print(f"the programs of {len(PAGES)} pages print what these show, {count} times" if not wrong else f"{wrong} wrong")
    sys.exit(1 if wrong or not count else 0)


main(pathlib.Path(sys.argv[1]).resolve(), sys.argv[2], pathlib.Path(sys.argv[3]).resolve())
