"""Looks whether each link of the pages leads somewhere, whether each path they name is there, whether one version
number is everywhere, whether the README says how many wrong bodies the gate tries, whether docs/DUMP.md has the types
of documents that der_dump knows, and whether docs/TRUST.md has the logic of the kit that is here.

    checks/run links [-- FOLDER]

The pages are the tracked files *.md. With FOLDER, as the pages of a release lie in one, they are the files *.md there,
of which only the links are looked at. A link is [TEXT](PATH#HEADING), its path one from the page's folder. A path is a
code span that begins with a folder of the top; one with a placeholder, one that is built, and one that the page has its
reader make need not be there. A block behind a comment <!-- from PATH --> has to stand in that file.
"""
import pathlib
import re
import shutil
import subprocess
import sys

TOP = pathlib.Path(__file__).resolve().parent.parent.parent
LINK = re.compile(r"\[[^\]]*\]\(([^)\s]+)\)")
FENCE = re.compile(r"^```.*?^```", re.S | re.M)
SPAN = re.compile(r"`([^`\n]+)`")
PATH = re.compile(r"(?:\.ci|bench|bindings|checks|crates|docs|release)/[a-z0-9_./-]*[A-Za-z0-9_.-]*/?")
LOGIC = re.compile(r"\blogic ([0-9a-f]{16})\b")
ABSENT = re.compile(r"NAME|PROGRAM|/out\b|crates/(tags|shapes)\b")

# where the version number is; the number of the calls for C is its first part
VERSIONS = {
    "CHANGELOG.md": r"^## (\d+\.\d+\.\d+)",
    "README.md": r"\bVersion (\d+\.\d+\.\d+)\.",
    "bindings/c/simple_asn1.h": r'^#define SIMPLE_ASN1_RELEASE "(.*)"',
    "bindings/rust/records/Cargo.toml": r'^(?:version = |simple_asn1-sys = \{ version = )"(.*?)"',
    "bindings/rust/sys/Cargo.toml": r'^version = "(.*)"',
    "bindings/python/pyproject.toml": r'^version = "(.*)"',
    "bindings/postgres/simple_asn1.control": r"^default_version = '(.*)'",
    "bindings/postgres/Makefile": r"^DATA = simple_asn1--(.*)\.sql",
    "crates/dump_options/src/command.rt": r'^const VERSION: &str = "(.*)"',
    "crates/der_signed/src/main.rt": r'^const VERSION: &str = "(.*)"',
    "crates/example_certificate/src/main.rt": r'\.version\("(.*)"\)',
}

# tables that wrong_lines has to refuse
WRONG_TABLES = ["A ::= SEQUENCE", "A", "  a A", "A ::= 2\n  1.2.3 B", "A ::= 2\n  1x a", "A ::= 2\n  a [x] A",
                "A ::= SET OF B", "A ::= 2\nA ::= 2"]


def wrong_versions():
    found = {name: re.findall(pattern, (TOP / name).read_text(), re.M) for name, pattern in VERSIONS.items()}
    newest = found["CHANGELOG.md"][0]
    found["CHANGELOG.md"] = [newest]
    for name, numbers in found.items():
        if set(numbers) != {newest}:
            yield f"{name} has {', '.join(numbers) or 'none'}, and CHANGELOG.md {newest}"
    calls = re.search(r"SIMPLE_ASN1_VERSION (\d+)", (TOP / "bindings/c/simple_asn1.h").read_text())[1]
    if calls != newest.split(".")[0]:
        yield f"SIMPLE_ASN1_VERSION is {calls}, and the version {newest}"


def wrong_counts():
    bodies = len(list(TOP.glob("crates/*/must-fail/*.edit")))
    said = re.findall(r"that (\d+) wrong function bodies are rejected", (TOP / "README.md").read_text())
    if said != [str(bodies)]:
        yield f"README.md has {', '.join(said) or 'none'}, and must-fail {bodies}"


def wrong_types():
    """Types of documents that docs/DUMP.md does not list for `--as`, and those that it lists beside them."""
    tables = (TOP / "crates/dump_shapes/src/tables/roots.rt").read_text()
    known = set(re.findall(r'^(?:    \(")?([A-Z][\w.-]*)(?: [A-Z]|", \d)', tables, re.M))
    page = (TOP / "docs/DUMP.md").read_text()
    lists = re.findall(r"^- Types of (?:documents|messages) are (.*?)\.(?:\n| No)", page, re.M | re.S)
    for name in sorted(known ^ set(SPAN.findall(" ".join(lists)))):
        yield f"{name} stands in {'roots.rt' if name in known else 'docs/DUMP.md'} alone"


SHAPES = TOP / "crates/dump_shapes/src"
# what stands behind the name of a field
FIELD = re.compile(r"(?:\[(?:APPLICATION |UNIVERSAL )?\d+\] )?(?:EXPLICIT )?(.*?)(?: OPTIONAL)?")


def wrong_shapes():
    """Lines of the tables of shapes in another form, or by a name of no shape: der_dump takes nothing from them."""
    yield from (f"the wrong table {text!r} passes" for text in WRONG_TABLES if not list(wrong_lines(text.splitlines())))
    order = re.findall(r"^    (\w+)::TABLE,$", (SHAPES / "tables.rt").read_text(), re.M)
    texts = [(SHAPES / "tables" / f"{name}.rt").read_text().split('"')[1] for name in order]
    lines = [line for text in texts for line in text.splitlines() if line not in ("", "\\") and line[:2] != "--"]
    yield from wrong_lines(lines)
    fits = re.search(r"FITS: .*? = \[\n(.*?)\];", (SHAPES / "tables/roots.rt").read_text(), re.S)[1].splitlines()
    yield from wrong_fits(fits, {line.split(" ::= ")[0] for line in lines})
    wrong = ('    ("B", 1, 2),', '    ("A", 1),')
    yield from (f"the wrong line {line!r} passes" for line in wrong if not list(wrong_fits([line], {"A"})))


def wrong_fits(lines, shapes):
    for line in lines:
        found = re.fullmatch(r'    \("([^"]+)", \d+, \d+\),', line)
        if not found or found[1] not in shapes:
            yield f"the table FITS has the line {line!r}"


def wrong_lines(lines):
    named = [line.split(" ::= ") for line in lines if not line.startswith("  ")]
    shapes = {words[0]: words[-1] for words in named}
    if len(shapes) < len(named):
        yield "two shapes have one name"
    of = [""]
    for line in lines:
        name, _, text = line[2:].partition(" ")
        if not line.startswith("  "):
            of = re.split(" OF | CONTAINING ", line.split(" ::= ")[-1])
            word = re.sub(r" (?:CLOSED|HOLDING|NAMED|ADDRESS|CHOOSING)$|^\[UNIVERSAL \d+\] ", "", of[0])
            is_right = {*of[1:]} <= {*shapes} and (
                word in ("CHOICE", "OPEN", "KNOWN") or shapes.get(word, word).isdigit())
        elif of[0] in ("OPEN", "KNOWN"):
            is_number = name.isdigit() and int(name) < 1 << 15
            is_right = (is_number or re.fullmatch(r"\d+(\.\d+)+", name)) and text in shapes
        elif of[0] == "CHOICE" or of[0].endswith(("SEQUENCE", "SET")):
            is_right = not name[0].isdigit() and FIELD.fullmatch(text)[1] in shapes
        else:
            is_right = name.isdigit() and text
        if not is_right:
            yield f"a table of shapes has the line {line!r}"


def wrong_logic():
    """Where the kit has another logic than the one that the pages ask for."""
    if not shutil.which("rt"):
        print("links: NOT CHECKED for the logic of the kit, there is no rt")
        return
    printed = subprocess.run(["rt", "version"], capture_output=True, text=True, check=True).stdout
    here = LOGIC.findall(printed)
    said = LOGIC.findall((TOP / "docs/TRUST.md").read_text())
    if len(here) != 1 or said != here:
        yield f"docs/TRUST.md has {', '.join(said) or 'none'}, and rt version {printed.strip()}"


def anchors(page):
    """The names of a page's headings, as they stand in links."""
    headings = re.findall(r"^#+ (.*)$", FENCE.sub("", page.read_text()), re.M)
    return {re.sub(r"[^\w\- ]", "", it.lower()).replace(" ", "-") for it in headings}


def wrong_links(page, text):
    for link in LINK.findall(text):
        if re.match(r"[a-z]+:", link):
            continue
        path, _, heading = link.partition("#")
        target = (page.parent / path).resolve() if path else page
        if not target.exists():
            yield f"no file {link}"
        elif heading and heading not in anchors(target):
            yield f"no heading {link}"


def wrong_paths(text):
    for span in SPAN.findall(text):
        for word in span.split():
            if PATH.fullmatch(word) and not ABSENT.search(word) and not (TOP / word).exists():
                yield f"no path {word}"


def wrong_quotes(text):
    """The blocks behind a comment `<!-- from PATH -->` that do not stand in that file."""
    for path, quoted in re.findall(r"^<!-- from (\S+) -->\n```\w*\n(.*?)^```", text, re.S | re.M):
        if not (TOP / path).exists() or quoted not in (TOP / path).read_text():
            yield f"{quoted.splitlines()[0]} .. does not stand in {path}"


def look_at_folder(folder):
    pages = sorted(folder.rglob("*.md"))
    wrong = [f"{page}: {fault}" for page in pages for fault in wrong_links(page, FENCE.sub("", page.read_text()))]
    for fault in wrong:
        print(f"links: {fault}")
    print(f"links: {len(pages)} pages, {len(wrong)} wrong")
    return 1 if wrong or not pages else 0


def main(words):
    if words:
        return look_at_folder(pathlib.Path(words[0]))
    listed = subprocess.run(["git", "ls-files", "*.md"], cwd=TOP, capture_output=True, text=True, check=True)
    pages = [TOP / name for name in listed.stdout.splitlines()]
    wrong = 0
    for page in filter(pathlib.Path.exists, pages):
        quotes = wrong_quotes(page.read_text())
        text = FENCE.sub("", page.read_text())
        conflicts = (f"a conflict: {it}" for it in re.findall(r"^(?:<<<<<<<|>>>>>>>).*", text, re.M))
        for fault in [*wrong_links(page, text), *wrong_paths(text), *conflicts, *quotes]:
            print(f"links: {page.relative_to(TOP)}: {fault}")
            wrong += 1
    for fault in wrong_versions():
        print(f"links: versions: {fault}")
        wrong += 1
    for fault in wrong_counts():
        print(f"links: wrong bodies: {fault}")
        wrong += 1
    for fault in [*wrong_types(), *wrong_shapes()]:
        print(f"links: types: {fault}")
        wrong += 1
    for fault in wrong_logic():
        print(f"links: logic: {fault}")
        wrong += 1
    print(f"links: {len(pages)} pages, {wrong} wrong")
    return 1 if wrong else 0


if __name__ == "__main__":
    sys.exit(main(sys.argv[1:]))
