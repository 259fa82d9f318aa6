"""Counts the words of the README, as `wc -w` does, and fails if it has more than 800. Warns of long sentences. Fails
if a line in the sources or definitions of a crate has more than 120 octets, or one in its proofs more than 120
characters, or if an import in definitions or proofs does not stand on one line. Fails if a page for users has a private
word, one that only we know the meaning of, and warns of private words on other pages and in names of the sources.

    checks/run words              the README's words, and how many sentences of each page have more than 35 words
    checks/run words -- --long    prints these sentences too, and the places of the private words that it warns of

A warning fails nothing: some sentences are lists. Code, tables, links' targets and what a script makes are not counted
as sentences, and imports not as lines of code.
"""
import pathlib
import re
import subprocess
import sys

TOP = pathlib.Path(__file__).resolve().parent.parent.parent
README_WORDS = 800
SENTENCE_WORDS = 35
LINE = 120
# words that say less than a plain one does, and what to write in their place
PRIVATE_WORDS = {
    "told": "shown, known, distinguished",
    "said": "named, printed",
    "came": "was read, was given",
    "obey": "act on",
    "obeys": "acts on",
    "obeyed": "acted on",
    "owed": "left to do",
}
PRIVATE_NAME = re.compile(r"\b(?:fn|struct|enum|type|const) (?:\w*_)?(?:told|said|came|beside|obey|owed)(?:_\w*)?\b")
PAGES_FOR_USERS = {
    "README.md", "SECURITY.md", "CONTRIBUTING.md", "docs/GUIDE.md", "docs/OWN_TYPES.md", "docs/DUMP.md",
}
MADE = re.compile(r"<!-- made by .*? -->.*?<!-- end -->", re.S)
FENCE = re.compile(r"^```.*?^```", re.S | re.M)


def sentences(page):
    """The sentences of a page's paragraphs and list items."""
    text = FENCE.sub("\n", MADE.sub("\n", page.read_text()))
    lines = [line for line in text.splitlines() if not re.match(r"\||#| {4}|!\[", line)]
    for part in re.split(r"\n\s*\n|\n(?=\s*(?:[-*]|\d+\.) )", "\n".join(lines)):
        flat = re.sub(r"\[([^\]]*)\]\([^)]*\)", r"\1", " ".join(part.split()))
        flat = re.sub(r"^(?:[-*>]|\d+\.) ", "", flat)
        yield from re.split(r"(?<=[.:!?])\s+(?=[A-Z`*])", flat)


def badly_broken(crate):
    """Where lines of a crate are too long, or an import is more than one line."""
    paths = (it for part in ("src", "specs", "proofs", "calls") for it in (crate / part).rglob("*"))
    for path in sorted(it for it in paths if it.suffix in (".rt", ".antt", ".rattle")):
        for number, line in enumerate(path.read_text().splitlines(), 1):
            is_import = re.match(r"\s*(pub |ghost )*use ", line)
            size = len(line) if "proofs" in path.parts else len(line.encode())
            if size > LINE and not is_import:
                yield f"{path.relative_to(TOP)}:{number}: {size}, where a line has at most {LINE}"
            if path.suffix == ".antt" and is_import and line.endswith("{"):
                yield f"{path.relative_to(TOP)}:{number}: an import of several lines"


def count_badly_broken():
    """Prints which lines of the crates are badly broken, and returns how many there are."""
    folders = [*sorted((TOP / "crates").iterdir()), TOP / "checks/tried"]
    places = [place for crate in folders for place in badly_broken(crate)]
    for place in places:
        print(f"words: {place}")
    return len(places)


def private_words(page):
    """The private words of a page's text, each with its line."""
    text = FENCE.sub(lambda it: "\n" * it[0].count("\n"), page.read_text())
    for number, line in enumerate(text.splitlines(), 1):
        for word in re.findall(r"[a-z]+", re.sub(r"`[^`]*`|^ {4}.*", "", line).lower()):
            if word in PRIVATE_WORDS:
                yield f"{page.relative_to(TOP)}:{number}: {word}: write {PRIVATE_WORDS[word]}"


def private_names():
    """Where a name in the sources of the crates has a private word in it."""
    for path in sorted(TOP.glob("crates/*/src/**/*.rt")):
        for number, line in enumerate(path.read_text().splitlines(), 1):
            if found := PRIVATE_NAME.search(line):
                yield f"{path.relative_to(TOP)}:{number}: {found[0]}"


def count_private(names, is_long):
    """Prints the private words of the pages for users, and returns how many there are; warns of others."""
    failed = [it for name in names if name in PAGES_FOR_USERS for it in private_words(TOP / name)]
    others = [it for name in names if name not in PAGES_FOR_USERS for it in private_words(TOP / name)]
    for place in failed:
        print(f"words: {place}")
    for what, places in (("private words on pages that are not for users", others),
                         ("names with a private word", list(private_names()))):
        if places:
            print(f"words: warning: {what}: {len(places)}")
        for place in places if is_long else []:
            print(f"    {place}")
    return len(failed)


def main(words):
    count = len((TOP / "README.md").read_text().split())
    print(f"words: {count:,} of {README_WORDS:,} in README.md")
    listed = subprocess.run(["git", "ls-files", "*.md"], cwd=TOP, capture_output=True, text=True, check=True)
    names = listed.stdout.split()
    for name in names:
        long = [it for it in sentences(TOP / name) if len(it.split()) > SENTENCE_WORDS]
        if long:
            print(f"words: warning: {name}: sentences of more than {SENTENCE_WORDS} words: {len(long)}")
        for sentence in long if "--long" in words else []:
            print(f"    {len(sentence.split())}: {sentence}")
    if count > README_WORDS:
        print(f"words: README.md: {count - README_WORDS} words too many")
    wrong = count_badly_broken() + count_private(names, "--long" in words)
    return 1 if count > README_WORDS or wrong else 0


if __name__ == "__main__":
    sys.exit(main(sys.argv[1:]))
