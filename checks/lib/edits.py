"""Wrong bodies: changes of a crate's source that the prover has to refuse.

Those of `crates/NAME/edits` are paragraphs of one file, with blank lines between them:

    name: clone_of_a_number_is_zero
    why: a sentence, where the name does not say all
    file: src/number.rt
    old: text of one line, which stands once in the file
    new: what is to stand in its place, maybe nothing

More pairs of `old` and `new`, also behind another `file`, apply to what the earlier ones made. A line that begins with
`#` is a comment. Those of `crates/NAME/must-fail`, which `rt ci` tries, are files of their own, as `rt must-fail` reads
them: the same without `name` and `why`.
"""
import collections
import pathlib
import re

TOP = pathlib.Path(__file__).resolve().parent.parent.parent
CRATES = TOP / "crates"
PARTS = ("src/", "specs/", "proofs/")

Edit = collections.namedtuple("Edit", "crate name text")


class Unmade(Exception):
    """Why an edit cannot be read or made."""


def crates_with_edits():
    return sorted(it.parent.name for it in CRATES.glob("*/edits"))


def paragraphs(text):
    """The paragraphs of a file of edits, without its comments."""
    lines = [line for line in text.split("\n") if not line.startswith("#")]
    return [it.strip("\n") for it in re.split(r"\n\n+", "\n".join(lines)) if it.strip()]


def read(crate, paragraph):
    """The edit of a paragraph."""
    lines = paragraph.split("\n")
    said = re.fullmatch(r"name: ([A-Za-z0-9_-]+)", lines[0])
    if not said:
        raise Unmade(f"a paragraph begins with `{lines[0]}`, and not with `name: ` and a name")
    kept = [line for line in lines[1:] if not line.startswith("why: ")]
    odd = [line for line in kept if not re.match(r"(file|old): |new:( |$)", line)]
    if odd:
        raise Unmade(f"{said[1]}: a line that nothing reads: {odd[0]}")
    return Edit(crate, said[1], "".join(f"{line}\n" for line in kept))


def edits_of(crate):
    """The edits of `crates/CRATE/edits`."""
    file = CRATES / crate / "edits"
    return [read(crate, it) for it in paragraphs(file.read_text())] if file.is_file() else []


def must_fail_of(crate):
    """The edits of `crates/CRATE/must-fail`."""
    return [Edit(crate, it.stem, it.read_text()) for it in sorted((CRATES / crate / "must-fail").glob("*.edit"))]


def made(edit, folder, before=()):
    """The texts of the files that the edit changes, by their paths in the crate's folder, as `rt must-fail` reads it.
    Texts that other edits made before are in the place of those of the folder."""
    texts, was, path, old = {}, {}, None, None
    for line in edit.text.splitlines():
        word, _, rest = line.partition(":")
        rest = rest.removeprefix(" ")
        if word == "file":
            path = rest.strip()
            if not path.startswith(PARTS) or not (folder / path).is_file():
                raise Unmade(f"there is no file {path}")
            if path not in texts:
                texts[path] = was[path] = before[path] if path in before else (folder / path).read_text()
        elif word == "old":
            old = rest
        elif word == "new":
            if path is None or not old:
                raise Unmade("`new` stands before any `file` or `old`")
            count = texts[path].count(old)
            if count != 1:
                raise Unmade(f"{path} has {count} times, and not once: {old.strip()}")
            texts[path], old = texts[path].replace(old, rest), None
    if texts == was:
        raise Unmade("it changes nothing")
    return texts


def wrong_edits(crate):
    """What is wrong with a crate's edits, also in `must-fail`: one that cannot be made, a name that stands twice."""
    try:
        found = [*edits_of(crate), *must_fail_of(crate)]
    except Unmade as why:
        yield f"crates/{crate}/edits: {why}"
        return
    counts = collections.Counter(it.name for it in found)
    yield from (f"{crate}: {count} edits have the name {name}" for name, count in counts.items() if count > 1)
    for edit in found:
        try:
            made(edit, CRATES / crate)
        except Unmade as why:
            yield f"{crate}: {edit.name}: {why}"
