"""What the prover makes of wrong bodies: some are tried in one check, and what it says of each is kept.

`rt check --only` proves some functions of a crate over what an earlier check kept. A function's goals are stated by the
contracts of what it calls, and not by their bodies. So a check of functions that have a wrong body each says of each
what a check of it alone would say. Where one calls another that is refused, its own goals are refused as well, or it
only waits for the other, and is tried again in the next check. One that is proved so is tried in a check of the whole
crate, and so is a change outside a body.

A verdict is kept in `checks/data/edits/NAME`, with a sum of all that it stands on: the edit, the bodies and proofs of
the functions that it changes, the contracts of those that these name, and the definitions and types that all this
reaches, in the crate and those below. Comments and line breaks are no part of it.
"""
import collections
import contextlib
import functools
import hashlib
import os
import pathlib
import re
import shutil
import subprocess
import sys

from edits import CRATES, TOP, Unmade, edits_of, made
from reached import Reach

KEPT = TOP / "checks/data/edits"
PARTS = ("src", "specs", "proofs", "c")
MOST = 24  # the edits of one check

# what the prover made of an edit
MEANING = "meaning"  # it refuses a goal of what was changed
SHAPE = "shape"  # it refuses it before any goal: a name that a proof cites is gone, a type does not fit
LIMIT = "limit"  # it gives no verdict, for a limit of its own
ACCEPTED = "accepted"  # the whole crate is still proved

Verdict = collections.namedtuple("Verdict", "kind sum said")


class Failed(Exception):
    """Why a crate's edits cannot be tried."""


def below():
    """The crates of the repository that each crate stands on, by crates.txt."""
    found = {}
    for line in (TOP / "crates.txt").read_text().splitlines():
        name, colon, rest = line.partition("#")[0].partition(":")
        if colon:
            found[name.split()[0]] = [it for it in rest.split() if (CRATES / it).is_dir()]
    return found


def words_of(text, comment):
    """The words of a text, in one line, without lines that are comments."""
    return " ".join(" ".join(it for it in text.split("\n") if not it.lstrip().startswith(comment)).split())


def sum_of_all(told):
    return hashlib.sha256(repr(told).encode()).hexdigest()[:16]


@functools.lru_cache(maxsize=None)
def sources(crate):
    """Of each source of a crate the lines outside its functions, and their heads and bodies by the functions."""
    found = {}
    for path in sorted((CRATES / crate / "src").rglob("*.rt")):
        lines, parts = path.read_text().split("\n"), {}
        for it in reversed(functions("\n".join(lines))):
            first, behind = it.first, it.body if 0 <= it.body < it.last else it.last
            while first > 0 and lines[first - 1].lstrip().startswith("#["):
                first -= 1
            parts[it] = (words_of("\n".join(lines[first:behind + 1]), "//"),
                         words_of("\n".join(lines[behind:it.last]), "//"))
            del lines[first:it.last + 1]
        found[str(path.relative_to(CRATES / crate))] = lines, parts
    return found


@functools.lru_cache(maxsize=None)
def reach(crate):
    return Reach({crate, *whole_below(crate)}, lambda it: {path: lines for path, (lines, _) in sources(it).items()})


def heads(crate, words):
    """The heads of the functions of a crate that these words name, and of those that nothing has to name: of a trait's
    impl, and in a macro."""
    texts = [words_of("\n".join(lines), "//") for lines, _ in sources(crate).values()]
    outside = " ".join(it for it in texts if "macro_rules!" in it)
    named = words | set(re.findall(r"\w+", outside))
    return [(path, it.name, it.owner, head) for path, (_, of) in sources(crate).items()
            for it, (head, _) in of.items() if it.owner[1] or it.name in named]


def proofs_of(crate, names):
    """The proofs of the functions of these names, and those of the crate that they import."""
    top = CRATES / crate / "proofs"
    found = [it for it in top.rglob("*.antt") if it.parent.name in names]
    for path in found:
        imported = re.findall(rf"^use Rattle\.{crate}\.proofs\.([\w.-]+)", path.read_text(), re.M)
        paths = [top / (it.rstrip(".").replace(".", "/") + ".antt") for it in imported]
        found += [it for it in dict.fromkeys(paths) if it.is_file() and it not in found]
    return sorted(found)


def sum_of(edit):
    """A sum of what the verdict on an edit stands on: of the crate's bodies and proofs those of the functions that it
    changes, or all where it changes something else; of other functions, the heads of those that all this names; and the
    definitions and types that these reach."""
    folder = CRATES / edit.crate
    told = [edit.name, edit.text]
    try:
        changed = changed_functions(edit, folder)
    except Unmade:
        changed = []
    parts = [(path, it.name, it.owner, part) for path, (_, of) in sources(edit.crate).items() for it, part in of.items()
             if not changed or (it.name, it.owner) in {(one.name, one.owner) for at, one in changed if at == path}]
    names = {it.name for _, it in changed}
    paths = proofs_of(edit.crate, names) if changed else sorted(folder.glob("proofs/**/*.antt"))
    told += [sorted(parts)]
    told += [(str(it.relative_to(folder)), words_of(it.read_text(), "--")) for it in paths]
    words = set(re.findall(r"\w+", repr(told)))
    above = [(it, sorted(heads(it, words))) for it in sorted({edit.crate, *whole_below(edit.crate)})]
    texts = [((edit.crate, path), " ".join(part)) for path, _, _, part in parts]
    texts += [((edit.crate, path), edit.text) for path in {path for path, *_ in parts}]
    texts += [((crate, path), head) for crate, of in above for path, _, _, head in of]
    texts += [(it, it.read_text()) for it in paths]
    told += [above, reach(edit.crate).reached(texts)]
    told += [(it.name, it.read_bytes()) for it in sorted((folder / "c").rglob("*")) if it.is_file()]
    return sum_of_all(told)


def verdicts(crate):
    """The kept verdicts of a crate, by the names of their edits."""
    found = {}
    if (KEPT / crate).exists():
        for line in (KEPT / crate).read_text().splitlines():
            said = re.fullmatch(r"(\w+) ([0-9a-f]{16}) ([\w-]+)(?:: (.*))?", line)
            if said:
                found[said[3]] = Verdict(said[1], said[2], said[4] or "")
    return found


def keep(crate, name, verdict):
    """Keeps a verdict, and drops those whose edits are gone."""
    found = {**verdicts(crate), name: verdict}
    names = {it.name for it in edits_of(crate)}
    lines = [f"{it.kind} {it.sum} {name}: {it.said}".removesuffix(": ") for name, it in sorted(found.items())
             if name in names]
    head = f"# What the prover made of the wrong bodies of {crate}: checks/edits writes it.\n"
    KEPT.mkdir(exist_ok=True)
    part = KEPT / f".{crate}.{os.getpid()}"
    part.write_text(head + "".join(f"{line}\n" for line in lines))
    part.replace(KEPT / crate)


# a function of a file: its name, the lines from its first to its last, the line after which its body begins, the type
# and the trait of its impl, and its cycle of calls
Function = collections.namedtuple("Function", "name first body last owner cycle")
ITEM = re.compile(r"^( *)(?:pub(?:\([^)]*\))? )?(const )?(?:unsafe )?(?:extern \"C\" )?fn (\w+)")


def joined(text):
    """The words of a type, as the name of an impl has them."""
    return "".join(it[:1].upper() + it[1:] for it in re.findall(r"\w+", text))


def owner_of(lines, first, indent):
    """How a check names the type whose impl, or the trait that, has the function of a line."""
    for line in reversed(lines[:first]):
        found = re.match(r" *(?:unsafe )?(impl|(?:pub )?trait)\b(.*)", line)
        if found and len(line) - len(line.lstrip()) < indent:
            text = re.sub(r"^<(?:[^<>]|<[^<>]*>)*>", "", found[2].strip())
            text = re.sub(r"'\w+ ?,? ?|<>|\w+::", "", text.partition("{")[0].partition(" where ")[0])
            trait, is_for, kind = text.partition(" for ")
            return (joined(kind), joined(trait)) if is_for else (joined(trait), "")
    return "", ""


def functions(text):
    """The functions of a file, without those inside others."""
    lines, found = text.split("\n"), []
    for first, line in enumerate(lines):
        said = ITEM.match(line)
        if not said or found and first <= found[-1].last:
            continue
        end = f"{said[1]}}}"
        last = first if line.rstrip().endswith("}") else next(
            (at for at in range(first, len(lines)) if lines[at].rstrip() == end), first)
        opening = next((at for at in range(first, last) if lines[at].rstrip() == f"{said[1]}{{"), None)
        if opening is None:
            opening = next((at for at in range(first, last) if lines[at].rstrip().endswith("{")), first)
        cycle = next((it[1] for at in range(first - 1, max(first - 12, -1), -1)
                      for it in [re.match(r" *#\[cycle\((\w+)\)\]", lines[at])] if it), "")
        body = -1 if said[2] else opening
        found.append(Function(said[3], first, body, last, owner_of(lines, first, len(said[1])), cycle))
    return found


def changed_functions(edit, folder):
    """The functions whose bodies an edit changes, with their files, or none where it changes something else."""
    found = []
    for path, text in made(edit, folder).items():
        was = (folder / path).read_text()
        pairs = list(zip(was.split("\n"), text.split("\n")))
        for at, (one, other) in enumerate(pairs):
            if one == other:
                continue
            of = [it for it in functions(was) if it.first <= at <= it.last]
            # what is added behind the brace that opens a body stands in it
            if not path.startswith("src/") or not of or of[0].body < 0 or not (
                    of[0].body < at or of[0].body == at and other.startswith(one)):
                return []
            found.append((path, of[0]))
    return sorted(set(found))


def names_of(path, function, known):
    """The names that a check has for a function of a file, by the names that it has for all."""
    module = [it for it in path[len("src/"):-len(".rt")].split("/") if it not in ("lib", "main", "mod")]
    kind, trait = function.owner

    def fit(name):
        words = name.split("::")[1:-1]
        owner = words[-1] if words else ""
        return (words[:len(module)] == module) + 2 * (owner == kind + trait if kind else words == module)

    same = [it for it in known if it.split("::")[-1] == function.name]
    best = max(map(fit, same), default=0)
    return [it for it in same if fit(it) == best]


def linked(one, other):
    """Copies a file of kept work, by a link where a check replaces such a file and never changes one."""
    if one.endswith(".oantt"):
        # a folder on another disk cannot have links
        with contextlib.suppress(OSError):
            os.link(one, other)
            return
    shutil.copy2(one, other)


def whole_below(crate):
    """The crates of the repository that a crate stands on, also by way of others."""
    found, left = set(), [crate]
    while left:
        left += [it for it in below().get(left.pop(), []) if it not in found and not found.add(it)]
    return found


class Room:
    """A copy of the repository's crates, in which one of them is proved, and then tried with wrong bodies. What the
    checkout keeps of earlier checks, and the machine of `rt ci`, comes along."""

    def __init__(self, folder, crate):
        self.folder, self.crate = pathlib.Path(folder), crate
        self.place = self.folder / "crates" / crate
        self.work, self.seed = self.place / "out/incremental", self.folder / "seed"
        (self.folder / ".git").mkdir()
        for it in ("crates.txt", "HANDLES"):
            if (TOP / it).exists():
                shutil.copy(TOP / it, self.folder)
        for it in CRATES.iterdir():
            for part in PARTS:
                if (it / part).is_dir():
                    shutil.copytree(it / part, self.folder / "crates" / it.name / part)
        # what earlier checks of this checkout kept is not proved again
        for it in {crate, *whole_below(crate)}:
            if (CRATES / it / "out").is_dir():
                shutil.copytree(CRATES / it / "out", self.folder / "crates" / it / "out", copy_function=linked)
        subprocess.run([sys.executable, pathlib.Path(__file__).with_name("kept.py"), self.folder], check=False,
                       stdin=subprocess.DEVNULL, stdout=subprocess.DEVNULL)
        self.said = self.check([])
        if "\nlogic=proved" not in self.said.stdout:
            raise Failed(f"{crate} itself is not proved:\n{self.said.stdout[-1500:]}")
        self.known = re.findall(r"^fn (\S+): ", self.said.stdout, re.M)
        self.work.rename(self.seed)

    def check(self, words):
        how = {"stdin": subprocess.DEVNULL, "stdout": subprocess.PIPE, "stderr": subprocess.STDOUT}
        return subprocess.run(["rt", "check", "--jobs", "1", *words], cwd=self.place, text=True, errors="replace",
                              check=False, **how)

    def tried(self, edits, words):
        """What a check says over what was kept, with these edits made."""
        texts = {}
        for edit in edits:
            texts.update(made(edit, self.place, texts))
        was = {path: (self.place / path).read_text() for path in texts}
        for path, text in texts.items():
            (self.place / path).write_text(text)
        shutil.rmtree(self.work, ignore_errors=True)
        shutil.copytree(self.seed, self.work, copy_function=linked)
        try:
            return self.check(words)
        finally:
            for path, text in was.items():
                (self.place / path).write_text(text)


# what is said of a name that a proof cites, and of what cites that proof
NAMES = re.compile(r"has no field|is not in scope|has no `|was not admitted")
# what is said of a function that is refused, if at all, for one that it calls
WAITS = re.compile(r"it calls `|it waits for the proof of `|depends on")
# what is said of a limit that is the same on every machine, as that on memory is not
LIMITS = r"ran out of (?:stack|the (?:steps|memory) that the check of one declaration may)|stopped at the step limit \("
GOAL = re.compile(r"^error: `([^`]+)`:|did not prove `([^`]+)`|^it is not proved .*\(`([^`]+)`\)")
MESSAGE = re.compile(r"^(?:note: )?(?:\./)?((?:src|proofs|specs)/\S+?):(\d+):\d+: (.*(?:\n  .*)*)", re.M)


class Said:
    """What a check says, by function."""

    def __init__(self, ran):
        self.text = ran.stdout
        self.of = dict(re.findall(r"^fn (\S+): (.*)$", ran.stdout, re.M))
        self.refusals = [it for it in MESSAGE.findall(ran.stdout)
                         if it[2].startswith("error") or it[2].startswith("it is not proved that")]
        self.has_verdict = bool(re.search(r"^(only|logic)=", ran.stdout, re.M))
        self.is_proved = bool(re.search(r"^logic=proved", ran.stdout, re.M))

    def about(self, names, places):
        """What is refused in the proofs of these functions, and in these functions of the source."""
        folders = tuple(f"proofs/{'/'.join(it.split('::')[1:])}/" for it in names)
        spans = [(path, it.first + 1, it.last + 1) for path, it in places]
        return [text for path, line, text in self.refusals if path.startswith(folders)
                or any(path == file and first <= int(line) <= last for file, first, last in spans)]

    def own_names(self, names):
        """The functions of these names, and the closures in them."""
        def is_in(closure, name):
            module, word, inner = closure.partition("::fn::")
            return word and name.startswith(f"{module}::") and f"::{inner}".startswith(f"::{name.split('::')[-1]}::")

        return [*names, *(it for it in self.of if any(is_in(it, name) for name in names))]

    def is_within(self, names):
        """Whether goals of no function but these are refused, and so none for the body of another function."""
        return not any(self.about([it], []) for it in set(self.of) - set(self.own_names(names)))


def goals(texts):
    """The goals that refusals are about, or in their place what the first says."""
    found = [it for text in texts for it in GOAL.findall(text)]
    names = list(dict.fromkeys(one for it in found for one in it if one))
    return " ".join(names[:6]) if names else " ".join("".join(texts[:1]).split())[:100]


def kind_of(texts):
    return SHAPE if texts and all(NAMES.search(it) for it in texts) else MEANING


def judged(edit, places, names, said, is_within):
    """The verdict of a check on an edit in these functions, `ACCEPTED` where they are proved, or none. Where other
    goals than those of edited functions are refused, what waits for a refused function has none."""
    told = {it: said.of[it] for it in said.own_names(names) if it in said.of}
    if not set(names) <= set(told):
        return None
    left = {it: text for it, text in told.items() if not text.startswith("proved")}
    if not left:
        return Verdict(ACCEPTED, sum_of(edit), "")
    refused = {it: said.about([it], places if it in names else []) for it in left}
    refused = {it: [*texts, left[it]] if "did not prove" in left[it] else texts for it, texts in refused.items()}
    texts = [it for texts in refused.values() for it in texts]
    # a function that calls a refused one has errors of its own too, of which those about names may be for the other
    if any(WAITS.search(it) for it in left.values()) and not (is_within and kind_of(texts) == MEANING):
        return None
    what = ", ".join(it.split("::", 1)[1] for it, found in refused.items() if found)
    return Verdict(kind_of(texts), sum_of(edit), f"{what}: {goals(texts)}") if texts else None


def judged_whole(edit, said):
    """The verdict of a check of the whole crate on an edit, or none where the check was cut off."""
    if said.is_proved:
        return Verdict(ACCEPTED, sum_of(edit), "")
    if not said.has_verdict:
        lines = said.text.splitlines()
        kind, words = (SHAPE, r"\berror\[") if re.search(r"\berror\[", said.text) else (LIMIT, LIMITS)
        why = next((it for it in lines if re.search(words, it)), None)
        return why and Verdict(kind, sum_of(edit), why[:100])
    left = {it: text for it, text in said.of.items() if not text.startswith("proved") and not WAITS.search(text)}
    texts = [text for _, _, text in said.refusals] + [text for text in left.values() if "did not prove" in text]
    what = ", ".join(it.split("::", 1)[1] for it in list(left)[:3])
    return Verdict(kind_of(texts), sum_of(edit), f"{what}: {goals(texts)}" if what else goals(texts))


class Trial:
    """The edits of a crate that have no verdict yet, and what the prover makes of them."""

    def __init__(self, room, edits, tell):
        self.room, self.tell = room, tell
        self.of = {it: changed_functions(it, room.place) for it in edits}
        self.names = {it: sorted({name for path, function in found for name in names_of(path, function, room.known)})
                      for it, found in self.of.items()}

    def conclude(self, edit, verdict, said):
        if verdict:
            keep(edit.crate, edit.name, verdict)
        self.tell(edit, verdict, said)

    def whole(self, edit):
        said = Said(self.room.tried([edit], []))
        self.conclude(edit, judged_whole(edit, said), said.text)

    def together(self, edits):
        """Edits, from the first on, that are in functions of their own and can be made in one text."""
        batch, taken, texts = [], set(), {}
        for edit in edits:
            words = {*self.names[edit], *(it.cycle for _, it in self.of[edit] if it.cycle)}
            if len(batch) == MOST or words & taken:
                continue
            with contextlib.suppress(Unmade):
                texts.update(made(edit, self.room.place, texts))
                batch.append(edit)
                taken |= words
        return batch

    def some(self, batch):
        """Tries edits in one check, and returns those that it says nothing of."""
        words = [word for it in batch for name in self.names[it] for word in ("--only", name.split("::", 1)[1])]
        said = Said(self.room.tried(batch, words))
        if not said.has_verdict:
            # one of them is not compiled
            if len(batch) == 1:
                self.whole(batch[0])
                return []
            half = len(batch) // 2
            return self.some(batch[:half]) + self.some(batch[half:])
        left, is_within = [], said.is_within([name for it in batch for name in self.names[it]])
        for edit in batch:
            verdict = judged(edit, self.of[edit], self.names[edit], said, is_within)
            if verdict is None and len(batch) > 1:
                left.append(edit)
            elif verdict is None or verdict.kind == ACCEPTED:
                self.whole(edit)
            else:
                self.conclude(edit, verdict, said.text)
        return left

    def run(self):
        left = [it for it, names in self.names.items() if names]
        while left:
            batch = self.together(left)
            again = self.some(batch)
            if len(again) == len(batch):
                again = self.some(again[:1]) + again[1:]
            left = again + [it for it in left if it not in batch]
        for edit in [it for it, names in self.names.items() if not names]:
            self.whole(edit)
