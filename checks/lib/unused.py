"""Lists what nothing uses: imports, and the lemmas and definitions of specs/ and proofs/, of all crates. It also lists
modules that a file imports on two lines.

    checks/run unused [-- CRATE..]    of these, or of all; a use may stand in any crate

It compares words, and proves nothing. A name is used if it stands as a word in code, in an import of it by another
module apart. What it cannot see:

- which of two things with one name a contract or a whole module that is imported has
- a name that only unused things use: it is listed once these are gone
- imports of Rust's own in src/, since a trait is used by its methods
- what an answer to a goal, an invariant, a measure or a `Proof.antt` is for: their names belong to the prover
- fields of records, and constructors of types
"""
import collections
import pathlib
import re
import sys

TOP = pathlib.Path(__file__).resolve().parent.parent.parent
COMMENT = re.compile(r"(?:^|(?<=\s))--(?=\s|$).*", re.M)
IMPORT = re.compile(r"^(pub )?(?:ghost )?use (Rattle\.[^\s{;]+?)(?:\.\{(.*?)\}|( as [\w-]+)|);?$", re.M | re.S)
WORD = re.compile(r"[^\s(){}\[\],;.:`\"]+")
# a character that operators are made of
SIGN = r"[^\w\s(){}\[\],;.:`\"]"
# a word that is no field of what stands before it
NO_FIELD = re.compile(r"(?<![^\s(){}\[\],;:`\"])" + WORD.pattern)
# the head of a thing that has a name of its own: its words before the name, the name, and what stands behind
HEAD = re.compile(r"^((?:pub |abbrev |unfoldable |data |record |syntax |tactic )*)"
                  r"([^\s(){}\[\],;.:|]+)(?= *[({:]| .*?: )(.*)", re.S)
GOAL = re.compile(r"\s*:\s*goal\.")
# a trait with its clauses, and an impl of one, which has the clauses that it does not state itself
TRAIT = re.compile(r"^(?:pub )?trait (\w+)\b.*?^}", re.M | re.S)
IMPL = re.compile(r"^impl\b[^{]*?\b(\w+)(?:<[^{}]*>)?\s+for\s", re.M)
KEYWORDS = ("unfolding", "instance", "pub", "use")


class Source:
    """A file: the names that it imports, its things, and the words of each."""

    def __init__(self, path):
        self.path = path
        text = path.read_text()
        text = re.sub(r"//.*", "", text) if path.suffix == ".rt" else COMMENT.sub("", text)
        self.imports = [it for found in IMPORT.finditer(text) for it in imported(found)]
        self.taken = {(found[2], it.split(" as ")[0].strip()) for found in IMPORT.finditer(text) if found[3] is not None
                      for it in found[3].split(",")}
        modules = collections.Counter((found[1], found[2]) for found in IMPORT.finditer(text) if found[3] is not None)
        self.twice = [module for (_, module), times in modules.items() if times > 1]
        self.rest = IMPORT.sub("", text)
        self.things, self.words = {}, collections.Counter(WORD.findall(self.rest))
        self.alone = collections.Counter(NO_FIELD.findall(self.rest))
        self.traits = {found[1]: found[0] for found in TRAIT.finditer(self.rest)} if path.suffix == ".rt" else {}
        if path.suffix == ".antt":
            self.split()

    def inherit(self, traits):
        """The clauses that the impls of this file have of their traits count as words of the file."""
        if self.path.suffix == ".rt":
            clauses = "\n".join(traits[name] for name in set(IMPL.findall(self.rest)) & set(traits))
            self.rest += f"\n{clauses}"
            self.alone.update(NO_FIELD.findall(clauses))

    def split(self):
        """The things at the margin, each with its equations, and the words in them."""
        name = None
        for part in re.split(r"\n(?=\S)", "\n".join(at_the_margin(self.rest))):
            head = HEAD.match(part)
            if part.split()[:1] in ([], ["module"], ["mutual"]):
                name = None
            elif head and head[2] not in KEYWORDS and (head[1] or head[2] != name):
                name = head[2]
                is_answer = bool(GOAL.match(head[3])) or self.path.name == "Proof.antt"
                self.things.setdefault(name, [is_answer, collections.Counter()])
            if name is not None:
                self.things[name][1].update(WORD.findall(part))

    def is_used(self, name):
        """Whether the name, or each part of an operator's, stands behind the imports."""
        parts = [it for it in name.split("◌") if it.strip()]
        return all(self.alone[it] or (not re.search(r"\w", it) and self.has_sign(it)) for it in parts)

    def has_sign(self, sign):
        """Whether the sign stands somewhere as a whole, and not in a longer one."""
        return re.search(rf"(?<!{SIGN}){re.escape(sign)}(?!{SIGN})", self.rest)


def at_the_margin(text):
    """The lines, those inside `module .. where` and `mutual` moved to the left margin."""
    inside = []
    for line in text.split("\n"):
        margin = len(line) - len(line.lstrip(" "))
        while line.strip() and inside and margin < inside[-1]:
            inside.pop()
        yield line[inside[-1] :] if inside else line
        if re.match(r" *(module\b.*\bwhere|mutual)$", line):
            inside.append(margin + 2)


def imported(found):
    """The names by which one `use` line brings things in, but for those that it hands on."""
    if found[1]:
        return
    if found[3] is None:
        yield found[4].split()[1] if found[4] else found[2].rpartition(".")[2]
        return
    for item in re.split(r",\s*", found[3].strip().rstrip(",")):
        yield item.split(" as ")[-1].strip()


def module_of(source):
    """The name of the module that the file of a crate is, as it stands in imports."""
    crate, *path = source.path.relative_to(TOP / "crates").with_suffix("").parts
    return ".".join(["Rattle", crate, *path])


def unused_things(sources):
    """The lemmas and definitions that no other thing has as a word; of those with one name, those no file imports."""
    everywhere, own, homes, code = (collections.Counter() for _ in range(4))
    for source in sources:
        everywhere.update(source.words)
        homes.update(source.things.keys())
        if source.path.suffix == ".rt":
            code.update(source.words)
        for name, (_, words) in source.things.items():
            own[name] += words[name]
    taken = set().union(*(source.taken for source in sources))
    for source in sources:
        for name, (is_answer, words) in source.things.items():
            if is_answer or "◌" in name:
                continue
            is_alone = homes[name] > 1 and not code[name] and (module_of(source), name) not in taken and \
                source.words[name] <= words[name]
            if everywhere[name] <= own[name] or is_alone:
                yield source, name


def main(names):
    sources = [Source(path) for path in sorted((TOP / "crates").glob("*/*/**/*"))
               if path.suffix in (".antt", ".rt") and "out" not in path.relative_to(TOP).parts]
    traits = {name: text for it in sources for name, text in it.traits.items()}
    for it in sources:
        it.inherit(traits)
    chosen = [it for it in sources if not names or it.path.relative_to(TOP).parts[1] in names]
    found = [(it, "import", name) for it in chosen for name in it.imports if not it.is_used(name)]
    found += [(it, "name", name) for it, name in unused_things(sources) if it in chosen]
    found += [(it, "second import of", module) for it in chosen for module in it.twice]
    for source, what, name in sorted(found, key=lambda it: (it[0].path, it[1:])):
        print(f"unused: {source.path.relative_to(TOP)}: {what} {name}")
    count = sum(len(it.things) for it in chosen)
    print(f"unused: {len(chosen)} files, {count} lemmas and definitions, {len(found)} unused")
    return 1 if found else 0


if __name__ == "__main__":
    sys.exit(main(sys.argv[1:]))
