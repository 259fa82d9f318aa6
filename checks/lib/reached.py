"""Definitions and types that texts of a crate name, those that these name in turn, and so on.

A name is looked up where it stands: among what its file defines, then among what the file imports. In a source it may
also be a type, a constant or a trait of the crate or one below, by its name alone, so that more is found than needed.
These are not looked for: what the kit defines, and from which of its modules a name comes; definitions in proofs of
crates below; and which traits a type derives.
"""
import collections
import functools
import pathlib
import re

from edits import CRATES

# what stands in words that no name has
BETWEEN = re.compile(r"[\s(){}\[\],;.:λ→\"'&*!?<>|]+")
# how an item of a file of definitions begins
OPENS = re.compile(r"^(?:(?:abbrev|unfoldable|pub) )*(?:(data|record|module) )?(\S+)")
IMPORT = re.compile(r"^\s*(?:pub |ghost )*use (Rattle\.[\w.-]+?)(?:\.\{([^}]*)\}| as (\w+))?;?$", re.M)
# an item of a source, behind `pub`
DECLARES = re.compile(r"^(?:pub(?:\([^)]*\))? )?(?:unsafe )?(?:struct|enum|union|trait|type|const|static) (\w+)", re.M)

# what a file defines, by names, and what it imports: names with the modules that have them, and whole modules
Scope = collections.namedtuple("Scope", "items imports modules")


@functools.lru_cache(maxsize=None)
def names_in(text):
    """The words of a text that may be names."""
    return frozenset(filter(None, BETWEEN.split(text)))


def paragraphs_of(text, comment):
    """What stands in a text between one line that is not indented and the next, without comments."""
    found = []
    for line in text.split("\n"):
        if not line.strip() or line.lstrip().startswith(comment):
            continue
        if found and line[0] in " )]}":
            found[-1].append(line)
        else:
            found.append([line])
    return found


def imports_of(text):
    """The imports of a text: by the name here, the module and the name there; and the modules that have a name here."""
    names, modules = {}, []
    for module, listed, alias in IMPORT.findall(text):
        if alias or not listed:
            modules.append(module)
        for it in filter(None, (one.strip() for one in listed.split(","))):
            there, _, here = it.partition(" as ")
            names[here or there] = module, there
    return names, modules


def defined(lines):
    """The names that a paragraph of definitions has."""
    kind, name = OPENS.match(lines[0]).groups()
    inner = [re.match(r"^ +(?:abbrev |unfoldable |pub )*(\S+)[^:]* :", it) for it in lines[1:]]
    found = [name] if kind != "module" else []
    if kind in ("data", "module"):
        found += [it[1] for it in inner if it]
    return [part for it in found for part in {it, *it.split("◌")} if part]


@functools.lru_cache(maxsize=None)
def definitions(path):
    """The scope of a file of definitions."""
    text = path.read_text()
    items = collections.defaultdict(list)
    for lines in paragraphs_of(text, "--"):
        if not re.match(r"(?:pub )?use ", lines[0]):
            for name in defined(lines):
                items[name].append(" ".join(" ".join(lines).split()))
    return Scope(dict(items), *imports_of(text))


def file_of(module):
    """The file of a module of definitions, if the repository has it."""
    _, crate, *rest = module.split(".")
    path = CRATES / crate / ("/".join(rest) + ".antt")
    return path if rest[:1] == ["specs"] and path.is_file() else None


def items_of_source(outside):
    """The items of a source by the names that declare them, from the lines outside its functions, and its impls by the
    names in their heads."""
    items, impls, ahead = collections.defaultdict(list), collections.defaultdict(list), []
    for lines in paragraphs_of("\n".join(outside), "//"):
        text = " ".join(" ".join(ahead + lines).split())
        ahead = []
        declared = DECLARES.findall(lines[0])
        if lines[0].startswith("#["):
            ahead = [] if lines[0].startswith("#[derive(") else [text]
        elif lines[0].startswith("#![") or lines[0].startswith("macro_rules!"):
            items[""].append(text)
        elif declared:
            items[declared[0]].append(text)
        elif re.match(r"(?:unsafe )?impl\b", lines[0]):
            for name in names_in(text.partition("{")[0]):
                impls[name].append(text)
    return dict(items), dict(impls)


class Reach:
    """Finds what texts of a crate name. `sources` has for a crate of each source the lines outside its functions."""

    def __init__(self, crates, sources):
        self.scopes, self.types, self.found = {}, collections.defaultdict(list), {}
        split = {(crate, path): items_of_source(lines) for crate in crates for path, lines in sources(crate).items()}
        declared = {name for items, _ in split.values() for name in items if name}
        for (crate, path), (items, impls) in split.items():
            for name in declared & set(impls):
                items[name] = items.get(name, []) + impls[name]
            self.scopes[crate, path] = Scope(items, *imports_of((CRATES / crate / path).read_text()))
            for name in items:
                self.types[name].append((crate, path))

    def scope(self, key):
        return definitions(key) if isinstance(key, pathlib.Path) else self.scopes[key]

    def places(self, key, name):
        """Where what has the name in this scope is defined: scopes, and its name there."""
        if (key, name) not in self.found:
            self.found[key, name] = self.looked_up(key, name)
        return self.found[key, name]

    def looked_up(self, key, name):
        """The same, where it was not asked before."""
        scope = self.scope(key)
        if name in scope.items and isinstance(key, pathlib.Path):
            return [(key, name)]
        found = []
        if name in scope.imports:
            found += self.imported(*scope.imports[name])
        for module in scope.modules:
            found += self.imported(module, name)
        if not isinstance(key, pathlib.Path):
            found += [(it, name) for it in self.types.get(name, ())]
        return found

    def imported(self, module, name):
        """Where a name of a module is defined."""
        if ".specs.declared." in f"{module}.":
            words = {*module.partition(".specs.declared.")[2].split("."), name}
            return [(it, word) for word in sorted(words) for it in self.types.get(word, ())]
        path = file_of(module)
        return self.places(path, name) if path else []

    def reached(self, texts):
        """The items that these texts name, each with its scope, and those that these name: scopes, names and texts."""
        found = {}
        left = [(key, name) for key, text in texts for name in names_in(text)]
        seen = set(left)
        while left:
            for at, name in self.places(*left.pop()):
                if (at, name) in found:
                    continue
                found[at, name] = texts_there = self.scope(at).items.get(name, [])
                for it in {(at, word) for text in texts_there for word in names_in(text)} - seen:
                    seen.add(it)
                    left.append(it)
        for key, scope in self.scopes.items():
            if "" in scope.items:
                found[key, ""] = scope.items[""]
        return sorted(("/".join(map(str, at)) if isinstance(at, tuple) else str(at.relative_to(CRATES)), name, text)
                      for (at, name), text in found.items())
