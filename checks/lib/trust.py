"""The definitions that have to be right: those that docs/TRUST.md names.

    checks/run trust                       looks whether the page names each file, with as many lines as there are, and
                                           the numbers for `from_der` alone and together
    checks/run trust -- --print            prints them too as one text, in the page's order, without imports, and the
                                           numbers of tags that they name
    checks/run trust -- --print accepted   prints those that say what `from_der` accepts, and as which trees
    checks/run trust -- --print faults     prints those that say, beyond these, with which fault it rejects all else

They are what the contracts of CALLS rest on: each definition that a contract names, and those that this names in turn.
Empty lines are not counted, and comments are.
"""
import pathlib
import re
import sys

TOP = pathlib.Path(__file__).resolve().parent.parent.parent
TRUST = TOP / "docs/TRUST.md"
CALLS = {"from_der": "asn1_blocks/src/read.rt", "to_der": "asn1_writing/src/write.rt",
         "rewrite": "asn1_writing/src/write.rt", "from_der_strict": "asn1_writing/src/strict.rt",
         "is_der": "asn1_der/src/der.rt", "departures": "asn1_der/src/listing.rt",
         "law_departures": "asn1_der/src/laws.rt", "law_der_is_read": "asn1_laws/src/laws.rt",
         "law_der_is_canonical": "asn1_laws/src/laws.rt", "law_written_is_der": "asn1_laws/src/laws.rt"}
TAGS = "asn1_headers/src/tags.rt"
READER = {"from_der": CALLS["from_der"]}
ACCEPTANCE = ("document", "accepts")  # the clauses of `from_der` that say nothing of faults

IMPORT = re.compile(r"^(?:ghost |pub )?use Rattle\.(\w+)\.specs\.([\w.]+?)\.\{([^}]*)\}", re.M)
WORD = re.compile(r"[^\s(){}\[\],.;→λ]+")
HEAD = re.compile(r"^\s*(?:abbrev |unfoldable )?(?:pub )?(?:data |record )?([^\s(){}:]+)(?: \(.*)?\s*:", re.M)


def imports(text):
    """The names that a file imports, each with the file that has it."""
    found = {}
    for crate, path, names in IMPORT.findall(text):
        if (TOP / "crates" / crate).is_dir() and not path.startswith("declared"):
            found |= {it.split(" as ")[-1].strip(): (crate, path.replace(".", "/")) for it in names.split(",")}
    return found


class File:
    """A file of specs/: its definitions, each with the names that it declares, and what it imports."""

    def __init__(self, key):
        self.path = TOP / "crates" / key[0] / "specs" / f"{key[1]}.antt"
        text = self.path.read_text()
        self.imports = imports(text)
        parts = [it for it in re.split(r"\n\s*\n(?=\S)", text.strip())]
        parts = [re.sub(r"^(?:(?:pub )?use .*(?:\n|$))+", "", re.sub(r"\A(?:--.*\n)*(?=use )", "", it), flags=re.M)
                 for it in parts]
        self.definitions = [(self.names(it), it) for it in parts if HEAD.search(code(it))]

    @staticmethod
    def names(text):
        """The names that a definition declares: of a record its own, of data those of its constructors too."""
        found = HEAD.findall(code(text))
        return set(found[:1] if re.match(r"(pub )?record", code(text)) else found)


def code(text):
    return "\n".join(line for line in text.splitlines() if line.strip() and not line.lstrip().startswith("--"))


def contract(call, path, clauses):
    """The clauses of a function, all of them or those with these names, and what its file imports."""
    text = (TOP / "crates" / path).read_text()
    begin = re.search(rf"^pub fn {call}\(", text, re.M).start()
    said = text[begin:text.index("\n{", begin)]
    if clauses:
        said = "\n".join(re.findall(rf"^ +ensures (?:{'|'.join(clauses)}) \{{.*?\}}$", said, re.M | re.S))
    return said, imports(text)


def reached(calls, clauses=()):
    """The definitions that the calls' contracts rest on, or those of their clauses with these names, by files."""
    files, found = {}, {}
    todo = [(it, where[it]) for text, where in (contract(*it, clauses) for it in calls.items())
            for it in WORD.findall(text) if it in where]
    while todo:
        name, key = todo.pop()
        if key not in files:
            files[key] = File(key)
        if name in files[key].imports:  # it hands the name on
            todo.append((name, files[key].imports[name]))
        for at, (names, text) in enumerate(files[key].definitions):
            if name in names and at not in found.setdefault(key, set()):
                found[key].add(at)
                own = {it: key for names, _ in files[key].definitions for it in names}
                todo += [(it, (own | files[key].imports)[it]) for it in WORD.findall(code(text))
                         if it in own or it in files[key].imports]
    return {key: [files[key].definitions[at][1] for at in sorted(found[key])] for key in found}


def named():
    """The rows of the page's table: the files of each, and the lines that it has."""
    for row in re.findall(r"^\| `\w+`: .*$", TRUST.read_text(), re.M):
        files, lines = row.split("|")[1:3]
        crate, *paths = re.findall(r"`([\w/]+)`", files)
        folder = paths[0].rpartition("/")[0]
        yield [(crate, it if "/" in it or not folder else f"{folder}/{it}") for it in paths], int(lines)


def said(pattern):
    """A number that the page says, or None."""
    found = re.search(pattern, TRUST.read_text())
    return int(found.group(1)) if found else None


def count(definitions):
    return sum(1 for it in definitions for line in it.splitlines() if line.strip())


def lines_of(definitions):
    return sum(map(count, definitions.values()))


def part(name):
    """The definitions of all calls; or those that say what `from_der` accepts, or how it rejects the rest."""
    if name not in ("accepted", "faults"):
        return reached(CALLS)
    accepted = reached(READER, ACCEPTANCE)
    if name == "accepted":
        return accepted
    return {key: [it for it in texts if it not in accepted.get(key, [])] for key, texts in reached(READER).items()}


def print_definitions(definitions, listed):
    for key in listed:
        if definitions.get(key):
            print(f"-- crates/{key[0]}/specs/{key[1]}.antt\n")
            print("\n\n".join(it.strip("\n") for it in definitions[key]) + "\n")
    print(f"-- crates/{TAGS}: the numbers of tags, which definitions name\n")
    print((TOP / "crates" / TAGS).read_text())


def main(words):
    definitions, wrong, rows = reached(CALLS), [], list(named())
    listed = [key for keys, _ in rows for key in keys]
    wrong += [f"{crate}/specs/{path}.antt is not named, and {', '.join(CALLS)} rest on it"
              for crate, path in definitions if (crate, path) not in listed]
    wrong += [f"{crate}/specs/{path}.antt is named, and nothing of it is rested on"
              for crate, path in listed if (crate, path) not in definitions]
    for keys, lines in rows:
        there = sum(count(definitions.get(it, [])) for it in keys)
        if there != lines:
            wrong.append(f"{', '.join(it for _, it in keys)}: {there} lines, where the page has {lines}")
    total, alone = lines_of(definitions), lines_of(reached(READER))
    for name, lines, pattern in (("together", total, r"\| Together \| (\d+) \|"),
                                 ("from_der alone", alone, r"`from_der`\s+\((\d+)\s+lines\)"),
                                 *((it, lines_of(part(it)), rf"--print {it}`\s+\((\d+)\s+lines\)")
                                   for it in ("accepted", "faults"))):
        if said(pattern) != lines:
            wrong.append(f"{name}: {lines} lines, where the page has {said(pattern)}")
    if words[:1] == ["--print"]:
        print_definitions(part(words[-1]), listed)
    for fault in wrong:
        print(f"trust: docs/TRUST.md: {fault}", file=sys.stderr)
    print(f"trust: {len(listed)} files, {total} lines of definitions, {alone} of them for from_der, {len(wrong)} wrong",
          file=sys.stderr)
    return 1 if wrong else 0


if __name__ == "__main__":
    sys.exit(main(sys.argv[1:]))
