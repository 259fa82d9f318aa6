"""Statuses and rules of DER are those of bindings/codes.txt, in each language.

    checks/run codes                says where they are not
    checks/run codes -- --write     writes them into the header, the man page, and the bindings for Rust and Python

Sources in Rattle are compared, and not written: what they say is proved. A status or rule of a new number gets a
paragraph in codes.txt, and is then written with --write and by hand in these sources, which this check names.
"""
import collections
import pathlib
import re
import sys
import textwrap

TOP = pathlib.Path(__file__).resolve().parent.parent.parent
TABLE = TOP / "bindings/codes.txt"
WIDTH = 120

Code = collections.namedtuple("Code", "kind number name variant text more")
# a part of a file that is written: what stands before it and behind it, and the codes as lines of it
Part = collections.namedtuple("Part", "path before behind lines")


def codes_of(text):
    """The statuses and rules, by their kind."""
    found = {"status": [], "rule": []}
    for line in text.splitlines():
        head = re.fullmatch(r"(status|rule) (\d+) (\w+)(?: (\w+|-))?: (.*)", line)
        if head:
            found[head[1]].append(Code(head[1], int(head[2]), head[3], head[4], head[5], {}))
            last = found[head[1]][-1]
        elif line.startswith("  "):
            word, _, rest = line.strip().partition(" ")
            last.more[word] = rest
    return found


STATUSES, RULES = codes_of(TABLE.read_text()).values()


def constant(rule):
    """The name of a rule in C and Python: LongIdentifier is LONG_IDENTIFIER."""
    return re.sub(r"(?<!^)(?=[A-Z])", "_", rule.name).upper()


def enumerated(prefix, named, behind):
    """The lines of an enum of C, each with a comment behind it, where it has one."""
    heads = [f"    {prefix}{name} = {number}{'' if at == len(named) - 1 else ','}"
             for at, (name, number) in enumerate(named)]
    column = max(map(len, heads)) + 1
    for head, said in zip(heads, behind):
        if not said:
            yield head
            continue
        parts = textwrap.wrap(said, WIDTH - column - 6)
        for at, part in enumerate(parts):
            start = f"{head:{column}}/* " if at == 0 else " " * column + " * "
            yield start + part + (" */" if at == len(parts) - 1 else "")


def comment_of(status):
    """What the comment in the header says: nothing of a status whose text repeats its name."""
    return status.more.get("c", "" if status.name in {"OK", "NO_MEMORY"} else status.text)


def statuses_of_header():
    return enumerated("SIMPLE_ASN1_", [(it.name, it.number) for it in STATUSES], map(comment_of, STATUSES))


def rules_of_header():
    return enumerated("SIMPLE_ASN1_RULE_", [(constant(it), it.number) for it in RULES],
                      [f"{it.text}: {it.more['clauses']}" for it in RULES])


def texts_of_header():
    for it in STATUSES:
        yield f'    case SIMPLE_ASN1_{it.name}: return "{it.text}";'


def statuses_of_man():
    for it in STATUSES[1:]:
        yield from [".TP", f".B SIMPLE_ASN1_{it.name}"]
        said = f"{it.text}; {it.more['man']}" if "man" in it.more else it.text
        yield from textwrap.wrap(said, WIDTH, break_on_hyphens=False)


def rules_of_man():
    for it in RULES:
        yield from [".TP", f".B SIMPLE_ASN1_RULE_{constant(it)}", f"{it.text}: {it.more['clauses']}"]


def constants_of_rust():
    for it in STATUSES:
        yield f"pub const {it.name}: u32 = {it.number};"
    yield ""
    for it in RULES:
        yield f"pub const RULE_{constant(it)}: u32 = {it.number};"


def documented(said, name):
    """The lines of a variant of Rust with its documentation."""
    yield from (f"    /// {line}" for line in textwrap.wrap(said, WIDTH - 8, break_on_hyphens=False))
    yield f"    {name},"


def kinds_of_rust():
    for it in STATUSES:
        if it.variant != "-":
            yield from documented(it.more["rust"], it.variant)


def numbers_of_rust():
    for it in STATUSES:
        if it.variant != "-":
            yield f"            sys::{it.name} => FaultKind::{it.variant},"


def texts_of_rust():
    for it in STATUSES:
        if it.variant != "-":
            yield f'            FaultKind::{it.variant} => "{it.text}",'


def rules_of_rust():
    for it in RULES:
        yield from documented(it.more["demands"], it.name)


def table_of_rust():
    yield f"const RULES: [(Rule, &str, &str); {len(RULES)}] = ["
    for it in RULES:
        parts = [f"Rule::{it.name}", f'"{it.text}"', f'"{it.more["clauses"]}"']
        line = f"    ({', '.join(parts)}),"
        if len(line) <= WIDTH:
            yield line
        else:
            yield from ["    (", *(f"        {part}," for part in parts), "    ),"]


def statuses_of_python():
    for it in STATUSES:
        yield f"    {it.name} = {it.number}"


def texts_of_python():
    for it in STATUSES:
        yield f'    Status.{it.name}: "{it.text}",'


def rules_of_python():
    for it in RULES:
        line = f'    {constant(it)} = {it.number}, "{it.text}", "{it.more["clauses"]}"'
        if len(line) <= WIDTH:
            yield line
        else:
            yield f"    {constant(it)} = ("
            yield f'        {it.number}, "{it.text}",'
            yield f'        "{it.more["clauses"]}",'
            yield "    )"


HEADER, MAN, RUST, PYTHON = "bindings/c/simple_asn1.h", "bindings/c/simple_asn1.3", "bindings/rust", \
    "bindings/python/simple_asn1"
PARTS = [
    Part(HEADER, "enum { /* what calls return */\n", "};\n", statuses_of_header),
    Part(HEADER, "enum { /* what is wrong, and the clauses that say the rule: of X.690, unless X.680 is named */\n",
         "};\n", rules_of_header),
    Part(HEADER, "    switch (status) {\n", "    default: return", texts_of_header),
    Part(MAN, "is that of the block at fault, in bytes from the start of the document.\n", ".SH RULES\n",
         statuses_of_man),
    Part(MAN, "What is wrong at a departure, and the clauses that say the rule: of X.690, unless X.680 is named.\n",
         ".SH EXAMPLE\n", rules_of_man),
    Part(f"{RUST}/sys/src/calls.rs", "as a private module.\n\n", "\n/// A block", constants_of_rust),
    Part(f"{RUST}/records/src/fault.rs", "pub enum FaultKind {\n", "    /// A status of a later library",
         kinds_of_rust),
    Part(f"{RUST}/records/src/fault.rs", "let kind = match status {\n", "            _ =>", numbers_of_rust),
    Part(f"{RUST}/records/src/fault.rs", "f.write_str(match self {\n", "            FaultKind::Unknown(status)",
         texts_of_rust),
    Part(f"{RUST}/records/src/departures.rs", "pub enum Rule {\n", "    /// A rule of a later library", rules_of_rust),
    Part(f"{RUST}/records/src/departures.rs", "and the clauses that say it.\n", "];\n", table_of_rust),
    Part(f"{PYTHON}/_status.py", '"""What the library returns."""\n\n', "\n    @classmethod", statuses_of_python),
    Part(f"{PYTHON}/_status.py", "TEXTS = {\n", "}\n", texts_of_python),
    Part(f"{PYTHON}/_departures.py", "return type(self), (self.value,)\n\n", "\n\n_RULES", rules_of_python),
]


def with_part(text, part):
    """The text of a file with a part as the codes have it."""
    start = text.index(part.before) + len(part.before)
    end = text.index(part.behind, start)
    return text[:start] + "".join(f"{line}\n" for line in part.lines()) + text[end:]


def arms(path, pattern):
    """What a source in Rattle says, by its names."""
    return dict(re.findall(pattern, (TOP / path).read_text()))


def compared():
    """What sources in Rattle say of statuses and rules, each with its file, and what codes.txt says."""
    crates = "crates/asn1_der"
    texts, clauses = {it.name: it.text for it in RULES}, {it.name: it.more["clauses"] for it in RULES}
    source = (TOP / crates / "src/rule.rt").read_text()
    named, section, text = re.split(r"pub fn (?:section|text)\(", source)
    names = {it.name: it.name for it in RULES}
    for words, wanted in [(named, names), (section, clauses), (text, texts)]:
        yield f"{crates}/src/rule.rt", dict(re.findall(r'Rule::(\w+) => "(.*)",', words)), wanted
    demanded = dict((name, " ".join(re.sub(r"^ *///", "", line).strip() for line in said.splitlines()))
                    for said, name in re.findall(r"((?:    ///.*\n)+)    (\w+),\n", named))
    yield f"{crates}/src/rule.rt", demanded, {it.name: it.more["demands"] for it in RULES}
    for word, wanted in [("section_of", clauses), ("text_of", texts)]:
        yield f"{crates}/specs/Rules.antt", arms(f"{crates}/specs/Rules.antt", word + r' (\w+) = codes "(.*)"'), wanted
    numbers = {it.name: str(it.number) for it in RULES}
    yield "crates/asn1_records/src/departures.rt", arms("crates/asn1_records/src/departures.rt",
                                                        r"Rule::(\w+) => (\d+),"), numbers
    said = arms("crates/asn1_records/src/status.rt", r"pub const (\w+): u32 = (\d+);")
    named = {"OUT_OF_RANGE": "RANGE", "DONE": "OK"}
    yield "crates/asn1_records/src/status.rt", said, {
        it: next(str(code.number) for code in STATUSES if code.name == named.get(it, it)) for it in said}


def main(words):
    wrong = 0
    for kind, codes in [("status", STATUSES), ("rule", RULES)]:
        first = 0 if kind == "status" else 1
        if [it.number for it in codes] != list(range(first, first + len(codes))):
            print(f"codes: a number of a {kind} is left out, or stands twice")
            wrong += 1
    for path in dict.fromkeys(it.path for it in PARTS):
        text = (TOP / path).read_text()
        new = text
        for part in PARTS:
            if part.path == path:
                new = with_part(new, part)
        if new != text and words == ["--write"]:
            (TOP / path).write_text(new)
        elif new != text:
            print(f"codes: {path}: run checks/run codes -- --write")
            wrong += 1
    for path, said, wanted in compared():
        for name in sorted({*said, *wanted}):
            if said.get(name) != wanted.get(name):
                print(f"codes: {path}: {name}: {said.get(name)!r}, and not {wanted.get(name)!r}")
                wrong += 1
    print(f"codes: {len(STATUSES)} statuses, {len(RULES)} rules, {wrong} wrong")
    return 1 if wrong else 0


if __name__ == "__main__":
    sys.exit(main(sys.argv[1:]))
