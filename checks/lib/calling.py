"""What docs/CALLING.md, docs/calling/ and docs/calling.html have from the source: the index of all public types and
calls, a page for each section with the comment, the example and the contract of each, and one page with a search.

    checks/run calling               compares them
    checks/run calling -- --write    writes them
    checks/run calling -- --links    leads the links of the other pages to where each type and call stands now

A call is public where the library of its section exports it, or the type or trait whose method it is; a method has a
doc comment. checks/data/clauses says in words what each named clause says, and checks/data/examples has examples of
calls whose comments have none. The script fails where a clause has no words, where a call has no example, where words
or examples belong to nothing, and where a page of claims names a clause that the function beside it lacks.
"""
import itertools
import pathlib
import re
import subprocess
import sys
import textwrap

from calling_html import anchor, html_page

TOP = pathlib.Path(__file__).resolve().parent.parent.parent
INDEX = TOP / "docs/CALLING.md"
PAGES = TOP / "docs/calling"
HTML = TOP / "docs/calling.html"
TRUST = TOP / "docs/TRUST.md"
WORDS = TOP / "checks/data/clauses"
EXAMPLES = TOP / "checks/data/examples"
BEGIN, END = "<!-- made by checks/run calling -->\n", "<!-- end -->\n"

# the sections, each of which has a page: a title, the library to use, and the names that stand in it, where `law_*` are
# those that begin so and `build::*` those of a public module; `impl`s follow their type
SECTIONS = [
    ("Reading into blocks", "simple_asn1", "Document from_der from_der_located from_der_strict from_der_counted"
     " HeaderCount"),
    ("Reading without blocks", "simple_asn1", "check_document Outline BlockRef Inside Entry Entries"
     " EntriesInside Headers"),
    ("DER or not", "simple_asn1", "is_der departures Departure Rule"),
    ("Blocks", "simple_asn1", "ASN1Block ASN1Class items_of Items all_blocks discard encoding_at sequence_items"),
    ("Making blocks", "simple_asn1", "build::*"),
    ("Writing", "simple_asn1", "to_der to_der_faithful rewrite rewrite_unless_canonical canonical_size"),
    ("Numbers and object identifiers", "simple_asn1", "BigInt BigUint OID oid FromBigUint"),
    ("Errors", "simple_asn1", "ASN1DecodeErr ASN1EncodeErr FaithfulErr UnfaithfulErr LocatedErr"),
    ("Signed triples", "simple_asn1", "read_signed SignedTriple TripleErr"),
    ("Types of your own", "simple_asn1", "FromASN1 FromASN1WithBody ToASN1 RoundTrip der_decode der_encode round_trip"
     " TripFault Point PointErr"),
    ("Parts of headers", "simple_asn1", "decode_tag decode_length decode_base127 decode_class encode_tag encode_len"
     " encode_base127 encode_class"),
    ("Laws", "simple_asn1", "law_*"),
    ("Laws of DER", "asn1_laws", "law_departures law_der_is_canonical law_der_is_read law_written_is_der"),
    ("Laws of certificates", "asn1_laws", "law_certificate_is_signed"),
    ("PEM, base64 and hex digits", "der_forms", "document_of labelled_document_of LabelledDocument FormFault"
     " text_of form_of InputForm Objects PemObject BadEnd to_pem LabelFault"),
    ("Names of object identifiers", "dump_names", "Names OwnNames NamesFault"),
]

ITEM = re.compile(r"^pub (fn|struct|enum|trait) (\w+)")
IMPL = re.compile(r"^impl(?:<.*?>)? (?:(.+) for )?(\w+)(?:<.*>)? \{")
METHOD = re.compile(r"^    (?:pub )?fn (\w+)")
CLAUSE = re.compile(r"^\s*(ensures|requires) (?:(\w+) )?\{")
GHOST = re.compile(r"^    ghost (\w+)(:| = )")
IMPORT = re.compile(r"^\s*ghost use Rattle\.(\w+)\.specs\.([\w.]+?)\.\{([^}]*)\}", re.M)
WORD = re.compile(r"[^\s(){}\[\],.;→λ]+")
LINK = re.compile(r"\[`([^`]*)`\](?:\([^)]*\))?")


def exports(library):
    """The names that a library exports, each with the crate that has it."""
    text = (TOP / "crates" / library / "src/lib.rt").read_text()
    found = {}
    for path, names in re.findall(r"^pub use ([\w:]+)::(\{[^}]*\}|\w+);", text, re.M):
        first = path.split("::")[0]
        for name in re.findall(r"\w+", names):
            found[name] = first if (TOP / "crates" / first).is_dir() else library
    found |= {name: library for name in re.findall(r"^pub (?:struct|enum) (\w+)", text, re.M)}
    if library == "simple_asn1":
        sections = " ".join(names for _, _, names in SECTIONS)
        for module in re.findall(r"^pub mod (\w+);", text, re.M):
            if f"{module}::*" not in sections:
                continue  # other crates of the library use it
            inside = (TOP / "crates" / library / "src" / f"{module}.rt").read_text()
            found |= {f"{module}::{name}": library for name in re.findall(r"^pub fn (\w+)", inside, re.M)}
    return found | {name: library for name in re.findall(r"^macro_rules! (\w+)", text, re.M)}


def dedented(lines):
    """Lines without the indentation of the first."""
    depth = len(lines[0]) - len(lines[0].lstrip())
    return [line[depth:].rstrip() for line in lines]


class Item:
    """A type, a call, or an `impl` that says something of itself."""

    def __init__(self, owner, title, kind, text, clauses, doc, source):
        self.owner, self.title, self.kind = owner, title, kind
        self.clauses, self.doc, self.source = clauses, doc, source
        self.text = [line for line in dedented(text) if not line.lstrip().startswith("ghost use")]
        # what checks/data has for it
        self.example, self.words = [], {}

    def faults(self):
        names = [name for _, name in self.clauses]
        for name in sorted({it or "a clause without a name" for it in names if names.count(it) > 1}):
            yield f"{self.title}: {name} is there twice"

    def heading(self):
        return f"`{self.title.removesuffix(' (macro)')}`" + (" (macro)" if self.title.endswith(")") else "")

    def is_inner(self):
        """Whether it stands below its type."""
        return self.kind == "impl" or "::" in self.title and self.title != self.owner

    def begin_of_contract(self):
        if self.kind == "impl":
            return 0
        clauses = (at for at, line in enumerate(self.text) if re.match(r" +(requires|ensures|//) ?", line))
        return next(clauses, len(self.text)) if self.kind == "call" else len(self.text)

    def declaration(self):
        return self.text[:self.begin_of_contract()]

    def contract(self):
        clauses = self.text[self.begin_of_contract():]
        return dedented(clauses) if clauses else []

    def sentence(self):
        """What it does, in the first sentence of its comment that says so."""
        first = LINK.sub(r"`\1`", " ".join(itertools.takewhile(bool, self.doc)))
        sentences = re.split(r"(?<=\.) (?=[A-Z`\d])", first)
        return sentences[1] if sentences[0] == "A law, with no code." else sentences[0]

    def files(self):
        """The files of specs/ that define the words of its contract, with these words."""
        words = set(WORD.findall("\n".join(line for line in self.text if not line.lstrip().startswith("//"))))
        found = {}
        for crate, module, names in IMPORT.findall(self.source):
            file = TOP / "crates" / crate / "specs" / f"{module.replace('.', '/')}.antt"
            if file.exists() and "Inner" not in module:
                for name in (it.split(" as ")[-1].strip() for it in names.split(",")):
                    if name in words:
                        found.setdefault(file.relative_to(TOP), {})[name] = True
        return [(file, list(names)) for file, names in found.items()]


def head_at(lines, at):
    """The lines of a signature and of its contract, its clauses, and the number of the line after them."""
    clauses, depth, number = [], 0, at
    for number in range(at, len(lines)):
        line = lines[number]
        clause = CLAUSE.match(line)
        if clause:
            clauses.append((clause[1], clause[2]))
        depth += line.count("{") - line.count("}")
        if depth <= 0 and (line.rstrip().endswith(";") or "{}" in line) or depth > 0 and not clause and (
                line.rstrip() in ("{", "    {") or not clauses and line.rstrip().endswith("{")):
            break
    head = dedented(lines[at:number + 1])
    head[-1] = re.sub(r"\s*(\{\}|\{|;)$", "", head[-1])
    return [line for line in head if line], clauses, number + 1


def block_at(lines, at):
    """The lines of a declaration, up to its closing brace."""
    if lines[at].rstrip().endswith(("{}", ";")):
        return lines[at:at + 1], at + 1
    end = next(number for number in range(at + 1, len(lines)) if lines[number].startswith("}"))
    return lines[at:end + 1], end + 1


def shown_type(lines):
    """A declaration as users see it: without private fields, ghost fields and the texts of errors."""
    shown, doc, hidden = [], [], False
    for line in lines[1:-1]:
        stripped = line.strip()
        if stripped.startswith("///"):
            doc.append(line)
        elif stripped.startswith(("#[", "//")) or not stripped:
            continue
        elif lines[0].startswith("pub struct") and not stripped.startswith("pub "):
            hidden, doc = True, []
        else:
            shown, doc = shown + doc + [line], []
    if hidden and not shown:
        return [lines[0].rstrip().removesuffix("{").rstrip() + " { /* private fields */ }"]
    if len(lines) == 1:
        return lines
    return [lines[0], *shown, *(["    // and private fields"] if hidden else []), lines[-1]]


def shown_trait(lines):
    """What a type says of itself: its associated types and ghost members."""
    shown, doc, inside = [], [], False
    for line in lines[1:-1]:
        stripped = line.strip()
        if stripped.startswith("///"):
            doc.append(line)
        elif inside or stripped.startswith(("type ", "ghost ")) and not stripped.startswith("ghost use"):
            shown, doc, inside = shown + doc + [line], [], not stripped.endswith(";")
        elif stripped:
            doc = []
    return [lines[0]] + shown + lines[-1:]


def shown_impl(lines):
    """The ghost members of an `impl`, and the contracts of its methods."""
    shown, inside = [], False
    for at, line in enumerate(lines):
        stripped = line.strip()
        if inside or GHOST.match(line):
            shown, inside = shown + [line], not stripped.endswith(";")
        elif METHOD.match(line) and CLAUSE.search("\n".join(head_at(lines, at)[0]), re.M):
            shown += ["    " + it for it in head_at(lines, at)[0]]
    return [lines[0]] + shown + ["}"]


def derived(lines, at):
    """The traits that a type derives."""
    found = []
    while at and (lines[at - 1].startswith("#[")):
        at -= 1
        found += re.findall(r"\w+", "".join(re.findall(r"derive\((.*)\)", lines[at])))
    return found


def traits_in(crate):
    """The traits that each type of a crate has, derived or by an `impl`."""
    found = {}
    for path in (TOP / "crates" / crate / "src").rglob("*.rt"):
        lines = path.read_text().splitlines()
        for at, line in enumerate(lines):
            item, impl = ITEM.match(line), IMPL.match(line)
            if item:
                traits = derived(lines, at)
                found.setdefault(item[2], set()).update(traits, ["Display"] if "Error" in traits else [])
            elif impl and impl[1]:
                found.setdefault(impl[2], set()).add(impl[1].removeprefix("fmt::"))
    return {name: ", ".join(f"`{it}`" for it in sorted(traits - {"Model"})) for name, traits in found.items()}


def ghosts_of(lines):
    return [it[1] for it in map(GHOST.match, lines) if it and it[1] not in ("Value", "view", "invariant")]


def items_in(crate, exported):
    """The public types and calls of a crate, in the order of its files."""
    traits = traits_in(crate)
    for path in sorted((TOP / "crates" / crate / "src").rglob("*.rt"), key=lambda it: (len(it.parts), it)):
        source = path.read_text()
        lines, owner, kind, doc = source.splitlines(), None, None, []
        for at, line in enumerate(lines):
            item, impl, method = (it.match(line) for it in (ITEM, IMPL, METHOD))
            if line.lstrip().startswith("///"):
                doc.append(line.strip()[3:].removeprefix(" "))
                continue
            if line.startswith("}"):
                owner = kind = None
            macro = re.match(r"macro_rules! (\w+)", line)
            if macro and exported.get(macro[1]) == crate:
                yield Item(macro[1], f"{macro[1]}! (macro)", "call", block_at(lines, at)[0], [], doc, source)
            elif item and exported.get(f"{path.stem}::{item[2]}") == crate:
                yield top_item(item, f"{path.stem}::{item[2]}", lines, at, doc, source)
            elif item and exported.get(item[2]) == crate:
                if traits.get(item[2]):
                    doc += ["", "# Traits", traits[item[2]] + "."]
                yield top_item(item, item[2], lines, at, doc, source)
                if item[1] == "trait":
                    owner, kind = item[2], "trait"
            elif impl and exported.get(impl[2]) == crate and impl[2][0].isupper():
                owner, kind = impl[2], "trait impl" if impl[1] else "impl"
                body, _ = block_at(lines, at)
                if impl[1] and ghosts_of(body):
                    clauses = [("ensures", it) for it in ghosts_of(body)]
                    clauses += [(it[1], it[2]) for it in map(CLAUSE.match, body) if it]
                    yield Item(owner, line[:line.rindex("{")].strip(), "impl", shown_impl(body), clauses, doc, source)
            elif method and owner and (kind == "trait" or kind == "impl" and doc and "pub" in line):
                head, clauses, _ = head_at(lines, at)
                yield Item(owner, f"{owner}::{method[1]}", "call", head, clauses, doc, source)
            if not line.lstrip().startswith("#["):
                doc = []


def top_item(item, name, lines, at, doc, source):
    if item[1] == "fn":
        head, clauses, _ = head_at(lines, at)
        return Item(name, name, "call", head, clauses, doc, source)
    body, _ = block_at(lines, at)
    if item[1] == "trait":
        clauses = [("ensures", it) for it in ghosts_of(body)]
        return Item(item[2], item[2], "type", shown_trait(body), clauses, doc, source)
    shown = Item(item[2], item[2], "type", shown_type(body), [], doc, source)
    traits = derived(lines, at)
    if traits:
        shown.text = [f"#[derive({', '.join(traits)})]", *shown.text]
    return shown


def place(it):
    """Where an item stands among those of its type: the type first, then what makes values, last `impl`s."""
    if it.kind != "call":
        return 3 if it.kind == "impl" else 0
    return 1 if re.match(r"(.*::)?(from_|read|new)", it.title) or it.title == it.owner else 2


def wrapped(text, indent=""):
    """A paragraph in lines of at most 120 columns."""
    return textwrap.wrap(text, 120, subsequent_indent=indent, break_long_words=False, break_on_hyphens=False)


def listed_links(items):
    """The lines of the contents: one for each type with its calls, one for calls that follow one another."""
    rows = []
    for it in items:
        name = it.title.split("::")[-1].removesuffix(" (macro)")
        link = f"[`{name}`](#{anchor(it.title)})"
        if it.kind == "call" and rows and ("::" in it.title or rows[-1][0] == "call"):
            rows[-1][1].append(link)
        elif it.kind != "impl":
            rows.append((it.kind, [link]))
    for kind, links in rows:
        head = f"{links.pop(0)}: " if kind == "type" and links[1:] else ""
        yield from wrapped(f"- {head}{', '.join(links)}", "  ")


class Section:
    """Types and calls that have a page together."""

    def __init__(self, title, library, items):
        self.title, self.library, self.items = title, library, items
        self.name = anchor(title)


class Calls:
    """All types and calls, with what checks/data has for them."""

    def __init__(self):
        self.exported = {library: exports(library) for library in dict.fromkeys(it for _, it, _ in SECTIONS)}
        self.items = []
        for library, exported in self.exported.items():
            for crate in dict.fromkeys(exported.values()):
                self.items += [(library, it) for it in items_in(crate, exported)]
        self.sections = [Section(title, library, [it for name in self.names(library, names)
                                                  for it in self.owned(library, name)])
                         for title, library, names in SECTIONS]
        self.pages = {it.title: section.name for section in self.sections for it in section.items}
        self.wrong = [fault for _, it in self.items for fault in it.faults()] + list(self.misplaced())
        self.add_words()
        self.add_examples()

    def names(self, library, names):
        listed = []
        for name in names.split():
            begins = [it for it in self.exported[library] if it.startswith(name.rstrip("*"))]
            listed += begins if name.endswith("*") else [name]
        return listed

    def owned(self, library, name):
        return sorted((it for where, it in self.items if (where, it.owner) == (library, name)), key=place)

    def misplaced(self):
        """What stands in no section, and what sections name in vain."""
        listed = {(library, name) for _, library, names in SECTIONS for name in self.names(library, names)}
        for library, exported in self.exported.items():
            yield from (f"{name} of {library} stands in no section"
                        for name in exported if (library, name) not in listed)
        yield from (f"{name} is not exported by {library}" for library, name in listed
                    if name not in self.exported[library])
        anchors = [anchor(title) for title in [*self.pages, *(it.title for it in self.sections)]]
        yield from (f"two headings have the anchor {it}" for it in sorted(set(anchors)) if anchors.count(it) > 1)

    def add_words(self):
        """What each named clause says."""
        words, used = words_of_clauses(), set()
        for _, it in self.items:
            for name in (name for _, name in it.clauses if name):
                key = next((key for key in ((name, it.title), (name, None)) if key in words), None)
                if key is None:
                    self.wrong.append(f"checks/data/clauses: no words for the clause {name} of {it.title}")
                used.add(key)
                it.words[name] = words.get(key, "")
        for name, title in sorted(words.keys() - used, key=str):
            self.wrong.append(f"checks/data/clauses: no call {title or ''} has the clause {name}")

    def add_examples(self):
        """An example of each call whose comment has none; a law needs none."""
        found = examples()
        for _, it in self.items:
            if it.kind == "call" and "```rust" not in it.doc:
                it.example = found.pop(it.title, [])
                if not it.example and not it.title.startswith("law_"):
                    self.wrong.append(f"{it.title} has no example in its comment, and none in checks/data/examples")
        self.wrong += [f"checks/data/examples: no call {title} lacks an example" for title in found]

    def target(self, title, page):
        """Where a link to a type or call leads from the page of a section, or else from within one page with all."""
        away = page and self.pages[title] != page
        return f"{self.pages[title]}.md#{anchor(title)}" if away else f"#{anchor(title)}"

    def comment(self, it, page=None):
        """The doc comment of an item as lines of a page: its links lead to headings."""
        def link(found):
            name = found[1].removesuffix("()")
            return f"[`{name}`]({self.target(name, page)})" if name in self.pages else f"`{name}`"

        text, in_code = [], False
        for line in it.doc:
            if line.startswith("```"):
                in_code = not in_code
            elif not in_code and re.match(r"\[`[^`]*`\]: ", line):
                continue
            elif not in_code and line.startswith("# "):
                line = f"**{line[2:]}.**"
            elif not in_code:
                line = LINK.sub(link, line)
            text.append(line)
        joined = re.sub(r"\n{3,}", "\n\n", "\n".join(text)).strip()
        joined = re.sub(r"(\*\*\w+\.\*\*)\n(?=\S)", r"\1 ", joined)
        lines = [line for part in re.split(r"(?s)(```.*?```)", joined) for line in (
            part.splitlines() if part.startswith("```") else
            "\n\n".join("\n".join(wrapped(it)) for it in part.split("\n\n")).splitlines())]
        return [line for before, line in zip([None, *lines], lines) if line or before != ""]


def fenced(language, lines):
    return [f"```{language}", *lines, "```", ""] if lines else []


def contract_fold(it):
    """The contract of an item, folded: what it says, in the words of the source and in others."""
    said = [line for name, words in it.words.items() for line in wrapped(f"- `{name}`: {words}", "  ")]
    files = [f"[`{file.stem}`](../../{file}) (`{'`, `'.join(names)}`)" for file, names in it.files()]
    inside = fenced("text", it.contract()) + (said + [""] if said else [])
    inside += [*wrapped("Defined in " + ", ".join(files) + "."), ""] if files else []
    return ["<details><summary>Contract</summary>", "", *inside, "</details>", ""] if inside else []


def section_page(calls, section):
    """The page of a section."""
    lines = [f"# {section.title}", "", *wrapped(
        f"Use them from `{section.library}`. [CALLING.md](../CALLING.md) lists the types and calls of all sections, and"
        " says [how to read a contract](../CALLING.md#how-to-read-a-contract)."), "", *listed_links(section.items), ""]
    for it in section.items:
        lines += [f"{'###' if it.is_inner() else '##'} {it.heading()}", "", *fenced("text", it.declaration())]
        lines += [*calls.comment(it, section.name), ""] if it.doc else []
        lines += [*fenced("rust", it.example), *contract_fold(it)]
    return "\n".join([BEGIN.rstrip(), "", *lines, END])


def index(calls):
    """The types and calls of all sections, each with what it does."""
    lines = ["## Every type and call", "", *(f"- [{it.title}](#{it.name})" for it in calls.sections)]
    for section in calls.sections:
        lines += ["", f"### {section.title}", "", f"[Their page](calling/{section.name}.md). Use them from"
                  f" `{section.library}`.", "", "| | |", "|---|---|"]
        lines += [f"| [{it.heading()}](calling/{section.name}.md#{anchor(it.title)}) | {it.sentence()} |"
                  for it in section.items if it.kind != "impl"]
    return "\n".join(["", *lines, "", ""])


def words_of_clauses():
    """What each clause says, by its name and the title of a call, or by its name alone."""
    found = {}
    for line in re.sub(r"\n +", " ", WORDS.read_text()).splitlines():
        if line and not line.startswith("#"):
            head, _, says = line.partition(": ")
            name, *titles = head.replace(" of ", ", ", 1).split(", ")
            for title in titles or [None]:
                found[name, title] = says
    return found


def examples():
    """The examples, by the title of their call."""
    parts = re.split(r"^=== (.*)\n", EXAMPLES.read_text(), flags=re.M)[1:]
    return {title: text.strip("\n").splitlines() for title, text in zip(parts[::2], parts[1::2])}


def clauses_of(crates, name):
    """The clauses of the functions of this name."""
    found = set()
    for crate in crates:
        for path in (TOP / "crates" / crate / "src").rglob("*.rt"):
            lines = path.read_text().splitlines()
            for at, line in enumerate(lines):
                if re.match(rf"\s*(pub )?fn {name}\b", line):
                    found |= {clause or "the whole contract" for _, clause in head_at(lines, at)[1]}
    return found


def unfounded(library):
    """The clauses that the pages of claims name, and that no function beside them has."""
    crates, functions_at = library, None
    pages = (TRUST, TRUST.with_name("TRUST_PROGRAMS.md"))
    for page, row in ((it.name, row) for it in pages for row in it.read_text().splitlines()):
        cells = [it.strip() for it in row.split("|")[1:-1]]
        if len(cells) < 3:
            crates, functions_at = library, None
        elif cells[-1] == "Clauses":
            functions_at = len(cells) - 2 if cells[-2] == "Call" else 1
        elif functions_at and not cells[0].startswith("---"):
            if re.fullmatch(r"`\w+`", cells[0]):
                crates = [cells[0].strip("`")]
            functions = re.findall(r"`(?:\w+::)*(\w+)`", cells[functions_at])
            there = set().union(*(clauses_of(crates, it) for it in functions))
            for name in re.findall(r"the whole contract|\w+", cells[-1]):
                if name not in there:
                    yield f"docs/{page}: {', '.join(functions)} in {crates[-1]} has no clause {name}"


def made(calls):
    """The files that are made, with their texts."""
    front, _, rest = INDEX.read_text().partition(BEGIN)
    _, _, back = rest.partition(END)
    texts = {INDEX: front + BEGIN + index(calls) + END + back}
    texts |= {PAGES / f"{it.name}.md": section_page(calls, it) for it in calls.sections}
    texts[HTML] = html_page(calls, front + back)
    return texts


def compared(texts):
    """Which files are not as they are made."""
    for path, text in texts.items():
        if not path.exists() or path.read_text() != text:
            yield f"{path.relative_to(TOP)} is not what checks/run calling writes"
    yield from (f"{it.relative_to(TOP)} is the page of no section" for it in PAGES.glob("*") if it not in texts)


def write(texts):
    PAGES.mkdir(exist_ok=True)
    for path in PAGES.glob("*.md"):
        if path not in texts:
            path.unlink()
    for path, text in texts.items():
        path.write_text(text)


def refilled(part):
    """A paragraph or a list of a page, wrapped again if a line is too long; others stay as they are."""
    if re.match(r"#|\||```| {4}|\d+\. ", part) or max(map(len, part.splitlines())) <= 120:
        return part
    return "\n".join("\n".join(wrapped(it, "  " if it.startswith("- ") else "")) for it in re.split(r"\n(?=- )", part))


def lead_links(calls):
    """Leads the links of pages to the types, calls and sections where these stand now."""
    where = {anchor(title): page for title, page in calls.pages.items()} | {it.name: it.name for it in calls.sections}

    def led(found):
        folder, heading = found.groups()
        if heading not in where:
            return found[0]
        return f"]({folder}calling/{where[heading]}.md{'' if where[heading] == heading else '#' + heading})"

    listed = subprocess.run(["git", "ls-files", "*.md"], cwd=TOP, capture_output=True, text=True, check=True)
    for page in (TOP / name for name in listed.stdout.splitlines()):
        if page.parent != PAGES:
            parts = page.read_text().split("\n\n")
            for at, part in enumerate(parts):
                new = re.sub(r"\]\(((?:[\w.-]+/)*?)(?:CALLING|calling/[\w-]+)\.md#([\w-]+)\)", led, part)
                if new != part:
                    parts[at] = refilled(new)
            page.write_text("\n\n".join(parts))


def main(words):
    calls = Calls()
    library = [*calls.exported["simple_asn1"].values(), *calls.exported["asn1_laws"].values()]
    wrong = calls.wrong + list(unfounded(list(dict.fromkeys(library))))
    if "--links" in words:
        lead_links(calls)
    elif "--write" in words:
        write(made(calls))
    else:
        wrong += compared(made(calls))
    for fault in wrong:
        print(f"calling: {fault}")
    items = [it for _, it in calls.items]
    print(f"calling: {len(items)} types and calls, {sum(len(it.clauses) for it in items)} clauses, {len(wrong)} wrong")
    return 1 if wrong else 0


if __name__ == "__main__":
    sys.exit(main(sys.argv[1:]))
