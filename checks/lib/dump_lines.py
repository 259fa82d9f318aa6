"""What der_dump writes with --json.

    checks/run json [-- FOLDER]    with the certificates of this folder, /etc/ssl/certs unless given

Each line keeps to docs/dump.schema.json and has what a dump shows, crates/der_dump/rebuild.py makes documents of lines,
--extract takes the offset of each row, and the examples of docs/DUMP.md for jq show what openssl shows, of each
certificate.
"""
import copy
import json
import os
import pathlib
import re
import shutil
import subprocess
import sys
import tempfile
import textwrap

import builds
from certificates import certificates
from extracted import check_extracted
from rows import rows_of
from x690 import encoding, nested

TOP = pathlib.Path(__file__).resolve().parent.parent.parent
sys.path.insert(0, str(TOP / "crates/der_dump"))
import rebuild  # noqa: E402

try:
    import jsonschema
except ImportError:
    jsonschema = None

LEVELS = 100000
LONG_INTEGER = bytes.fromhex("02 82 13 88") + 5000 * b"\x5a"
wrong = 0


def tell(*words):
    print("json:", *words)


def fail(*words):
    global wrong
    wrong += 1
    tell(*words)


def rows_inputs():
    """The standard inputs of the rows of der_dump."""
    for path in sorted((TOP / "crates/der_dump/rows").glob("*.rows")):
        yield from (row.octets["input"] for row in rows_of(path))


def calls_inputs():
    """The octets that lines of test_calls read."""
    for line in (TOP / "crates/test_calls/stdin").read_text().splitlines():
        if found := re.fullmatch(r"(?:read|rewrite|strict|count|parts) ((?:[0-9A-F]{2} ?)+)", line):
            yield bytes.fromhex(found[1])


class Dump:
    """The program, which runs in a folder of its inputs."""

    def __init__(self, program, folder):
        self.program, self.folder = program, folder
        folder.mkdir()

    def run(self, words, given=None):
        return subprocess.run([self.program, *words], cwd=self.folder, input=given, capture_output=True).stdout

    def text(self, words, given=None):
        return self.run(["--json", *words], given)

    def lines(self, words, given=None):
        return [json.loads(line) for line in self.text(words, given).split(b"\n")[:-1]]

    def write(self, documents):
        """The names of files of these octets, in hex digits."""
        names = [f"{number:05}.hex" for number in range(len(documents))]
        for name, octets in zip(names, documents):
            (self.folder / name).write_text(octets.hex() + "\n")
        return names

    def shown(self, documents):
        """The lines of a dump of each of these octets."""
        text = self.run(["--full", *self.write(documents)]).decode()
        # of a single file the name is not told
        parts = re.split(r"^= \d{5}\.hex\n", text, flags=re.M)[1:] if len(documents) > 1 else [text]
        return [part.split("\n")[:-1] for part in parts]

    def lines_of(self, documents, *words):
        """The lines of each of these octets, without its file."""
        lines = {name: [] for name in self.write(documents)}
        for line in self.lines([*words, *lines]):
            lines[line.pop("file")].append(line)
        return list(lines.values())


# what the schema must refuse of the line of a SEQUENCE of these blocks: where, and what stands there then, or nothing
BLOCKS = ("01 01 FF", "02 01 05", "03 02 04 B0", "04 02 0A BC", "05 00", "06 02 88 37", "0C 01 41", "80 01 41",
          "17 0D 32 36 31 31 32 33 30 30 34 33 30 35 5A", "18 0F 32 30 32 36 31 31 32 33 30 30 34 33 30 35 5A",
          "A0 02 05 00", "0A 01 05", "12 01 31", "02 02 00 05", "24 05 04 01 41 04 00", "30 80 00 00", "04 02 30 00",
          "06 03 55 04 03", "22 00", "1F 1F 04 31 39 38 35", "1F 25 01 31")
MISSING = object()
MEMBERS = ("offset", "header", "size", "depth", "class", "constructed", "tag", "type", "value")
PADDED = {"rule": "PaddedInteger", "section": "8.3.2", "text": "number not in the fewest bytes"}
INDEFINITE = {"rule": "IndefiniteLength", "section": "10.1", "text": "indefinite length"}
REFUSED = [
    *(((3, name), MISSING) for name in MEMBERS),
    ((3, "other"), 1), ((3, "octets"), "04b0"), ((14, "octets"), "31"), ((25, "octets"), "31"),
    *(((3, name), it) for name in ("offset", "header", "size", "depth") for it in ("3", -1, 1.5, None, True)),
    ((3, "class"), "Universal"), ((3, "class"), None), ((3, "class"), "private"),
    ((3, "constructed"), 0), ((3, "constructed"), None), ((3, "header"), 0), ((3, "header"), 1), ((3, "size"), 1),
    ((3, "tag"), -1), ((3, "tag"), "3"), ((3, "tag"), 4), ((3, "tag"), None), ((8, "tag"), "0"), ((8, "tag"), 2**53),
    ((3, "type"), "BITSTRING"), ((3, "type"), "NULL"), ((3, "type"), None), ((8, "type"), "INTEGER"),
    ((0, "value"), ""), ((0, "offset"), 1), ((0, "depth"), 1),
    ((1, "value"), 1), ((2, "value"), "5"), ((2, "value"), 2**53), ((2, "value"), 1.5), ((2, "value"), True),
    ((3, "value"), "b0"), ((3, "value", "bits"), MISSING), ((3, "value", "octets"), "b"), ((3, "value", "unused"), 4),
    ((4, "value"), "0ABC"), ((4, "value"), "0ab"), ((4, "value"), None), ((5, "value"), ""),
    ((6, "value"), "3.1"), ((6, "value"), "2.01"), ((6, "value"), "2"), ((7, "value"), 1), ((8, "value"), None),
    ((9, "value"), "2050-11-23T00:43:05Z"), ((9, "value"), "2026-11-23 00:43:05"),
    ((10, "value"), "2026-11-23T00:43:05.Z"), ((11, "constructed"), False), ((11, "value"), "0500"),
    ((13, "value"), "5"), ((13, "value"), 1.5), ((14, "value"), 1), ((14, "value"), None), ((15, "not_der"), None),
    ((15, "not_der"), ["padded"]), ((15, "not_der"), [INDEFINITE]),
    ((15, "not_der"), []), ((15, "not_der"), "padded"), ((15, "not_der", 0, "section"), MISSING),
    ((16, "value"), "4"), ((16, "value"), 41), ((16, "type"), None), ((16, "shown"), "A"), ((16, "name"), "A"),
    ((19, "not_der"), MISSING), ((19, "not_der"), [PADDED]), ((19, "size"), 4), ((19, "constructed"), False),
    ((19, "value"), ""), ((19, "fault"), {"offset": 0, "text": ""}),
    ((20, "header"), 0), ((20, "header"), 3), ((20, "size"), 3), ((20, "size"), None), ((20, "value"), 0),
    ((20, "not_der"), "padded"), ((20, "type"), "NULL"),
    ((21, "blocks"), []), ((21, "blocks"), {}), ((21, "blocks", 0, "value"), ""), ((21, "blocks", 0, "type"), MISSING),
    ((21, "constructed"), True), ((21, "fault"), {"offset": 0, "text": ""}), ((22, "blocks"), [{}]),
    ((22, "name"), ""), ((22, "name"), 1), ((2, "name"), "five"), ((7, "shown"), "A"), ((2, "shown"), ""),
    ((2, "field"), "version"), ((2, "path"), "version"), ((2, "of"), ""), ((2, "of"), 1), ((12, "name"), "five"),
    ((23, "value"), 0), ((23, "value"), ""), ((24, "value"), 1985), ((24, "type"), None), ((24, "type"), "TIME"),
    ((25, "value"), "1"),
]
# so of a line with each fault, the block of which is: malformed, primitive and of indefinite length, of no header, cut
# short, and without its end
FAULTS = "30 80  01 02 00 FF  04 80  30 01 05  30 05 04 03 41"
REFUSED_FAULTS = [
    *(((row, "fault"), it) for row in (1, 2, 4, 5, 6, 7) for it in ("", {}, {"code": "Incomplete"})),
    *(((row, "fault"), MISSING) for row in (1, 2, 4, 5, 7)),
    *(((row, "fault", "offset"), it) for row in (1, 2, 4, 5, 6, 7) for it in (MISSING, -1)),
    *(((row, "fault", "text"), it) for row in (1, 2, 4, 5, 6, 7) for it in (MISSING, 1)),
    *(((row, "fault", "code"), it) for row in (1, 2, 4, 5, 6, 7) for it in ("EmptyBuffer", "NotCanonical", "Other")),
    *(((row, "fault", "code"), "InvalidDateValue") for row in (1, 2, 4, 5, 6, 7)),
    *(((row, "fault", "code"), MISSING) for row in (1, 4, 5, 6, 7)),
    *(((row, "blocks"), [{}]) for row in (1, 2, 4, 5, 6, 7)),
    ((1, "value"), True), ((1, "value"), "00ff"), ((1, "shown"), "00ff"), ((1, "constructed"), True),
    ((1, "octets"), MISSING), ((1, "octets"), "00f"), ((5, "octets"), "030441"),
    ((2, "value"), ""), ((2, "constructed"), True), ((2, "not_der"), MISSING), ((2, "not_der"), [PADDED]),
    ((4, "value"), ""), ((4, "value"), None), ((4, "header"), 1), ((4, "size"), 0), ((4, "size"), None),
    ((4, "class"), "universal"), ((4, "constructed"), False), ((4, "tag"), 5), ((4, "type"), "NULL"),
    ((4, "not_der"), [PADDED]),
    ((5, "value"), "040341"), ((5, "shown"), MISSING), ((5, "shown"), "truncated"), ((5, "size"), None),
    ((6, "value"), None), ((6, "value"), "4"), ((6, "shown"), MISSING),
    ((7, "size"), 2), ((7, "header"), 1), ((7, "tag"), 1), ((7, "type"), None), ((7, "value"), ""),
    ((7, "constructed"), True), ((7, "class"), "private"), ((7, "not_der"), [PADDED]),
]
REFUSED_LINES = [
    {}, [], None, {"blocks": []}, {"blocks": {}}, {"file": "a"}, {"fault": {}}, {"fault": ""}, {"fault": {"offset": 1}},
    {"fault": {"text": 1}}, {"fault": {"text": "", "offset": "1"}}, {"fault": {"text": "", "other": 1}},
    {"not_der": []}, {"not_der": "padded"}, {"not_der": [{"offset": 1}]}, {"not_der": [PADDED]},
    {"not_der": [PADDED | {"offset": -1}]}, {"fault": {"text": ""}, "not_der": [PADDED | {"offset": 1}]},
    {"fault": {"text": ""}, "file": None}, {"fault": {"text": ""}, "label": 1}, {"fault": {"text": ""}, "other": 1},
]


def changed_lines(line, changes):
    for path, value in changes:
        changed = copy.deepcopy(line)
        place = changed["blocks"]
        for name in path[:-1]:
            place = place[name]
        if value is MISSING:
            del place[path[-1]]
        else:
            place[path[-1]] = value
        yield changed


def check_schema(dump, lines):
    """Each line keeps to the schema, which refuses what is none."""
    if jsonschema is None:
        tell("NOT CHECKED against the schema, python3 has no jsonschema (Debian's package python3-jsonschema)")
        return
    schema = json.loads((TOP / "docs/dump.schema.json").read_text())
    jsonschema.Draft202012Validator.check_schema(schema)
    validator = jsonschema.Draft202012Validator(schema)
    good = 0
    for line in lines:
        if error := jsonschema.exceptions.best_match(validator.iter_errors(line)):
            fail("not by the schema:", error.json_path, error.message[:200])
        else:
            good += 1
    rows = sum(1 for line in lines for _ in all_rows(line.get("blocks", [])))
    tell(f"{good} of {len(lines)} lines, {rows} blocks, keep to the schema")
    octets = bytes.fromhex("".join(BLOCKS))
    changed = REFUSED_LINES
    for octets, changes in ((encoding(0x30, octets), REFUSED),
                            (bytes.fromhex(FAULTS), REFUSED_FAULTS)):
        line, *_ = dump.lines([], octets.hex().encode())
        if not validator.is_valid(line) or len(line["blocks"]) != 1 + max(path[0] for path, _ in changes):
            fail("the line that is to be changed is not by the schema")
            return
        changed = [*changed, line | {"fault": {"text": ""}}, *changed_lines(line, changes)]
    for each in filter(validator.is_valid, changed):
        fail("the schema lets through", json.dumps(each)[:2000])
    tell(f"{len(changed)} wrong lines, {sum(not validator.is_valid(it) for it in changed)} refused by the schema")


def all_rows(rows, inside=False):
    """These and those inside strings, in the order of lines; and whether they stand inside one."""
    for row in rows:
        yield row, inside
        yield from all_rows(row.get("blocks", []), True)


MOST_LEVELS = 40
BLOCK_LINE = re.compile(r"([ >]) *(\d+) +(\d+) +(\d+|inf)  ( *)(.*)")
BEHIND = re.compile(r"! (\d+) bytes? behind the document, all 00")
CLASSES = {"universal": "UNIVERSAL ", "application": "APPLICATION ", "context-specific": "", "private": "PRIVATE "}


def words_of(row):
    """How the words of a line begin, by its row."""
    if row["class"] is None:
        return "unreadable"
    told = row["tag"] is not None and int(row["tag"]) < 2**128
    number = row["tag"] if told else "beyond 2^128"
    return row["type"] or f"[{CLASSES[row['class']]}{number}]"


def cut_short(row):
    """What is said of a block that is cut short: how many contents octets there are, and are announced."""
    return re.fullmatch(r"truncated: (\d+) of (\d+) bytes", row.get("shown", "")) if "fault" in row else None


def contents_size(row):
    """How many contents octets a line shows, by its row."""
    if row["size"] is None:
        return "inf"
    there, cut = str(row["size"] - row["header"]), cut_short(row)
    if cut:
        return cut[2] if cut[1] == there else None
    return there


def words_in(row):
    """What stands in the words of a line, by its row: a name, and a fault."""
    yield row.get("name", "")
    if "fault" in row:
        yield row["shown"] if cut_short(row) else row["fault"]["text"]


def field_of(row):
    """What stands before the type: the field, or the name of the type unless the line says as much."""
    name = row.get("field", row.get("of", ""))
    return "" if not name or "field" not in row and name.startswith(words_of(row)) else name + " "


def is_of_line(row, inside, line):
    """Whether the line is that of the row."""
    if not (found := BLOCK_LINE.fullmatch(line)):
        return False
    mark, offset, header, contents, spaces, words = found.groups()
    numbers = (str(row["offset"]), str(row["header"]), contents_size(row), 2 * min(row["depth"], MOST_LEVELS))
    told = ", ".join(it["text"] for it in row.get("not_der", []))
    start, end = field_of(row) + words_of(row), f" (not DER: {told})" if told else ""
    return (
        (mark == ">") == inside and (offset, header, contents, len(spaces)) == numbers
        and words.startswith(start) and words[len(start):len(start) + 1] in ("", " ", ":", ",")
        and words.endswith(end) and (end != "" or "(not DER: " not in words)
        and all(it in words for it in words_in(row))
    )


def check_shown(dump, documents, lines):
    """A row for each line of a dump, in the same order, with what it shows."""
    rows = nested = 0
    for octets, read, shown in zip(documents, lines, dump.shown(documents), strict=True):
        # zeros behind a document are blocks in JSON alone
        behind = sum(int(it[1]) for it in map(BEHIND.fullmatch, shown) if it)
        if not octets.endswith(bytes(behind)):
            fail(f"{octets.hex()[:80]} does not end with {behind} zeros")
        shown = [it for it in shown if it[:1] != "!"]
        each = [it for it in all_rows(read[0].get("blocks", []))
                if not behind or it[0]["offset"] < len(octets) - behind]
        rows, nested = rows + len(each), nested + sum(inside for _, inside in each)
        if len(each) != len(shown):
            fail(f"{octets.hex()[:80]} has {len(each)} blocks in JSON, {len(shown)} lines")
        for (row, inside), line in zip(each, shown):
            if not is_of_line(row, inside, line):
                fail(f"{octets.hex()[:80]}: {json.dumps(row)[:300]} is not of the line {line[:200]}")
                break
    tell(f"{rows} blocks have their lines, {nested} of them inside strings; of {len(documents)} documents")


def check_told(documents, lines, strict):
    """Behind the blocks stands the first of their faults; before it, strictly, what is not DER in them."""
    good = 0
    for octets, read, strictly in zip(documents, lines, strict, strict=True):
        rows = read[0].get("blocks", [])
        marks = [{"offset": row["offset"], **it} for row, _ in all_rows(rows) for it in row.get("not_der", [])]
        faults = [{"fault": row["fault"]} for row in rows if "fault" in row][:1]
        listed = [{"not_der": marks}] if marks else []
        if rows and (read[1:] != faults or strictly != [read[0], *listed, *faults]):
            fail(f"{octets.hex()[:80]}: behind the blocks stands {read[1:]}, strictly {strictly[1:]}")
        else:
            good += 1
    tell(f"{good} of {len(documents)} documents have the first fault of their blocks, and strictly their marks")


def is_canonical_real(contents):
    """X.690 8.5 and 11.3: none, a special value, base 2 with an odd mantissa and the shortest exponent, or NR3."""
    if not contents or contents in (b"\x40", b"\x41", b"\x42", b"\x43"):
        return True
    if contents[0] & 0xBC == 0x80:
        size = contents[0] % 4 + 1
        exponent, mantissa = contents[1:1 + size], contents[1 + size:]
        shortest = len(exponent) == 1 or exponent[0] != (255 if exponent[1] > 127 else 0)
        return shortest and mantissa[:1] > b"\x00" and mantissa[-1] % 2 == 1
    return re.fullmatch(rb"\x03(0|-?[1-9]\d*)\.E(\+0|-?[1-9]\d*)", contents) is not None


def has_canonical_reals(octets, rows):
    """What is not DER in a REAL is not told."""
    ends = ((row["offset"] + row["header"], row["offset"] + row["size"]) for row in rows
            if row["type"] == "REAL" and not row["constructed"])
    return all(is_canonical_real(octets[start:end]) for start, end in ends)


# rules of DER that rows tell all of where they are broken
TOLD_MARKS = {
    "IndefiniteLength", "NotPrimitive", "NotConstructed", "ConstructedString", "Order", "UnusedBits", "UnusedCount",
    "Characters", "NamedBits",
}


def tells_all(octets, rows):
    """Whether rows tell all octets of their document: it is canonical, or BER in what they tell."""
    marks = {it["rule"] for row in rows for it in row.get("not_der", [])}
    return (
        marks <= TOLD_MARKS and not any("fault" in row for row in rows) and has_canonical_reals(octets, rows)
        and all(row["tag"] is not None for row in rows)
    )


def check_rebuilt(dump, documents, lines):
    """Documents are made again of rows that tell all of their octets. Of others it is told which block's octets are
    lost, or no line tells them from what is made."""
    counts = dict.fromkeys(("canonical", "same", "told", "alike"), 0)
    indefinite, alike = 0, []
    for octets, read in zip(documents, lines):
        if "blocks" not in read[0]:
            continue
        rows = read[0]["blocks"]
        try:
            made = rebuild.rebuild(rows)
            told = ""
        except rebuild.Different as why:
            made, told = None, str(why)
        if made == octets:
            counts["canonical" if tells_all(octets, rows) else "same"] += 1
            indefinite += any(row["size"] is None for row in rows)
        elif tells_all(octets, rows):
            fail(f"{octets.hex()[:80]} is not made again: {told or made.hex()[:80]}")
        elif told:
            counts["told"] += 1
        else:
            alike.append((octets, made, rows))
    again_lines = dump.lines_of([made for _, made, _ in alike]) if alike else []
    for (octets, made, rows), again in zip(alike, again_lines):
        if again[0].get("blocks") == rows:
            counts["alike"] += 1
        else:
            fail(f"{octets.hex()[:80]} is made {made.hex()[:80]}, whose line is another")
    tell(f"{counts['canonical']} documents made again of all that they are, {indefinite} with indefinite lengths; of "
         f"others {counts['same']} made again, {counts['told']} told, {counts['alike']} made to one with the same line")


# documents of BER that are made again: contents of signed data as `openssl cms -stream` has them; segments in segments,
# bits with unused ones, a character in two segments, and none; ends inside definite lengths; tags in several octets; a
# SET; and octets that hold BER
BER = [
    "30 80 06 09 2A 86 48 86 F7 0D 01 07 01 A0 80 24 80 04 03 61 62 63 04 02 64 0A 00 00 00 00 00 00",
    "24 80 04 02 41 42 24 80 04 01 43 00 00 24 03 04 01 44 00 00",
    "30 80 23 80 03 03 00 0A 3B 03 03 04 5F D0 00 00 2C 06 04 01 C3 04 01 A9 24 00 2C 80 00 00 00 00",
    "30 0D 30 80 02 01 05 00 00 30 04 31 80 00 00 05 00",
    "7F 81 01 80 BF 1F 80 DF 82 80 00 01 41 00 00 E0 80 00 00 00 00 00 00 05 00",
    "31 80 02 01 07 02 01 05 00 00 3E 08 04 01 00 04 03 E4 00 41 3C 80 04 04 00 01 F6 00 00 00",
    "30 0C 04 0A 30 80 24 80 04 00 00 00 00 00 03 07 00 30 80 05 00 00 00 37 80 04 02 32 36 04 0B 31 31 32 33 30 30 34 "
    "33 30 35 5A 00 00",
    "38 80 04 0E 32 30 32 36 31 31 32 33 30 30 34 33 30 35 04 01 5A 00 00 29 80 04 01 40 00 00",
    "24 80 03 01 00 00 00 2C 80 04 01 FF 00 00 22 80 02 01 05 00 00 30 80 00 00 00 00 00 00",
]


STREAMED = """
openssl req -x509 -newkey ec -pkeyopt ec_paramgen_curve:P-256 -nodes -keyout signer.key -out signer.pem -days 9 \\
    -subj /CN=Signer
openssl cms -sign -stream -binary -nodetach -outform DER -in content -out signed.ber -signer signer.pem \\
    -inkey signer.key
openssl cms -encrypt -stream -binary -outform DER -in content -out encrypted.ber -aes128 -secretkeyid 01 \\
    -secretkey 000102030405060708090A0B0C0D0E0F
"""


def streamed(folder):
    """Messages as openssl streams them, their content in several segments."""
    if not shutil.which("openssl"):
        tell("NOT CHECKED with messages of CMS, there is no openssl")
        return []
    folder.mkdir()
    (folder / "content").write_bytes(bytes(range(256)) * 40)
    subprocess.run(["sh", "-ec", STREAMED], cwd=folder, capture_output=True, check=True)
    return [(folder / name).read_bytes() for name in ("signed.ber", "encrypted.ber")]


def check_ber(dump, documents):
    """crates/der_dump/rebuild.py makes documents again that have indefinite lengths and constructed strings."""
    for octets in documents:
        line, *others = dump.lines([], octets.hex().encode())
        if others or not any(row["size"] is None for row in line["blocks"]):
            fail(f"{octets.hex()[:80]} has no indefinite length, or faults: {others}")
        if rebuilt(dump.text([], octets.hex().encode())) != (0, octets, ""):
            fail(f"rebuild.py does not write {octets.hex()[:80]} again")
    tell(f"rebuild.py was run on {len(documents)} documents with indefinite lengths")


def check_offsets(dump, documents, lines):
    """--extract takes the offset of each row."""
    faults, blocks, others = check_extracted(dump, documents, lines)
    for fault in faults if blocks else ["--extract wrote no block"]:
        fail(fault)
    tell(f"--extract wrote the blocks of {blocks} rows, and told {others} others, of documents of few rows")


def rebuilt(lines):
    ran = subprocess.run([sys.executable, TOP / "crates/der_dump/rebuild.py"], input=lines, capture_output=True)
    return ran.returncode, ran.stdout, ran.stderr.decode()


def check_program(dump, roots):
    """crates/der_dump/rebuild.py as a program: what it writes and says, and how it ends."""
    for number, octets in enumerate(roots):
        (dump.folder / f"{number:05}.der").write_bytes(octets)
    names = [f"{number:05}.der" for number in range(len(roots))]
    if rebuilt(dump.text(names)) != (0, b"".join(roots), ""):
        fail("rebuild.py does not write the certificates of the folder again")
    for octets in (nested(0x30, LEVELS), nested(0xA0, LEVELS), LONG_INTEGER):
        if rebuilt(dump.text([], octets.hex().encode())) != (0, octets, ""):
            fail(f"rebuild.py does not write {octets[:10].hex()}.. of {len(octets)} octets again")
    for given, says in TOLD:
        status, made, said = rebuilt(given if given[:1] == b"-" else dump.text([], given))
        if status != 1 or made or says not in said or said.count("\n") != 1:
            fail(f"{given.decode()}: rebuild.py ends with {status}, says {said!r}")
    tell(f"rebuild.py was run on {len(roots)} certificates, {LEVELS} levels, and {len(TOLD)} lines that it has to tell")


# what rebuild.py does not make documents of, and what it says then
TOLD = [
    (b"05 00 30 03 02 01 05 02 02 00 05", "line 1: offset 7: INTEGER has 2 bytes of contents, its value makes 1"),
    (b"30 04 05 00 02 00", "line 1: offset 4: INTEGER"),
    (b"05 00 01 01 2A", "line 1: offset 2: not DER: BOOLEAN neither 00 nor FF"),
    (b"30 81 02 05 00", "line 1: offset 0: the header has 3 bytes, the shortest has 2"),
    (b"30 80 00 81 00 00 00", "line 1: offset 2: the header has 3 bytes, the shortest has 2"),
    (b"05 00 9F 1E 00", "line 1: offset 2: the header has 3 bytes, the shortest has 2"),
    (b"30 03 05 01 00", "line 1: offset 2: NULL has 1 bytes"),
    (b"A0 04 06 02 80 01", "line 1: offset 2: OBJECT IDENTIFIER"),
    (b"18 10 32 30 32 36 31 31 32 33 30 30 34 33 30 35 2E 5A", "line 1: offset 0: GeneralizedTime"),
    (b"0A 02 00 05", "line 1: offset 0: ENUMERATED has 2 bytes of contents, its value makes 1"),
    (b"05 00 04 80", "line 1: offset 2: indefinite length of a primitive element"),
    (b"30 80 05 00", "line 1: offset 4: end-of-contents is missing"),
    (b"A0 04 05 00 30 80", "line 1: offset 6: end-of-contents is missing"),
    (b"30 03 05", "line 1: offset 0: unexpected end of data"),
    (b"30 01 05", "line 1: offset 2: unexpected end of data"),
    (b"05 00 01 02 00 FF", "line 1: offset 2: BOOLEAN must have 1 content byte, has 2"),
    (b"", "line 1: no document: there are no bytes"),
    (b"-", "line 1: not a line of der_dump --json"),
]

# certificates whose issuers are others, and what Debian's do not have: dates from 2050 on, several names or none, no
# version, and names of other kinds
MADE = r"""
names=critical,DNS:a.example.org,DNS:*.example.org,email:a@example.org,URI:https://example.org/?a=b,IP:127.0.0.1
names="$names,RID:1.2.3,otherName:1.2.3.4;UTF8:x"
openssl req -x509 -newkey ed25519 -nodes -keyout root.key -out made_root.pem -days 20000 -utf8 \
    -subj '/O=Made/CN=Würzel & 李/CN=Second, 2.5.4.3'
openssl req -x509 -newkey ed25519 -nodes -keyout leaf.key -out made_leaf.pem -CA made_root.pem -CAkey root.key \
    -days 9 -subj '/CN=a.example.org/O=Leaf' -addext "subjectAltName=$names"
openssl req -new -newkey ed25519 -nodes -keyout old.key -out old.csr -subj '/O=Old'
openssl x509 -req -in old.csr -out made_old.pem -days 30000 -CA made_root.pem -CAkey root.key -set_serial 1
"""


def openssl(*words, given=None):
    return subprocess.run(["openssl", *words], input=given, capture_output=True).stdout.decode()


def certificate_facts(path):
    """What openssl shows of a certificate: its end, its names and times, and other names."""
    text = openssl("x509", "-in", path, "-noout", "-subject", "-issuer", "-nameopt", "utf8,sep_multiline,lname",
                   "-startdate", "-enddate", "-dateopt", "iso_8601", "-ext", "subjectAltName")
    facts = {"file": path.name}
    for name in ("issuer", "subject"):
        lines = re.search(rf"^{name}=\n((?:    .*\n)*)", text, re.M)[1].splitlines()
        facts[name] = [it.partition("=")[2] for it in lines if it.startswith("    commonName=")]
    both = re.findall(r"^not(?:Before|After)=(.*)$", text, re.M)
    facts["validity"] = [it.replace(" ", "T") for it in both]
    others = re.search(r"Alternative Name:.*\n +(.*)", text)
    others = re.findall(r"(?:^|, )(?:DNS|email|URI):([^,]*)", others[1]) if others else []
    return facts["validity"][1], facts, others


class Identifiers:
    """The names that openssl has for object identifiers."""

    def __init__(self):
        self.names = {}

    def name(self, dotted):
        if dotted not in self.names:
            made = openssl("asn1parse", "-genstr", "OID:" + dotted)
            self.names[dotted] = re.search(r"OBJECT *:(.*)", made)[1]
        return self.names[dotted]

    def shown(self, text):
        pairs = (line.split(" ") for line in text.splitlines())
        return [(offset, self.name(dotted)) for offset, dotted in pairs]

    @staticmethod
    def wanted(path):
        return re.findall(r"^ *(\d+):d=.* OBJECT *:(.*)$", openssl("asn1parse", "-in", path), re.M)


def check_examples(program, work, roots):
    """The examples of docs/DUMP.md for jq, each as it stands there, but of the certificates of the folder."""
    missing = [it for it in ("jq", "openssl") if not shutil.which(it)]
    if missing:
        tell(f"NOT CHECKED by the examples of docs/DUMP.md, there is no {', '.join(missing)}")
        return
    paragraphs = re.findall(r"^(?:    .*\n)+", (TOP / "docs/DUMP.md").read_text(), re.M)
    paragraphs = [textwrap.dedent(it) for it in paragraphs]
    # an example that begins with `printf` has its output behind it; the others read certificates
    printed = [pair for pair in zip(paragraphs, paragraphs[1:]) if "jq -" in pair[0] and pair[0].startswith("printf ")]
    examples = [it for it in paragraphs if "jq -" in it and not it.startswith("printf ")]
    if len(examples) != 4:
        fail(f"docs/DUMP.md has {len(examples)} examples for jq in place of 4")
        return
    folder, each, tools = work / "certificates", work / "each", work / "tools"
    for it in (folder, each, tools):
        it.mkdir()
    (tools / "der_dump").symlink_to(pathlib.Path(program).resolve())
    for number, octets in enumerate(roots):
        (folder / f"{number:05}.pem").write_text(openssl("x509", "-inform", "DER", given=octets))
    subprocess.run(["sh", "-ec", MADE], cwd=folder, capture_output=True, check=True)

    def run(example, place):
        path = os.pathsep.join([str(tools), os.environ["PATH"]])
        ran = subprocess.run(["sh", "-c", example], cwd=place, capture_output=True, env={**os.environ, "PATH": path})
        return ran.stdout.decode()

    for example, output in printed:
        if run(example, folder) != output:
            fail(f"docs/DUMP.md: {example.strip()} gives {run(example, folder)}")
    names = r"(?<=^der_dump --json )[^|]*(?= \|)"
    files = ("*.pem", "*.pem", "certificate.pem", "certificate.pem")
    examples = [re.sub(names, each_files, example) for example, each_files in zip(examples, files)]
    paths = sorted(folder.glob("*.pem"))
    ends = dict(line.split(" ") for line in run(examples[0], folder).splitlines())
    lines = {line["file"]: line for line in map(json.loads, run(examples[1], folder).splitlines())}
    identifiers, right, named = Identifiers(), [0, 0, 0, 0], 0
    for path in paths:
        end, facts, others = certificate_facts(path)
        named += bool(others)
        shutil.copy(path, each / "certificate.pem")
        shown = (ends.get(path.name), lines.get(path.name), identifiers.shown(run(examples[2], each)),
                 run(examples[3], each).splitlines())
        wanted = (end, facts, identifiers.wanted(path), others)
        for place, (given, it) in enumerate(zip(shown, wanted)):
            right[place] += given == it
            if given != it:
                fail(f"example {place + 1} of docs/DUMP.md: {given} in place of {it}, of {path.name}")
    tell(f"examples show what openssl shows of {' and '.join(map(str, right))} of {len(paths)} certificates; "
         f"{named} have alternative names")


def check(program, work, folder):
    """Whether there was something to check."""
    dump, roots = Dump(program, work / "inputs"), certificates(folder)
    indefinite = [*map(bytes.fromhex, BER), *streamed(work / "streamed")]
    documents = list(dict.fromkeys([*rows_inputs(), *calls_inputs(), *roots, nested(0x30, 50), nested(0xA0, 50),
                                    *indefinite]))
    lines = dump.lines_of(documents)
    strict = dump.lines_of(documents, "--strict")
    files = sorted(str(it) for it in (TOP / "checks/data/dumps").iterdir() if it.suffix != ".dump")
    others = [line for line in sum(strict, []) if "blocks" not in line]
    check_schema(dump, [*sum(lines, []), *others, *dump.lines(files), *dump.lines(["--strict", *files])])
    check_shown(dump, documents, lines)
    check_told(documents, lines, strict)
    check_rebuilt(dump, documents, lines)
    check_ber(dump, indefinite)
    check_offsets(dump, documents, lines)
    check_program(dump, roots)
    check_examples(program, work, roots)
    tell(f"{len(documents)} inputs, {wrong} wrong")
    return bool(roots)


def main(words):
    with tempfile.TemporaryDirectory() as work:
        is_checked = check(builds.program("der_dump"), pathlib.Path(work), words[0] if words else "")
    return 1 if wrong or not is_checked else 0


if __name__ == "__main__":
    sys.exit(main(sys.argv[1:]))
