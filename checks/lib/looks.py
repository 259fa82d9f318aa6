"""The looks of der_dump show the same values: lines, JSON, a page of HTML, and accounts (--text).

    checks/run looks [-- FOLDER]    also of the certificates of this folder, /etc/ssl/certs unless given

The documents are those of checks/data/dumps and certificates. Of one certificate each of some values is changed in
turn: times in each form of BER, serial numbers, strings, and what extensions hold. JSON has the values as data. From
these are made, here, the line of each block, the lines of a page, and the lines of an account.
"""
import dataclasses
import datetime
import json
import pathlib
import re
import subprocess
import sys

from builds import program as built
from certificates import certificates
from dump_lines import all_rows, is_of_line
from page import Page
from short import part
from x690 import encoding

TOP = pathlib.Path(__file__).resolve().parent.parent.parent
DUMPS = TOP / "checks/data/dumps"
# how many characters the label of a line of an account takes, behind two spaces
LABEL = 20
# the short names of attributes in RFC 4514, section 3, by those of X.520 and RFC 4519
SHORT_NAMES = {"commonName": "CN", "countryName": "C", "localityName": "L", "stateOrProvinceName": "ST",
               "streetAddress": "STREET", "organizationName": "O", "organizationalUnitName": "OU",
               "uid": "UID", "userid": "UID", "domainComponent": "DC", "dc": "DC"}
# the kinds of GeneralName that an account shows by their text
KINDS = {1: "email:", 2: "DNS:", 6: "URI:", 7: "IP Address:"}
# types of strings whose value an account shows (RFC 4514, section 2.4)
CHARACTERS = {"UTF8String", "PrintableString", "IA5String", "TeletexString", "UniversalString", "BMPString",
              "VisibleString", "NumericString"}


def sequence(*parts):
    return encoding(0x30, b"".join(parts))


UTC, LONG = 0x17, 0x18
TIMES = [
    (UTC, "260101000000Z"), (UTC, "2601010000Z"), (UTC, "260101000000+0130"), (UTC, "2601010000-0500"),
    (UTC, "500101000000Z"), (UTC, "491231235959Z"), (UTC, "261301000000Z"), (UTC, "2601010000"), (UTC, "26010100Z"),
    (LONG, "20260101000000Z"), (LONG, "20260101000000.123456Z"), (LONG, "20260101000000.1234567890123Z"),
    (LONG, "20260101000000.10Z"), (LONG, "20260101000000,5Z"), (LONG, "202601010000Z"), (LONG, "2026010100Z"),
    (LONG, "2026010112.5"), (LONG, "20260101000000+02"), (LONG, "20260101000000-0930"), (LONG, "20260101000000"),
    (LONG, "20260230000000Z"), (LONG, "00000101000000Z"), (LONG, "99991231235959Z"), (LONG, "20261231235960Z"),
]
NUMBERS = ["00", "05", "7F", "0080", "00FF", "80", "FF7F", "FF", "0005", "FFFF", "01" + 19 * "00", "80" + 15 * "00",
           "00" + 20 * "FF", ""]
STRINGS = [
    (0x0C, "plain"), (0x0C, "\u00e9\u4e2d"), (0x0C, " #,+\"\\<>; "), (0x0C, ""), (0x13, "plain"),
    (0x16, "a@example.org"), (0x12, "0123 45"), (0x1A, "visible"), (0x14, "teletex"),
]
OTHER_STRINGS = [(0x16, "c3a9"), (0x14, "fc"), (0x14, "c3a9"), (0x1E, "00420026"), (0x1C, "0000004100010400"),
                 (0x16, "e9")]
LENGTHS = ["00", "01", "7F", "0080", "00C8", "0100", "FF"]
USAGES = ["0780", "0204", "0106", "07FF", "00FF", "06C0", "070080", "00"]
NAMES = ["820161", "820364C3A9", "8107 6140622E6F7267", "8604 683A2F2F", "8704C0000201", "8703010203", "8200",
         "8710 20010DB8000000000000000000000001", "88032A0304"]


@dataclasses.dataclass
class Certificate:
    """A certificate, of which a value can be another. It is signed by nobody."""

    serial: str = "05"
    begins: bytes = encoding(UTC, b"260101000000Z")
    ends: bytes = encoding(LONG, b"99991231235959Z")
    subject: bytes = encoding(0x0C, b"a")
    extensions: bytes = b""

    def octets(self):
        algorithm = sequence(bytes.fromhex("06032B6570"))
        key = sequence(algorithm, encoding(3, bytes(33)))
        content = sequence(
            bytes.fromhex("A003020102"), encoding(2, bytes.fromhex(self.serial)), algorithm,
            name_of(encoding(0x0C, b"Root")), sequence(self.begins, self.ends), name_of(self.subject), key,
            encoding(0xA3, sequence(self.extensions)) if self.extensions else b"")
        return sequence(content, algorithm, encoding(3, bytes([0, 1, 2])))


def name_of(value):
    return sequence(encoding(0x31, sequence(bytes.fromhex("0603550403"), value)))


def extension(number, value):
    return sequence(bytes.fromhex("0603551D") + bytes([number]), encoding(4, value))


def changed_certificates():
    """Certificates with one value changed."""
    times = [encoding(tag, text.encode()) for tag, text in TIMES]
    strings = [encoding(tag, text.encode()) for tag, text in STRINGS]
    strings += [encoding(tag, bytes.fromhex(octets)) for tag, octets in OTHER_STRINGS]
    yield from (Certificate(begins=it) for it in times)
    yield from (Certificate(ends=it) for it in times)
    yield from (Certificate(serial=it) for it in NUMBERS)
    yield from (Certificate(subject=it) for it in strings)
    extensions = [
        *(extension(19, sequence(bytes.fromhex("0101FF"), encoding(2, bytes.fromhex(it)))) for it in LENGTHS),
        extension(19, sequence()), extension(19, sequence(bytes.fromhex("010100"))),
        *(extension(15, encoding(3, bytes.fromhex(it))) for it in USAGES),
        *(extension(17, sequence(bytes.fromhex(it))) for it in NAMES),
        extension(17, sequence(*map(bytes.fromhex, NAMES))),
        extension(37, sequence(bytes.fromhex("06082B06010505070301"), bytes.fromhex("06032A0304"))),
    ]
    yield from (Certificate(extensions=it) for it in extensions)


def documents(folder):
    """Each document, with its name and octets as they are given to the program."""
    for path in sorted(DUMPS.iterdir()):
        if path.suffix != ".dump":
            yield path.name, path.read_bytes()
    for number, it in enumerate(part(changed_certificates(), 4)):
        yield f"changed {number}", it.octets()
    for number, octets in enumerate(certificates(folder)):
        yield f"certificate {number}", octets


class Looks:
    """What the program shows of a document, in each look."""

    def __init__(self, program, octets):
        self.program, self.octets, self.values = program, octets, 0
        self.objects = [json.loads(it) for it in self.run("--json").splitlines()]
        self.lines = self.run("--full").splitlines()
        self.page = Page()
        self.page.feed(self.run("--full", "--html"))
        self.account = self.run("--text").splitlines()

    def run(self, *words):
        ran = subprocess.run([self.program, *words], input=self.octets, capture_output=True)
        return ran.stdout.decode()

    def rows(self):
        return [row for it in self.objects for row in all_rows(it.get("blocks", []))]

    def wrong(self):
        """What is shown otherwise, in words."""
        yield from self.wrong_lines()
        if self.page.lines != self.lines:
            yield "the page has other lines"
        yield from self.wrong_account()

    def wrong_lines(self):
        lines = [it for it in self.lines if it[:1] not in "!="]
        rows = self.rows()
        if len(rows) != len(lines):
            yield f"{len(rows)} blocks in JSON, {len(lines)} lines"
        for (row, inside), line in zip(rows, lines):
            if not is_of_line(row, inside, line) or not any(it in line for it in texts_of(row)):
                yield f"{json.dumps(row)[:200]} is not of the line {line[:200]}"

    def wrong_account(self):
        blocks = trees(self.objects[0].get("blocks", [])) if self.objects else []
        if self.account[:1] != ["certificate"] or len(blocks) != 1:
            return
        told = {it[2:2 + LABEL].strip(): re.sub(r" \([^()]*\)$", "", it[2 + LABEL:]) for it in self.account[1:]}
        lines = account_of(blocks[0])
        self.values = len(lines)
        # of what is cut short an account has the fields that are whole
        is_cut = self.account[-1].startswith("! error")
        for label, text in lines.items():
            if told.get(label) != text and not (is_cut and label not in told):
                yield f"--text: {label}: {told.get(label)!r}, and JSON has {text!r}"


def texts_of(row):
    """Texts of which the line of a block has one: its value as JSON has it, unless characters in it are not shown.
    Octets may be shown as text."""
    value = row.get("value")
    if row["type"] in (None, "OCTET STRING") or not isinstance(value, (str, int)) or isinstance(value, bool):
        return [""]
    if row["type"] in ("INTEGER", "ENUMERATED"):
        return [f" {value}", f" hex {int(value).to_bytes(row['size'] - row['header'], 'big', signed=True).hex()}"]
    return [value, value.replace("\\", "\\\\").replace('"', '\\"')] if value.isprintable() else [""]


class Tree:
    """A block of JSON, and those inside it, also those inside a string."""

    def __init__(self, row):
        self.row, self.items = row, []

    def get(self, name, other=None):
        return self.row.get(name, other)

    def find(self, *path):
        """The first block inside it at the end of a path of fields."""
        if not path:
            return self
        return next((it.find(*path[1:]) for it in self.items if it.get("field") == path[0]), None)


def trees(rows):
    """The blocks of which the depths of rows make trees."""
    found, around = [], []
    for row in rows:
        tree = Tree(row)
        del around[row["depth"] - rows[0]["depth"]:]
        (around[-1].items if around else found).append(tree)
        around.append(tree)
        tree.items += trees(row.get("blocks", []))
    return found


def account_of(certificate):
    """Lines of the account of a certificate, by its blocks in JSON, as far as each says what an account says."""
    content = certificate.find("tbsCertificate")
    lines = {
        "serial number": serial_of(content.find("serialNumber")),
        "not before": time_of(content.find("validity", "notBefore")),
        "not after": time_of(content.find("validity", "notAfter")),
        "subject": name_text(content.find("subject")),
        "issuer": name_text(content.find("issuer")),
    }
    extensions = content.find("extensions")
    for it in extensions.items[0].items if extensions else []:
        lines |= extension_lines(it)
    return {label: text for label, text in lines.items() if text is not None}


def serial_of(row):
    """A serial number in hex digits, two an octet. JSON has no value of very long ones."""
    if row.get("value") is None:
        return None
    number = int(row.get("value"))
    size = max(1, (abs(number).bit_length() + 7) // 8)
    return ("-" if number < 0 else "") + abs(number).to_bytes(size, "big").hex().upper()


def time_of(row):
    """A time as JSON has it; without a value, its octets."""
    return row.get("value") or row.get("octets")


def name_text(name):
    """A name as RFC 4514 has it, if each of its values is a string, and each type has a short name."""
    parts = []
    for relative in reversed(name.items):
        attributes = [attribute_text(it.items) for it in reversed(relative.items)]
        if None in attributes:
            return None
        parts.append("+".join(attributes))
    return ",".join(parts)


def attribute_text(parts):
    kind, value = parts[0].get("name"), parts[1].get("value")
    if kind not in SHORT_NAMES or parts[1].get("type") not in CHARACTERS or value is None or not value.isprintable():
        return None
    text = re.sub(r'([",+;<>\\]|^[ #]|(?<!^) $)', r"\\\1", value)
    return f"{SHORT_NAMES[kind]}={text}"


def extension_lines(extension):
    """The lines of an extension."""
    name, value = extension.items[0].get("name"), next(iter(extension.items[-1].items), None)
    if value is None:
        return {}
    if name == "keyUsage" and value.get("type") == "BIT STRING":
        return {"key usage": value.get("name")}
    if name == "basicConstraints":
        return {"authority": authority_of(value.items)}
    if name in ("extKeyUsage", "extendedKeyUsage"):
        return {"extended key usage": ", ".join(it.get("name", it.get("value")) for it in value.items)}
    if name == "subjectAltName":
        texts = [general_name(it) for it in value.items]
        return {} if None in texts else {"alternative names": ", ".join(texts)}
    return {}


def authority_of(parts):
    if not parts or parts[0].get("value") is not True:
        return "no"
    return f"yes, with {parts[1].get('value')} below it at most" if len(parts) > 1 else "yes"


def general_name(row):
    """A GeneralName behind its kind: the text that JSON has beside its octets, or these."""
    kind = KINDS.get(row.get("tag"))
    return None if kind is None else kind + row.get("shown", row.get("value"))


# ends of a certificate, 36 hours away by their digits: whether they are in the past, the tag, the form, the zone, and
# what is said of the days
DAYS = [
    (False, UTC, "%y%m%d%H%M%S", "Z", "1 days left"), (True, UTC, "%y%m%d%H%M%S", "Z", "ended 1 days ago"),
    (False, UTC, "%y%m%d%H%M%S", "+2359", "0 days left"), (False, UTC, "%y%m%d%H%M%S", "-2359", "2 days left"),
    (False, LONG, "%Y%m%d%H%M%S", "+23", "0 days left"), (False, LONG, "%Y%m%d%H%M%S", "-23", "2 days left"),
    (False, LONG, "%Y%m%d%H%M%S", ".5Z", "1 days left"), (False, LONG, "%Y%m%d%H%M%S", "", None),
]


def wrong_days(program):
    """How many days are left to the end of certificates, where an account says something else."""
    now = datetime.datetime.now(datetime.timezone.utc)
    for is_past, tag, form, zone, days in DAYS:
        end = now + datetime.timedelta(hours=-36 if is_past else 36)
        text = end.strftime(form) + zone
        looks = Looks(program, Certificate(ends=encoding(tag, text.encode())).octets())
        line = next(it for it in looks.account if it.startswith("  not after "))
        found = re.search(r" \((.*)\)$", line)
        if (found[1] if found else None) != days:
            yield f"the end {text} has {line.strip()!r}, and not {days!r}"


def main(words):
    program, count, wrong, values = built("der_dump"), 0, 0, 0
    for name, octets in documents(words[0] if words else ""):
        looks = Looks(program, octets)
        count += 1
        for what in looks.wrong():
            wrong += 1
            print(f"looks: {name}: {what}")
        values += looks.values
    for what in wrong_days(program):
        wrong += 1
        print(f"looks: {what}")
    print(f"looks: {count} documents, {values} values of accounts, {wrong} shown otherwise")
    return 1 if wrong or not values else 0


if __name__ == "__main__":
    sys.exit(main(sys.argv[1:]))
