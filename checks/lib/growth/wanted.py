"""What calls have to answer of a document, by the plain readers of checks/lib, which share nothing with the library."""
import re

import departures
import der
import reader
from x690 import length_octets

# statuses of simple_asn1.h: of faults by the names that the reader has for them
STATUSES = {
    "EmptyBuffer": 1, "BadBooleanLength": 2, "LengthTooLarge": 3, "UTF8DecodeFailure": 4,
    "PrintableStringDecodeFailure": 5, "InvalidDateValue": 6, "InvalidBitStringLength": 7, "Incomplete": 8,
}
OK, INCOMPLETE, NOT_CANONICAL, NO_ROOM, NOT_SIGNED, BAD_RECORD = 0, 8, 9, 11, 14, 15
# of calls for fields, if a document is not of the type
OTHERS = {"certificate": 18, "request": 19, "list": 20}
# how many blocks may stand around one that the crate for Rust reads
MOST_AROUND = 256
# of the rules of DER, those that der_dump has an error for where they are broken in these shapes
ERRORS = {"NotEncodings", "BooleanSize", "Characters"}
# stands before each block that is written otherwise than it came
CHANGED = "*"
# a tag number beyond 64 bits, as the reader shows it
HUGE_TAG = re.compile(r"(Explicit\(\w+|Unknown\(\w+, \w+), [0-9]+, \[")


class Outline(reader.Reader):
    """By headers alone."""

    def block(self, offset, start, end):
        kind, _, tag, place = self.tag(offset, end)
        size, place = self.length(place, end)
        if place + size > end:
            raise reader.Fault("Incomplete")
        if kind == 0 and tag in (16, 17):
            self.blocks(place, place + size)
        return "", place + size


class Rewritten(reader.Reader):
    """With a mark at each block that is written otherwise than it came (docs/GRAMMAR.md, 3)."""

    def block(self, offset, start, end):
        text, after = super().block(offset, start, end)
        kind, _, tag, place = self.tag(offset, end)
        leading = self.octets[offset] & 0xE0 | min(tag, 31)
        if kind == 0 and tag in (16, 17):
            leading |= 0x20
        elif kind == 0 and tag in reader.LEAVES:
            leading &= 0xDF
        identifier = bytes([leading]) + (reader.base128(tag) if tag > 30 else b"")
        _, first = self.length(place, end)
        contents = self.octets[first:after]
        is_short = self.octets[offset:first] == identifier + length_octets(len(contents))
        is_kept = kind or CONTENTS.get(tag, lambda _: True)(contents)
        return ("" if is_short and is_kept else CHANGED) + text, after


# whether contents octets of these tag numbers are written as they came
CONTENTS = {
    1: der.RULES[1],
    2: der.integer,
    3: lambda it: it == b"\0" or len(it) > 1,
    6: lambda it: len(it) == 1 or der.subidentifiers(it[1:]),
    24: re.compile(rb"[0-9]{14}(\.[0-9]{0,8}[1-9])?Z").fullmatch,
}


class Crate(reader.Reader):
    """As the crate for Rust, which refuses SEQUENCEs and SETs without contents outside of attempts."""

    def blocks(self, start, end):
        if start == end:
            raise reader.Fault("EmptyBuffer")
        return super().blocks(start, end)


def read_by(kind, octets):
    """The status, and the blocks as text."""
    try:
        return OK, ", ".join(kind(octets).document())
    except reader.Fault as fault:
        return STATUSES[str(fault).split()[0]], ""


def levels(blocks):
    """How many blocks stand around the innermost one."""
    most = level = 0
    for it in re.findall("[()]", blocks):
        level += 1 if it == "(" else -1
        most = max(most, level)
    return most - 1


def is_signed(octets):
    """Whether the first encoding is what RFC 5280, 4.1, signs: content, algorithm and signature."""
    try:
        first = departures.encodings(octets, 0, len(octets), False)[0][0]
    except departures.NoEncodings:
        return False
    tags = [(it.identifier, it.items[0].identifier if it.items else b"") for it in first.items or []]
    return first.identifier == b"\x30" and len(tags) == 3 and tags[1:] == [(b"\x30", b"\x06"), (b"\x03", b"")]


def of_library(octets, few, kind):
    """The statuses of the calls for C and Python, by their names in each.c and each.py. The readers of X.690 get few
    octets of the same shape. A certificate, a request or a list of revoked certificates is of a kind."""
    read, blocks = read_by(reader.Reader, octets)
    outline, _ = read_by(Outline, octets)
    _, rewritten = read_by(Rewritten, octets)
    broken = departures.departures(few)
    same = dict.fromkeys("read check fault rewrite pickled walk slices first last".split(), read)
    by_headers = dict.fromkeys("outline values each items repr views equal asked".split(), outline)
    fields = {call: read or (OK if call == kind else other) for call, other in OTHERS.items()}
    return same | by_headers | fields | {
        "write": read or (BAD_RECORD if HUGE_TAG.search(blocks) else OK),
        "spell": read or (BAD_RECORD if HUGE_TAG.search(blocks) else OK),
        "count": read or NO_ROOM,
        "strict": read or (NOT_CANONICAL if CHANGED in rewritten else OK),
        "signed": read or (OK if is_signed(few) else NOT_SIGNED),
        "departures": (outline or INCOMPLETE) if isinstance(broken, int) else OK,
        "encoding": OK,
    }


def of_crate(octets):
    """0, or 1 for an error, of the calls of the crate for Rust: `bounded` has its bound on depth."""
    status, blocks = read_by(Crate, octets)
    is_refused = int(status != OK)
    calls = dict.fromkeys("read write clone == components drop".split(), is_refused)
    return calls | {"bounded": int(is_refused or levels(blocks) > MOST_AROUND)}


def of_dump(octets):
    """The status of a dump, and with --strict."""
    broken = departures.departures(octets)
    is_cut = isinstance(broken, int)
    return int(is_cut or any(rule in ERRORS for _, rule in broken)), int(is_cut or bool(broken))
