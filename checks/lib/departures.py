"""Which rules of DER octets break, and where, plainly and recursively, for comparison.

It is written from X.690, by `der` for what encodings of DER are, and shares nothing with the library.
"""
import re

import der
from x690 import length_octets

STRINGS = {3, 4, 7, 12, 18, 19, 20, 21, 22, 23, 24, 25, 26, 27, 28, 30}  # 8.6, 8.7, 8.23, 8.25
MOST_LENGTH_OCTETS = 8
SUBIDENTIFIERS = (6, 13)


class NoEncodings(Exception):
    """The octets are not encodings; where a header is at fault."""


class Encoding:
    """One encoding: its fields, its items if it is constructed, or None if its contents are not encodings."""

    def __init__(self, octets, place, end):
        self.offset = place
        if place >= end:
            raise NoEncodings(place)
        leading, place = octets[place], place + 1
        self.group, self.constructed, self.tag = leading >> 6, bool(leading & 0x20), leading & 0x1F
        if self.tag == 0x1F:
            number = re.compile(rb"[\x80-\xff]*[\x00-\x7f]").match(octets, place, end)
            if not number:
                raise NoEncodings(self.offset)
            place, self.tag = number.end(), 0
            for octet in number[0]:
                self.tag = self.tag << 7 | octet & 0x7F
        self.identifier = octets[self.offset : place]
        if place >= end:
            raise NoEncodings(self.offset)
        count = octets[place] - 0x80
        self.start = place + 1 + max(count, 0)
        if count > MOST_LENGTH_OCTETS or self.start > end:
            raise NoEncodings(self.offset)
        self.length = octets[place : self.start]
        size = octets[place] if count < 0 else int.from_bytes(self.length[1:], "big")
        self.is_indefinite = count == 0
        self.end = self.start + size
        if self.end > end:
            raise NoEncodings(self.offset)
        self.contents = octets[self.start : self.end]
        self.items = []
        if self.constructed and self.is_indefinite:
            self.items, self.end = encodings(octets, self.start, end, True)
        elif self.constructed:
            try:
                self.items, _ = encodings(octets, self.start, self.end, False)
            except NoEncodings:
                self.items = None


def encodings(octets, place, end, is_ended):
    """The encodings up to the end, or up to end-of-contents octets, and where they end."""
    found = []
    while True:
        if is_ended and octets[place : min(place + 2, end)] == b"\0\0":
            return found, place + 2
        if not is_ended and place == end:
            return found, place
        found.append(Encoding(octets, place, end))
        place = found[-1].end


def shortest_identifier(it):
    leading = it.group << 6 | it.constructed << 5
    if it.tag < 31:
        return bytes([leading | it.tag])
    number = [it.tag >> place & 0x7F for place in range(0, it.tag.bit_length(), 7)]
    return bytes([leading | 31] + [0x80 | octet for octet in number[:0:-1]] + number[:1])


def form_rule(it):
    if it.tag in (0, 15) or it.tag > 36:
        return "ReservedTag"
    if it.constructed == (it.tag in der.CONSTRUCTED):
        return None
    if not it.constructed:
        return "NotConstructed"
    return "ConstructedString" if it.tag in STRINGS else "NotPrimitive"


def bits_rule(contents):
    if not contents or contents[0] > 7:
        return "UnusedCount"
    return "UnusedBits" if len(contents) > 1 else "UnusedOfNone"


def real_rule(contents):
    if contents[0] > 0x7F:
        return "BinaryReal"
    return "DecimalReal" if contents[0] < 0x40 else "SpecialReal"


CONTENTS_RULES = {
    1: lambda it: "BooleanValue" if len(it) == 1 else "BooleanSize",
    2: lambda it: "PaddedInteger" if it else "NoInteger",
    3: bits_rule,
    5: lambda it: "NullContents",
    6: lambda it: "Subidentifiers",
    9: real_rule,
    10: lambda it: "PaddedInteger" if it else "NoInteger",
    13: lambda it: "Subidentifiers",
    14: lambda it: "Time",
    23: lambda it: "UtcTime",
    24: lambda it: "GeneralizedTime",
    31: lambda it: "Time",
    32: lambda it: "Time",
    33: lambda it: "Time",
    34: lambda it: "Time",
    35: lambda it: "Iri",
    36: lambda it: "Iri",
}


ITEMS_RULES = {8: "External", 11: "Identification", 17: "Order", 29: "Identification"}


def is_wrongly_filled(it):
    """Whether the items are DER, but not those of the type: those of a SET are in neither order."""
    try:
        items = der.encodings(it.contents)
    except der.Other:
        return False
    if it.tag == 17:
        return not der.by_tags(items) and not der.by_octets(items)
    return not der.HELD[it.tag](it.contents)


def type_rule(it):
    if it.group:
        return None
    rule = form_rule(it)
    if rule or it.is_indefinite:
        return rule
    if it.constructed:
        return ITEMS_RULES[it.tag] if it.tag in ITEMS_RULES and is_wrongly_filled(it) else None
    if der.RULES.get(it.tag, lambda _: True)(it.contents):
        return None
    return CONTENTS_RULES.get(it.tag, lambda _: "Characters")(it.contents)


def own_rules(it):
    if it.identifier != shortest_identifier(it):
        yield "LongIdentifier" if it.tag < 31 else "PaddedTag"
    if it.is_indefinite:
        yield "IndefiniteLength"
    elif it.length != length_octets(len(it.contents)):
        yield "LongLength"
    rule = type_rule(it)
    if rule:
        yield rule
    if it.items is None:
        yield "NotEncodings"


def listed(items):
    for it in items:
        yield from ((it.offset, rule) for rule in own_rules(it))
        yield from listed(it.items or [])


def departures(octets):
    """The departures as pairs of offset and rule, or the offset of the fault that stops it."""
    try:
        if not octets:
            raise NoEncodings(0)
        return list(listed(encodings(octets, 0, len(octets), False)[0]))
    except NoEncodings as fault:
        return fault.args[0]
