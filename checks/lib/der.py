"""Whether octets are DER, plainly and recursively, for comparison: the answers of `test_calls` to `is_der`.

It is written from X.690, and from X.680 where that names characters, and shares nothing with the library.
"""
import datetime
import re

CONSTRUCTED = {8, 11, 16, 17, 29}  # EXTERNAL, EMBEDDED PDV, SEQUENCE, SET, CHARACTER STRING
SPECIAL_REALS = range(0x40, 0x44)
DECIMAL_REAL = re.compile(rb"-?[1-9]([0-9]*[1-9])?\.E(\+0|-?[1-9][0-9]*)")
UTC = re.compile(rb"([0-9]{2})([0-9]{10})Z")
GENERALIZED = re.compile(rb"([0-9]{4})([0-9]{10})(\.[0-9]*[1-9])?Z")
NUMERIC = re.compile(rb"[0-9 ]*")
PRINTABLE = re.compile(rb"[A-Za-z0-9 '()+,./:=?-]*")
VISIBLE = re.compile(rb"[ -~]*")
GRAPHIC = re.compile(rb"[\x0e\x0f\x1b -\x7f\x8e\x8f\xa0-\xff]*", re.S)  # ISO 2022 shifts by the first and 8E, 8F
TIME_OF_DAY = re.compile(rb"([01][0-9]|2[0-3])[0-5][0-9]([0-5][0-9]|60)|240000")
# behind the mark of a recurring interval, and what no notation of X.680 38 has side by side or at the end
TIME = re.compile(rb"(?:R[0-9]*/)?([+0-9PT-][0-9+.,:/CDHMPSTWYZ-]*)")
TIME_PAIRS = re.compile(
    rb"[+:.,T][^0-9]|-[^0-9W]|/[^0-9PT+-]|[CZ][^/]|[WYMDHS][^0-9T/]|P[^0-9T]|[0-9]P|[^0-9CDHMSWYZ]$", re.S)
NUMBER = rb"(?:[0-9]+%s)?"
LAST = rb"(?:[0-9]+[.,][0-9]+%s)"


def units(letters):
    """Numbers with these letters, some or none, of which the last alone may have a fraction."""
    whole = [NUMBER % bytes([it]) for it in letters]
    broken = [b"".join(whole[:place]) + LAST % letters[place : place + 1] for place in range(len(letters))]
    return b"(?:%s|%s)" % (b"".join(whole), b"|".join(broken))


WHOLE_DAYS = b"".join(NUMBER % bytes([it]) for it in b"YMWD")
DURATION = re.compile(rb"(?=.)(?:%s|%sT(?=.)%s)" % (units(b"YMWD"), WHOLE_DAYS, units(b"HMS")), re.S)
# the iunreserved of RFC 3987
LABEL = re.compile(
    "[-._~0-9A-Za-z\u00a0-\ud7ff\uf900-\ufdcf\ufdf0-\uffef"
    + "".join(f"{chr(it << 16)}-{chr((it << 16) + 0xFFFD)}" for it in range(1, 14))
    + "\U000e1000-\U000efffd]+")


class Other(Exception):
    """The octets are not DER."""


def expect(holds):
    if not holds:
        raise Other


def header(octets):
    """Class, constructed bit, tag number, and where the contents begin and end (8.1.2, 8.1.3, 10.1)."""
    expect(len(octets) > 1)
    leading, place = octets[0], 1
    tag = leading & 0x1F
    if tag == 0x1F:
        tag = 0
        expect(octets[place] != 0x80)
        while True:
            expect(place < len(octets))
            octet, place = octets[place], place + 1
            tag = tag << 7 | octet & 0x7F
            if octet < 0x80:
                break
        expect(tag > 30)
    expect(place < len(octets))
    first, place = octets[place], place + 1
    size = first
    if first > 0x7F:
        count = first - 0x80
        written = octets[place : place + count]
        expect(count and len(written) == count and written[0])
        size, place = int.from_bytes(written, "big"), place + count
        expect(size > 0x7F)
    expect(place + size <= len(octets))
    return leading >> 6, bool(leading & 0x20), tag, place, place + size


def encodings(octets):
    """The encodings that the octets are, one after another, each as class, tag number and octets."""
    found, rest = [], octets
    while rest:
        group, constructed, tag, start, end = header(rest)
        encoding(group, constructed, tag, rest[start:end])
        found.append((group, tag, rest[:end]))
        rest = rest[end:]
    return found


def encoding(group, constructed, tag, contents):
    if group:
        if constructed:
            encodings(contents)
        return
    expect(0 < tag < 37 and tag != 15)
    expect(constructed == (tag in CONSTRUCTED))
    if constructed:
        items = encodings(contents)
        expect(tag != 17 or by_tags(items) or by_octets(items))
        expect(HELD.get(tag, lambda _: True)(contents))
    else:
        expect(RULES.get(tag, lambda _: True)(contents))


def by_tags(items):
    """10.3: the tags are distinct, and ascend."""
    tags = [it[:2] for it in items]
    return all(a < b for a, b in zip(tags, tags[1:]))


def by_octets(items):
    """11.6: compared with zeros behind the shorter one."""
    most = max((len(it[2]) for it in items), default=0)
    padded = [it[2].ljust(most, b"\0") for it in items]
    return padded == sorted(padded)


def parts(contents):
    """The encodings that the contents are, which are DER: the leading octet and the contents of each."""
    found, rest = [], contents
    while rest:
        _, _, _, start, end = header(rest)
        found.append((rest[0], rest[start:end]))
        rest = rest[end:]
    return found


def external(contents):
    """8.18.1: by the leading octets a pattern, and what the components hold whose tags are implicit."""
    found = parts(contents)
    if not re.fullmatch(rb"(\x06\x02?|\x02)\x07?[\xa0\x81\x82]", bytes(it for it, _ in found), re.S):
        return False
    leading, held = found[-1]
    return {0xA0: lambda: len(parts(held)) == 1, 0x81: lambda: True, 0x82: lambda: bits(held)}[leading]()


def identified(contents):
    """X.680 36.5 and 44.5 with automatic tags: the identification, and the value."""
    found = parts(contents)
    if [it for it, _ in found] != [0xA0, 0x82]:
        return False
    chosen = parts(found[0][1])
    return len(chosen) == 1 and CHOSEN.get(chosen[0][0], lambda _: False)(chosen[0][1])


def pair(first):
    def checked(contents):
        found = parts(contents)
        return [it for it, _ in found] == [0x80, 0x81] and first(found[0][1]) and subidentifiers(found[1][1])

    return checked


def integer(contents):
    if len(contents) > 1:
        bits = contents[0] << 1 | contents[1] >> 7
        return 0 < bits < 0x1FF
    return len(contents) == 1


def bits(contents):
    if len(contents) < 2:
        return contents == b"\0"
    unused = contents[0]
    return unused < 8 and not contents[-1] & (1 << unused) - 1


def subidentifiers(contents):
    """One or more, each ended, and none with an octet 80 in front (8.19.2, 8.20.2)."""
    return bool(re.fullmatch(rb"([\x81-\xff][\x80-\xff]*[\x00-\x7f]|[\x00-\x7f])+", contents, re.S))


def real(contents):
    if not contents:
        return True
    first, rest = contents[0], contents[1:]
    if first > 0x7F:
        if first & 0x3C:  # the base is not 2, or a scaling factor
            return False
        size = first & 3
        if size == 3:
            if not rest or rest[0] < 4:
                return False
            size, rest = rest[0], rest[1:]
        else:
            size += 1
        exponent, mantissa = rest[:size], rest[size:]
        return len(mantissa) > 0 and integer(exponent) and mantissa[0] > 0 and mantissa[-1] % 2 == 1
    if first == 3:
        return bool(DECIMAL_REAL.fullmatch(rest))
    return first in SPECIAL_REALS and not rest


def codec(name):
    def decoded(contents):
        try:
            contents.decode(name)
        except UnicodeDecodeError:
            return False
        return True

    return decoded


utf8 = codec("utf-8")


def bmp(contents):
    """Two octets a character, none of them a surrogate."""
    pairs = [contents[it : it + 2] for it in range(0, len(contents), 2)]
    return all(len(it) == 2 and it[0] not in range(0xD8, 0xE0) for it in pairs)


def exists(year, rest):
    """The date and the time of MMDDhhmmss; year 0 is a leap year, as 2000 is."""
    parts = [int(rest[it : it + 2]) for it in range(0, 10, 2)]
    try:
        datetime.datetime(year or 2000, *parts)
    except ValueError:
        return False
    return True


def utc_time(contents):
    found = UTC.fullmatch(contents)
    if not found:
        return False
    year = int(found[1])
    return exists(year + (1900 if year > 49 else 2000), found[2])


def generalized_time(contents):
    """Second 60 stands where second 59 could."""
    found = GENERALIZED.fullmatch(contents)
    return bool(found) and exists(int(found[1]), re.sub(rb"60$", b"59", found[2]))


def date(contents):
    """The setting Year=Basic has the years from 1582 on."""
    if not re.fullmatch(rb"[0-9]{8}", contents):
        return False
    return int(contents[:4]) > 1581 and exists(int(contents[:4]), contents[4:] + b"000000")


def time(contents):
    found = TIME.fullmatch(contents)
    return bool(found) and not TIME_PAIRS.search(found[1])


def iri(contents):
    """Labels, each behind a solidus."""
    return contents[:1] == b"/" and labels(contents[1:])


def labels(contents):
    """Labels with a solidus between each two; one of digits alone does not begin with 0, unless it is 0."""
    if not utf8(contents):
        return False
    texts = contents.decode().split("/")
    return all(LABEL.fullmatch(it) and not re.fullmatch("0[0-9]+", it) for it in texts)


HELD = {8: external, 11: identified, 29: identified}
CHOSEN = {
    0xA0: pair(subidentifiers),
    0x81: subidentifiers,
    0x82: integer,
    0xA3: pair(integer),
    0x84: subidentifiers,
    0x85: lambda it: not it,
}
RULES = {
    1: lambda it: it in (b"\0", b"\xff"),
    2: integer,
    3: bits,
    5: lambda it: not it,
    6: subidentifiers,
    7: GRAPHIC.fullmatch,
    9: real,
    10: integer,
    12: utf8,
    13: subidentifiers,
    14: time,
    18: NUMERIC.fullmatch,
    19: PRINTABLE.fullmatch,
    22: codec("ascii"),
    23: utc_time,
    24: generalized_time,
    25: GRAPHIC.fullmatch,
    26: VISIBLE.fullmatch,
    28: lambda it: len(it) % 4 == 0 and codec("utf-32-be")(it),
    30: bmp,
    31: date,
    32: TIME_OF_DAY.fullmatch,
    33: lambda it: date(it[:8]) and TIME_OF_DAY.fullmatch(it[8:]),
    34: DURATION.fullmatch,
    35: iri,
    36: labels,
}


def is_der(octets):
    """Whether the octets are encodings of DER, one or more."""
    try:
        return bool(encodings(octets))
    except Other:
        return False
