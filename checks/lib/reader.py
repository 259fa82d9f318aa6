"""A plain recursive reader of the grammar, for comparison. It gives the answers of `test_calls` to `read` and `count`.

It is written from docs/GRAMMAR.md, an attempt being a call that may fail, and shares nothing with the library.
"""
import datetime

MOST = 2**64 - 1
CLASSES = ["Universal", "Application", "CS", "Private"]
TEXTS = {12: "UTF8String", 20: "TeletexString", 28: "UniversalString", 30: "BMPString"}
PRINTABLE = set(b"ABCDEFGHIJKLMNOPQRSTUVWXYZabcdefghijklmnopqrstuvwxyz0123456789 '()+,-./:=?")
DIGITS = set(b"0123456789")


class Fault(Exception):
    pass


def octets_text(octets):
    return octets.hex(" ").upper()


def characters_text(text):
    return "[" + " ".join(f"U+{ord(it):04X}" for it in text) + "]"


def base128(number):
    digits = [number % 128]
    while number := number // 128:
        digits.append(128 + number % 128)
    return bytes(reversed(digits))


class Reader:
    def __init__(self, octets):
        self.octets = octets
        self.begun = 0

    def document(self):
        if not self.octets:
            raise Fault("EmptyBuffer")
        return self.blocks(0, len(self.octets))

    def blocks(self, start, end):
        blocks, place = [], start
        while place < end:
            block, place = self.block(place, start, end)
            blocks.append(block)
        return blocks

    def block(self, offset, start, end):
        """The block at the offset, in contents octets from start to end, and where it ends."""
        self.begun += 1
        kind, constructed, tag, place = self.tag(offset, end)
        size, place = self.length(place, end)
        if place - start + size > MOST:
            raise Fault(f"LengthTooLarge {size}")
        after = place + size
        if after > end:
            raise Fault("Incomplete")
        contents = self.octets[place:after]
        if kind == 0 and tag in (16, 17):
            name = "Sequence" if tag == 16 else "Set"
            return f"{name}({offset}, [{', '.join(self.blocks(place, after))}])", after
        if kind == 0 and (read := LEAVES.get(tag)):
            return read(offset, contents), after
        number = tag if tag <= MOST else f"[{octets_text(base128(tag))}]"
        if kind and constructed:
            try:
                inside = self.blocks(place, after)
            except Fault:
                inside = []
            if len(inside) == 1:
                return f"Explicit({CLASSES[kind]}, {offset}, {number}, {inside[0]})", after
        flag = "true" if constructed else "false"
        return f"Unknown({CLASSES[kind]}, {flag}, {offset}, {number}, [{octets_text(contents)}])", after

    def tag(self, place, end):
        first = self.octets[place]
        place += 1
        tag = first % 32
        if tag == 31:
            tag = 0
            while True:
                if place >= end:
                    raise Fault("Incomplete")
                digit = self.octets[place]
                place += 1
                tag = tag * 128 + digit % 128
                if digit < 128:
                    break
        return first // 64, first & 32 != 0, tag, place

    def length(self, place, end):
        if place >= end:
            raise Fault("Incomplete")
        first = self.octets[place]
        if first < 128:
            return first, place + 1
        count = first - 128
        if count > 8:
            raise Fault(f"LengthTooLarge {count}")
        if place + 1 + count > end:
            raise Fault("Incomplete")
        return int.from_bytes(self.octets[place + 1 : place + 1 + count], "big"), place + 1 + count


def boolean(offset, contents):
    if len(contents) != 1:
        raise Fault(f"BadBooleanLength {len(contents)}")
    return f"Boolean({offset}, {'true' if contents[0] else 'false'})"


def integer(offset, contents):
    number = int.from_bytes(contents, "big", signed=True)
    if -(2**63) <= number < 2**63:
        return f"Integer({offset}, {number})"
    size = 1
    while not -(2 ** (8 * size - 1)) <= number < 2 ** (8 * size - 1):
        size += 1
    return f"Integer({offset}, [{octets_text(number.to_bytes(size, 'big', signed=True))}])"


def bit_string(offset, contents):
    if not contents:
        return f"BitString({offset}, 0, [])"
    bits = 8 * (len(contents) - 1) - contents[0]
    if bits < 0:
        raise Fault(f"InvalidBitStringLength {bits}")
    return f"BitString({offset}, {bits}, [{octets_text(contents[1:])}])"


def identifier(offset, contents):
    if not contents or contents[-1] >= 128 and len(contents) > 1:
        raise Fault("Incomplete")
    first = min(contents[0] // 40, 2)
    components, number = [first, contents[0] - 40 * first], 0
    for octet in contents[1:]:
        number = number * 128 + octet % 128
        if octet < 128:
            components.append(number)
            number = 0
    if max(components) >= 2**128:
        written = bytes([contents[0]]) + b"".join(base128(it) for it in components[2:])
        return f"ObjectIdentifier({offset}, [{octets_text(written)}])"
    return f"ObjectIdentifier({offset}, {'.'.join(str(it) for it in components)})"


def text(name):
    def read(offset, contents):
        try:
            return f"{name}({offset}, {characters_text(contents.decode())})"
        except UnicodeDecodeError:
            raise Fault("UTF8DecodeFailure")

    return read


def printable(offset, contents):
    if not set(contents) <= PRINTABLE:
        raise Fault("PrintableStringDecodeFailure")
    return f"PrintableString({offset}, {characters_text(contents.decode('latin-1'))})"


def moment(year, digits, nanoseconds):
    """The text of a moment, or none where there is no such one."""
    month, day, hour, minute, second = (int(digits[at : at + 2]) for at in range(0, 10, 2))
    try:
        # years 0 and 2000 have the same days
        datetime.datetime(year or 2000, month, day, hour, minute, second)
    except ValueError:
        return None
    fraction = f".{nanoseconds:09}" if nanoseconds else ""
    return f"{year:04}-{month:02}-{day:02} {hour:02}:{minute:02}:{second:02}{fraction}"


def utc_time(offset, contents):
    if len(contents) != 13:
        raise Fault(f"InvalidDateValue {characters_text(str(len(contents)))}")
    said = contents.decode("latin-1")
    if contents[1] not in DIGITS or contents[0] not in DIGITS | {ord("+")}:
        raise Fault(f"InvalidDateValue {characters_text(said)}")
    century = "19" if contents[0] in DIGITS and int(said[:2]) >= 50 else "20"
    if set(contents[:12]) <= DIGITS and said[12] == "Z":
        if found := moment(int(century + said[:2]), said[2:12], 0):
            return f"UTCTime({offset}, {found})"
    raise Fault(f"InvalidDateValue {characters_text(century + said)}")


def generalized_time(offset, contents):
    if len(contents) < 15:
        raise Fault(f"InvalidDateValue {characters_text(str(len(contents)))}")
    try:
        said = contents.decode()
    except UnicodeDecodeError:
        raise Fault("UTF8DecodeFailure")
    if not said.isascii():
        raise Fault(f"InvalidDateValue {characters_text(said)}")
    whole, _, fraction = said[:-1].partition(".")
    if len(whole) > 14 and len(whole) == len(said) - 1:
        whole, fraction = whole[:14], whole[14:]
    if len(whole) == 14 and set((whole + fraction).encode()) <= DIGITS and said[-1] == "Z":
        nanoseconds = int((fraction + "000000000")[:9])
        if found := moment(int(whole[:4]), whole[4:], nanoseconds):
            return f"GeneralizedTime({offset}, {found})"
    padded = said if "." in said else f"{said[:14]}.{said[14:]}"
    while len(padded) < 25:
        padded = f"{padded[:-1]}0{padded[-1]}"
    raise Fault(f"InvalidDateValue {characters_text(padded)}")


LEAVES = {
    1: boolean,
    2: integer,
    3: bit_string,
    4: lambda offset, contents: f"OctetString({offset}, [{octets_text(contents)}])",
    5: lambda offset, contents: f"Null({offset})",
    6: identifier,
    19: printable,
    22: lambda offset, contents: f"IA5String({offset}, {characters_text(contents.decode('latin-1'))})",
    23: utc_time,
    24: generalized_time,
    **{tag: text(name) for tag, name in TEXTS.items()},
}


def read(octets):
    """What `read` and `count` answer."""
    reader = Reader(octets)
    try:
        answer = ", ".join(reader.document())
        return answer, f"{reader.begun} begun, read"
    except Fault as fault:
        return f"refused {fault}", f"{reader.begun} begun, refused {fault}"
