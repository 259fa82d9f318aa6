#!/usr/bin/env python3
"""Writes documents back from the lines of `der_dump --json`, one after another: rebuild.py < LINES > FILE

Canonical DER (X.690) comes back byte for byte, also with BER's indefinite lengths and constructed strings. JSON does
not keep everything of other documents. If the value of a block makes more or fewer bytes than the block has, it is an
error that names the block's offset. So are:

- identifier and length octets, INTEGERs and OBJECT IDENTIFIERs in longer forms than the shortest
- a tag number of more than 1,024 bytes, also in canonical DER
- contents of a NULL, and none of an INTEGER
- a point of a fraction of a second behind which no digits are
- a BOOLEAN other than 00 and FF
- a block with a `fault`: malformed, cut short, without its end, or of no header

Lines with a `fault` or a list `not_der` are errors, too. The `blocks` of a block are in its value; the value of
a constructed string is in its segments.

After an error nothing is written, and the exit status is 1. What JSON does not tell is written as DER has it, without
an error, where it is as long:

- a REAL has base 2 and an odd mantissa, or the form NR3
- the fraction of a GeneralizedTime has its point
"""
import json
import re
import sys

CLASSES = {"universal": 0x00, "application": 0x40, "context-specific": 0x80, "private": 0xC0}
# how the characters of a string may be encoded, the likeliest first
ENCODINGS = {
    "UTF8String": ["utf-8"],
    "PrintableString": ["latin-1"],
    "TeletexString": ["utf-8", "latin-1"],
    "IA5String": ["latin-1"],
    "UniversalString": ["utf-32-be"],
    "BMPString": ["utf-16-be"],
}


# and of types that the library does not read
TEXTS = {
    "ObjectDescriptor", "TIME", "NumericString", "VideotexString", "GraphicString", "VisibleString", "GeneralString",
}
REALS = {"0": b"", "PLUS-INFINITY": b"\x40", "MINUS-INFINITY": b"\x41", "NOT-A-NUMBER": b"\x42", "-0": b"\x43"}
# where the marks of DATE, TIME-OF-DAY, DATE-TIME and DURATION stand, by their tags
MARKS = {31: (4, 7), 32: (2, 5), 33: (4, 7, 10, 13, 16), 34: (0,)}
IRIS = {35, 36}
# the rule in `not_der` of blocks whose bytes the other members do not tell
LOST = "BooleanValue"
INDEFINITE = b"\x80"
END = b"\x00\x00"


class Different(Exception):
    """The row of a block does not have the block's bytes."""

    def __init__(self, row, why):
        super().__init__(f"offset {row['offset']}: {why}")


def base128(number):
    digits = [number % 128]
    while number := number // 128:
        digits.append(128 + number % 128)
    return bytes(reversed(digits))


def length_octets(length):
    if length < 128:
        return bytes([length])
    octets = length.to_bytes((length.bit_length() + 7) // 8, "big")
    return bytes([128 + len(octets)]) + octets


def header_of(row):
    if row["tag"] is None:
        raise Different(row, "the tag number has more than 1,024 bytes, and is not told")
    tag = int(row["tag"])
    front = CLASSES[row["class"]] + (0x20 if row["constructed"] else 0)
    identifier = bytes([front + tag]) if tag < 31 else bytes([front + 31]) + base128(tag)
    if row["size"] is None:
        return identifier + INDEFINITE
    return identifier + length_octets(row["size"] - row["header"])


def integer_forms(value):
    number = int(value)
    size = (number if number >= 0 else ~number).bit_length() // 8 + 1
    yield number.to_bytes(size, "big", signed=True)


def long_forms(row):
    """Of an INTEGER or OBJECT IDENTIFIER of more than 1,024 bytes, whose value is null."""
    yield bytes.fromhex(row["shown"])


def bit_string_forms(value):
    octets = bytes.fromhex(value["octets"])
    yield bytes([8 * len(octets) - value["bits"]]) + octets
    if not octets:
        yield b""


def identifier_forms(value):
    first, second, *others = map(int, value.split("."))
    front = 40 * first + second
    yield b"".join(map(base128, [front, *others]))
    if front < 256 and not others:
        yield bytes([front])  # the library reads one octet from 80 on so, which X.690 does not have


def marked_forms(tag, value):
    """A DATE, a TIME-OF-DAY, a DATE-TIME or a DURATION: its contents leave out marks."""
    yield "".join(it for place, it in enumerate(value) if place not in MARKS[tag]).encode()
    yield value.encode()


def relative_forms(value):
    yield b"".join(base128(int(it)) for it in value.split(".")[1:])


def real_forms(value):
    """X.690 8.5 and 11.3."""
    if value in REALS:
        yield REALS[value]
    elif found := re.fullmatch(r"(-?)(\d+)(?: \* 2\^(-?\d+))?", value):
        sign, mantissa, exponent = found[1], int(found[2]), next(integer_forms(found[3] or "0"))
        front = 0x80 + (0x40 if sign else 0)
        front += len(exponent) - 1 if len(exponent) < 4 else 3
        size = bytes([len(exponent)]) if len(exponent) > 3 else b""
        yield bytes([front]) + size + exponent + mantissa.to_bytes((mantissa.bit_length() + 7) // 8, "big")
    yield b"\x03" + value.encode()


def time_forms(value):
    """Both types: 2026-11-23T00:43:05.5Z without the marks, of a UTCTime without the century."""
    date, clock = value.split("T")
    yield (date.replace("-", "") + clock.replace(":", "")).encode()


def forms(row):
    """The contents octets that the value of a block without blocks inside may be, the likeliest first."""
    kind, value = row["type"], row["value"]
    if "octets" in row:
        yield bytes.fromhex(row["octets"])
    elif kind in ENCODINGS:
        yield from (value.encode(it) for it in ENCODINGS[kind])
    elif kind == "BOOLEAN":
        yield b"\xff" if value else b"\x00"
    elif kind in ("INTEGER", "ENUMERATED"):
        yield from long_forms(row) if value is None else integer_forms(value)
    elif kind in TEXTS:
        yield value.encode()
    elif kind == "REAL":
        yield from real_forms(value)
    elif kind == "RELATIVE-OID":
        yield from relative_forms(value)
    elif kind == "BIT STRING":
        yield from bit_string_forms(value)
    elif kind == "OBJECT IDENTIFIER":
        yield from long_forms(row) if value is None else identifier_forms(value)
    elif kind == "UTCTime":
        yield from time_forms(value[2:])
    elif kind == "GeneralizedTime":
        yield from time_forms(value)
    elif kind == "NULL":
        yield b""
    elif row["class"] == "universal" and row["tag"] in MARKS:
        yield from marked_forms(row["tag"], value)
    elif row["class"] == "universal" and row["tag"] in IRIS:
        yield value.encode()
    else:
        yield bytes.fromhex(value)


def contents_of(row):
    wanted, made = row["size"] - row["header"], []
    for octets in forms(row):
        if len(octets) == wanted:
            return octets
        made.append(len(octets))
    sizes = " or ".join(map(str, made))
    raise Different(row, f"{row['type'] or 'the block'} has {wanted} bytes of contents, its value makes {sizes}")


def is_opened(row):
    """Whether its contents are blocks, which have rows of their own."""
    return row["constructed"] or row["type"] in ("SEQUENCE", "SET")


def is_end(row):
    """Whether it is the end-of-contents octets of an indefinite length; others have a value."""
    return row["type"] == "end-of-contents" and row["value"] is None and not row["constructed"]


def checked_header(row):
    """The identifier and length octets, if the row tells its block."""
    if "fault" in row:
        raise Different(row, row["fault"]["text"])
    for broken in row.get("not_der", []):
        if broken["rule"] == LOST:
            raise Different(row, f"not DER: {broken['text']}")
    header = header_of(row)
    if len(header) != row["header"]:
        raise Different(row, f"the header has {row['header']} bytes, the shortest has {len(header)}")
    return header


def rebuild(rows):
    """The document of these rows, which are the `blocks` of a line."""
    # of the blocks that are open, the outermost first: where each ends, of an indefinite length None
    parts, offset, ends = [], 0, []
    for row in rows:
        while ends and ends[-1] == offset:
            ends.pop()
        if row["offset"] != offset or row["depth"] != len(ends):
            raise Different(row, f"a block at offset {offset}, depth {len(ends)} comes next")
        header = checked_header(row)
        if is_end(row):
            if not ends or ends.pop() is not None:
                raise Different(row, "no block of indefinite length ends here")
            parts.append(END)
            offset += len(END)
        elif is_opened(row):
            parts.append(header)
            ends.append(None if row["size"] is None else offset + row["size"])
            offset += row["header"]
        else:
            parts += [header, contents_of(row)]
            offset += row["size"]
    if any(end != offset for end in ends):
        raise Different(rows[-1], "blocks are missing behind this one")
    return b"".join(parts)


def main():
    if len(sys.argv) > 1:
        print(__doc__.strip())
        sys.exit(0 if sys.argv[1:] == ["--help"] else 2)
    if hasattr(sys, "set_int_max_str_digits"):
        sys.set_int_max_str_digits(0)
    documents = []
    for number, line in enumerate(sys.stdin.buffer, 1):
        try:
            read = json.loads(line)
            if "not_der" in read:
                sys.exit(f"line {number}: no document: {read['not_der'][0]['text']}")
            if "fault" in read:
                sys.exit(f"line {number}: no document: {read['fault']['text']}")
            documents.append(rebuild(read["blocks"]))
        except Different as why:
            sys.exit(f"line {number}: {why}")
        except (AttributeError, KeyError, OverflowError, TypeError, ValueError):
            sys.exit(f"line {number}: not a line of der_dump --json")
    sys.stdout.buffer.write(b"".join(documents))


if __name__ == "__main__":
    main()
