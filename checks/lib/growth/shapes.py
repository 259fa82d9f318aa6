"""Shapes of documents, by name: functions that make a document of about so many octets.

A careless reader takes more than linear time for some of them: where it looks at what is inside once more for each
encoding around it, where it starts again behind a fault, or where it copies what it has so far. `DOCUMENTS` are octets
in DER or BER, or nearly so; `TEXTS` are other forms that der_dump reads.
"""
import base64
from functools import partial

from x690 import Nest, encoding, externals, header

NULL, CUT_OFF = bytes.fromhex("0500"), bytes.fromhex("0205")
LIST_FRONT = bytes.fromhex("020101 300506032b6570 300c310a300806035504030c0161 170d3236303130313030303030305a")
REVOKED = bytes.fromhex("3021 0210" + 16 * "5a") + bytes.fromhex("170d3236303130313030303030305a")
ALGORITHM, SIGNATURE = bytes.fromhex("300506032b6570"), bytes.fromhex("030200ab")


def nested(*around, inner=NULL):
    """Encodings around encodings, up to the full size. Each of `around` is the leading octet of a level, and what
    stands before and behind the inner encodings, in hex digits; they take turns."""
    parts = [(int(it[0], 16), *map(bytes.fromhex, it[1:])) for it in around]

    def made(size):
        nest, level = Nest(inner), 0
        while nest.size < size:
            nest.around(*parts[level % len(parts)])
            level += 1
        return nest.octets()

    return made


def nested_fronts(front, end="", inner=NULL):
    """So many of these octets, an inner encoding, and as many of the other octets."""
    front, end = bytes.fromhex(front), bytes.fromhex(end)

    def made(size):
        count = size // (len(front) + len(end))
        return front * count + inner + end * count

    return made


def flat(item, end=""):
    """One item after another, and the octets at the end, in hex digits."""
    item, end = bytes.fromhex(item), bytes.fromhex(end)
    return lambda size: item * (size // len(item)) + end


def inside(leading, make, before=b"", after=b""):
    """What is made, inside an encoding with these octets before and behind it."""
    return lambda size: encoding(leading, before + make(size) + after)


def long_lengths(size):
    """SEQUENCEs inside one another, each with a length of eight octets."""
    octets, fronts = NULL, []
    total = len(octets)
    while total < size:
        fronts.append(b"\x30\x88" + total.to_bytes(8, "big"))
        total += len(fronts[-1])
    return b"".join(reversed(fronts)) + octets


def long_tags(size):
    """Explicit blocks inside one another, with tag numbers beyond 64 bits."""
    front, fronts, total = bytes.fromhex("BF 8F FF FF FF FF FF FF FF FF 7F"), [], len(NULL)
    while total < size:
        fronts.append(front + header(0, total)[1:])
        total += len(fronts[-1])
    return b"".join(reversed(fronts)) + NULL


def bits_in_bits(size):
    """BIT STRINGs inside one another."""
    nest = Nest(encoding(0x03, b"\x00\xff"))
    while nest.size < size:
        nest.around(0x03, b"\x00")
    return nest.octets()


def external_levels(size):
    return externals(max(1, size // 12), NULL)


def numbers(size, is_reversed=False):
    """INTEGERs, ascending or descending."""
    items = [b"\x02\x03" + (0x10000 + it).to_bytes(3, "big") for it in range(size // 5)]
    return b"".join(reversed(items) if is_reversed else items)


def tagged(size):
    """Items with ascending tags."""
    return b"".join(bytes([0x9F, 0x81 + (it >> 14), 0x80 | it >> 7 & 0x7F, it & 0x7F, 0]) for it in range(size // 5))


def alike(size):
    """SETs of two equal items, inside one another."""
    octets = bytes.fromhex("020105")
    while 2 * len(octets) < size:
        octets = encoding(0x31, octets + octets)
    return octets


def revoked(size):
    """A list of revoked certificates."""
    content = LIST_FRONT + encoding(0x30, REVOKED * (size // len(REVOKED)))
    return encoding(0x30, encoding(0x30, content) + ALGORITHM + SIGNATURE)


def certificate(extensions, subject=b""):
    """A certificate of these extensions and attributes."""
    name = bytes.fromhex("300c310a300806035504030c0161")
    dates = encoding(0x30, 2 * bytes.fromhex("170d3236303130313030303030305a"))
    key = encoding(0x30, ALGORITHM + encoding(0x03, bytes(33)))
    content = bytes.fromhex("a003020102 020105") + ALGORITHM + name + dates + encoding(0x30, subject) + key
    content += encoding(0xA3, encoding(0x30, extensions))
    return encoding(0x30, encoding(0x30, content) + ALGORITHM + SIGNATURE)


def extensions(size):
    """A certificate with many extensions, each of which holds DER."""
    return certificate(bytes.fromhex("3009 0603551d0e 0402 0400") * (size // 11))


def names(size):
    """A certificate whose subject alternative names are many."""
    found = encoding(0x30, bytes.fromhex("8203612e62") * (size // 5))
    return certificate(encoding(0x30, bytes.fromhex("0603551d11") + encoding(0x04, found)))


def attributes(size):
    """A certificate whose subject has many attributes."""
    subject = bytes.fromhex("310a300806035504030c0162") * (size // 12)
    return certificate(bytes.fromhex("3009 0603551d0e 0402 0400"), subject)


def request(size):
    """A certification request of many attributes."""
    attribute = bytes.fromhex("3010 06092a864886f70d010907 3103 0c0161")
    key = encoding(0x30, ALGORITHM + encoding(0x03, bytes(33)))
    content = bytes.fromhex("020100 300c310a300806035504030c0161") + key
    content += encoding(0xA0, attribute * (size // len(attribute)))
    return encoding(0x30, encoding(0x30, content) + ALGORITHM + SIGNATURE)


def signed_items(size):
    """What was signed is many items."""
    return encoding(0x30, encoding(0x30, NULL * (size // 2)) + ALGORITHM + SIGNATURE)


def text(leading, octets, end=b""):
    """A string of characters."""
    return lambda size: encoding(leading, octets * (size // len(octets)) + end)


DOCUMENTS = {
    # inside one another
    "nested SEQUENCEs": nested(["30"]),
    "nested SETs": nested(["31"]),
    "nested explicit blocks": nested(["a0"]),
    "nested blocks of three kinds": nested(["30"], ["31"], ["61"]),
    "nested EXTERNALs": external_levels,
    "nested EXTERNALs that are none": nested(["28"]),
    "nested EMBEDDED PDVs that are none": nested(["2b"]),
    "nested SEQUENCEs between NULLs": nested(["30", "0500", "0500"]),
    "nested SETs in order": nested(["31", "0101ff", ""]),
    "nested SETs out of order": nested(["31", "", "0101ff"]),
    "nested SETs, one of them out of order": nested(["31"], inner=bytes.fromhex("31060201020101ff")),
    "nested SETs, alike": alike,
    "nested long lengths": long_lengths,
    "nested long tags": long_tags,
    "nested primitive SEQUENCEs": nested(["10"]),
    "SEQUENCEs around a fault": nested(["30"], inner=CUT_OFF),
    # attempts
    "nested attempts that hold two": nested(["a0", "", "0500"]),
    "nested attempts, each with a fault": nested(["a0", "", "0205"]),
    "nested attempts around a fault": nested(["a0"], inner=CUT_OFF),
    "nested attempts before a fault": inside(0xA0, nested(["a0"]), after=CUT_OFF),
    "nested attempts with faults in SEQUENCEs": nested(["30"], ["a0", "", "0205"]),
    "nested attempts with a SEQUENCE at fault": nested(["a0", "", "30020205"]),
    "attempts": flat("a0020500"),
    "attempts that hold two": flat("a00405000500"),
    "attempts with faults": flat("a0020205"),
    "attempts in an attempt before a fault": inside(0xA0, flat("a0020500"), after=CUT_OFF),
    "attempts before a fault": flat("a0020500", end="0205"),
    # cut off
    "SEQUENCEs in a SEQUENCE that is cut off": lambda size: header(0x30, size + 9) + flat("30020500")(size),
    "nested SEQUENCEs that are cut off": lambda size: nested(["30"])(size)[: size // 2],
    "headers that promise too much": nested_fronts("3084 7fffffff"),
    "groups around headers that are cut off": flat("3006 04ff0400 0500"),
    "a length beyond eight octets in each": flat("3004 0589 0500"),
    # of the indefinite form
    "nested indefinite lengths": nested_fronts("3080", "0000"),
    "nested indefinite lengths without an end": nested_fronts("3080"),
    "nested indefinite explicit blocks": nested_fronts("a080", "0000"),
    "indefinite groups": flat("3080 0500 0000"),
    "indefinite groups in one": lambda size: b"\x30\x80" + flat("3080 0500 0000")(size) + b"\0\0",
    "ends of contents": flat("0000"),
    # strings in pieces
    "nested strings": nested(["24"], inner=bytes.fromhex("040161")),
    "nested strings of pieces": nested(["24", "040161", "040162"], inner=bytes.fromhex("040161")),
    "nested indefinite strings": nested_fronts("2480", "0000", inner=bytes.fromhex("040161")),
    "nested indefinite strings of pieces": nested_fronts("2480 040161", "0000"),
    "a string of pieces": inside(0x24, flat("040161")),
    "an indefinite string of pieces": lambda size: b"\x24\x80" + flat("040161")(size) + b"\0\0",
    "strings of pieces": flat("2406 040161 040162"),
    "a BIT STRING of pieces": inside(0x23, flat("030200ff")),
    "texts of pieces": flat("2c06 0c0161 0c0162"),
    # side by side
    "NULLs": flat("0500"),
    "empty SEQUENCEs": flat("3000"),
    "groups": flat("3006 04040102 0304"),
    "groups in one": inside(0x30, flat("3006 04040102 0304")),
    "groups of groups": flat("300a 3108 3006 04040102 0304"),
    "BOOLEANs that are marked": flat("01012a"),
    "BOOLEANs before a fault": flat("0101ff", end="0102ffff"),
    "padded INTEGERs": flat("0202 0001"),
    "long lengths": flat("3084 00000002 0500"),
    "long tags": flat("9f8101 00"),
    "padded tags": flat("9f8001 00"),
    "primitive SEQUENCEs": flat("1002 0500"),
    "OBJECT IDENTIFIERs": flat("0603 550403"),
    "times": flat("170d 3236303130313030303030305a"),
    "EXTERNALs": flat("2807 06012a a002 0500"),
    "EXTERNALs that are none": flat("2804 0500 0500"),
    "SETs out of order": flat("3106 020102 0101ff"),
    "a SET in order": inside(0x31, numbers),
    "a SET out of order": inside(0x31, partial(numbers, is_reversed=True)),
    "a SET with its last item out of order": inside(0x31, numbers, after=bytes.fromhex("0101ff")),
    "a SET in order of tags": inside(0x31, tagged),
    "SETs in a SET": inside(0x31, flat("3106 0101ff 020102")),
    # DER in strings
    "nested OCTET STRINGs": nested(["04"]),
    "nested OCTET STRINGs and SEQUENCEs": nested(["30"], ["04"]),
    "nested OCTET STRINGs before a fault": nested(["30"], ["04", "", "0205"]),
    "nested BIT STRINGs": bits_in_bits,
    "OCTET STRINGs of SEQUENCEs": flat("0404 30020500"),
    "an OCTET STRING of groups": inside(0x04, inside(0x30, flat("3006 04040102 0304"))),
    "an OCTET STRING of groups before a fault": inside(0x04, inside(0x30, flat("3006 04040102 0304"), after=CUT_OFF)),
    # long values
    "a long OCTET STRING": text(0x04, b"\xff"),
    "a long UTF8String": text(0x0C, "\u00e9\u4e2d\U0001f600".encode()),
    "a long UTF8String of controls": text(0x0C, b"\x1b"),
    "a long UTF8String with a fault": text(0x0C, b"a", b"\xff"),
    "a long PrintableString": text(0x13, b"a "),
    "a long IA5String": text(0x16, b"<&>\""),
    "a long NumericString": text(0x12, b"12 "),
    "a long VisibleString": text(0x1A, b"visible "),
    "a long GeneralizedTime": lambda size: encoding(0x18, b"20260101000000." + b"1" * size + b"Z"),
    "a long binary REAL": lambda size: encoding(0x09, b"\x80\x01" + b"\x01" * size),
    "a long exponent of a REAL": lambda size: encoding(0x09, b"\x83\xff\x01" + b"\x01" * 254 + b"\x01" * size),
    "a long decimal REAL": lambda size: encoding(0x09, b"\x03" + b"1" * size + b".E+0"),
    "a long ENUMERATED": lambda size: encoding(0x0A, b"\x7f" + b"\xff" * size),
    "a long RELATIVE-OID": lambda size: encoding(0x0D, b"\x81" * size + b"\x01"),
    "a long OID-IRI": lambda size: b"\x1f\x23" + header(0, 4 * (size // 4))[1:] + b"/ISO" * (size // 4),
    "a long DURATION": lambda size: b"\x1f\x22" + header(0, size)[1:] + b"1" * (size - 1) + b"Y",
    "a long TIME": lambda size: encoding(0x0E, b"1" * size),
    # of known types
    "a list of revoked certificates": revoked,
    "a certificate of many extensions": extensions,
    "a certificate of many names": names,
    "a certificate of many attributes": attributes,
    "a request of many attributes": request,
    "many items that are signed": signed_items,
}

# of these types, as the library knows them
KINDS = {"a certificate of": "certificate", "a request of": "request", "a list of": "list"}


def kind_of(name):
    """The kind of a document, or none."""
    return next((kind for begin, kind in KINDS.items() if name.startswith(begin)), None)


# of which der_dump writes an account
ACCOUNTED = {it for it in DOCUMENTS if kind_of(it)}


def hex_digits(size):
    return DOCUMENTS["groups"](size // 2).hex().encode()


def pem_objects(size):
    """Objects of PEM, one behind the other."""
    octets = base64.encodebytes(DOCUMENTS["groups"](24))
    return (b"-----BEGIN X-----\n" + octets + b"-----END X-----\n") * (size // 70)


def pem_object(size):
    return b"-----BEGIN X-----\n" + base64.encodebytes(DOCUMENTS["groups"](size * 3 // 4)) + b"-----END X-----\n"


def source(size):
    """An array in C."""
    return b"{" + b", ".join(b"0x%02x" % it for it in DOCUMENTS["groups"](size // 6)) + b"}"


def columns(size):
    """As xxd prints octets."""
    octets = DOCUMENTS["groups"](size // 4)
    lines = (f"{at:08x}: {octets[at:at + 16].hex(' ', 2)}  ................\n" for at in range(0, len(octets), 16))
    return "".join(lines).encode()


def among_words(size):
    """Documents in base64, in an array of JSON."""
    word = b'"' + base64.b64encode(DOCUMENTS["groups"](24)) + b'"'
    return b'{"x5c": [' + b", ".join([word] * (size // 36)) + b"]}"


def lines_among_words(size):
    """Base64 in lines, behind a line of words."""
    return b"A document:\n" + base64.encodebytes(DOCUMENTS["groups in one"](size * 3 // 4))


def array_among_words(size):
    """An array in Go."""
    return b"document := []byte" + source(size)


def commented_pem(size):
    """An object of PEM in a comment."""
    return b"".join(b"# " + line for line in pem_object(size).splitlines(keepends=True))


def without_mark(size):
    """Hex digits in UTF-16 without a byte order mark."""
    return hex_digits(size // 2).decode().encode("utf-16-le")


def plain_words(size):
    """Text that has no document, of words that are symbols of base64, hex digits or numbers."""
    return b"A dead cafe, 48 bags of MIIB and 30 beds: face it, at 06:00 abe faded.\n" * (size // 71)


# which der_dump does not read
UNREAD = {"words without a document"}

TEXTS = {
    "hex digits": hex_digits,
    "many objects of PEM": pem_objects,
    "an object of PEM": pem_object,
    "an array in C": source,
    "columns of hex digits": columns,
    "documents among words": among_words,
    "lines of base64 among words": lines_among_words,
    "an array among words": array_among_words,
    "a commented object of PEM": commented_pem,
    "text in UTF-16 without a mark": without_mark,
    "words without a document": plain_words,
}
