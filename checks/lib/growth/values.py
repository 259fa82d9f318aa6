"""values.py CALL FILE: makes a call of the package simple_asn1 on a document, and prints the processor time that it
took, in microseconds, and 0, or 1 for another answer than is right."""
import sys
import time

import simple_asn1


def by_index(blocks):
    """How many blocks there are, each taken by its index."""
    index = 0
    while index < len(blocks):
        blocks[index].tag
        index += 1
    return index


def shown(blocks):
    """The most that is shown of the document and of a block, of all blocks."""
    return max(len(repr(blocks.document)) + len(repr(block)) for block in blocks)


def is_too_long(call):
    """Whether the call refuses to make text of what is too long for it."""
    try:
        call()
    except simple_asn1.Refused as why:
        return why.status == simple_asn1.Status.TOO_LONG


CALLS = {
    "read": lambda octets: len(simple_asn1.read(octets).octets) == len(octets),
    "oid": lambda octets: is_too_long(lambda: simple_asn1.read(octets)[0].oid),
    "hasattr": lambda octets: not hasattr(simple_asn1.read(octets)[0], "integer"),
    "integer": lambda octets: simple_asn1.read(octets)[0].integer > 0,
    "bits": lambda octets: len(simple_asn1.read(octets)[0].bits.octets) > len(octets) - 9,
    "repr": lambda octets: len(repr(simple_asn1.read(octets)[0])) < 200,
    "Signed": lambda octets: is_too_long(lambda: simple_asn1.Signed(octets)),
    "block[i]": lambda octets: by_index(simple_asn1.read(octets)[0]) > len(octets) // 3,
    "document[i]": lambda octets: by_index(simple_asn1.read(octets)) > len(octets) // 3,
    "each-repr": lambda octets: shown(simple_asn1.read(octets)[0]) < 200,
}

call, path = CALLS[sys.argv[1]], sys.argv[2]
with open(path, "rb") as file:
    octets = file.read()
begun = time.process_time()
is_right = call(octets)
print(round((time.process_time() - begun) * 1e6), int(not is_right))
