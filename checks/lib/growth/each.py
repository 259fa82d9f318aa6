"""each.py FILE..: makes each call of the package simple_asn1 that takes a document on each of these, and prints its
name, the processor time that it took, in microseconds, and its status. Each block is asked for what costs no more than
its own octets: the octets of blocks inside one another are viewed, not copied."""
import contextlib
import pickle
import sys
import time

import simple_asn1
from simple_asn1 import Status, outline, read

PATHS = simple_asn1.Paths((0,), (0, 0), (0,) * 1_000, (5, 3))
VALUES = "integer", "moment", "text", "oid", "bits"


def walked(blocks):
    """Goes through all blocks, each by its iterator."""
    rest = [iter(blocks)]
    while rest:
        block = next(rest[-1], None)
        if block is None:
            rest.pop()
        else:
            rest.append(iter(block))


def descended(place):
    """Goes down from the first block, or the last, to one without items, each by its index."""
    def gone(octets):
        block = read(octets)[place]
        while len(block) > 0:
            block = block[place]

    return gone


def asked(block):
    """Asks for a value of each kind, which a block of another kind, or one at fault, does not have."""
    for name in VALUES:
        with contextlib.suppress(simple_asn1.Refused):
            getattr(block, name)


def each(take):
    """Takes something of each block of the document, which is read by its headers."""
    def taken(octets):
        for block in outline(octets).all_blocks:
            take(block)

    return taken


CALLS = {
    "read": read,
    "strict": simple_asn1.read_strict,
    "outline": outline,
    "check": simple_asn1.check,
    "rewrite": simple_asn1.rewrite,
    "departures": simple_asn1.departures,
    "signed": simple_asn1.Signed,
    "certificate": simple_asn1.Certificate,
    "request": simple_asn1.CertificationRequest,
    "list": simple_asn1.RevocationList,
    "values": PATHS.values,
    "write": lambda octets: simple_asn1.write(octets, read(octets).records),
    "pickled": lambda octets: pickle.loads(pickle.dumps(read(octets))),
    "walk": lambda octets: walked(read(octets)),
    "slices": lambda octets: [block[:1] + block[-1:] for block in read(octets).all_blocks],
    "items": each(lambda block: block.items[:1]),
    "first": descended(0),
    "last": descended(-1),
    "repr": each(repr),
    "views": each(lambda block: (block.octets_view, block.contents_view)),
    "equal": each(lambda block: hash(block) == hash(block) and block == block),
    "asked": each(asked),
}


def status_of(call, octets):
    try:
        call(octets)
    except simple_asn1.Refused as why:
        return int(why.status)
    return int(Status.OK)


for path in sys.argv[1:]:
    with open(path, "rb") as file:
        octets = file.read()
    for name, call in CALLS.items():
        begun = time.process_time()
        status = status_of(call, octets)
        print(name, round((time.process_time() - begun) * 1e6), status)
