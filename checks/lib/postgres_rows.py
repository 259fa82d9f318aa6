"""Documents that der_blocks reads in parts, and the rows that it has to return, by the library's records for Python.

    postgres_rows.py    prints a line each for COPY: the bytes, the number of rows, and the MD5 sum of the rows' text

A part has 65,536 bytes. The documents are nested, have large blocks side by side, or hold octets that are no blocks.
"""
import hashlib
import random

import simple_asn1
from x690 import Nest, encoding, length_octets, nested

MOST_IDENTIFIER_OCTETS = 1024
NULL = bytes([5, 0])


def tag_of(octets, record):
    """The tag number, which a record has up to 2^64 - 2 alone; nothing where it has too many octets."""
    if record.tag < 2**64 - 1:
        return str(record.tag)
    number, at = 0, record.offset + 1
    while True:
        number = number * 128 + octets[at] % 128
        if octets[at] < 128:
            return str(number) if at - record.offset < MOST_IDENTIFIER_OCTETS else ""
        at += 1


def rows_of(octets):
    for index, it in enumerate(simple_asn1.read(octets).records):
        yield ",".join([
            *map(str, (index, it.depth, it.tag_class)), tag_of(octets, it),
            *map(str, (it.offset, it.header + it.contents, it.items, it.header)), "t" if it.constructed else "f",
        ])  # fmt: skip


def chain(levels, leading, before, after):
    nest = Nest(NULL)
    for level in range(levels):
        nest.around(leading[level % len(leading)], before, after)
    return nest.octets()


def halves(depth, leaf):
    """Two of these inside one, to some depth."""
    inner = halves(depth - 1, leaf) if depth else leaf
    return encoding(0x30 if depth % 2 else 0xA1, inner * 2)


def grown(chance, size):
    """A document of about so many bytes in which all of this comes at random."""
    if size < 40 or chance.random() < 0.1:
        return chance.choice([
            lambda: encoding(4, bytes(size)),
            lambda: NULL * (size // 2 + 1),
            lambda: bytes([0x9F]) + b"\xff" * size + b"\x7f\x00",
            lambda: encoding(0xA3, b"\xff" * size),
            lambda: encoding(0xA4, NULL * (size // 2) + b"\x01\x00"),
            lambda: encoding(0xA2, b"") + encoding(0x30, b""),
        ])()  # fmt: skip
    parts, left = [], size
    while left > 0:
        share = left if chance.random() < 0.3 else chance.randrange(1, left + 1)
        parts.append(grown(chance, share))
        left -= share
    return encoding(chance.choice([0x30, 0x31, 0xA0, 0x65, 0xE1]), b"".join(parts))


def documents():
    text = encoding(0x0C, b"A" * 70_000)
    junk = encoding(0xA1, b"\xff" * 70_000)
    for leading in ([0x30], [0xA0], [0x30, 0xA0]):
        yield nested(leading[0], 20_000)
        yield chain(12_000, leading, b"", NULL)
        yield chain(12_000, leading, NULL, b"")
        yield chain(20, leading, text if leading == [0x30] else NULL * 3_000, junk if leading == [0xA0] else NULL)
    yield halves(5, NULL * 2_000)
    yield halves(3, text) + halves(2, junk) + NULL
    yield text
    yield junk
    yield encoding(0xA0, junk + encoding(0xA0, NULL * 40_000 + b"\x01\x00") + NULL) + text * 2
    # just as large as a part, with a header and without one, and one byte more
    for size in range(65_530, 65_538):
        yield encoding(4, bytes(size))
        yield encoding(0x30, encoding(4, bytes(size)) + NULL)
    # a tag that is as long as a part, of items and of none
    long_tag = b"\xff" * 70_000 + b"\x7f"
    yield b"\x9f" + long_tag + b"\x00" + b"\xbf" + long_tag + length_octets(80_000) + NULL * 40_000
    for seed in range(12):
        chance = random.Random(seed)
        yield grown(chance, chance.randrange(70_000, 600_000))


def main():
    for octets in documents():
        rows = list(rows_of(octets))
        print(rf"\\x{octets.hex()}", len(rows), hashlib.md5("\n".join(rows).encode()).hexdigest(), sep="\t")


if __name__ == "__main__":
    main()
