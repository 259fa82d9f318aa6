"""Documents with octets changed, for comparisons with a plain reader."""
import random

from certificates import certificates
from short import part
from x690 import encoding

ODD = (0, 1, 0x1F, 0x30, 0x31, 0x7F, 0x80, 0xFF)
SMALL = 40  # octets, of which each is changed


def each_changed(octets):
    for place in range(len(octets)):
        yield from changed_at(octets, place)


def changed_at(octets, place):
    """The octets with the one at the place changed to each other value."""
    return [octets[:place] + bytes([it]) + octets[place + 1 :] for it in range(256) if it != octets[place]]


def of_certificates(folder, parts):
    """The certificates of a folder; and three of them, and each part that is small, with each octet changed to each
    other value, in short to each 30th of these."""
    found = sorted(certificates(folder), key=len)
    yield from found
    half = found[: len(found) // 2 + 1]
    for octets in (half[0], half[len(half) // 2], half[-1], *(it for it in parts if len(it) < SMALL)):
        yield from part(each_changed(octets), 30)


def joined(parts, seed):
    """Two of the encodings inside a SEQUENCE, a SET or another class, one octet of them perhaps changed."""
    chance = random.Random(seed)
    contents = bytearray(chance.choice(parts) + chance.choice(parts))
    if chance.random() < 0.7 and contents:
        contents[chance.randrange(len(contents))] = chance.choice(ODD)
    return encoding(chance.choice((0x30, 0x31, 0x31, 0xA0)), bytes(contents))


def indefinite(parts, seed):
    """Such encodings, some inside others of the indefinite form, end-of-contents octets perhaps missing."""
    chance = random.Random(seed)
    octets = b""
    for _ in range(chance.randrange(1, 5)):
        octets = chance.choice((b"", octets)) + chance.choice(parts) + chance.choice((b"", b"", b"\0\0"))
        form = chance.random()
        if form < 0.5:
            octets = bytes([chance.choice((0x30, 0x31, 0x24, 0xA0)), 0x80]) + octets
            octets += b"\0\0" if chance.random() < 0.8 else b""
        elif form < 0.8:
            octets = encoding(chance.choice((0x30, 0x31, 0xA0)), octets)
    return octets
