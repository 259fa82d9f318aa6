"""Octets of X.690 that the checks make of their own: length octets, headers, and encodings inside one another."""


def length_octets(size):
    """The length octets of so many contents octets (8.1.3), in the shortest form."""
    octets = size.to_bytes((size.bit_length() + 7) // 8, "big")
    return bytes([size]) if size < 0x80 else bytes([0x80 + len(octets)]) + octets


def header(leading, size):
    """The identifier octet `leading`, and the length octets of so many contents octets."""
    return bytes([leading]) + length_octets(size)


def encoding(leading, contents):
    return header(leading, len(contents)) + contents


class Nest:
    """Encodings around encodings, from the inside out, without copying what is inside."""

    def __init__(self, inner):
        self.fronts, self.inner, self.ends, self.size = [], inner, [], len(inner)

    def around(self, leading, before=b"", after=b""):
        """One more encoding, which holds `before`, what there was, and `after`."""
        self.fronts.append(header(leading, len(before) + self.size + len(after)) + before)
        self.ends.append(after)
        self.size += len(self.fronts[-1]) + len(after)

    def octets(self):
        return b"".join(reversed(self.fronts)) + self.inner + b"".join(self.ends)


def nested(leading, levels, inner=b"\x05\x00"):
    """So many encodings of this identifier octet inside one another, around the inner octets, or a NULL."""
    nest = Nest(inner)
    for _ in range(levels):
        nest.around(leading)
    return nest.octets()


def externals(levels, inner):
    """So many EXTERNALs inside one another (8.18), each with a reference, and the next under [0]."""
    nest = Nest(inner)
    for _ in range(levels):
        nest.around(0xA0)
        nest.around(0x28, b"\x06\x01\x2a")
    return nest.octets()
