"""Departures from DER, each at its offset, are those that a plain recursive reader lists.

    checks/run departures [-- FOLDER]    of the certificates of this folder, /etc/ssl/certs unless given

The documents are these certificates, three of them and the rows of `departures` with each octet changed to each
other value, and the rows joined by chance, in the indefinite form too. Then a million encodings stand inside one
another, on a stack of 256 kB. In short each tenth certificate is taken, and each 30th change.
"""
import sys
from functools import partial

import builds
import departures
from calls import rows_of_call
from changed import indefinite, joined, of_certificates
from compared import answers, compare_all, is_deep, status
from short import part
from x690 import externals, nested

MIXTURES = 50_000
DEEP = [("SEQUENCEs", partial(nested, 0x30), "0500", "none"), ("SETs", partial(nested, 0x31), "0500", "none"),
        ("explicit blocks", partial(nested, 0xA0), "010101", "{} BooleanValue"),
        ("EXTERNALs", externals, "0500", "none"), ("EXTERNALs", externals, "010101", "{} BooleanValue")]


class Answered:
    """The departures of documents, each at its offset; of a fault its place alone."""

    name = "departures"

    def __init__(self, program):
        self.program = program

    def line(self, octets):
        return f"departures {octets.hex()}\n"

    def given(self, documents):
        lines = answers(self.program, map(self.line, documents))
        return [it[it.rindex("at ") :] if it.startswith("refused ") else it for it in lines]

    def wanted(self, octets):
        found = departures.departures(octets)
        if isinstance(found, int):
            return f"at {found}"
        return ", ".join(f"{offset} {rule}" for offset, rule in found) or "none"

    def is_counted(self, answer):
        return answer != "none"


def documents(folder):
    parts = rows_of_call("departures")
    yield from of_certificates(folder, parts)
    for seed in part(range(MIXTURES), 30):
        yield joined(parts, seed)
        yield indefinite(parts, seed)


def main(words):
    answered, folder = Answered(builds.program("test_calls")), words[0] if words else ""
    # (the program takes no empty line)
    found = filter(None, documents(folder))
    total, broken, wrong = compare_all(answered, found)
    print(f"departures: {total} documents, {broken} of them with some, {len(wrong)} wrong")
    return status(total, wrong, [is_deep(answered, *it) for it in DEEP])


if __name__ == "__main__":
    sys.exit(main(sys.argv[1:]))
