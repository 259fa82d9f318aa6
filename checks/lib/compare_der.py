"""Documents are DER or not as a plain recursive reader says.

    checks/run der [-- FOLDER]    with the certificates of this folder, /etc/ssl/certs unless given

The documents are these certificates, three of them and the rows of `is_der` with each octet changed to each other
value, and the rows joined by chance. Then a million encodings stand inside one another, on a stack of 256 kB. In short
each tenth certificate is taken, and each 30th change.
"""
import sys
from functools import partial

import builds
import der
from changed import joined, of_certificates
from compared import answers, compare_all, is_deep, status
from short import part
from x690 import externals, nested

MIXTURES = 100_000
DEEP = [("SEQUENCEs", partial(nested, 0x30), "0500", "true"), ("SETs", partial(nested, 0x31), "0500", "true"),
        ("explicit blocks", partial(nested, 0xA0), "0500", "true"),
        ("SEQUENCEs", partial(nested, 0x30), "0501", "false"), ("EXTERNALs", externals, "0500", "true")]


class Answered:
    """Whether documents are DER."""

    name = "der"

    def __init__(self, program):
        self.program = program

    def line(self, octets):
        return f"is_der {octets.hex()}".strip() + "\n"

    def given(self, documents):
        return answers(self.program, map(self.line, documents))

    def wanted(self, octets):
        return "true" if der.is_der(octets) else "false"

    def is_counted(self, answer):
        return answer == "true"


def documents(folder, rows):
    with open(rows) as lines:
        parts = [bytes.fromhex(it.split(" ", 1)[1]) for it in lines if it.startswith("is_der ")]
    yield from of_certificates(folder, parts)
    for seed in part(range(MIXTURES), 30):
        yield joined(parts, seed)


def main(words):
    answered, folder = Answered(builds.program("test_calls")), words[0] if words else ""
    total, right, wrong = compare_all(answered, documents(folder, builds.CRATES / "test_calls/stdin"))
    print(f"der: {total} documents, {right} of them DER, {len(wrong)} wrong")
    return status(total, wrong, [is_deep(answered, *it) for it in DEEP])


if __name__ == "__main__":
    sys.exit(main(sys.argv[1:]))
