"""What `der_dump --json --strict` lists of documents is what a plain recursive reader lists, rule by rule and offset by
offset.

    checks/run marks [-- FOLDER]    of the certificates of this folder, /etc/ssl/certs unless given

The documents are these certificates, one of them with octets changed, and encodings of every kind with octets changed
and of the indefinite form. Left out on both sides: documents whose headers do not chain, and what stands inside
strings, inside a SEQUENCE or SET that is primitive, and inside contents that are not encodings, where that reader lists
nothing. In short each tenth certificate is taken, and each tenth change.
"""
import base64
import itertools
import json
import subprocess
import sys

import builds
import departures
from calls import rows_of_call
from certificates import certificates
from changed import each_changed, indefinite, joined
from short import part

COUNT = 500  # documents a run
STEP = 13  # one changed octet of so many is tried
SEQUENCES = ("SEQUENCE", "SET")


def documents(folder):
    """Certificates, the smallest with octets changed, and rows of encodings, put together and changed."""
    found = sorted(certificates(folder), key=len)
    yield from found
    yield from part(itertools.islice(each_changed(found[0]), 0, None, STEP), 10)
    parts = rows_of_call("departures")
    for octets in parts:
        if len(octets) < 12:
            yield from part(itertools.islice(each_changed(octets), 0, None, STEP), 10)
    for seed in part(range(10000), 10):
        yield joined(parts, seed)
        yield indefinite(parts, seed)


def tasks(some):
    rest = filter(None, some)
    return iter(lambda: list(itertools.islice(rest, COUNT)), [])


def pem(some):
    """The documents as objects of PEM, each with its number."""
    texts = (base64.encodebytes(it).decode() for it in some)
    return "".join(f"-----BEGIN X{i}-----\n{text}-----END X{i}-----\n" for i, text in enumerate(texts))


def passed_over(blocks):
    """The ranges of octets in which the reader lists nothing, though der_dump goes into them."""
    for block in blocks:
        rules = [it["rule"] for it in block.get("not_der", [])]
        if "NotEncodings" in rules or (block["type"] in SEQUENCES and block["constructed"] is False):
            yield range(block["offset"] + 1, block["offset"] + block["size"])


def marks_in(blocks, listed):
    """The marks that the reader has to list, of those that der_dump lists."""
    own = {it["offset"] for it in blocks if "not_der" in it}
    ranges = list(passed_over(blocks))
    return [(it["offset"], it["rule"]) for it in listed
            if it["offset"] in own and it["rule"] != "NamedBits" and not any(it["offset"] in r for r in ranges)]


def wrong_marks(some, printed):
    """How many of the documents have marks, and those that are listed otherwise, with both lists."""
    lines = {}
    for line in printed.splitlines():
        read = json.loads(line)
        lines.setdefault(int(read["label"][1:]), {}).update(read)
    wrong, broken = [], 0
    for number, octets in enumerate(some):
        rules = departures.departures(octets)
        if isinstance(rules, int):
            continue
        shown = lines[number]
        marks = marks_in(shown["blocks"], shown.get("not_der", []))
        inside = [it for it in shown.get("not_der", []) if (it["offset"], it["rule"]) not in marks]
        broken += bool(marks)
        if marks != list(map(tuple, rules)) or (not rules and not inside and "not_der" in shown):
            wrong.append((octets, marks, rules))
    return broken, wrong


def main(words):
    program, folder = builds.program("der_dump"), words[0] if words else ""
    total = broken = 0
    wrong = []
    for some in tasks(documents(folder)):
        words = [program, "--json", "--strict"]
        ran = subprocess.run(words, input=pem(some), capture_output=True, text=True, timeout=600)
        number, others = wrong_marks(some, ran.stdout)
        total, broken, wrong = total + len(some), broken + number, wrong + others
    for octets, marks, rules in wrong[:10]:
        print(f"marks: {octets.hex(' ')}: marked {marks}, and the reader lists {rules}")
    print(f"marks: {total} documents, {broken} of them with some, {len(wrong)} wrong")
    return 0 if total and broken and not wrong else 1


if __name__ == "__main__":
    sys.exit(main(sys.argv[1:]))
