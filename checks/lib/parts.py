"""Each block of each certificate reads alone as that block, and two certificates one after another as the blocks of
both.

    checks/run parts [-- FOLDER]    of the certificates of this folder, /etc/ssl/certs unless given; in short each tenth
"""
import collections
import re
import sys

import builds
from certificates import certificates
from compared import answers

# the name of a block with all that stands before its offset, and the offset
BLOCK = re.compile(r"\b((?:Explicit|Unknown)\(\w+, (?:true, |false, )?|[A-Z]\w+\()(\d+)")


def read(program, documents):
    return answers(program, (f"read {it.hex(' ').upper()}\n" for it in documents))


def moved(blocks, by):
    return BLOCK.sub(lambda it: it[1] + str(int(it[2]) + by), blocks)


def encoding_at(octets, offset):
    """The octets of the encoding at the offset, whose tag number is below 31."""
    first = octets[offset + 1]
    count = first - 128 if first > 128 else 0
    length = int.from_bytes(octets[offset + 2 : offset + 2 + count], "big") if count else first
    return octets[offset : offset + 2 + count + length]


def text_at(blocks, start):
    """The text of the block that begins at the place."""
    depth = 0
    for at, it in enumerate(blocks[start:], start):
        depth += (it in "([") - (it in ")]")
        if depth == 0 and it == ")":
            return blocks[start : at + 1]
    raise ValueError(blocks[start:])


def main(words):
    program, documents = builds.program("test_calls"), certificates(*words)
    whole = read(program, documents)
    alone, wanted, kinds = [], [], collections.Counter()
    for octets, blocks in zip(documents, whole):
        for it in BLOCK.finditer(blocks):
            offset = int(it[2])
            alone.append(encoding_at(octets, offset))
            wanted.append(moved(text_at(blocks, it.start()), -offset))
            kinds[it[1].partition("(")[0]] += 1
    sliced = sum(a == b for a, b in zip(read(program, alone), wanted))
    print(f"parts: {sliced} of {len(alone)} blocks of {len(documents)} certificates are read alone as they stand")
    print("parts: " + ", ".join(f"{count} {name}" for name, count in kinds.most_common()))

    pairs = list(zip(range(len(documents)), range(1, len(documents))))
    both = read(program, [documents[a] + documents[b] for a, b in pairs])
    joined = sum(text == f"{whole[a]}, {moved(whole[b], len(documents[a]))}" for text, (a, b) in zip(both, pairs))
    print(f"parts: {joined} of {len(pairs)} pairs of certificates are read as the blocks of both")
    is_well = alone and sliced == len(alone) and joined == len(pairs)
    return 0 if is_well else 1


if __name__ == "__main__":
    sys.exit(main(sys.argv[1:]))
