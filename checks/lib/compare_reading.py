"""What documents hold is read as a plain recursive reader reads it.

    checks/run changes [-- FOLDER]    of certificates of this folder, /etc/ssl/certs unless given

The documents are the prefixes of three certificates, and these with each octet changed to each other value, in short
each 30th octet.
"""
import collections
import functools
import multiprocessing
import sys

import builds
import reader
from certificates import certificates
from changed import changed_at
from compared import answers
from short import part


def checked(program, documents):
    """How many of the documents are answered otherwise, and how often each answer came, by its first words."""
    wanted = [reader.read(it) for it in documents]
    wrong, kinds = 0, collections.Counter()
    for call, at in (("read", 0), ("count", 1)):
        given = answers(program, (f"{call} {it.hex().upper()}\n" for it in documents))
        wrong += len(documents) if len(given) != len(wanted) else sum(a != b[at] for a, b in zip(given, wanted))
    for answer, _ in wanted:
        kinds[" ".join(answer.split()[:2]) if answer.startswith("refused") else "read"] += 1
    return wrong, kinds


def main(words):
    program, folder = builds.program("test_calls"), words[0] if words else ""
    # the smallest, the one in the middle of the smaller half, and the greatest of that half
    found = sorted(certificates(folder), key=len)[:76]
    total, bad = 0, 0
    with multiprocessing.Pool() as pool:
        for octets in (found[0], found[len(found) // 2], found[-1]):
            tasks = [[octets[:it] for it in range(1, len(octets))]]
            tasks += map(functools.partial(changed_at, octets), part(range(len(octets)), 30))
            wrong, kinds = 0, collections.Counter()
            for some, more in pool.imap_unordered(functools.partial(checked, program), tasks):
                wrong, kinds = wrong + some, kinds + more
            print(f"changes: {len(octets)} octets: {sum(kinds.values())} documents, {wrong} wrong: " +
                  ", ".join(f"{count} {name}" for name, count in kinds.most_common()))
            total, bad = total + sum(kinds.values()), bad + wrong
    print(f"changes: {total} documents, {bad} wrong")
    return 0 if total and not bad else 1


if __name__ == "__main__":
    sys.exit(main(sys.argv[1:]))
