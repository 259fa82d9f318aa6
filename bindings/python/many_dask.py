"""Counts the certificates of logs on the machines of a Dask cluster: many_dask.py SCHEDULER LOG..

A log has a certificate in base64 on each line. Each worker must find the logs under these names, and the package
simple_asn1. Issuers, types of keys and last years are counted, and lines at fault are listed with why. Texts of names
are escaped by certificate.py, which is beside this file: none makes a line. The part that a lost worker was to read is
read by another one; Dask's dashboard shows how far the parts are."""
import base64
import collections
import functools
import os
import sys

import simple_asn1
from certificate import escaped

PART = 1 << 22  # bytes of a log that one task reads


def names(octets):
    """The attributes of a Name, of which it has any number: types, and texts, or octets where there is no text."""
    attributes = [attribute for names in simple_asn1.read(octets)[0] for attribute in names]
    return tuple((it[0].oid, getattr(it[1], "text", it[1].octets)) for it in attributes)


def kinds(octets):
    """The OBJECT IDENTIFIERs of an AlgorithmIdentifier."""
    return " ".join(kind.oid for kind in simple_asn1.read(octets)[0] if hasattr(kind, "oid"))


def facts(octets, names, kinds):
    found = simple_asn1.Certificate(octets)
    _, until = found.validity
    return [("issuer", names(found.issuer)), ("key", kinds(found.public_key_algorithm_identifier)),
            ("until", str(until.year))]  # fmt: skip


def count(path, start, end=None):
    """For the lines that begin from `start` to `end`: how many they are, their counts, and which are at fault."""
    number, counts, faults = 0, collections.Counter(), []
    # most certificates have one of a few issuers
    known_names, known_kinds = functools.lru_cache(4096)(names), functools.lru_cache(4096)(kinds)
    with open(path, "rb") as log:
        log.seek(max(start - 1, 0))
        if start:
            log.readline()
        while (end is None or log.tell() < end) and (line := log.readline()):
            number += 1
            try:
                octets = base64.b64decode(line.rstrip(), validate=True)
                counts.update(facts(octets, known_names, known_kinds))
            except ValueError as why:
                faults.append((number, f"{type(why).__name__}: {why}"))
    return number, counts, faults


def joined(parts, results):
    """The counts of all parts, and each line at fault with its log and its number there."""
    counts, faults, lines = collections.Counter(), [], collections.Counter()
    for (path, *_), (number, more, found) in zip(parts, results):
        counts.update(more)
        faults += [(path, lines[path] + line, why) for line, why in found]
        lines[path] += number
    return counts, faults


def shown(what, value):
    """A counted value on one line."""
    if what != "issuer":
        return value
    texts = ((kind, escaped(it) if isinstance(it, str) else f"#{it.hex()}") for kind, it in value)
    return ", ".join(f"{kind}={text}" for kind, text in texts)


def report(counts):
    """A line for each count, the greatest first."""
    rows = [(what, -number, shown(what, value)) for (what, value), number in counts.items()]
    return [f"{-number:9} {what} {text}" for what, number, text in sorted(rows)]


def main(scheduler, *logs):
    from distributed import Client

    parts = [(path, at, at + PART) for path in logs for at in range(0, os.path.getsize(path), PART)]
    with Client(scheduler) as cluster:
        counts, faults = joined(parts, cluster.gather(cluster.map(lambda part: count(*part), parts, pure=False)))
    for path, line, why in faults:
        print(escaped(f"{path}:{line}: {why}"), file=sys.stderr)
    for line in report(counts):
        print(line)


if __name__ == "__main__":
    main(*sys.argv[1:])
