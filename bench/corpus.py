"""Makes the documents that are timed: corpus.py FOLDER. The octets are the same each time, given the same certificates.

NAME.1.der, NAME.2.der and NAME.4.der are of one kind, each twice as large as the one before; certificates/ has Debian's
root certificates (package ca-certificates), a file each. The writer is of its own, so that no library that is measured
makes what it reads."""
import base64
import pathlib
import random
import sys

TO = pathlib.Path(sys.argv[1])
CERTIFICATES = pathlib.Path("/usr/share/ca-certificates/mozilla")


def encoding(first, contents):
    size = len(contents)
    if size < 128:
        return bytes([first, size]) + contents
    octets = size.to_bytes((size.bit_length() + 7) // 8, "big")
    return bytes([first, 128 | len(octets)]) + octets + contents


def sequence(*items):
    return encoding(0x30, b"".join(items))


def base128(number):
    octets = [number & 127]
    while number := number >> 7:
        octets.append(128 | number & 127)
    return bytes(reversed(octets))


def identifier(text):
    first, second, *others = map(int, text.split("."))
    return encoding(6, base128(40 * first + second) + b"".join(map(base128, others)))


def integer(number):
    return encoding(2, number.to_bytes(number.bit_length() // 8 + 1, "big", signed=True))


def utc_time(chance):
    year, month, day = chance.randrange(15, 25), chance.randrange(1, 13), chance.randrange(1, 29)
    clock = chance.randrange(24), chance.randrange(60), chance.randrange(60)
    return encoding(0x17, b"%02d%02d%02d%02d%02d%02dZ" % (year, month, day, *clock))


def generalized_time(n):
    fraction = [b"", b".3", b".123456789"][n % 3]
    return encoding(0x18, b"20%02d0521%02d%02d%02d%sZ" % (n % 100, n % 24, n % 60, n % 59, fraction))


def bundle(n):
    """One SEQUENCE of certificates, of some n megabytes."""
    return encoding(0x30, ALL * (1_000_000 // len(ALL)) * n)


def list_of_revoked(n):
    """A CertificateList of 5,000 n entries; its signature is made up."""
    chance = random.Random(6)
    name = sequence(
        encoding(0x31, sequence(identifier("2.5.4.6"), encoding(0x13, b"DE"))),
        encoding(0x31, sequence(identifier("2.5.4.10"), encoding(0x0C, "Prüfstelle".encode()))),
        encoding(0x31, sequence(identifier("2.5.4.3"), encoding(0x13, b"Issuing CA 1"))),
    )
    algorithm = sequence(identifier("1.2.840.113549.1.1.11"), b"\x05\x00")
    entries = []
    for _ in range(5_000 * n):
        reason = encoding(4, encoding(0x0A, bytes([chance.randrange(1, 6)])))
        entries.append(sequence(
            integer(chance.randrange(1 << 120, 1 << 127)),
            utc_time(chance),
            sequence(sequence(identifier("2.5.29.21"), reason)),
        ))
    number = sequence(identifier("2.5.29.20"), encoding(4, integer(4711)))
    content = sequence(
        integer(1), algorithm, name, encoding(0x17, b"250101000000Z"), encoding(0x17, b"250201000000Z"),
        sequence(*entries), encoding(0xA0, sequence(number)),
    )
    return sequence(content, algorithm, encoding(3, b"\x00" + chance.randbytes(256)))


def integers(n):
    return sequence(integer(5) * (100_000 * n))


def long_integers(n):
    """Of 33 octets, and of 4,096, where every other is negative."""
    chance = random.Random(7)
    short = [integer(chance.randrange(1 << 255, 1 << 256)) for _ in range(1_000 * n)]
    return sequence(*short, *(integer(chance.randrange(1 << 32_760, 1 << 32_767) * (-1) ** i) for i in range(64 * n)))


def text(n):
    items = []
    for i in range(1_000 * n):
        items.append(encoding(0x13, b"Example Trust Services GmbH, %05d" % i))
        items.append(encoding(0x0C, f"Größe und Maß der Prüfung {i:05}".encode()))
        items.append(encoding(0x16, b"http://crl.example.org/%05d.crl" % i))
    return sequence(*items)


def identifiers(n):
    usual = [
        "1.2.840.113549.1.1.11", "2.5.4.3", "2.5.29.15", "1.3.6.1.5.5.7.3.1", "1.3.6.1.4.1.11129.2.4.2",
        "2.16.840.1.101.3.4.2.1", "1.2.840.10045.3.1.7", "0.9.2342.19200300.100.1.25",
    ]
    return sequence(b"".join(map(identifier, usual)) * (625 * n))


def times(n):
    chance = random.Random(8)
    return sequence(*(utc_time(chance) + generalized_time(i) for i in range(2_500 * n)))


def around(first, levels, octets, after=b""):
    """`octets` in so many encodings, with `after` behind it in each."""
    fronts, size = [], len(octets)
    for _ in range(levels):
        size += len(after)
        front = encoding(first, bytes(size))[:-size]
        fronts.append(front)
        size += len(front)
    return b"".join(reversed(fronts)) + octets + after * levels


def failures(n):
    """Context tags that say that a block is inside, where two are, around one another."""
    return around(0xA0, 1_000 * n, bytes.fromhex("A00405000500"), bytes.fromhex("0500"))


def nested(n):
    return around(0x30, 4_000 * n, bytes.fromhex("0500"))


def subidentifier(n):
    """One object identifier of one number of 2,048 n digits in base 128."""
    digits = bytes(128 | octet for octet in random.Random(9).randbytes(2_048 * n - 2))
    return encoding(6, b"\x2A\x81" + digits + b"\x01")


def main():
    (TO / "certificates").mkdir(parents=True, exist_ok=True)
    for number, octets in enumerate(ROOTS):
        (TO / "certificates" / f"{number:03}.der").write_bytes(octets)
    kinds = [bundle, list_of_revoked, integers, long_integers, text, identifiers, times]
    for kind in [*kinds, failures, nested, subidentifier]:
        for n in (1, 2, 4):
            (TO / f"{kind.__name__}.{n}.der").write_bytes(kind(n))


def root(file):
    body = file.read_text().split("-----BEGIN CERTIFICATE-----")[1].split("-----END CERTIFICATE-----")[0]
    return base64.b64decode("".join(body.split()))


ROOTS = [root(file) for file in sorted(CERTIFICATES.glob("*.crt"))]
ALL = b"".join(ROOTS)
if not ROOTS:
    sys.exit("corpus.py: install the package ca-certificates")
main()
