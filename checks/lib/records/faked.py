"""Certificates whose names would show as others, with what the examples have to show of them.

faked.py FOLDER: writes NAME.der and NAME.txt there.
"""
import pathlib
import sys

CN, O, OTHER = bytes.fromhex("550403"), bytes.fromhex("55040a"), bytes.fromhex("2a03")
TIMES = "\nnot before: 2026-11-23T07:03:22Z\nnot after: 2036-11-23T07:03:22.500000000Z\n"


def block(tag, *items):
    contents = b"".join(items)
    if len(contents) < 128:
        return bytes([tag, len(contents)]) + contents
    size = (len(contents).bit_length() + 7) // 8
    return bytes([tag, 128 + size]) + len(contents).to_bytes(size, "big") + contents


def certificate(attributes):
    """A certificate whose subject and issuer have these attributes: a type, the tag of a value, and the value."""
    names = [block(0x31, block(0x30, block(6, kind), block(tag, value))) for kind, tag, value in attributes]
    times = block(0x30, block(23, b"261123070322Z"), block(24, b"20361123070322.5Z"))
    algorithm = block(0x30, block(6, b"\x2a"))
    version, serial = block(0xA0, block(2, b"\x02")), block(2, b"\x01")
    name, key = block(0x30, *names), block(0x30, algorithm, block(3, b"\x00"))
    content = block(0x30, version, serial, algorithm, name, times, name, key)
    return block(0x30, content, algorithm, block(3, b"\x00\x99"))


CERTIFICATES = {
    "cut": ([(CN, 12, b"good.org\0.evil.example")], r"CN=good.org\u{0}.evil.example"),
    "turned": ([(O, 12, "Fő\u202e\u0085\\ \U0001F600".encode())], r"O=Fő\u{202e}\u{85}\u{5c} " + "\U0001F600"),
    "controls": ([(CN, 22, b"\xe9\x1b[31m")], r"CN=é\u{1b}[31m"),
    "no-text": ([(OTHER, 4, b"\x01\x02"), (CN, 19, b"a")], "1.2.3=#04020102 CN=a"),
    "large": ([(CN, 12, b"y" * 200000), (O, 19, b"z")], f"CN={'y' * 200000} O=z"),
    "line": ([(CN, 12, b"a\nnot before: 1999")], r"CN=a\u{a}not before: 1999"),
    "attribute": ([(CN, 12, b"a O=b"), (O, 12, b"#0402")], r"CN=a O\u{3d}b O=\u{23}0402"),
    "unseen": (
        [(CN, 12, "\xad\u034f\u061c\u115f\u17b5\u180e\u2028\u2066".encode()),
         (O, 12, "\u3164\ufe0f\uffa0\ufffb\U0001d173\U000e0041".encode())],
        r"CN=\u{ad}\u{34f}\u{61c}\u{115f}\u{17b5}\u{180e}\u{2028}\u{2066}"
        r" O=\u{3164}\u{fe0f}\u{ffa0}\u{fffb}\u{1d173}\u{e0041}",
    ),
}


def main(folder):
    for name, (attributes, shown) in CERTIFICATES.items():
        (folder / f"{name}.der").write_bytes(certificate(attributes))
        (folder / f"{name}.txt").write_text(f"subject: {shown}{TIMES}", encoding="utf-8")


if __name__ == "__main__":
    main(pathlib.Path(sys.argv[1]))
