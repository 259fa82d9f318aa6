"""Shows the subject of a certificate and when it is valid: certificate.py < FILE

FILE is DER or PEM.
"""
import re
import sys

import simple_asn1

NAMES = {"2.5.4.3": "CN", "2.5.4.6": "C", "2.5.4.7": "L", "2.5.4.8": "ST", "2.5.4.10": "O", "2.5.4.11": "OU"}
# the signs that the lines below have themselves, and characters that can't be seen or that move what stands beside
# them: of Unicode, Cc, Zl, Zp, Default_Ignorable_Code_Point and U+FFF9 to U+FFFB
HIDDEN = re.compile(
    "[#=\\\\\x00-\x1f\x7f-\x9f\xad\u034f\u061c\u115f\u1160\u17b4\u17b5\u180b-\u180f\u200b-\u200f\u2028-\u202e"
    "\u2060-\u206f\u3164\ufe00-\ufe0f\ufeff\uffa0\ufff0-\ufffb\U0001bca0-\U0001bca3\U0001d173-\U0001d17a"
    "\U000e0000-\U000e0fff]"
)


def is_pem(octets):
    return octets[:1] != b"\x30" and b"-----BEGIN " in octets


def escaped(text):
    """The text, with what would hide or fake a part of it escaped."""
    return HIDDEN.sub(lambda found: f"\\u{{{ord(found[0]):x}}}", text)


def shown(value):
    """The text of a value, escaped; in hex digits where it has none."""
    text = getattr(value, "text", None)
    return "#" + value.octets.hex() if text is None else escaped(text)


def show(certificate):
    subject = simple_asn1.read(certificate.subject)[0]
    attributes = [tuple(attribute) for each in subject for attribute in each]
    print("subject:", *(f"{NAMES.get(kind.oid, kind.oid)}={shown(value)}" for kind, value in attributes))
    not_before, not_after = certificate.validity
    print("not before:", not_before)
    print("not after:", not_after)


def main():
    octets = sys.stdin.buffer.read()
    try:
        show(simple_asn1.Certificate(simple_asn1.pem_objects(octets)[0].octets if is_pem(octets) else octets))
    except simple_asn1.Refused as why:
        sys.exit(f"refused at offset {why.offset}: {simple_asn1.TEXTS.get(why.status, why.status.name)}")
    except ValueError as why:  # of PEM, with its label
        sys.exit(escaped(str(why)))


if __name__ == "__main__":
    main()
