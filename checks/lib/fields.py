"""Whether each block of each certificate has a name in JSON, and those of a Certificate the names of RFC 5280, 4.1.

Of each block the path is looked at as well, down to the values of extensions: PARTS has the types of RFC 5280 and, of
keys, of RFC 8017, A.1.1. Each field of the library's call for certificates stands where der_dump has the name: this is
NOT CHECKED without the library for C.

    checks/run fields [-- FOLDER]    of the certificates of this folder, /etc/ssl/certs unless given
"""
import json
import pathlib
import subprocess
import sys

import builds
from certificates import certificates

sys.path.insert(0, str(pathlib.Path(__file__).resolve().parents[2] / "bindings/python"))

# what a block with two around it is in a TBSCertificate: its field and its type, by its tag, or by its place
TAGGED = {0: ("version", "Version"), 1: ("issuerUniqueID", "UniqueIdentifier"),
          2: ("subjectUniqueID", "UniqueIdentifier"), 3: ("extensions", "Extensions")}
PLAIN = [("serialNumber", "CertificateSerialNumber"), ("signature", "AlgorithmIdentifier"), ("issuer", "Name"),
         ("validity", "Validity"), ("subject", "Name"), ("subjectPublicKeyInfo", "SubjectPublicKeyInfo")]
OUTER = [("tbsCertificate", "TBSCertificate"), ("signatureAlgorithm", "AlgorithmIdentifier"), ("signatureValue", None)]

# the fields of a SEQUENCE, each with its tag, a number of class Universal or in brackets, and its type; what a SEQUENCE
# OF or SET OF has; what stands in an explicit tag or in octets of a string
ANY = object()
PARTS = {
    "Certificate": [("tbsCertificate", 16, "TBSCertificate"), ("signatureAlgorithm", 16, "AlgorithmIdentifier"),
                    ("signatureValue", 3, "")],
    "TBSCertificate": [("version", [0], {"alone": ""}), ("serialNumber", 2, ""),
                       ("signature", 16, "AlgorithmIdentifier"), ("issuer", 16, "Name"), ("validity", 16, "Validity"),
                       ("subject", 16, "Name"), ("subjectPublicKeyInfo", 16, "SubjectPublicKeyInfo"),
                       ("issuerUniqueID", [1], ""), ("subjectUniqueID", [2], ""),
                       ("extensions", [3], {"alone": {"each": "Extension"}})],
    "AlgorithmIdentifier": [("algorithm", 6, ""), ("parameters", ANY, None)],
    "Name": {"each": {"each": "AttributeTypeAndValue"}},
    "AttributeTypeAndValue": [("type", 6, ""), ("value", ANY, None)],
    "Validity": [("notBefore", ANY, ""), ("notAfter", ANY, "")],
    "SubjectPublicKeyInfo": [("algorithm", 16, "AlgorithmIdentifier"), ("subjectPublicKey", 3, {"alone": "Key"})],
    "Key": [("modulus", 2, ""), ("publicExponent", 2, "")],
    "Extension": [("extnID", 6, ""), ("critical", 1, ""), ("extnValue", 4, {"alone": None})],
}

# the fields of the library's call for certificates, with the paths that der_dump has for them
PLACES = {
    "certificate": "", "tbs_certificate": "tbsCertificate", "version": "tbsCertificate.version",
    "serial_number": "tbsCertificate.serialNumber", "tbs_signature": "tbsCertificate.signature",
    "issuer": "tbsCertificate.issuer", "not_before": "tbsCertificate.validity.notBefore",
    "not_after": "tbsCertificate.validity.notAfter", "subject": "tbsCertificate.subject",
    "subject_public_key_info": "tbsCertificate.subjectPublicKeyInfo",
    "public_key_algorithm": "tbsCertificate.subjectPublicKeyInfo.algorithm",
    "subject_public_key": "tbsCertificate.subjectPublicKeyInfo.subjectPublicKey",
    "issuer_unique_id": "tbsCertificate.issuerUniqueID", "subject_unique_id": "tbsCertificate.subjectUniqueID",
    "extensions": "tbsCertificate.extensions", "signature_algorithm": "signatureAlgorithm",
    "signature": "signatureValue",
}


def names(block):
    return block.get("field"), block.get("of")


def all_blocks(blocks):
    for block in blocks:
        yield block
        yield from all_blocks(block.get("blocks", []))


def wrong(blocks):
    """What is wrong with the names of a certificate: offsets and words."""
    for block in all_blocks(blocks):
        if "of" not in block:
            yield block["offset"], "no name"
    outer = [block for block in blocks if block["depth"] == 1]
    for block, (field, of) in zip(outer, OUTER, strict=True):
        if block["field"] != field or of not in (None, block["of"]):
            yield block["offset"], f"{names(block)} is not {field}"
    end = outer[0]["offset"] + outer[0]["size"]
    plain = iter(PLAIN)
    for block in blocks:
        if block["depth"] == 2 and block["offset"] < end:
            want = next(plain) if block["class"] == "universal" else TAGGED[block["tag"]]
            if names(block) != want:
                yield block["offset"], f"{names(block)} is not {want}"


def part_of(parts, block):
    """The fields from that on which the block is."""
    tag = block["tag"] if block["class"] == "universal" else [block["tag"]]
    return next((parts[at:] for at, (_, wanted, _) in enumerate(parts) if wanted is ANY or wanted == tag), [])


def trees(blocks):
    """The blocks that no other is around, each with those inside it, in the same way."""
    found = []
    for block in blocks:
        around = found
        for _ in range(block["depth"] - blocks[0]["depth"]):
            around = around[-1][1]
        around.append((block, trees(block["blocks"]) if "blocks" in block else []))
    return found


def paths(tree, path, kind):
    """The blocks of a tree of this type with their paths, down to what is of no type that is looked at."""
    block, inside = tree
    yield block, path
    kind = PARTS.get(kind, kind) if isinstance(kind, str) else kind
    if isinstance(kind, list):
        left = kind
        for it in inside:
            (name, _, of), *left = part_of(left, it[0]) or [("no field", None, None)]
            yield from paths(it, f"{path}.{name}".lstrip("."), of)
    elif kind and "each" in kind:
        for at, it in enumerate(inside):
            yield from paths(it, f"{path}[{at}]", kind["each"])
    elif kind:
        for it in inside:
            yield from paths(it, path, kind["alone"])


def wrong_paths(blocks):
    """What is wrong with the paths of a certificate: offsets and words; and how many were looked at."""
    found = list(paths(trees(blocks)[0], "", "Certificate"))
    return len(found), [(block["offset"], f"{block.get('path')} is not {path}")
                        for block, path in found if block.get("path", "") != path]


def library():
    """The calls of the library; None where it is not built."""
    try:
        from simple_asn1 import _calls
    except ImportError:
        return None
    return _calls


def wrong_places(octets, blocks, calls):
    """Which fields of the call stand elsewhere than the first block with their path, or stand where none has it."""
    parts, stands = calls.certificate(octets), {}
    for block in all_blocks(blocks):
        stands.setdefault(block.get("path", ""), block["offset"])
    for name, path in PLACES.items():
        offset = parts[name].offset if parts[name].header else None
        if offset != stands.get(path):
            yield stands.get(path, 0), f"{name} of the call stands at {offset}"


def main(words):
    calls = library()
    program, found = builds.program("der_dump"), certificates(*words)
    blocks, looked_at, bad = 0, 0, 0
    for number, octets in enumerate(found):
        ran = subprocess.run([program, "--json"], input=octets, capture_output=True, check=True)
        document = json.loads(ran.stdout)["blocks"]
        blocks += sum(1 for _ in all_blocks(document))
        count, strayed = wrong_paths(document)
        looked_at += count
        placed = wrong_places(octets, document, calls) if calls else ()
        for offset, what in [*wrong(document), *strayed, *placed]:
            bad += 1
            print(f"fields: certificate {number}, offset {offset}: {what}")
    print(f"fields: {len(found)} certificates, {blocks} blocks, {looked_at} paths, "
          f"{len(found) * len(PLACES) if calls else 0} fields of the call, {bad} wrong")
    if not calls:
        print("fields: NOT CHECKED: the fields of the call, since the library for C is not built")
    return 1 if bad or not found else 0


if __name__ == "__main__":
    sys.exit(main(sys.argv[1:]))
