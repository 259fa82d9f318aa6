"""Certificates, certification requests and revocation lists with something changed: which are still of their types, and
where their fields stand, as a plain reading of the modules of RFC 5280 and RFC 2986 says; and each difference from what
cryptography and openssl take has a reason.

    checks/run mutants [-- COUNT [SEED]]    so many, 10,000 unless given, and 1,000 in short

Half of them have one octet changed, left out or put in; of the others one encoding is left out, doubled, replaced or
emptied, or has other contents octets or another tag, and the lengths around it fit. A difference without one of the
reasons below is printed, and fails.
"""
import collections
import copy
import ctypes
import ctypes.util
import datetime
import functools
import multiprocessing
import os
import pathlib
import random
import sys
import warnings

import departures
import der
import reader
from certificates import certificates
from short import IS_SHORT
from x690 import header

COUNT, TASK = 1_000 if IS_SHORT else 10_000, 500
TOP = pathlib.Path(__file__).resolve().parents[2]
INTEGER, BIT_STRING, OCTET_STRING, IDENTIFIER, SEQUENCE, SET = 2, 3, 4, 6, 16, 17
BOOLEAN, TIMES, TEXTS = 1, (23, 24), (12, 18, 19, 20, 22, 28, 30)


class Node:
    """An encoding in a document: its class, form and tag, where it stands, and its items if it has some."""

    def __init__(self, octets, offset, end):
        plain = reader.Reader(octets)
        self.octets, self.offset = octets, offset
        self.kind, self.constructed, self.tag, place = plain.tag(offset, end)
        size, self.start = plain.length(place, end)
        self.end = self.start + size
        if self.end > end:
            raise reader.Fault("Incomplete")

    @property
    def items(self):
        found, place = [], self.start
        while place < self.end:
            found.append(Node(self.octets, place, self.end))
            place = found[-1].end
        return found

    @property
    def contents(self):
        return self.octets[self.start : self.end]

    def is_leaf(self, *tags):
        """Of the class Universal with one of these tags; the form is no matter, as in GRAMMAR."""
        return self.kind == 0 and self.tag in tags

    def inside(self, tag):
        """The items behind a tag of the class context-specific; None where it has another, or no encodings."""
        if (self.kind, self.constructed, self.tag) != (2, True, tag):
            return None
        try:
            reader.Reader(self.octets).blocks(self.start, self.end)
        except reader.Fault:
            return None
        return self.items


class Module:
    """Types of RFC 5280 and RFC 2986, appendix A. With `some` a SET SIZE (1..MAX) has one item, as it has to. With
    `shallow` values in attributes may be malformed."""

    def __init__(self, some, shallow=False):
        self.some, self.shallow = some, shallow

    def fields(self, node, *types):
        """The fields of a SEQUENCE, None for an OPTIONAL one that is absent, or None if it is another."""
        if not node.is_leaf(SEQUENCE):
            return None
        left, found = node.items, []
        for is_optional, is_type in types:
            if left and is_type(left[0]):
                found.append(left.pop(0))
            elif is_optional:
                found.append(None)
            else:
                return None
        return None if left else found

    def each(self, node, tag, is_type, is_some):
        return node.is_leaf(tag) and all(map(is_type, node.items)) and bool(node.items or not (is_some and self.some))

    def algorithm(self, node):
        return bool(self.fields(node, (False, leaf(IDENTIFIER)), (True, anything)))

    def name(self, node):
        def attribute(node):
            return bool(self.fields(node, (False, leaf(IDENTIFIER)), (False, anything)))

        return self.each(node, SEQUENCE, lambda it: self.each(it, SET, attribute, True), False)

    def validity(self, node):
        return self.fields(node, (False, leaf(*TIMES)), (False, leaf(*TIMES)))

    def key(self, node):
        return self.fields(node, (False, self.algorithm), (False, leaf(BIT_STRING)))

    def extensions(self, node):
        def extension(node):
            fields = (False, leaf(IDENTIFIER)), (True, leaf(BOOLEAN)), (False, leaf(OCTET_STRING))
            return bool(self.fields(node, *fields))

        return self.each(node, SEQUENCE, extension, True)

    def tbs(self, node):
        return self.fields(
            node, (True, tagged(0, leaf(INTEGER))), (False, leaf(INTEGER)), (False, self.algorithm),
            (False, self.name), (False, lambda it: bool(self.validity(it))), (False, self.name),
            (False, lambda it: bool(self.key(it))), (True, bits(1)), (True, bits(2)),
            (True, tagged(3, self.extensions)),
        )

    def signed(self, node, content):
        return self.fields(node, (False, lambda it: bool(content(it))), (False, self.algorithm),
                           (False, leaf(BIT_STRING)))

    def certificate(self, node):
        """Where the fields stand that Certificate of the binding has, by their names; None if it is another type."""
        found = self.signed(node, self.tbs)
        if not found:
            return None
        tbs, algorithm, signature = found
        (version, serial, tbs_signature, issuer, validity, subject, key, issuer_id, subject_id, extensions,
         ) = self.tbs(tbs)
        before, after = self.validity(validity)
        key_algorithm, public_key = self.key(key)
        return {
            "certificate": node, "tbs_certificate": tbs, "version": version,
            "serial_number": serial, "tbs_signature": tbs_signature, "issuer": issuer, "not_before": before,
            "not_after": after, "subject": subject, "subject_public_key_info": key,
            "public_key_algorithm": key_algorithm, "subject_public_key": public_key, "issuer_unique_id": issuer_id,
            "subject_unique_id": subject_id, "extensions": extensions, "signature_algorithm": algorithm,
            "signature": signature,
        }

    def attributes(self, node):
        """Under [0] in implicit tagging, of which the contents octets are the items."""
        def attribute(node):
            return bool(self.fields(node, (False, leaf(IDENTIFIER)),
                                    (False, lambda it: self.each(it, SET, anything, True))))

        items = node.items if self.shallow and node.kind == 2 and not node.tag else node.inside(0)
        return items is not None and all(map(attribute, items))

    def info(self, node):
        return self.fields(node, (False, leaf(INTEGER)), (False, self.name), (False, lambda it: bool(self.key(it))),
                           (False, self.attributes))

    def request(self, node):
        """Where the fields of CertificationRequest stand."""
        found = self.signed(node, self.info)
        if not found:
            return None
        info, algorithm, signature = found
        version, subject, key, attributes = self.info(info)
        key_algorithm, public_key = self.key(key)
        return {
            "certification_request": node, "certification_request_info": info, "version": version,
            "subject": subject, "subject_public_key_info": key, "public_key_algorithm": key_algorithm,
            "subject_public_key": public_key, "attributes": attributes, "signature_algorithm": algorithm,
            "signature": signature,
        }

    def entry(self, node):
        return self.fields(node, (False, leaf(INTEGER)), (False, leaf(*TIMES)), (True, self.extensions))

    def tbs_list(self, node):
        return self.fields(
            node, (True, leaf(INTEGER)), (False, self.algorithm), (False, self.name), (False, leaf(*TIMES)),
            (True, leaf(*TIMES)), (True, lambda it: self.each(it, SEQUENCE, lambda at: bool(self.entry(at)), False)),
            (True, tagged(0, self.extensions)),
        )

    def revocation_list(self, node):
        """Where the fields of RevocationList stand."""
        found = self.signed(node, self.tbs_list)
        if not found:
            return None
        tbs, algorithm, signature = found
        version, tbs_signature, issuer, this_update, next_update, revoked, extensions = self.tbs_list(tbs)
        return {
            "certificate_list": node, "tbs_cert_list": tbs, "version": version, "tbs_signature": tbs_signature,
            "issuer": issuer, "this_update": this_update, "next_update": next_update,
            "revoked_certificates": revoked, "crl_extensions": extensions, "signature_algorithm": algorithm,
            "signature": signature,
        }


def anything(_node):
    return True


def leaf(*tags):
    return lambda node: node.is_leaf(*tags)


def tagged(tag, is_type):
    """In explicit tagging."""
    def is_tagged(node):
        items = node.inside(tag)
        return items is not None and len(items) == 1 and is_type(items[0])

    return is_tagged


def bits(tag):
    """A primitive BIT STRING in implicit tagging."""
    def is_bits(node):
        if (node.kind, node.constructed, node.tag) != (2, False, tag):
            return False
        return not node.contents or 8 * (len(node.contents) - 1) >= node.contents[0]

    return is_bits


def wanted(kind, octets, module):
    """Whether it is a document, and the fields of what it begins with, if that is of the kind."""
    try:
        reader.Reader(octets).document()
    except reader.Fault:
        return False, None
    return True, getattr(module, kind.name)(Node(octets, 0, len(octets)))


def read(kind, octets):
    """The records of its fields, by the library; None where they are refused."""
    from simple_asn1 import Refused, _calls
    try:
        return getattr(_calls, kind.name)(octets)
    except Refused:
        return None


def revoked(octets, found):
    """Whether the library steps through the revoked certificates as they stand there."""
    from simple_asn1 import RevocationList
    entries = found["revoked_certificates"].items if found["revoked_certificates"] else []
    parts = [(it.items[0].contents, it.items[1].start, b"".join(at.octets[at.offset : at.end] for at in it.items[2:]))
             for it in entries]
    return parts == [
        (octets[it._number.offset + it._number.header :][: it._number.contents], it._date.offset + it._date.header,
         octets[it._date.offset + it._date.header + it._date.contents : it._end])
        for it in RevocationList(octets).revoked_certificates
    ]


def signed(octets):
    """What was signed, by the library's call for any signed document."""
    from simple_asn1 import Signed
    return Signed(octets).content


def is_at(record, node):
    """Whether a record is of this encoding; without an encoding it has no header."""
    if node is None:
        return record.header == 0
    return (record.offset, record.header, record.contents) == (
        node.offset, node.start - node.offset, node.end - node.start)


def by_cryptography(kind, octets):
    """Whether cryptography takes it, and why not."""
    from cryptography import x509
    try:
        return getattr(x509, f"load_der_x509_{kind.short}")(octets), ""
    except Exception as fault:  # ValueError, InvalidVersion and others of its own
        return None, str(fault).splitlines()[0]


def has_same_values(kind, octets, found, taken):
    """Whether cryptography has the same values of a few fields."""
    from cryptography.hazmat.primitives.serialization import Encoding
    whole, content = found[kind.whole], found[kind.content]
    numbers = {
        "certificate": lambda: ([taken.serial_number], [found["serial_number"]]),
        "request": lambda: ([], []),
        "revocation_list": lambda: (
            [it.serial_number for it in taken],
            [it.items[0] for it in found["revoked_certificates"].items] if found["revoked_certificates"] else []),
    }
    theirs, ours = numbers[kind.name]()
    return (
        taken.public_bytes(Encoding.DER) == octets[: whole.end]
        and getattr(taken, kind.signed) == octets[content.offset : content.end]
        and theirs == [int.from_bytes(it.contents, "big", signed=True) for it in ours]
        and taken.signature == found["signature"].contents[1:]
    )


class OpenSSL:
    """d2i_X509 of libcrypto and its like, which cryptography has beside it."""

    def __init__(self):
        self.library = ctypes.CDLL(ctypes.util.find_library("crypto") or "libcrypto.so.3")
        self.library.ERR_clear_error.restype = None

    def takes(self, kind, octets):
        front, type_name = ctypes.c_char_p(octets), kind.of_openssl
        read, free = getattr(self.library, f"d2i_{type_name}"), getattr(self.library, f"{type_name}_free")
        read.restype = ctypes.c_void_p
        read.argtypes = [ctypes.c_void_p, ctypes.POINTER(ctypes.c_char_p), ctypes.c_long]
        free.argtypes = [ctypes.c_void_p]
        found = read(None, ctypes.byref(front), len(octets))
        free(found)
        self.library.ERR_clear_error()
        return bool(found)


# of a type: its names in the library, in the functions of cryptography and openssl, and those of its fields
Kind = collections.namedtuple("Kind", "name short of_openssl whole content signed")
KINDS = [
    Kind("certificate", "certificate", "X509", "certificate", "tbs_certificate", "tbs_certificate_bytes"),
    Kind("request", "csr", "X509_REQ", "certification_request", "certification_request_info",
         "tbs_certrequest_bytes"),
    Kind("revocation_list", "crl", "X509_CRL", "certificate_list", "tbs_cert_list", "tbs_certlist_bytes"),
]


@functools.lru_cache(None)
def roots_of(kind):
    """The documents of a kind that are changed."""
    return {"certificate": certificates, "request": requests, "revocation_list": revocation_lists}[kind.name]()


def signer():
    """A key whose signatures are the same in each run, and the name of who has it."""
    from cryptography import x509
    from cryptography.hazmat.primitives.asymmetric.ed25519 import Ed25519PrivateKey
    from cryptography.x509.oid import NameOID
    attributes = (NameOID.COUNTRY_NAME, "CH"), (NameOID.COMMON_NAME, "a.example")
    return Ed25519PrivateKey.from_private_bytes(bytes(32)), x509.Name([x509.NameAttribute(*it) for it in attributes])


def requests():
    """Requests without attributes, with extensions, and with these and a password."""
    from cryptography import x509
    from cryptography.hazmat.primitives.serialization import Encoding
    key, name = signer()
    bare = x509.CertificateSigningRequestBuilder().subject_name(name)
    alternative = bare.add_extension(x509.SubjectAlternativeName([x509.DNSName("b.example")]), False)
    limited = alternative.add_extension(x509.BasicConstraints(True, 3), True)
    both = limited.add_attribute(x509.oid.AttributeOID.CHALLENGE_PASSWORD, b"secret")
    return [it.sign(key, None).public_bytes(Encoding.DER) for it in (bare, alternative, limited, both)]


def revocation_lists():
    """Lists without entries, with some, and with extensions of their own and of entries."""
    from cryptography import x509
    from cryptography.hazmat.primitives.serialization import Encoding
    key, name = signer()
    start = datetime.datetime(2026, 1, 2, 3, 4, 5)
    bare = x509.CertificateRevocationListBuilder().issuer_name(name).last_update(start)
    bare = bare.next_update(start.replace(year=2060))
    entry = x509.RevokedCertificateBuilder().serial_number(3**80).revocation_date(start)
    reason = entry.add_extension(x509.CRLReason(x509.ReasonFlags.key_compromise), False)
    two = bare.add_revoked_certificate(entry.build()).add_revoked_certificate(reason.build())
    numbered = two.add_extension(x509.CRLNumber(5), False)
    return [it.sign(key, None).public_bytes(Encoding.DER) for it in (bare, two, numbered)]


# why another takes less, or more
NOT_DER = "it breaks rules of DER, which cryptography asks for, and openssl of some types"
DEFAULTS = "a DEFAULT stands there, which DER forbids (X.690, 11.5)"
VALUES = "where the modules leave a type open, as of parameters and in names, the others ask for those that they know"
VERSION = "the version is none that the type has a name for"
BEHIND = "bytes stand behind it, which the library reads as blocks, cryptography refuses and openssl leaves"
EMPTY = "a SET or SEQUENCE without items stands where RFC 5280 has SIZE (1..MAX)"
LATER = "a value is malformed that the others read when they are asked for it"
UNUSED = "the bits under an implicit tag are not as DER has them (X.690, 8.6 and 11.2)"
OWN = "openssl asks for less in what it reads at once"
ORDER = "attributes are out of order, which an implicit tag hides where no schema is known"
TWICE = "the algorithm of the signature stands there twice, and once as another (RFC 5280, 5.1.1.2)"

# in what cryptography says
SAID = {"EncodedDefault": DEFAULTS, "AlgorithmIdentifier::params": VALUES, "AttributeTypeValue::value": VALUES,
        "TbsCertificate::version": VERSION, "CertificationRequestInfo::version": VERSION,
        "TBSCertList::version": VERSION, "InvalidVersion": VERSION, "is not a valid X509 version": VERSION,
        "is not a valid CSR version": VERSION, "is not a valid CRL version": VERSION,
        "InvalidSetOrdering": ORDER, "Inner and outer signature algorithms do not match": TWICE}
# the same where more stands in an AlgorithmIdentifier, of an algorithm that has no parameters
ALGORITHMS = ('signature_alg"] }', 'signature_algorithm"] }', 'TBSCertList::signature"] }',
              'SubjectPublicKeyInfo::algorithm"] }')


def is_der(octets):
    """Whether it is DER without a schema, by the plain reader of X.690."""
    return departures.departures(octets) == []


def reason_of_less(kind, octets, fields, said):
    """Why cryptography, which said this, or openssl, where nothing is said, refuses what the library takes."""
    if not is_der(octets):
        return NOT_DER
    if fields[kind.whole].end < len(octets):
        return BEHIND
    numbers = fields.get("issuer_unique_id"), fields.get("subject_unique_id")
    if not all(der.RULES[BIT_STRING](it.contents) for it in numbers if it):
        return UNUSED
    found = [reason for words, reason in SAID.items() if words in said]
    if said.endswith(ALGORITHMS) or "AlgorithmIdentifier" in said:
        found.append(VALUES)
    if not said and not all(has_texts(fields[name]) for name in ("issuer", "subject") if name in fields):
        found.append(VALUES)
    return found[0] if found else None


def has_texts(name):
    """Whether the values in a Name are texts of the kinds that names have."""
    attributes = [it for relative in name.items for it in relative.items]
    return all(it.items[1].kind == 0 and it.items[1].tag in TEXTS for it in attributes)


def reason_of_more(kind, octets, is_document):
    """Why another takes what the library refuses: a value is at fault, or it is of another type."""
    for module, reason in (Module(some=False), EMPTY if is_document else LATER), (Module(False, shallow=True), LATER):
        try:
            if getattr(module, kind.name)(Node(octets, 0, len(octets))):
                return reason
        except (reader.Fault, IndexError):
            pass
    return None


def tried(task):
    """How often there is each answer and each reason, and what is wrong, of some mutants."""
    seed, count = task
    source, openssl = random.Random(seed), OpenSSL()
    counted, wrong = collections.Counter(), []
    warnings.simplefilter("ignore")
    for _ in range(count):
        kind = source.choice(KINDS)
        octets = mutant(source, source.choice(roots_of(kind)))
        for reason in judged(kind, octets, openssl):
            counted[reason] += 1
            if reason.startswith("WRONG"):
                wrong.append(f"{reason}: {octets.hex()}")
    return counted, wrong


def judged(kind, octets, openssl):
    """What is to be said of one mutant."""
    is_document, found = wanted(kind, octets, Module(some=True))
    records = read(kind, octets)
    if (records is None) != (found is None):
        return [f"WRONG, {kind.name}, the plain reading says " + ("no" if found is None else "yes")]
    if found and not all(is_at(records[name], node) for name, node in found.items()):
        return ["WRONG, a field stands elsewhere"]
    if found and signed(octets) != octets[found[kind.content].offset : found[kind.content].end]:
        return ["WRONG, other octets were signed"]
    if found and kind.name == "revocation_list" and not revoked(octets, found):
        return ["WRONG, other entries of a list"]
    said = [f"a {kind.name}" if found else f"no {kind.name}"]
    taken, why = by_cryptography(kind, octets)
    if found and taken is not None:  # a list without entries is false
        said += [] if has_same_values(kind, octets, found, taken) else ["WRONG, cryptography has other values"]
    for name, is_taken, words in ("cryptography", taken is not None, why), ("openssl", openssl.takes(kind, octets), ""):
        if bool(found) and not is_taken:
            reason = reason_of_less(kind, octets, found, words)
        elif is_taken and not found:
            reason = reason_of_more(kind, octets, is_document) or (OWN if name == "openssl" else None)
        else:
            continue
        said.append(f"{name}: {reason}" if reason else f"WRONG, {name} says {words or 'otherwise'}, without a reason")
    return said


def tree(octets, start, end):
    """Encodings as lists of an identifier octet and what is inside: items, or contents octets."""
    found = []
    while start < end:
        node = Node(octets, start, end)
        inside = tree(octets, node.start, node.end) if node.constructed else node.contents
        found.append([octets[start], inside])
        start = node.end
    return found


def written(encodings):
    parts = []
    for leading, inside in encodings:
        contents = written(inside) if isinstance(inside, list) else inside
        parts.append(header(leading, len(contents)) + contents)
    return b"".join(parts)


def places(encodings):
    """Each list, with each of its indices."""
    for index, (_, inside) in enumerate(encodings):
        yield encodings, index
        if isinstance(inside, list):
            yield from places(inside)


def one_octet(source, octets):
    at = source.randrange(len(octets))
    one = bytes([source.choice((octets[at] ^ 1 << source.randrange(8), source.randrange(256)))])
    return octets[:at] + source.choice((one, one, b"", one + octets[at : at + 1])) + octets[at + 1 :]


def one_encoding(source, octets):
    encodings = tree(octets, 0, len(octets))
    all_places = list(places(encodings))
    around, index = source.choice(all_places)
    here = around[index]
    how = source.randrange(6)
    if how == 0 and around is not encodings:
        del around[index]
    elif how == 1:
        around.insert(index, copy.deepcopy(here))
    elif how == 2:
        other, place = source.choice(all_places)
        around[index] = copy.deepcopy(other[place])
    elif how == 3:
        here[0] = source.choice((here[0] ^ 0x20, source.choice((0, 0x40, 0x80, 0xC0)) | source.randrange(31),
                                 0x30, 2, 3, 0xA0, 0xA3, 0x81))
    elif isinstance(here[1], list):
        here[1] = here[1][: source.randrange(len(here[1]) + 1)]
    elif how == 4:
        here[1] = source.choice((b"", here[1][:1], here[1][1:], b"\0" + here[1]))
    else:
        at = source.randrange(len(here[1]) + 1)
        here[1] = here[1][:at] + source.randbytes(1) + here[1][at + source.randrange(2) :]
    return written(encodings)


def mutant(source, octets):
    return source.choice((one_octet, one_encoding))(source, octets)


def main(*words):
    count = int(words[0]) if words else COUNT
    seed = words[1] if len(words) > 1 else os.environ.get("SEED", "1")
    tasks = [(f"{seed}.{start}", min(TASK, count - start)) for start in range(0, count, TASK)]
    counted, wrong = collections.Counter(), []
    with multiprocessing.Pool() as pool:
        for some, more in pool.imap_unordered(tried, tasks):
            counted, wrong = counted + some, wrong + more
    for line in wrong[:20]:
        print(f"mutants: {line}")
    for what, times in counted.most_common():
        print(f"mutants: {times} {what}")
    print(f"mutants: {count} changed certificates, requests and lists, seed {seed}, {len(wrong)} wrong")
    return 1 if wrong or not all(counted[f"a {kind.name}"] for kind in KINDS) else 0


if __name__ == "__main__":
    sys.path.insert(0, str(TOP / "bindings/python"))
    os.environ.setdefault("SIMPLE_ASN1_LIBRARY", str(TOP / "bindings/c/out/lib/libsimple_asn1.so"))
    sys.exit(main(*sys.argv[1:]))
