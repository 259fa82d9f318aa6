"""What Python's `CertificationRequest` and `RevocationList` say of requests and lists that the package `cryptography`
makes, beside what it and `openssl` say of them.

issued.py PYTHON: the folder of bindings/python. What is missing is not asked.
"""
import base64
import datetime
import re
import shutil
import subprocess
import sys
import warnings

sys.path.insert(0, sys.argv[1])
sys.dont_write_bytecode = True
import simple_asn1  # noqa: E402

try:
    from cryptography import x509
    from cryptography.hazmat.primitives import hashes
    from cryptography.hazmat.primitives.asymmetric import ec, ed25519, rsa
    from cryptography.hazmat.primitives.serialization import Encoding, PublicFormat
    from cryptography.x509.oid import AttributeOID, NameOID
except ImportError:
    print("bindings: NOT CHECKED with requests and lists, the package cryptography is not here")
    sys.exit()

START = datetime.datetime(2026, 1, 2, 3, 4, 5)
ATTRIBUTES = [(NameOID.COUNTRY_NAME, "CH"), (NameOID.COMMON_NAME, "Müller & 李")]
NAME = x509.Name([x509.NameAttribute(*it) for it in ATTRIBUTES])
KEYS = [
    (ed25519.Ed25519PrivateKey.generate(), None),
    (ec.generate_private_key(ec.SECP256R1()), hashes.SHA256()),
    (rsa.generate_private_key(65537, 2048), hashes.SHA256()),
]
ALTERNATIVE = x509.SubjectAlternativeName([x509.DNSName("a.example"), x509.DNSName("b.example")])
EXTENSIONS = [[], [(ALTERNATIVE, False)], [(x509.BasicConstraints(True, 3), True), (ALTERNATIVE, False)]]
REASONS = list(x509.ReasonFlags)[1:3]


def utc(found, name):
    """A moment that cryptography finds; older versions have it without its zone."""
    moment = getattr(found, name)
    later = getattr(found, name + "_utc", None)
    return later or (moment and moment.replace(tzinfo=datetime.timezone.utc))


def shown(extensions):
    return [(it.oid.dotted_string, it.critical, it.value.public_bytes()) for it in extensions]


def same(what, found, wanted):
    if found != wanted:
        sys.exit(f"{what} is {found!r}, and {wanted!r} to others")


def requests():
    for key, digest in KEYS:
        for extensions in EXTENSIONS:
            for password in (None, b"secret"):
                made = x509.CertificateSigningRequestBuilder().subject_name(NAME)
                for value, is_critical in extensions:
                    made = made.add_extension(value, is_critical)
                if password:
                    made = made.add_attribute(AttributeOID.CHALLENGE_PASSWORD, password)
                yield made.sign(key, digest)


def lists():
    for key, digest in KEYS:
        for count in (0, 1, 2, 1000):
            made = x509.CertificateRevocationListBuilder().issuer_name(NAME).last_update(START)
            made = made.next_update(START.replace(year=2060))
            for number in range(count):
                date = START + datetime.timedelta(seconds=number)
                entry = x509.RevokedCertificateBuilder().serial_number(3 ** (number % 90 + 1)).revocation_date(date)
                if number % 3:
                    entry = entry.add_extension(x509.CRLReason(REASONS[number % 3 - 1]), number % 2 == 0)
                made = made.add_revoked_certificate(entry.build())
            if count:
                made = made.add_extension(x509.CRLNumber(count), False)
            yield made.sign(key, digest)


def compare_request(request):
    octets = request.public_bytes(Encoding.DER)
    found = simple_asn1.CertificationRequest(octets)
    same("octets", found.octets, octets)
    same("certification_request_info", found.certification_request_info, request.tbs_certrequest_bytes)
    same("version", found.version, 0)
    same("subject", found.subject, request.subject.public_bytes())
    key = request.public_key().public_bytes(Encoding.DER, PublicFormat.SubjectPublicKeyInfo)
    same("subject_public_key_info", found.subject_public_key_info, key)
    same("signature_algorithm", found.signature_algorithm, request.signature_algorithm_oid.dotted_string)
    same("signature", found.signature.octets, request.signature)
    same("attributes", [it.oid for it in found.attributes], [it.oid.dotted_string for it in request.attributes])
    same("extensions", found.extensions, shown(request.extensions))
    return octets, found


def compare_list(issued):
    octets = issued.public_bytes(Encoding.DER)
    found = simple_asn1.RevocationList(octets)
    same("octets", found.octets, octets)
    same("tbs_cert_list", found.tbs_cert_list, issued.tbs_certlist_bytes)
    same("version", found.version, 1)
    same("issuer", found.issuer, issued.issuer.public_bytes())
    same("this_update", found.this_update, utc(issued, "last_update"))
    same("next_update", found.next_update, utc(issued, "next_update"))
    same("signature_algorithm", found.signature_algorithm, issued.signature_algorithm_oid.dotted_string)
    same("signature", found.signature.octets, issued.signature)
    same("extensions", found.extensions, shown(issued.extensions))
    same("revoked", [(it.serial_number, it.revocation_date, it.extensions) for it in found.revoked_certificates],
         [(it.serial_number, utc(it, "revocation_date"), shown(it.extensions)) for it in issued])
    return octets, found


def openssl(words, octets):
    ran = subprocess.run(["openssl", *words, "-inform", "DER", "-noout"], input=octets, capture_output=True, check=True)
    return ran.stdout.decode()


def compare_request_by_openssl(octets, found):
    key = openssl(["req", "-pubkey"], octets).split("-----")[2]
    same("subject_public_key_info", found.subject_public_key_info, base64.b64decode(key))


def compare_list_by_openssl(octets, found):
    numbers = re.findall("Serial Number: ([0-9A-F]+)", openssl(["crl", "-text"], octets))
    same("serial numbers", [it.serial_number for it in found.revoked_certificates], [int(it, 16) for it in numbers])


def main():
    warnings.simplefilter("ignore")
    is_here = shutil.which("openssl")
    if not is_here:
        print("bindings: NOT CHECKED beside openssl, which is not here: the fields of requests and lists")
    counts = []
    for made, compare, by_openssl in (
        (requests, compare_request, compare_request_by_openssl),
        (lists, compare_list, compare_list_by_openssl),
    ):
        counts.append(0)
        for issued in made():
            pair = compare(issued)
            if is_here:
                by_openssl(*pair)
            counts[-1] += 1
    print("{} requests and {} lists have the fields with which they were made".format(*counts))


main()
