"""What Python's `Certificate` says of certificates, beside what `openssl` and the package `cryptography` say of them.

beside_others.py PYTHON FILE.der ..: the folder of bindings/python, and the certificates. What is missing is not asked.
"""
import datetime
import pathlib
import shutil
import subprocess
import sys
import warnings

sys.path.insert(0, sys.argv[1])
sys.dont_write_bytecode = True
import simple_asn1  # noqa: E402

try:
    from cryptography import x509
    from cryptography.hazmat.primitives.serialization import Encoding, PublicFormat
except ImportError:
    x509 = None


def in_utc(certificate, name):
    """A moment that cryptography finds; older versions have it without its zone."""
    return getattr(certificate, name + "_utc", None) or getattr(certificate, name).replace(tzinfo=datetime.timezone.utc)


def by_cryptography(path):
    """The fields that cryptography finds; nothing, where it refuses the certificate."""
    with warnings.catch_warnings():
        warnings.simplefilter("ignore")
        try:
            certificate = x509.load_der_x509_certificate(path.read_bytes())
            extensions = [(it.oid.dotted_string, it.critical) for it in certificate.extensions]
            key = certificate.public_key().public_bytes(Encoding.DER, PublicFormat.SubjectPublicKeyInfo)
        except ValueError:
            return None
        return {
            "octets": certificate.public_bytes(Encoding.DER),
            "tbs_certificate": certificate.tbs_certificate_bytes,
            "version": certificate.version.value,
            "serial_number": certificate.serial_number,
            "issuer": certificate.issuer.public_bytes(),
            "not_before": in_utc(certificate, "not_valid_before"),
            "not_after": in_utc(certificate, "not_valid_after"),
            "subject": certificate.subject.public_bytes(),
            "subject_public_key_info": key,
            "signature_algorithm": certificate.signature_algorithm_oid.dotted_string,
            "signature": certificate.signature,
            "extensions": extensions,
        }


def moment_of(text):
    """As in `Jan  2 03:04:05 2026 GMT`."""
    return datetime.datetime.strptime(text, "%b %d %H:%M:%S %Y GMT").replace(tzinfo=datetime.timezone.utc)


def by_openssl(path):
    command = ["openssl", "x509", "-inform", "DER", "-in", path, "-noout", "-serial", "-startdate", "-enddate"]
    said = subprocess.run(command, capture_output=True, text=True)
    if said.returncode:
        return None
    told = dict(line.split("=", 1) for line in said.stdout.splitlines())
    return {
        "serial_number": int(told["serial"], 16),
        "not_before": moment_of(told["notBefore"]),
        "not_after": moment_of(told["notAfter"]),
    }


def ours(path):
    certificate = simple_asn1.Certificate(path.read_bytes())

    def found(name):
        if name == "signature":
            return certificate.signature.octets
        if name == "extensions":
            return [(it.oid, it.critical) for it in certificate.extensions]
        return getattr(certificate, name)

    return found


def compare(who, fields_of, paths):
    compared = 0
    for path in paths:
        wanted = fields_of(path)
        if wanted is None:
            continue
        found = ours(path)
        for name, value in wanted.items():
            if found(name) != value:
                sys.exit(f"{path}: {name} is {found(name)!r}, and to {who} {value!r}")
        compared += 1
    if not compared:
        sys.exit(f"{who} read no certificate")
    print(f"{compared} of {len(paths)} certificates have the fields that {who} finds, which refuses the others")


def main():
    paths = [pathlib.Path(it) for it in sys.argv[2:]]
    for who, fields_of, is_here in (
        ("cryptography", by_cryptography, x509),
        ("openssl", by_openssl, shutil.which("openssl")),
    ):
        if is_here:
            compare(who, fields_of, paths)
        else:
            print(f"bindings: NOT CHECKED beside {who}, which is not here: the fields of certificates")


main()
