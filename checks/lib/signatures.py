"""signatures.py FOLDER PROGRAM WORK: openssl verifies signatures over what der_signed writes.

They are those of the self-signed certificates of the folder, each by its own key, and none verifies with a bit changed.
WORK is a folder for files. `checks/run signed` runs it.
"""
import collections
import pathlib
import re
import subprocess
import sys

from certificates import certificates


def openssl(*words):
    """What openssl prints, or nothing where it fails."""
    ran = subprocess.run(["openssl", *map(str, words)], capture_output=True)
    return ran.stdout.decode(errors="replace") if ran.returncode == 0 else ""


def verification(text, key, signature):
    """The algorithm of a certificate, and the words that make openssl verify a signature of it."""
    name = re.search(r"Signature Algorithm: (\S+)", text)[1]
    found = re.fullmatch(r"(md\d|sha\d+)WithRSAEncryption|ecdsa-with-(SHA\d+)", name, re.IGNORECASE)
    if found:
        return name, ["dgst", "-" + (found[1] or found[2]).lower(), "-verify", key, "-signature", signature]
    if name == "rsassaPss":
        digest = re.search(r"Hash Algorithm: (\S+)", text)[1].lower()
        salt = int(re.search(r"Salt Length: (?:0x)?(\w+)", text)[1], 16)
        options = ["-sigopt", "rsa_padding_mode:pss", "-sigopt", f"rsa_pss_saltlen:{salt}"]
        return name, ["dgst", "-" + digest, *options, "-verify", key, "-signature", signature]
    if name in ("ED25519", "ED448"):
        return name, ["pkeyutl", "-verify", "-pubin", "-inkey", key, "-rawin", "-sigfile", signature, "-in"]
    return name, None


def main(folder, program, work):
    certificate, key, content, signature = (
        pathlib.Path(work) / it for it in ("certificate", "key", "content", "signature"))
    right, changed, tried, others = collections.Counter(), 0, 0, 0
    for octets in certificates(folder):
        certificate.write_bytes(octets)
        text = openssl("x509", "-inform", "DER", "-in", certificate, "-noout", "-text", "-subject", "-issuer")
        names = re.findall(r"^(?:subject|issuer)=(.*)", text, re.MULTILINE)
        if len(names) != 2 or names[0] != names[1]:
            others += 1
            continue
        name, words = verification(text, key, signature)
        if words is None:
            print(f"signed: the algorithm {name} is not known here, of {names[0]}")
            others += 1
            continue
        tried += 1
        key.write_text(openssl("x509", "-inform", "DER", "-in", certificate, "-noout", "-pubkey"))
        parts = openssl("asn1parse", "-inform", "DER", "-in", certificate)
        at = re.findall(r"^ *(\d+):d=1 .*BIT STRING", parts, re.MULTILINE)[-1]
        openssl("asn1parse", "-inform", "DER", "-in", certificate, "-strparse", at, "-noout", "-out", signature)
        ran = subprocess.run([program], input=octets, capture_output=True)
        content.write_bytes(ran.stdout)
        if ran.returncode == 0 and openssl(*words, content):
            right[name] += 1
        else:
            print(f"signed: status {ran.returncode}, {name} does not verify, of {names[0]}")
        content.write_bytes(ran.stdout[:-1] + bytes([ran.stdout[-1] ^ 1]) if ran.stdout else b"")
        if openssl(*words, content):
            changed += 1
            print(f"signed: {name} verifies with a bit changed, of {names[0]}")

    verified = sum(right.values())
    print(f"signed: {verified} of {tried} self-signed certificates verify over what was written, " +
          f"{changed} with a bit changed")
    print("signed: " + ", ".join(f"{count} {name}" for name, count in right.most_common()) +
          f"; {others} others left out")
    sys.exit(verified == 0 or verified < tried or changed > 0)


main(*sys.argv[1:])
