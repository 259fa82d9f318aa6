"""The certificates in the files of a folder, or in a file, each once. A file is in PEM, or one certificate in DER.

    certificates.py FOLDER           prints each in hex digits, a line each
    certificates.py FOLDER TARGET    writes each into the folder TARGET, in DER, as 0000.der, 0001.der ..

An empty FOLDER is /etc/ssl/certs. In short (short.py) each tenth of them is taken.
"""
import base64
import pathlib
import re
import sys

from short import part

FOLDER = "/etc/ssl/certs"
BEGIN, END = "-----BEGIN CERTIFICATE-----", "-----END CERTIFICATE-----"


def certificates(folder=""):
    seen = {}
    folder = pathlib.Path(folder or FOLDER)
    for path in sorted(folder.iterdir()) if folder.is_dir() else [folder]:
        octets = path.read_bytes() if path.is_file() else b""
        if octets.startswith(b"\x30"):
            seen.setdefault(octets)
        for body in re.findall(BEGIN + r"([A-Za-z0-9+/=\s]+)" + END, octets.decode(errors="replace")):
            seen.setdefault(base64.b64decode(body))
    return list(part(seen, 10))


def main(folder, target=None):
    for number, octets in enumerate(certificates(folder)):
        if target:
            (pathlib.Path(target) / f"{number:04}.der").write_bytes(octets)
        else:
            print(octets.hex().upper())


if __name__ == "__main__":
    main(*sys.argv[1:])
