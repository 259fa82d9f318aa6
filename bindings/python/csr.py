"""Makes a certification request (PKCS #10, RFC 2986) for an Ed25519 or P-256 key:

    openssl pkey -in KEY.pem -pubout -outform DER -out PUBLIC.der
    csr.py NAME PUBLIC.der > INFO.der
    openssl pkeyutl -sign -inkey KEY.pem -rawin -in INFO.der -out SIGNATURE    (P-256: and -digest sha256)
    csr.py NAME PUBLIC.der SIGNATURE > REQUEST.der
"""
import pathlib
import sys

import simple_asn1

UNIVERSAL, CONTEXT = 0, 2
UTF8_STRING, SEQUENCE, SET = 12, 16, 17
# the algorithm that a key signs with, by the OBJECT IDENTIFIER of the key's: Ed25519; P-256 with ecdsa-with-SHA256
ALGORITHMS = {"1.3.101.112": "1.3.101.112", "1.2.840.10045.2.1": "1.2.840.10045.4.3.2"}


def add_info(builder, name, key):
    """The CertificationRequestInfo, which is signed: version, subject, public key and no attributes."""
    with builder.open(UNIVERSAL, SEQUENCE):
        builder.add_integer(0)
        with builder.open(UNIVERSAL, SEQUENCE), builder.open(UNIVERSAL, SET), builder.open(UNIVERSAL, SEQUENCE):
            builder.add_oid("2.5.4.3").add_text(UTF8_STRING, name)  # commonName
        builder.add_block(key)
        builder.open(CONTEXT, 0).close()


def made(name, key, signature=None):
    """What is to be signed; with a signature the request."""
    builder = simple_asn1.Builder()
    if signature is None:
        add_info(builder, name, key)
        return builder.finish()
    with builder.open(UNIVERSAL, SEQUENCE):
        add_info(builder, name, key)
        with builder.open(UNIVERSAL, SEQUENCE):
            builder.add_oid(ALGORITHMS[key[0][0].oid])
        builder.add_bits(signature, 8 * len(signature))
    return builder.finish()


def main():
    if len(sys.argv) not in (3, 4):
        sys.exit("csr.py NAME PUBLIC.der [SIGNATURE]")
    name, *files = sys.argv[1:]
    key, *signature = (pathlib.Path(file).read_bytes() for file in files)
    try:
        sys.stdout.buffer.write(made(name, simple_asn1.read_strict(key)[0], *signature))
    except KeyError:
        sys.exit("this key is neither of Ed25519 nor of P-256")
    except (IndexError, simple_asn1.Refused) as why:
        sys.exit(f"this is no public key, or no name: {why}")


if __name__ == "__main__":
    main()
