"""Reads and writes DER (ITU-T X.690) by the proved library simple_asn1.

    document = read(octets)                 # or read_strict, for canonical documents only; or read_pem
    for block in document:                  # those at the top level; document.all_blocks has those inside them too
        print(block.tag, list(block))

    builder = Builder()                     # a document that is made of values
    with builder.open(0, 16):
        builder.add_integer(5)
    octets = builder.finish()

Invalid input raises Refused, with the status and the offset of the block at fault. The library is the one at the path
in SIMPLE_ASN1_LIBRARY, or else in the package, or where bindings/c/build puts it, or installed.
"""
from ._builder import Builder
from ._calls import Octets, Record
from ._certificate import Certificate
from ._departures import Departure, Rule, departures
from ._document import Bits, Block, Document, Moment, Signed
from ._document import check, outline, read, read_pem, read_strict, rewrite, write
from ._fields import Extension
from ._paths import Paths, Value
from ._pem import PemObject, pem_objects
from ._request import Attribute, CertificationRequest
from ._revocation_list import RevocationList, RevokedCertificate
from ._status import TEXTS, NoSuchValue, Refused, Status

__all__ = [
    "Attribute", "Bits", "Block", "Builder", "Certificate", "CertificationRequest", "Departure", "Document",
    "Extension", "Moment", "NoSuchValue", "Octets", "Paths", "PemObject", "Record", "Refused", "RevocationList",
    "RevokedCertificate", "Rule", "Signed", "Status", "TEXTS", "Value", "check", "departures", "outline",
    "pem_objects", "read", "read_pem", "read_strict", "rewrite", "write",
]  # fmt: skip
