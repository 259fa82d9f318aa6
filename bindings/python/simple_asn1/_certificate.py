"""The fields of a certificate."""
from datetime import datetime as DateTime
from typing import List, Optional, Tuple

from . import _calls
from ._calls import Octets
from ._document import Bits, Moment
from ._fields import Extension, Fields


class Certificate(Fields):
    """A certificate by its fields (RFC 5280, section 4.1).

    That octets are a certificate is checked, and no more: no signature, chain, moment or purpose. A document that
    begins with another block raises Refused, with the status NOT_CERTIFICATE.
    """

    _whole = "certificate"

    def __init__(self, source: Octets) -> None:
        super().__init__(source, _calls.certificate)

    @property
    def tbs_certificate(self) -> bytes:
        """The octets that were signed."""
        return self._octets("tbs_certificate")

    @property
    def version(self) -> int:
        """The version as it stands there: 2 is v3. Without one it is 0, which is v1."""
        part = self._parts["version"]
        return _calls.int64(self._document, part.offset + part.header) if part.header else 0

    @property
    def serial_number(self) -> int:
        return self._integer("serial_number")

    @property
    def tbs_signature(self) -> bytes:
        """The octets of the AlgorithmIdentifier in what was signed, which is that of the signature."""
        return self._octets("tbs_signature")

    @property
    def issuer(self) -> bytes:
        """The octets of the Name of the issuer."""
        return self._octets("issuer")

    @property
    def validity(self) -> Tuple[Moment, Moment]:
        """The first and the last moment at which it is valid, to the nanosecond."""
        return self._moment("not_before"), self._moment("not_after")

    @property
    def not_before(self) -> DateTime:
        """The first moment at which it is valid, in UTC, cut to the microsecond. ValueError for the year 0."""
        return self._moment("not_before").datetime

    @property
    def not_after(self) -> DateTime:
        """The last moment at which it is valid, in UTC, cut to the microsecond. ValueError for the year 0."""
        return self._moment("not_after").datetime

    @property
    def subject(self) -> bytes:
        """The octets of the Name of the subject."""
        return self._octets("subject")

    @property
    def subject_public_key_info(self) -> bytes:
        """The octets of the SubjectPublicKeyInfo."""
        return self._octets("subject_public_key_info")

    @property
    def public_key_algorithm(self) -> str:
        """The OBJECT IDENTIFIER of the public key's algorithm, as in 1.2.840."""
        return self._identifier("public_key_algorithm")

    @property
    def public_key_algorithm_identifier(self) -> bytes:
        """The octets of the AlgorithmIdentifier of the public key, with its parameters."""
        return self._octets("public_key_algorithm")

    @property
    def subject_public_key(self) -> Bits:
        """The octets that hold the bits of the public key, and the number of bits."""
        return self._bits("subject_public_key")

    @property
    def issuer_unique_id(self) -> Optional[bytes]:
        """The octets of the issuer's unique identifier, with the tag [1]."""
        return self._octets("issuer_unique_id") or None

    @property
    def subject_unique_id(self) -> Optional[bytes]:
        """The octets of the subject's unique identifier, with the tag [2]."""
        return self._octets("subject_unique_id") or None

    @property
    def extensions(self) -> List[Extension]:
        """The extensions, in order."""
        return self._extensions("extensions")

    def _shown(self) -> str:
        return f": serial number {self.serial_number}"
