"""The fields of a certification request."""
from typing import List, NamedTuple

from . import _calls
from ._calls import Octets
from ._document import Bits, Block, Document
from ._fields import Extension, Fields, extensions_of

# the type of the attribute with the extensions that are asked for
_EXTENSION_REQUEST = "1.2.840.113549.1.9.14"


class Attribute(NamedTuple):
    """An attribute of a certification request."""

    oid: str
    """Its OBJECT IDENTIFIER, as in 1.2.840.113549.1.9.7."""
    values: List[bytes]
    """The octets of each value: a document of the type that the identifier says."""


class CertificationRequest(Fields):
    """A certification request (PKCS #10) by its fields (RFC 2986, section 4).

    That octets are a request is checked, and no more: no signature. A document that begins with another block raises
    Refused, with the status NOT_REQUEST.
    """

    _whole = "certification_request"

    def __init__(self, source: Octets) -> None:
        super().__init__(source, _calls.request)

    @property
    def certification_request_info(self) -> bytes:
        """The octets that were signed."""
        return self._octets("certification_request_info")

    @property
    def version(self) -> int:
        """The version as it stands there: 0 is v1."""
        return self._integer("version")

    @property
    def subject(self) -> bytes:
        """The octets of the Name of the subject."""
        return self._octets("subject")

    @property
    def subject_public_key_info(self) -> bytes:
        """The octets of the SubjectPublicKeyInfo."""
        return self._octets("subject_public_key_info")

    @property
    def public_key_algorithm(self) -> str:
        """The OBJECT IDENTIFIER of the public key's algorithm, as in 1.2.840."""
        return self._identifier("public_key_algorithm")

    @property
    def public_key_algorithm_identifier(self) -> bytes:
        """The octets of the AlgorithmIdentifier of the public key, with its parameters."""
        return self._octets("public_key_algorithm")

    @property
    def subject_public_key(self) -> Bits:
        """The octets that hold the bits of the public key, and the number of bits."""
        return self._bits("subject_public_key")

    @property
    def attributes(self) -> List[Attribute]:
        """The attributes, in order."""
        return [Attribute(kind.oid, [value.octets for value in values]) for kind, values in self._attributes()]

    @property
    def extensions(self) -> List[Extension]:
        """The extensions that are asked for, in order (RFC 2985, section 5.4.2).

        If such an attribute has a value of another type, this raises NoSuchValue.
        """
        asked = [values for kind, values in self._attributes() if kind.oid == _EXTENSION_REQUEST]
        return [extension for values in asked for value in values for extension in extensions_of(value)]

    def _attributes(self) -> List[Block]:
        contents = self._contents("attributes")
        return Document(contents).blocks if contents else []
