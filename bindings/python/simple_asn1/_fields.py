"""What the records of fields say, of a certificate, a request and a list of revoked certificates."""
from typing import Callable, List, NamedTuple

from . import _calls
from ._calls import Octets, Parts, made, octets_of
from ._document import Bits, Block, Document, Moment, _count, _end
from ._status import Status, refusal

_OCTET_STRING, _SEQUENCE = 4, 16


class Extension(NamedTuple):
    """An extension of a certificate, a list of revoked certificates, or an entry of one; or one that is asked for."""

    oid: str
    """Its OBJECT IDENTIFIER, as in 2.5.29.19."""
    critical: bool
    """Who does not know a critical extension has to reject what has it."""
    value: bytes
    """The octets of its value: a document of the type that the identifier says."""


def extensions_of(sequence: Block) -> List[Extension]:
    """The extensions of a SEQUENCE. Another block raises NoSuchValue."""
    _expect(sequence, _SEQUENCE)
    return [_extension_of(block) for block in sequence]


def _extension_of(block: Block) -> Extension:
    if len(block) not in (2, 3):
        raise refusal(Status.NO_SUCH_VALUE, block.offset)
    kind, *critical, value = block
    _expect(value, _OCTET_STRING)
    return Extension(kind.oid, bool(critical) and critical[0].contents != b"\0", value.contents)


def _expect(block: Block, tag: int) -> None:
    if (block.tag_class, block.tag) != (0, tag):
        raise refusal(Status.NO_SUCH_VALUE, block.offset)


class Fields:
    """What is signed by a signature behind it, by its fields."""

    # the name of the record of the whole
    _whole = ""

    def __init__(self, source: Octets, call: Callable[[bytes], Parts]) -> None:
        self._document = octets_of(source)
        self._parts = call(self._document)

    @property
    def octets(self) -> bytes:
        """The octets of the whole."""
        return self._octets(self._whole)

    @property
    def signature_algorithm(self) -> str:
        """The OBJECT IDENTIFIER of the signature's algorithm, as in 1.2.840."""
        return self._identifier("signature_algorithm")

    @property
    def signature_algorithm_identifier(self) -> bytes:
        """The octets of the AlgorithmIdentifier behind what was signed."""
        return self._octets("signature_algorithm")

    @property
    def signature(self) -> Bits:
        """The octets that hold the bits of the signature, and the number of bits."""
        return self._bits("signature")

    def _octets(self, name: str) -> bytes:
        """Those of a part; none where it is absent."""
        part = self._parts[name]
        return self._document[part.offset : _end(part)]

    def _contents(self, name: str) -> bytes:
        part = self._parts[name]
        return self._document[part.offset + part.header : _end(part)]

    def _integer(self, name: str) -> int:
        return int.from_bytes(self._contents(name), "big", signed=True)

    def _moment(self, name: str) -> Moment:
        return made(Moment, _calls.time(self._document, self._parts[name].offset))

    def _bits(self, name: str) -> Bits:
        return made(Bits, _calls.bits(self._document, self._parts[name].offset))

    def _identifier(self, name: str) -> str:
        """The OBJECT IDENTIFIER with which a part begins."""
        part = self._parts[name]
        return _calls.oid_at(self._document, part.offset + part.header, part.contents)

    def _extensions(self, name: str) -> List[Extension]:
        """Those inside an explicit tag, in order; none where it is absent."""
        contents = self._contents(name)
        return extensions_of(Document(contents)[0]) if contents else []

    def __eq__(self, other: object) -> bool:
        return isinstance(other, type(self)) and self.octets == other.octets

    def __hash__(self) -> int:
        return hash(self.octets)

    def __repr__(self) -> str:
        return f"<{type(self).__name__} of {_count(len(self.octets), 'byte')}{self._shown()}>"

    def _shown(self) -> str:
        """What is shown beside the size."""
        return ""
