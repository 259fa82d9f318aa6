"""Documents, their blocks, and the values of the blocks."""
import operator
from array import array
from datetime import datetime as DateTime, timezone
from functools import partial
from typing import Callable, Dict, Iterable, Iterator, List, NamedTuple, Optional, Sequence, SupportsIndex, Tuple
from typing import Union, overload

from . import _calls
from ._calls import Octets, Record, made, octets_of
from ._pem import pem_objects
from ._status import Status, refusal

_NAMES = {
    1: "BOOLEAN", 2: "INTEGER", 3: "BIT STRING", 4: "OCTET STRING", 5: "NULL", 6: "OBJECT IDENTIFIER", 10: "ENUMERATED",
    12: "UTF8String", 16: "SEQUENCE", 17: "SET", 18: "NumericString", 19: "PrintableString", 20: "TeletexString",
    22: "IA5String", 23: "UTCTime", 24: "GeneralizedTime", 26: "VisibleString", 28: "UniversalString", 30: "BMPString",
}  # fmt: skip
# those with so small a number are found without a list of all
_FEW = 8
_CLASSES = ("UNIVERSAL ", "APPLICATION ", "", "PRIVATE ")


class Moment(NamedTuple):
    """A moment in UTC, to the nanosecond."""

    year: int
    month: int
    day: int
    hour: int
    minute: int
    second: int
    nanosecond: int

    @property
    def datetime(self) -> DateTime:
        """As a `datetime` in UTC, cut to the microsecond. ValueError for the year 0."""
        return DateTime(*self[:6], self.nanosecond // 1000, tzinfo=timezone.utc)

    def __str__(self) -> str:
        text = f"{self.year:04}-{self.month:02}-{self.day:02}T{self.hour:02}:{self.minute:02}:{self.second:02}"
        return text + (f".{self.nanosecond:09}Z" if self.nanosecond else "Z")


class Bits(NamedTuple):
    """The octets that hold the bits of a BIT STRING, and the number of bits.

    The first bit is the most significant of the first octet.
    """

    octets: bytes
    length: int


class Document:
    """A document and the record of each of its blocks. `read`, `read_strict`, `outline` and `read_pem` make it.

    It holds the octets and 64 bytes for each block. While it is read, the library holds as much for each block again.
    """

    def __init__(self, octets: Octets, *, strict: bool = False, by_headers: bool = False) -> None:
        self._octets = octets_of(octets)
        self._by_headers = by_headers
        call = _calls.outline if by_headers else _calls.read_strict if strict else _calls.read
        self._blocks = call(self._octets)
        self._levels: Dict[int, Sequence[int]] = {}

    def __reduce__(self) -> Tuple[Callable[[Octets], "Document"], Tuple[bytes]]:
        """A pickled document is read again where it is loaded."""
        return (outline if self._by_headers else read), (self._octets,)

    @property
    def octets(self) -> bytes:
        return self._octets

    @property
    def records(self) -> List[Record]:
        """The records of all blocks, as `write` takes them."""
        return list(self._blocks)

    @property
    def blocks(self) -> List["Block"]:
        """The blocks at the top level."""
        return self._all_among(0, len(self._blocks))

    @property
    def all_blocks(self) -> List["Block"]:
        """The blocks at all depths, each before those inside it."""
        return [Block(self, index) for index in range(len(self._blocks))]

    def _among(self, start: int, end: int) -> Iterator["Block"]:
        return map(partial(Block, self), self._blocks.level(start, end))

    def _all_among(self, start: int, end: int) -> List["Block"]:
        return [Block(self, index) for index in self._blocks.level(start, end)]

    def _level(self, start: int, end: int) -> Sequence[int]:
        """The indices of the blocks at a level, by their number. They are found when they are first asked for."""
        level = self._levels.get(start)
        if level is None:
            level = self._levels[start] = array("Q", self._blocks.level(start, end))
        return level

    @overload
    def _taken(self, start: int, end: int, number: SupportsIndex) -> "Block": ...

    @overload
    def _taken(self, start: int, end: int, number: slice) -> List["Block"]: ...

    def _taken(self, start: int, end: int, number: Union[SupportsIndex, slice]) -> Union["Block", List["Block"]]:
        """The block or blocks with these numbers at a level."""
        if isinstance(number, slice):
            return [Block(self, index) for index in self._level(start, end)[number]]
        number = operator.index(number)
        if 0 <= number < _FEW:
            index = self._blocks.after(start, end, number)
            if index < end:
                return Block(self, index)
        return Block(self, self._level(start, end)[number])

    def __iter__(self) -> Iterator["Block"]:
        """Over the blocks at the top level."""
        return self._among(0, len(self._blocks))

    def __len__(self) -> int:
        """The number of blocks at the top level."""
        return len(self._level(0, len(self._blocks)))

    @overload
    def __getitem__(self, index: SupportsIndex) -> "Block": ...

    @overload
    def __getitem__(self, index: slice) -> List["Block"]: ...

    def __getitem__(self, index: Union[SupportsIndex, slice]) -> Union["Block", List["Block"]]:
        return self._taken(0, len(self._blocks), index)

    def __repr__(self) -> str:
        return f"<Document of {_count(len(self._octets), 'byte')}: {_count(len(self), 'block')}>"


class Block:
    """A block of a document. Two are equal if they are the same block of the same document."""

    __slots__ = ("_document", "_index", "_made")

    def __init__(self, document: Document, index: int) -> None:
        self._document = document
        self._index = index
        self._made: Optional[Record] = None

    @property
    def document(self) -> Document:
        return self._document

    @property
    def index(self) -> int:
        """Its index in `all_blocks` and `records` of the document."""
        return self._index

    @property
    def record(self) -> Record:
        if self._made is None:
            self._made = self._document._blocks[self._index]
        return self._made

    def __eq__(self, other: object) -> bool:
        return isinstance(other, Block) and self._document is other._document and self._index == other._index

    def __hash__(self) -> int:
        return hash((id(self._document), self._index))

    def __repr__(self) -> str:
        kind = _NAMES.get(self.tag, "") if self.tag_class == 0 else ""
        kind = kind or f"[{_CLASSES[self.tag_class]}{self.tag}]"
        if len(self) > 0:
            return f"<{kind} at {self.offset}: {_count(len(self), 'item')}>"
        record = self._made or self.record
        start = record.offset + record.header
        shown = self._document._octets[start : start + min(record.contents, 16)].hex(" ").upper()
        cut = f".. of {record.contents} bytes" if record.contents > 16 else ""
        return f"<{kind} at {self.offset}{':' if shown else ''} {shown}{cut}".rstrip() + ">"

    @property
    def tag_class(self) -> int:
        """0 universal, 1 application, 2 context-specific, 3 private."""
        return (self._made or self.record).tag_class

    @property
    def tag(self) -> int:
        return (self._made or self.record).tag

    @property
    def constructed(self) -> bool:
        return self.record.constructed != 0

    @property
    def offset(self) -> int:
        return (self._made or self.record).offset

    @property
    def depth(self) -> int:
        """The number of blocks around it."""
        return (self._made or self.record).depth

    @property
    def items(self) -> List["Block"]:
        """The blocks directly inside it."""
        document = self._document
        return document._all_among(self._index + 1, document._blocks.next(self._index))

    def __iter__(self) -> Iterator["Block"]:
        """Over its items."""
        document = self._document
        return document._among(self._index + 1, document._blocks.next(self._index))

    def __len__(self) -> int:
        """The number of items."""
        return (self._made or self.record).items

    def __bool__(self) -> bool:
        """True, also without items."""
        return True

    @overload
    def __getitem__(self, index: SupportsIndex) -> "Block": ...

    @overload
    def __getitem__(self, index: slice) -> List["Block"]: ...

    def __getitem__(self, index: Union[SupportsIndex, slice]) -> Union["Block", List["Block"]]:
        document = self._document
        return document._taken(self._index + 1, document._blocks.next(self._index), index)

    @property
    def octets(self) -> bytes:
        """The octets of the whole block."""
        record = self._made or self.record
        return self._document._octets[record.offset : _end(record)]

    @property
    def contents(self) -> bytes:
        """Its contents octets: the value of an OCTET STRING."""
        record = self._made or self.record
        return self._document._octets[record.offset + record.header : _end(record)]

    @property
    def octets_view(self) -> memoryview:
        """The octets of the whole block, as a view of the document's: none are copied.

        Blocks inside one another share their octets. To copy those of each takes a time that grows as the square of the
        depth; to view them does not. A view keeps the octets of the whole document.
        """
        record = self._made or self.record
        return memoryview(self._document._octets)[record.offset : _end(record)]

    @property
    def contents_view(self) -> memoryview:
        """Its contents octets, as a view of the document's: none are copied."""
        record = self._made or self.record
        return memoryview(self._document._octets)[record.offset + record.header : _end(record)]

    @property
    def integer(self) -> int:
        """The number of an INTEGER, of any size."""
        record = self._made or self.record
        if record.tag_class != 0 or record.tag != 2:
            raise refusal(Status.NO_SUCH_VALUE, record.offset)
        return int.from_bytes(self.contents, "big", signed=True)

    @property
    def moment(self) -> Moment:
        """The moment of a UTCTime or GeneralizedTime."""
        return made(Moment, _calls.time(self._document._octets, (self._made or self.record).offset))

    @property
    def datetime(self) -> DateTime:
        """The moment of a UTCTime or GeneralizedTime, to the microsecond."""
        return self.moment.datetime

    @property
    def text(self) -> str:
        """The text of a string, of any kind."""
        return _calls.text(self._document._octets, self._made or self.record)

    @property
    def oid(self) -> str:
        """The components of an OBJECT IDENTIFIER, as in 1.2.840.

        One of more than 1,024 contents octets is refused as TOO_LONG: `contents` has them.
        """
        return _calls.oid(self._document._octets, self._made or self.record)

    @property
    def bits(self) -> Bits:
        """The octets that hold the bits of a BIT STRING, and the number of bits."""
        return made(Bits, _calls.bits(self._document._octets, (self._made or self.record).offset))


def _count(number: int, what: str) -> str:
    return f"{number} {what}" + ("" if number == 1 else "s")


def read(octets: Octets) -> Document:
    """Reads a document. Raises Refused."""
    return Document(octets)


def read_strict(octets: Octets) -> Document:
    """Reads a document in canonical form. Raises Refused for any other.

    Canonical is what `rewrite` returns, which is not quite DER: a BIT STRING of no bits is 03 00, where DER has
    03 01 00. Section 6 of the library's docs/GRAMMAR.md has the whole list, and `departures` says whether octets are
    DER.
    """
    return Document(octets, strict=True)


def outline(octets: Octets) -> Document:
    """Reads a document by its headers alone: contents octets of leaves are not looked into. Raises Refused."""
    return Document(octets, by_headers=True)


def read_pem(text: Union[str, Octets]) -> Document:
    """Reads the first object of PEM. Raises Refused, and ValueError if there is no object or one is malformed."""
    return Document(pem_objects(text)[0].octets)


def check(octets: Octets) -> None:
    """Raises `Refused` if these octets are not a document. No records are made."""
    _calls.check(octets_of(octets))


def rewrite(octets: Octets) -> bytes:
    """The canonical octets of a document, as `read_strict` accepts them."""
    return _calls.rewrite(octets_of(octets))


def write(octets: Octets, records: Iterable[Record]) -> bytes:
    """The canonical octets of what the records describe; their offsets are into these octets."""
    return _calls.write(octets_of(octets), list(records))


class Signed:
    """The parts of a certificate, request or revocation list with which its signature is verified."""

    content: bytes
    """The octets that were signed."""
    algorithm: str
    """The OBJECT IDENTIFIER of the algorithm, as in 1.2.840."""
    algorithm_identifier: bytes
    """The octets of the AlgorithmIdentifier: the SEQUENCE of that OBJECT IDENTIFIER and the parameters."""
    parameters: bytes
    """The octets of the algorithm's parameters, if any. RSASSA-PSS cannot be verified without them."""
    signature: bytes
    """The octets that hold the bits of the signature."""
    unused_bits: int
    """The number of unused bits in the last of these: 0 with all usual algorithms."""

    def __init__(self, source: Octets) -> None:
        octets = octets_of(source)
        content, algorithm, signature = _calls.signed(octets)
        end = _end(content)
        self.content = octets[content.offset : end]
        self.algorithm = _calls.oid(octets, algorithm)
        # content, algorithm and signature stand one after another
        self.algorithm_identifier = octets[end : signature.offset]
        self.parameters = octets[_end(algorithm) : signature.offset]
        self.signature, bits = _calls.bits(octets, signature.offset)
        self.unused_bits = 8 * len(self.signature) - bits

    def _key(self) -> Tuple[bytes, bytes, bytes, int]:
        return self.content, self.algorithm_identifier, self.signature, self.unused_bits

    def __eq__(self, other: object) -> bool:
        return isinstance(other, Signed) and self._key() == other._key()

    def __hash__(self) -> int:
        return hash(self._key())

    def __repr__(self) -> str:
        return f"<Signed: {_count(len(self.content), 'byte')} by {self.algorithm}>"


def _end(record: Record) -> int:
    return record.offset + record.header + record.contents
