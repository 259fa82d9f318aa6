"""Many values of a document by one call."""
from datetime import datetime as DateTime
from typing import Any, List, NamedTuple, Optional, Sequence, Tuple

from . import _calls
from ._calls import Octets, made, octets_of
from ._document import Moment
from ._status import Status, refusal


class Value(NamedTuple):
    """A block that a path leads to. simple_asn1.h describes the fields of its record."""

    tag: int
    offset: int
    header_size: int
    contents_size: int
    number: int
    kind: int
    tag_class: int
    """0 universal, 1 application, 2 context-specific, 3 private."""
    constructed: int
    document: bytes

    def __repr__(self) -> str:
        return f"<Value at {self.offset}: tag {self.tag} of class {self.tag_class}>"

    @property
    def octets(self) -> bytes:
        """The octets of the whole block."""
        return self.document[self.offset : self.offset + self.header_size + self.contents_size]

    @property
    def contents(self) -> bytes:
        """Its contents octets."""
        _, offset, header_size, size, _, _, _, _, document = self
        return document[offset + header_size : offset + header_size + size]

    @property
    def integer(self) -> int:
        """The number of an INTEGER, of any size."""
        if self[_KIND] == _calls.INTEGER_FOUND:
            return self.number
        if self.tag_class != 0 or self.tag != 2:
            raise refusal(Status.NO_SUCH_VALUE, self.offset)
        return int.from_bytes(self.contents, "big", signed=True)

    @property
    def moment(self) -> Moment:
        """The moment of a UTCTime or GeneralizedTime."""
        return made(Moment, _calls.time(self.document, self.offset))

    @property
    def datetime(self) -> DateTime:
        """The moment of a UTCTime or GeneralizedTime, to the microsecond."""
        return self.moment.datetime

    @property
    def text(self) -> str:
        """The text of a string, of any kind."""
        if self[_CLASS] == 0 and self[_TAG] in _calls.STRINGS:
            text = _calls.plain_text(self.contents)
            if text is not None:
                return text
        return _calls.text_at(self.document, self.offset, 2 * self.contents_size)

    @property
    def oid(self) -> str:
        """The components of an OBJECT IDENTIFIER, as in 1.2.840."""
        if self[_CLASS] == 0 and self[_TAG] == 6 and self.contents_size <= _calls.USUAL_OID:
            text = _calls.usual_oid(self.contents)
            if text is not None:
                return text
        return _calls.oid_at(self.document, self.offset, self.contents_size)


_TAG, _KIND, _CLASS = map(Value._fields.index, ("tag", "kind", "tag_class"))


class Paths:
    """Paths to blocks: made once, and followed in many documents.

    A path has item numbers from 0: the first is that of a block at the top level, each other that of an item of the one
    before. So the serial number of most certificates is at (0, 0, 1).
    """

    def __init__(self, *paths: Sequence[int]) -> None:
        self._numbers = tuple(tuple(path) for path in paths)
        self._places = _calls.Places(self._numbers)

    def __reduce__(self) -> Tuple[Any, Tuple[Tuple[int, ...], ...]]:
        return Paths, self._numbers

    def __repr__(self) -> str:
        return f"Paths{self._numbers}"

    def values(self, octets: Octets) -> List[Optional[Value]]:
        """What each path leads to in a document, in order; None if it leads nowhere.

        The document is read by its headers alone, as by `outline`. Raises Refused.
        """
        octets = octets_of(octets)
        document = (octets,)
        found = _calls.values(octets, self._places)
        return [made(Value, fields + document) if fields[_KIND] else None for fields in found]
