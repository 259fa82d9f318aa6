"""Documents that are made of values."""
from typing import Callable, List

from . import _calls
from ._calls import Octets, Record, octets_of
from ._document import Block, Moment
from ._status import Refused, Status, refusal


class Builder:
    """A document that is made of values, block by block. A method that adds a value raises Refused for what is none.

    Then nothing is added, and `offset` is the index of its block. Classes and tags of `open`, and all that `add_octets`
    and `add_block` are given, are looked at by `finish`.
    """

    def __init__(self) -> None:
        self._octets = bytearray()
        self._records: List[Record] = []
        self._open: List[int] = []  # the indices of the open blocks, the innermost last

    def open(self, tag_class: int, tag: int) -> "Builder":
        """Begins a constructed block: those that are added until `close`, or the end of a `with`, are its items."""
        self._add(tag_class, tag, b"", constructed=1)
        self._open.append(len(self._records) - 1)
        return self

    def close(self) -> "Builder":
        """Ends the innermost open block."""
        if not self._open:
            raise refusal(Status.BAD_RECORD, len(self._records))
        index = self._open.pop()
        self._records[index] = self._records[index]._replace(next=len(self._records))
        return self

    def __enter__(self) -> "Builder":
        return self

    def __exit__(self, *_: object) -> None:
        self.close()

    def add_boolean(self, value: bool) -> "Builder":
        return self._add(0, 1, self._put(_calls.put_boolean, value))

    def add_integer(self, value: int) -> "Builder":
        """An INTEGER of any size."""
        return self._add(0, 2, self._put(_calls.put_integer, value))

    def add_bits(self, octets: Octets, length: int) -> "Builder":
        """A BIT STRING of the first bits of the octets, which must be the fewest that hold so many.

        Unused bits of the last stay as they are; in DER they are 0.
        """
        return self._add(0, 3, self._put(_calls.put_bits, octets_of(octets), length))

    def add_null(self) -> "Builder":
        return self._add(0, 5, b"")

    def add_oid(self, text: str) -> "Builder":
        """An OBJECT IDENTIFIER with these components, as in 1.2.840."""
        return self._add(0, 6, self._put(_calls.put_oid, text))

    def add_text(self, tag: int, text: str) -> "Builder":
        """A string with this tag number: 12 for UTF8String, 19 for PrintableString, 22 for IA5String."""
        return self._add(0, tag, self._put(_calls.put_text, tag, text))

    def add_time(self, tag: int, moment: Moment) -> "Builder":
        """A UTCTime (tag 23), of the years 1950 to 2049 and whole seconds, or a GeneralizedTime (tag 24)."""
        return self._add(0, tag, self._put(_calls.put_time, tag, moment))

    def add_octets(self, tag_class: int, tag: int, octets: Octets) -> "Builder":
        """A primitive block with these contents octets as they are: an OCTET STRING (class 0, tag 4), say."""
        return self._add(tag_class, tag, octets_of(octets))

    def add_block(self, block: Block) -> "Builder":
        """A copy of a block that was read, with all that it holds."""
        return self._add(block.tag_class, block.tag, block.contents, constructed=block.record.constructed)

    def finish(self) -> bytes:
        """The canonical octets of the document."""
        if self._open:
            raise refusal(Status.BAD_RECORD, self._open[-1])
        return _calls.write(bytes(self._octets), self._records)

    def _put(self, call: Callable[..., bytes], *arguments: object) -> bytes:
        try:
            return call(*arguments)
        except Refused as why:
            raise refusal(why.status, len(self._records)) from None

    def _add(self, tag_class: int, tag: int, contents: bytes, *, constructed: int = 0) -> "Builder":
        if self._open:
            around = self._records[self._open[-1]]
            self._records[self._open[-1]] = around._replace(items=around.items + 1)
        place, index, depth = len(self._octets), len(self._records), len(self._open)
        self._records.append(Record(tag, place, 0, len(contents), 0, index + 1, depth, tag_class, constructed))
        self._octets += contents
        return self
