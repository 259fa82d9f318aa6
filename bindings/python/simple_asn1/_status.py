"""The statuses that the library returns, and the errors that are raised for them."""
import enum
from typing import Optional, Tuple


class Status(enum.IntEnum):
    """What the library returns."""

    OK = 0
    EMPTY = 1
    BOOLEAN_LENGTH = 2
    LENGTH = 3
    UTF8 = 4
    PRINTABLE = 5
    DATE = 6
    BIT_STRING_LENGTH = 7
    INCOMPLETE = 8
    NOT_CANONICAL = 9
    NO_MEMORY = 10
    NO_ROOM = 11
    NO_SUCH_VALUE = 12
    RANGE = 13
    NOT_SIGNED = 14
    BAD_RECORD = 15
    NOT_OID = 16
    TOO_LONG = 17
    NOT_CERTIFICATE = 18
    NOT_REQUEST = 19
    NOT_REVOCATION_LIST = 20

    @classmethod
    def _missing_(cls, value: object) -> "Optional[Status]":
        """A status of a later library, which has only its number here."""
        if not isinstance(value, int) or value < 0:
            return None
        status = int.__new__(cls, value)
        status._name_, status._value_ = f"UNKNOWN_{value}", value
        return status

    def __reduce_ex__(self, protocol: object) -> Tuple[type, Tuple[int]]:
        # by its number: the Python 3.11 of Debian 12 takes the name, by which nothing finds one of a later library
        return type(self), (self.value,)


TEXTS = {
    Status.OK: "done",
    Status.EMPTY: "the input is empty",
    Status.BOOLEAN_LENGTH: "a BOOLEAN must have one content byte",
    Status.LENGTH: "a length is too large",
    Status.UTF8: "a string or time is not UTF-8",
    Status.PRINTABLE: "a PrintableString has a forbidden character",
    Status.DATE: "a time is invalid",
    Status.BIT_STRING_LENGTH: "a BIT STRING has more unused bits than bits",
    Status.INCOMPLETE: "the input is truncated",
    Status.NOT_CANONICAL: "a block is not in canonical form",
    Status.NO_MEMORY: "out of memory",
    Status.NO_ROOM: "there is not enough room",
    Status.NO_SUCH_VALUE: "there is no block of this kind",
    Status.RANGE: "the value does not fit",
    Status.NOT_SIGNED: "the first block is not a signed triple",
    Status.BAD_RECORD: "a record cannot be written",
    Status.NOT_OID: "the text is not an OBJECT IDENTIFIER",
    Status.TOO_LONG: "too long for text in decimal",
    Status.NOT_CERTIFICATE: "the first block is not a certificate",
    Status.NOT_REQUEST: "the first block is not a certification request",
    Status.NOT_REVOCATION_LIST: "the first block is not a certificate revocation list",
}


class Refused(ValueError):
    """Octets are not a document, a block has no value of a kind, or a value is not one of a block: `status` says why.

    `offset` says where, in bytes from the start. For a record that cannot be written it is the record's index, and for
    a value that a Builder cannot add the index of its block.
    """

    status: Status
    offset: int

    def __init__(self, status: int, offset: int) -> None:
        self.status = Status(status)
        self.offset = offset
        super().__init__(f"{TEXTS.get(self.status, f'unknown status {status}')}, at {offset}")

    def __reduce__(self) -> Tuple[type, Tuple[Status, int]]:
        return type(self), (self.status, self.offset)


class NoSuchValue(Refused, AttributeError):
    """A block is of another kind. It is also an AttributeError, so that `getattr(block, "text", None)` is None."""


def refusal(status: int, offset: int) -> Refused:
    """The error of a status."""
    return (NoSuchValue if status == Status.NO_SUCH_VALUE else Refused)(status, offset)
