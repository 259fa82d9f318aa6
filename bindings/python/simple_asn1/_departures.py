"""Which rules of DER octets break, and where."""
import enum
from typing import List, NamedTuple, Optional, Tuple

from . import _calls
from ._calls import Octets, octets_of


class Rule(enum.IntEnum):
    """A rule of DER that an encoding may break, by its number in simple_asn1.h.

    `text` is what is wrong. `section` has the clauses that say the rule: of X.690, unless X.680 is named.
    """

    text: str
    section: str

    def __new__(cls, number: int, text: str, section: str) -> "Rule":
        rule = int.__new__(cls, number)
        rule._value_ = number
        rule.text = text
        rule.section = section
        return rule

    @classmethod
    def _missing_(cls, value: object) -> "Optional[Rule]":
        return cls._unknown(value) if isinstance(value, int) and value >= 0 else None

    @classmethod
    def _unknown(cls, number: int) -> "Rule":
        """A rule of a later library, which has only its number here."""
        rule = int.__new__(cls, number)
        rule._name_, rule._value_ = f"UNKNOWN_{number}", number
        rule.text, rule.section = f"unknown rule {number}", ""
        return rule

    def __reduce_ex__(self, protocol: object) -> Tuple[type, Tuple[int]]:
        # by its number: the Python 3.11 of Debian 12 takes the name, by which nothing finds one of a later library
        return type(self), (self.value,)

    LONG_IDENTIFIER = 1, "tag number below 31 in more than one byte", "8.1.2.2"
    PADDED_TAG = 2, "tag number not in the fewest bytes", "8.1.2.4.2"
    INDEFINITE_LENGTH = 3, "indefinite length", "8.1.3.2, 10.1"
    LONG_LENGTH = 4, "length not in the fewest bytes", "10.1"
    RESERVED_TAG = 5, "reserved tag", "X.680 8.4"
    NOT_CONSTRUCTED = 6, "primitive, but the type is constructed", "8.9.1, 8.11.1, 8.17, 8.18, 8.24"
    NOT_PRIMITIVE = (
        7, "constructed, but the type is primitive",
        "8.2.1, 8.3.1, 8.5.1, 8.8.1, 8.19.1, 8.20.1, 8.21, 8.22, 8.26",
    )
    CONSTRUCTED_STRING = 8, "string in pieces", "10.2"
    BOOLEAN_SIZE = 9, "BOOLEAN not of one byte", "8.2.1"
    BOOLEAN_VALUE = 10, "BOOLEAN neither 00 nor FF", "8.2.2, 11.1"
    NO_INTEGER = 11, "number without bytes", "8.3.1"
    PADDED_INTEGER = 12, "number not in the fewest bytes", "8.3.2"
    BINARY_REAL = 13, "binary REAL not in its one form", "8.5.7, 11.3.1"
    DECIMAL_REAL = 14, "decimal REAL not in its one form", "8.5.8, 11.3.2"
    SPECIAL_REAL = 15, "special REAL that there is not", "8.5.9"
    UNUSED_COUNT = 16, "no number of unused bits from 0 to 7", "8.6.2.2"
    UNUSED_OF_NONE = 17, "unused bits of no bits", "8.6.2.3"
    UNUSED_BITS = 18, "unused bits not 0", "11.2.1"
    NULL_CONTENTS = 19, "NULL with contents", "8.8.2"
    SUBIDENTIFIERS = 20, "subidentifiers missing, cut off or not in the fewest bytes", "8.19.2, 8.20.2"
    IRI = 21, "no internationalized resource identifier", "8.21, 8.22"
    CHARACTERS = 22, "characters that the type does not have", "8.23, X.680 41"
    UTC_TIME = 23, "not YYMMDDhhmmssZ of a moment that exists", "11.8"
    GENERALIZED_TIME = 24, "not YYYYMMDDhhmmss[.f]Z of a moment that exists", "11.7"
    TIME = 25, "no date or time of the type", "8.26"
    ORDER = 26, "SET out of order", "10.3, 11.6"
    NOT_ENCODINGS = 27, "contents that are not encodings", "8.9.2, 8.10.2, 8.11.2, 8.12.2, 8.14"
    EXTERNAL = 28, "not a reference and an encoding", "8.18"
    IDENTIFICATION = 29, "not an identification and a value", "8.17, 8.24"


_RULES = {rule.value: rule for rule in Rule}


class Departure(NamedTuple):
    """A rule that an encoding breaks, and where the encoding begins."""

    offset: int
    rule: Rule
    section: str
    text: str

    def __str__(self) -> str:
        section = f" ({self.section})" if self.section else ""
        return f"{self.text}{section}, at {self.offset}"


def departures(octets: Octets) -> List[Departure]:
    """Each rule of DER that an encoding breaks, in the order of their offsets: none for DER, and only for DER.

    Rules that need a schema are not checked, and no OCTET STRING or BIT STRING is looked into. Raises Refused for
    octets that are not encodings one after another by their headers.
    """
    found = []
    for offset, number in _calls.departures(octets_of(octets)):
        rule = _RULES.get(number) or Rule._unknown(number)
        found.append(Departure(offset, rule, rule.section, rule.text))
    return found
