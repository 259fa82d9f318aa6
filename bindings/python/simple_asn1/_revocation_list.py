"""The fields of a list of revoked certificates."""
from datetime import datetime as DateTime
from typing import Iterator, List, Optional, Tuple

from . import _calls
from ._calls import Octets, made
from ._document import Document, Moment, _count, _end
from ._fields import Extension, Fields, extensions_of


class RevokedCertificate:
    """A revoked certificate of a list."""

    __slots__ = ("_document", "_number", "_date", "_end")

    def __init__(self, document: bytes, offset: int) -> None:
        entry = _calls.header(document, offset)
        self._document, self._end = document, _end(entry)
        self._number = _calls.header(document, offset + entry.header)
        self._date = _calls.header(document, _end(self._number))

    @property
    def serial_number(self) -> int:
        number = self._number
        return int.from_bytes(self._document[number.offset + number.header : _end(number)], "big", signed=True)

    @property
    def moment(self) -> Moment:
        """The moment of the revocation, to the nanosecond."""
        return made(Moment, _calls.time(self._document, self._date.offset))

    @property
    def revocation_date(self) -> DateTime:
        """The moment of the revocation, in UTC, cut to the microsecond. ValueError for the year 0."""
        return self.moment.datetime

    @property
    def extensions(self) -> List[Extension]:
        """The extensions of the entry, in order."""
        octets = self._document[_end(self._date) : self._end]
        return extensions_of(Document(octets)[0]) if octets else []

    def __repr__(self) -> str:
        return f"<RevokedCertificate: serial number {self.serial_number}>"


class RevocationList(Fields):
    """A certificate revocation list by its fields (RFC 5280, section 5.1).

    That octets are such a list is checked, and no more: no signature and no moment. A document that begins with another
    block raises Refused, with the status NOT_REVOCATION_LIST.
    """

    _whole = "certificate_list"

    def __init__(self, source: Octets) -> None:
        super().__init__(source, _calls.revocation_list)

    @property
    def tbs_cert_list(self) -> bytes:
        """The octets that were signed."""
        return self._octets("tbs_cert_list")

    @property
    def version(self) -> int:
        """The version as it stands there: 1 is v2. Without one it is 0, which is v1."""
        return self._integer("version")

    @property
    def tbs_signature(self) -> bytes:
        """The octets of the AlgorithmIdentifier in what was signed, which is that of the signature."""
        return self._octets("tbs_signature")

    @property
    def issuer(self) -> bytes:
        """The octets of the Name of the issuer."""
        return self._octets("issuer")

    @property
    def updates(self) -> Tuple[Moment, Optional[Moment]]:
        """The moment of the list and that until which the next one comes, if there is one, to the nanosecond."""
        return self._moment("this_update"), self._moment("next_update") if self._octets("next_update") else None

    @property
    def this_update(self) -> DateTime:
        """The moment of the list, in UTC, cut to the microsecond. ValueError for the year 0."""
        return self._moment("this_update").datetime

    @property
    def next_update(self) -> Optional[DateTime]:
        """The moment until which the next list comes, in UTC, cut to the microsecond. ValueError for the year 0."""
        return self._moment("next_update").datetime if self._octets("next_update") else None

    @property
    def revoked_certificates(self) -> Iterator[RevokedCertificate]:
        """The revoked certificates, in order. Each is looked at when it is asked for."""
        part = self._parts["revoked_certificates"]
        offset, end = part.offset + part.header, _end(part)
        while offset < end:
            revoked = RevokedCertificate(self._document, offset)
            yield revoked
            offset = revoked._end

    @property
    def extensions(self) -> List[Extension]:
        """The extensions of the list, in order."""
        return self._extensions("crl_extensions")

    def _shown(self) -> str:
        return f": {_count(self._parts['revoked_certificates'].items, 'revoked certificate')}"
