"""The objects of PEM (RFC 7468)."""
import base64
import binascii
import re
from typing import List, NamedTuple, Union

from ._calls import Octets, octets_of


class PemObject(NamedTuple):
    """What is between a BEGIN and an END line: its label, such as CERTIFICATE, and its octets."""

    label: str
    octets: bytes


_BEGIN = re.compile(r"^-----BEGIN ([^\r\n]*)-----[ \t]*\r?$", re.MULTILINE)


def pem_objects(text: Union[str, Octets]) -> List[PemObject]:
    """The objects of PEM, in order. Text around them is skipped. ValueError if there is none, or one is malformed."""
    if not isinstance(text, str):
        text = octets_of(text).decode("latin-1")
    found, at = [], 0
    begin = _BEGIN.search(text)
    while begin:
        label = begin.group(1)
        end = text.find(f"-----END {label}-----", begin.end())
        if end < 0:
            raise ValueError(f"PEM: there is no END line of {label}")
        found.append(PemObject(label, _octets("".join(text[begin.end() : end].split()), label)))
        at = end
        begin = _BEGIN.search(text, at)
    if not found:
        raise ValueError("PEM: there is no BEGIN line")
    return found


def _octets(body: str, label: str) -> bytes:
    try:
        return base64.b64decode(body, validate=True)
    except binascii.Error as why:
        raise ValueError(f"PEM: {label} has invalid base64: {why}") from None
