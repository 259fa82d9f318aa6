"""The calls of simple_asn1.h, by ctypes. Octets are passed to C only here: each call takes the `bytes` of octets_of."""
import ctypes
import functools
import operator
import os
import pathlib
import re
import struct
from typing import Any, Callable, Dict, Iterable, Iterator, List, NamedTuple, Optional, Sequence, SupportsBytes, Tuple
from typing import Union

from ._status import Refused, Status, refusal

Octets = Union[bytes, bytearray, memoryview, SupportsBytes, Iterable[int]]


class Block(ctypes.Structure):
    _fields_ = [
        ("tag", ctypes.c_uint64),
        ("offset", ctypes.c_size_t),
        ("header", ctypes.c_size_t),
        ("contents", ctypes.c_size_t),
        ("items", ctypes.c_size_t),
        ("next", ctypes.c_size_t),
        ("depth", ctypes.c_size_t),
        ("tag_class", ctypes.c_uint8),
        ("constructed", ctypes.c_uint8),
    ]


class Path(ctypes.Structure):
    _fields_ = [("start", ctypes.c_size_t), ("length", ctypes.c_size_t)]


class FoundBlock(ctypes.Structure):
    _fields_ = [
        ("tag", ctypes.c_uint64),
        ("offset", ctypes.c_size_t),
        ("header", ctypes.c_size_t),
        ("contents", ctypes.c_size_t),
        ("number", ctypes.c_int64),
        ("kind", ctypes.c_uint32),
        ("tag_class", ctypes.c_uint8),
        ("constructed", ctypes.c_uint8),
    ]


class DepartureRecord(ctypes.Structure):
    _fields_ = [("offset", ctypes.c_size_t), ("rule", ctypes.c_uint32)]


class Outcome(ctypes.Structure):
    _fields_ = [("status", ctypes.c_uint32), ("offset", ctypes.c_size_t), ("count", ctypes.c_size_t)]


class Integer(ctypes.Structure):
    _fields_ = [("status", ctypes.c_uint32), ("value", ctypes.c_int64)]


class BitString(ctypes.Structure):
    _fields_ = [
        ("status", ctypes.c_uint32),
        ("start", ctypes.c_size_t),
        ("size", ctypes.c_size_t),
        ("bits", ctypes.c_size_t),
    ]


class MomentAnswer(ctypes.Structure):
    _fields_ = [("status", ctypes.c_uint32), ("year", ctypes.c_int32)] + [
        (name, ctypes.c_uint32) for name in ("month", "day", "hour", "minute", "second", "nanosecond")
    ]


class SignedParts(ctypes.Structure):
    _fields_ = [("status", ctypes.c_uint32), ("offset", ctypes.c_size_t)] + [
        (name, Block) for name in ("content", "algorithm", "signature")
    ]


class CertificateParts(ctypes.Structure):
    _fields_ = [("status", ctypes.c_uint32), ("offset", ctypes.c_size_t)] + [
        (name, Block)
        for name in (
            "certificate",
            "tbs_certificate",
            "version",
            "serial_number",
            "tbs_signature",
            "issuer",
            "not_before",
            "not_after",
            "subject",
            "subject_public_key_info",
            "public_key_algorithm",
            "subject_public_key",
            "issuer_unique_id",
            "subject_unique_id",
            "extensions",
            "signature_algorithm",
            "signature",
        )
    ]


class RequestParts(ctypes.Structure):
    _fields_ = [("status", ctypes.c_uint32), ("offset", ctypes.c_size_t)] + [
        (name, Block)
        for name in (
            "certification_request",
            "certification_request_info",
            "version",
            "subject",
            "subject_public_key_info",
            "public_key_algorithm",
            "subject_public_key",
            "attributes",
            "signature_algorithm",
            "signature",
        )
    ]


class RevocationListParts(ctypes.Structure):
    _fields_ = [("status", ctypes.c_uint32), ("offset", ctypes.c_size_t)] + [
        (name, Block)
        for name in (
            "certificate_list",
            "tbs_cert_list",
            "version",
            "tbs_signature",
            "issuer",
            "this_update",
            "next_update",
            "revoked_certificates",
            "crl_extensions",
            "signature_algorithm",
            "signature",
        )
    ]


class Record(NamedTuple):
    """The record of a block; simple_asn1.h describes the fields."""

    tag: int
    offset: int
    header: int
    contents: int
    items: int
    next: int
    depth: int
    tag_class: int
    constructed: int


def record_of(block: Any) -> Record:
    return Record(*(getattr(block, name) for name in Record._fields))


# a `Block` in memory: its fields, and what fills it up to its size
_FIELDS = "@QNNNNNNBB"
_RECORD = struct.Struct(f"{_FIELDS}{ctypes.sizeof(Block) - struct.calcsize(_FIELDS)}x")
# a `FoundBlock` in memory
_FOUND_FIELDS = "@QNNNqIBB"
_FOUND = struct.Struct(f"{_FOUND_FIELDS}{ctypes.sizeof(FoundBlock) - struct.calcsize(_FOUND_FIELDS)}x")
# a `DepartureRecord` in memory
_DEPARTURE_FIELDS = "@NI"
_DEPARTURE = struct.Struct(f"{_DEPARTURE_FIELDS}{ctypes.sizeof(DepartureRecord) - struct.calcsize(_DEPARTURE_FIELDS)}x")
# the kind of an INTEGER whose number fits
INTEGER_FOUND = 2
# as an array of numbers of this size: how many there are, and which is `next`
_WORD = struct.calcsize("@N")
_WORDS, _NEXT = ctypes.sizeof(Block) // _WORD, Block.next.offset // _WORD
# a `MomentAnswer` in memory
_MOMENT = struct.Struct("@Ii6I")


_SIZE, _unpacked = _RECORD.size, _RECORD.unpack_from
made = tuple.__new__  # as Record._make, which counts the fields first


class Records:
    """The records of a document as the library wrote them, each made a `Record` when it is asked for."""

    __slots__ = ("_memory", "_count", "_words")

    def __init__(self, memory: Union[bytes, memoryview]) -> None:
        self._memory = memory
        self._count = len(memory) // _SIZE
        self._words = memoryview(memory).cast("N")

    def __len__(self) -> int:
        return self._count

    def __getitem__(self, index: int) -> Record:
        return made(Record, _unpacked(self._memory, index * _SIZE))

    def next(self, index: int) -> int:
        """The field `next` of the record at the index, which is not made for it."""
        return self._words[index * _WORDS + _NEXT]

    def after(self, index: int, end: int, count: int) -> int:
        """The index of the block so many after one at the same level; the end if there are fewer."""
        words = self._words
        while count and index < end:
            index = words[index * _WORDS + _NEXT]
            count -= 1
        return index

    def level(self, index: int, end: int) -> Iterator[int]:
        """The indices of the blocks at the level of the first, up to the end."""
        words = self._words
        while index < end:
            yield index
            index = words[index * _WORDS + _NEXT]

    def __iter__(self) -> Iterator[Record]:
        return map(Record._make, _RECORD.iter_unpack(self._memory))


def octets_of(source: Octets) -> bytes:
    """These octets as plain `bytes`, whose length can be trusted whatever the class of the source.

    A text is rejected, and a number, which `bytes` would take as a count of zeros.
    """
    if type(source) is bytes:
        return source
    try:
        view = memoryview(source)  # type: ignore[arg-type]
    except TypeError:
        view = memoryview(bytes(_no_number(source)))
    return bytes(view if view.ndim > 0 else _no_number(view.obj))


def _no_number(source: Any) -> Any:
    if isinstance(source, str) or hasattr(source, "__index__"):
        raise TypeError(f"octets are wanted, not {type(source).__name__}")
    return source


def _path() -> str:
    """The library's path: as the environment says, in this package, where bindings/c/build puts it, or as installed."""
    here = pathlib.Path(__file__).resolve().parent
    places = [here / "libsimple_asn1.so", here.parents[1] / "c" / "out" / "lib" / "libsimple_asn1.so"]
    found = [str(place) for place in places if place.exists()]
    return os.environ.get("SIMPLE_ASN1_LIBRARY") or (found + ["libsimple_asn1.so.1"])[0]


# of the calls and records below: SIMPLE_ASN1_VERSION of simple_asn1.h
_VERSION = 1


def _library() -> Any:
    path = _path()
    try:
        library = ctypes.CDLL(path)
    except OSError as why:
        raise ImportError(
            f"{path} can't be loaded: {why}. bindings/c/build makes it; SIMPLE_ASN1_LIBRARY can say where it is."
        ) from why
    if not hasattr(library, "simple_asn1_version") or library.simple_asn1_version() != _VERSION:
        raise ImportError(f"{path} has calls of another version than {_VERSION}. bindings/c/build makes it.")
    octets, records = [ctypes.c_char_p, ctypes.c_size_t], [ctypes.c_void_p, ctypes.c_size_t]
    room = [ctypes.c_void_p, ctypes.c_size_t]
    offset, moment = [ctypes.c_size_t], [ctypes.POINTER(MomentAnswer)]
    for name, answer, arguments in (
        ("read", Outcome, octets + records),
        ("read_strict", Outcome, octets + records),
        ("outline", Outcome, octets + records),
        ("values", Outcome, octets + records + records + records),
        ("check", Outcome, octets),
        ("departures", Outcome, octets + records),
        ("rewrite", Outcome, octets + room),
        ("write", Outcome, octets + records + room),
        ("int64", Integer, octets + offset),
        ("bits", BitString, octets + offset),
        ("time", MomentAnswer, octets + offset),
        ("text", Outcome, octets + offset + room),
        ("oid", Outcome, octets + offset + room),
        ("signed", SignedParts, octets),
        ("certificate", CertificateParts, octets),
        ("request", RequestParts, octets),
        ("revocation_list", RevocationListParts, octets),
        ("header", Outcome, octets + offset + records),
        ("put_boolean", Outcome, [ctypes.c_uint8] + room),
        ("put_int64", Outcome, [ctypes.c_int64] + room),
        ("put_bits", Outcome, octets + offset + room),
        ("put_oid", Outcome, octets + room),
        ("put_text", Outcome, [ctypes.c_uint64] + octets + room),
        ("put_time", Outcome, [ctypes.c_uint64] + moment + room),
    ):
        call = getattr(library, "simple_asn1_" + name)
        call.restype, call.argtypes = answer, arguments
    return library


_LIBRARY = _library()

# most headers have no more octets
_USUAL_HEADER = 6

_OK, _NO_ROOM = int(Status.OK), int(Status.NO_ROOM)

# the greatest number that `size_t` holds
_MOST_STEP = 2 ** (8 * ctypes.sizeof(ctypes.c_size_t)) - 1

# the first call has room for so many records; a document with more is read again with room for as many as it has
_FIRST_ROOM = 1024
_FIRST_SIZE = _FIRST_ROOM * _RECORD.size

# memory of that size, with its address, into which no call writes now. It is taken from the list, so that neither
# another thread nor a signal's handler uses it at the same time.
_SPARE: List[Tuple[memoryview, int]] = []


def _memory(size: int) -> Tuple[memoryview, int]:
    """New memory and its address. A buffer of ctypes would need a new type for each size."""
    memory = bytearray(size or 1)
    return memoryview(memory), ctypes.addressof(ctypes.c_char.from_buffer(memory))


def _spare() -> Tuple[memoryview, int]:
    try:
        return _SPARE.pop()
    except IndexError:
        return _memory(_FIRST_SIZE)


def _items(call: Callable[..., Any], *arguments: Any, size: int, room: int = 0) -> Union[bytes, memoryview]:
    """The items of this size that a call with these arguments writes.

    It has room for so many at least. Where that is too little the first call only counts them, and the second gets
    just the room that they need. Memory that was made for a call is handed out as it is.
    """
    spare = memory, address = _spare()
    if room * size > _FIRST_SIZE:
        memory, address = _memory(room * size)
    answer = call(*arguments, address, len(memory) // size)
    status, count = answer.status, answer.count
    if status == _NO_ROOM:
        memory, address = _memory(count * size)
        answer = call(*arguments, address, count)
        status, count = answer.status, answer.count
    written: Union[bytes, memoryview] = memory[: count * size]
    if memory is spare[0]:
        written = bytes(written)
    _SPARE.append(spare)
    if status != _OK:
        raise refusal(status, answer.offset)
    return written


def _written(call: Callable[..., Any], *arguments: Any, room: int = 0) -> bytes:
    """The octets that a call with these arguments writes."""
    return bytes(_items(call, *arguments, size=1, room=room))


def _read(call: Callable[..., Any], octets: bytes) -> Records:
    return Records(_items(call, octets, len(octets), size=_SIZE))


def read(octets: bytes) -> Records:
    return _read(_LIBRARY.simple_asn1_read, octets)


def read_strict(octets: bytes) -> Records:
    return _read(_LIBRARY.simple_asn1_read_strict, octets)


def outline(octets: bytes) -> Records:
    return _read(_LIBRARY.simple_asn1_outline, octets)


def departures(octets: bytes) -> Iterable[Any]:
    """The offset of each departure from DER, and the number of its rule."""
    call, size = _LIBRARY.simple_asn1_departures, _DEPARTURE.size
    return _DEPARTURE.iter_unpack(_items(call, octets, len(octets), size=size))


class Places:
    """Paths as the library takes them."""

    def __init__(self, paths: Sequence[Sequence[int]]) -> None:
        steps = [operator.index(number) for path in paths for number in path]
        if not all(0 <= number <= _MOST_STEP for number in steps):
            raise ValueError("the numbers of a path begin with 0")
        self._steps, steps_address = _memory(len(steps) * _WORD)
        struct.pack_into(f"@{len(steps)}N", self._steps, 0, *steps)
        self._paths, paths_address = _memory(len(paths) * ctypes.sizeof(Path))
        start = 0
        for index, path in enumerate(paths):
            place = Path.from_buffer(self._paths, index * ctypes.sizeof(Path))
            place.start, place.length = start, len(path)
            start += len(path)
        self.count = len(paths)
        self.arguments = steps_address, len(steps), paths_address, self.count


def values(octets: bytes, places: Places) -> Iterable[Any]:
    """The fields of what each path leads to."""
    call, size, room = _LIBRARY.simple_asn1_values, _FOUND.size, places.count
    return _FOUND.iter_unpack(_items(call, octets, len(octets), *places.arguments, size=size, room=room))


def check(octets: bytes) -> None:
    answer = _LIBRARY.simple_asn1_check(octets, len(octets))
    if answer.status != Status.OK:
        raise refusal(answer.status, answer.offset)


def rewrite(octets: bytes) -> bytes:
    return _written(_LIBRARY.simple_asn1_rewrite, octets, len(octets), room=len(octets))


def write(octets: bytes, records: Sequence[Record]) -> bytes:
    memory, address = _memory(len(records) * _SIZE)
    for index, record in enumerate(records):
        try:
            _RECORD.pack_into(memory, index * _SIZE, *record)
        except struct.error:  # a number that does not fit
            raise refusal(Status.BAD_RECORD, index) from None
    room = len(octets) + _USUAL_HEADER * len(records)
    return _written(_LIBRARY.simple_asn1_write, octets, len(octets), address, len(records), room=room)


def int64(octets: bytes, offset: int) -> int:
    answer = _LIBRARY.simple_asn1_int64(octets, len(octets), offset)
    if answer.status != Status.OK:
        raise refusal(answer.status, offset)
    return int(answer.value)


def bits(octets: bytes, offset: int) -> Tuple[bytes, int]:
    """The octets that hold the bits of a BIT STRING, and the number of bits."""
    answer = _LIBRARY.simple_asn1_bits(octets, len(octets), offset)
    if answer.status != _OK:
        raise refusal(answer.status, offset)
    return octets[answer.start : answer.start + answer.size], answer.bits


def time(octets: bytes, offset: int) -> Tuple[int, ...]:
    """Year, month, day, hour, minute, second and nanosecond."""
    fields = _MOMENT.unpack_from(_LIBRARY.simple_asn1_time(octets, len(octets), offset))
    if fields[0] != _OK:
        raise refusal(fields[0], offset)
    return fields[1:]


def text(octets: bytes, record: Record) -> str:
    """The text of the string with this record. Only an IA5String's octets above 7F become longer."""
    if record.tag_class == 0 and record.tag in STRINGS:
        start = record.offset + record.header
        plain = plain_text(octets[start : start + record.contents])
        if plain is not None:
            return plain
    return text_at(octets, record.offset, 2 * record.contents if record.tag == 22 else record.contents)


def text_at(octets: bytes, offset: int, room: int) -> str:
    return _written(_LIBRARY.simple_asn1_text, octets, len(octets), offset, room=room).decode()


# the tag numbers of the strings that have a text
STRINGS = frozenset((12, 19, 20, 22, 28, 30))
_plain = re.compile(rb"[A-Za-z0-9 '()+,./:=?-]*").fullmatch


def plain_text(contents: bytes) -> Optional[str]:
    """The text of a string of any kind, if its contents octets are characters of a PrintableString.

    These are the text in each kind. Others are for the library.
    """
    return contents.decode("ascii") if _plain(contents) else None


def oid(octets: bytes, record: Record) -> str:
    """The components of the OBJECT IDENTIFIER with this record.

    Its first octet gives at most five characters, as in 2.175, and each other at most four: so the text is never made
    twice.
    """
    contents = record.contents if (record.tag_class, record.tag) == (0, 6) else 0
    if 0 < contents <= USUAL_OID:
        start = record.offset + record.header
        usual = usual_oid(octets[start : start + contents])
        if usual is not None:
            return usual
    return oid_at(octets, record.offset, contents)


def oid_at(octets: bytes, offset: int, contents: int) -> str:
    return _written(_LIBRARY.simple_asn1_oid, octets, len(octets), offset, room=_oid_room(contents)).decode()


def _oid_room(contents: int) -> int:
    """The library makes no text of more than 1,024 contents octets."""
    return 4 * min(contents, 1024) + 1


# the most contents octets of an OBJECT IDENTIFIER whose text is kept
USUAL_OID = 32


@functools.lru_cache(maxsize=1024)
def usual_oid(contents: bytes) -> Optional[str]:
    """The components that these contents octets mean, if any. Most documents have the same few."""
    octets = bytes((6, len(contents))) + contents
    try:
        return oid_at(octets, 0, len(contents))
    except Refused:
        return None


def signed(octets: bytes) -> List[Record]:
    """The records of the content, of the algorithm's OBJECT IDENTIFIER and of the signature."""
    answer = _LIBRARY.simple_asn1_signed(octets, len(octets))
    if answer.status != Status.OK:
        raise refusal(answer.status, answer.offset)
    return [record_of(part) for part in (answer.content, answer.algorithm, answer.signature)]


class Parts:
    """The records of fields by their names, each made a `Record` when it is asked for; of an absent one with zeros."""

    __slots__ = ("_memory", "_places")

    def __init__(self, memory: bytes, places: Dict[str, int]) -> None:
        self._memory, self._places = memory, places

    def __getitem__(self, name: str) -> Record:
        return made(Record, _unpacked(self._memory, self._places[name]))


def _places_in(answer: Any) -> Dict[str, int]:
    """Where the records of an answer stand in it, by their names."""
    return {name: getattr(answer, name).offset for name, kind in answer._fields_ if kind is Block}


_PLACES = {answer: _places_in(answer) for answer in (CertificateParts, RequestParts, RevocationListParts)}


def _parts(call: Callable[..., Any], octets: bytes) -> Parts:
    answer = call(octets, len(octets))
    if answer.status != _OK:
        raise refusal(answer.status, answer.offset)
    return Parts(bytes(answer), _PLACES[type(answer)])


def certificate(octets: bytes) -> Parts:
    return _parts(_LIBRARY.simple_asn1_certificate, octets)


def request(octets: bytes) -> Parts:
    return _parts(_LIBRARY.simple_asn1_request, octets)


def revocation_list(octets: bytes) -> Parts:
    return _parts(_LIBRARY.simple_asn1_revocation_list, octets)


def header(octets: bytes, offset: int) -> Record:
    """The record of the encoding at an offset, read by its header alone."""
    block = Block()
    answer = _LIBRARY.simple_asn1_header(octets, len(octets), offset, ctypes.byref(block), 1)
    if answer.status != Status.OK:
        raise refusal(answer.status, offset)
    return record_of(block)


def put_boolean(value: bool) -> bytes:
    return _written(_LIBRARY.simple_asn1_put_boolean, int(bool(value)))


def put_integer(value: int) -> bytes:
    """Of any size. What does not fit 64 bits is in two's complement already, in whatever number of octets."""
    if not -(2**63) <= value < 2**63:
        return value.to_bytes(value.bit_length() // 8 + 1, "big", signed=True)
    return _written(_LIBRARY.simple_asn1_put_int64, value)


def put_bits(octets: bytes, length: int) -> bytes:
    if not 0 <= length <= 8 * len(octets):  # ctypes cuts numbers that do not fit
        raise refusal(Status.RANGE, 0)
    return _written(_LIBRARY.simple_asn1_put_bits, octets, len(octets), length, room=len(octets) + 1)


def put_oid(text: str) -> bytes:
    octets = text.encode()
    return _written(_LIBRARY.simple_asn1_put_oid, octets, len(octets), room=len(octets))


def put_text(tag: int, text: str) -> bytes:
    octets = text.encode()
    return _written(_LIBRARY.simple_asn1_put_text, _tag(tag), octets, len(octets), room=len(octets))


def put_time(tag: int, moment: Sequence[int]) -> bytes:
    """Of year, month, day, hour, minute, second and nanosecond."""
    fields = MomentAnswer(Status.OK, *moment)
    if [getattr(fields, name) for name, *_ in MomentAnswer._fields_[1:]] != list(moment):
        raise refusal(Status.DATE, 0)
    return _written(_LIBRARY.simple_asn1_put_time, _tag(tag), ctypes.byref(fields))


def _tag(tag: int) -> int:
    if not 0 <= tag < 2**64:
        raise refusal(Status.NO_SUCH_VALUE, 0)
    return tag
