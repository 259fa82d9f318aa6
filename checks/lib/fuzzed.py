"""fuzzed.py SEED ROUNDS KIND=PROGRAM..: outlines of random documents, many of whose leaves have wrong contents octets.

What each block is, and its value of each kind or why it has none, has to be what the plain reader says of the contents
octets, in Python and by each program. How often each answer came is told.
"""
import collections
import multiprocessing
import pathlib
import random
import subprocess
import sys

import reader
from x690 import encoding, length_octets

sys.path.insert(0, str(pathlib.Path(__file__).parents[2] / "bindings/python"))
import simple_asn1  # noqa: E402
from simple_asn1 import Refused, Status, _calls  # noqa: E402

NONE, RANGE = Status.NO_SUCH_VALUE, Status.RANGE
FAULTS = {
    "InvalidBitStringLength": Status.BIT_STRING_LENGTH,
    "InvalidDateValue": Status.DATE,
    "PrintableStringDecodeFailure": Status.PRINTABLE,
    "UTF8DecodeFailure": Status.UTF8,
    "Incomplete": Status.INCOMPLETE,
}
TEXTS = {19: "PrintableString", 22: "IA5String", **reader.TEXTS}
TIMES = {23: "UTCTime", 24: "GeneralizedTime"}
TAGS = [1, 2, 3, 3, 3, 4, 5, 6, 6, 10, 12, 13, 19, 20, 22, 23, 23, 24, 24, 28, 30]
RIGHT = {
    2: [b"\x05", b"\xff\x7f", b"\x80" + bytes(7), b"\x00\x80" + bytes(7)],
    3: [b"", b"\x00", b"\x04\xb0", b"\x00\xff\x01", b"\x0a\xff\xff"],
    6: [b"\x2a\x86\x48", b"\x55\x04\x03", b"\xff\x7f", b"\x2a" + b"\xff" * 9 + b"\x7f"],
    12: ["äß😀".encode(), b"Ada"],
    19: [b"Ada (1)"],
    22: [b"a@b", b"\xe9"],
    23: [b"260102030405Z", b"491231235959Z", b"500101000000Z"],
    24: [b"20260102030405Z", b"20240229235959.125Z", b"00000101000000Z", b"99991231235959.999999999Z"],
}


def changed(source, octets):
    """These octets with one of them changed, left out or put in."""
    at = source.randrange(len(octets) + 1)
    some = bytes([source.choice((0, 1, 7, 8, 9, 0x2B, 0x30, 0x39, 0x5A, 0x7F, 0x80, 0xFF, source.randrange(256)))])
    return octets[:at] + source.choice((some, b"", some + octets[at : at + 1])) + octets[at + 1 :]


def contents_for(source, tag):
    octets = source.choice(RIGHT.get(tag, [b""]))
    how = source.random()
    if how < 0.2:
        return source.randbytes(source.choice((0, 1, 2, 3, 8, 9, 13, 15, 20, 130)))
    return octets if how < 0.4 else changed(source, octets)


def identifier_octets(source, tag):
    """Of most leaves the usual ones; else of another class, constructed, or with the tag number in more octets."""
    how = source.random()
    if how < 0.1:
        return bytes([source.choice((0x40, 0x80, 0xC0)) + tag])
    kept = 0x20 if how < 0.2 else 0
    return bytes([kept + 0x1F, tag]) if 0.2 <= how < 0.25 else bytes([kept + tag])


def leaf(source):
    tag = source.choice(TAGS)
    contents = contents_for(source, tag)
    size = length_octets(len(contents))
    if source.random() < 0.1:
        size = bytes([0x82]) + len(contents).to_bytes(2, "big")
    return identifier_octets(source, tag) + size + contents


def document(source):
    return encoding(0x30, b"".join(leaf(source) for _ in range(source.randrange(1, 4))))


def blocks_of(octets):
    """Of each block, by headers alone: the offset, the number of items, the tag number in class Universal, and the
    contents octets. Those of another class are leaves here."""
    headers, blocks = reader.Reader(octets), []

    def items(place, end):
        count = 0
        while place < end:
            kind, _, tag, start = headers.tag(place, end)
            size, start = headers.length(start, end)
            index = len(blocks)
            blocks.append(None)
            inside = items(start, start + size) if kind == 0 and tag in (16, 17) else 0
            blocks[index] = place, inside, tag if kind == 0 else None, octets[start : start + size]
            place, count = start + size, count + 1
        return count

    items(0, len(octets))
    return blocks


def read_leaf(tag, contents):
    """What the plain reader says of the contents octets of a leaf, or the status of its fault."""
    try:
        return reader.LEAVES[tag](0, contents)
    except reader.Fault as fault:
        return FAULTS[str(fault).split()[0]]


def wanted_of(tag, contents):
    """What the reader says to each kind of value: a number, bits, a time, a text, components."""
    wanted = [NONE] * 5
    if tag == 2:
        number = int.from_bytes(contents, "big", signed=True)
        wanted[0] = read_leaf(tag, contents) if -(2**63) <= number < 2**63 else RANGE
    for index, tags in ((1, (3,)), (2, TIMES), (3, TEXTS), (4, (6,))):
        if tag in tags:
            wanted[index] = read_leaf(tag, contents)
    return wanted


def as_bits(number, octets):
    return f"BitString(0, {number}, [{reader.octets_text(bytes.fromhex(octets))}])"


def as_components(text, contents):
    """Components as the reader says them: large ones in octets."""
    numbers = [int(number) for number in text.split(".")]
    if max(numbers) < 2**128:
        return f"ObjectIdentifier(0, {text})"
    octets = contents[:1] + b"".join(reader.base128(number) for number in numbers[2:])
    return f"ObjectIdentifier(0, [{reader.octets_text(octets)}])"


def as_read(tag, contents, fields):
    """The answers in the reader's words, and a status for each error."""
    statuses = {text: status for status, text in simple_asn1.TEXTS.items()}
    words = (
        lambda it: f"Integer(0, {int(it)})",
        lambda it: as_bits(*it.split(":")),
        lambda it: f"{TIMES[tag]}(0, {it[:-1].replace('T', ' ')})",
        lambda it: f"{TEXTS[tag]}(0, {reader.characters_text(bytes.fromhex(it).decode())})",
        lambda it: as_components(it, contents),
    )
    return [statuses[it[1:]] if it.startswith("!") else say(it) for say, it in zip(words, fields)]


def shown(call):
    try:
        return call()
    except Refused as why:
        return "!" + simple_asn1.TEXTS[why.status]


def block_line(block):
    """As the programs print it. A number that does not fit 64 bits is none there."""
    octets, record = block.document.octets, block.record
    return "|".join((
        str(record.offset), str(record.items), block.contents.hex(),
        shown(lambda: str(_calls.int64(octets, record.offset))),
        shown(lambda: f"{block.bits.length}:{block.bits.octets.hex()}"),
        shown(lambda: str(block.moment)),
        shown(lambda: block.text.encode().hex()),
        shown(lambda: block.oid),
    ))  # fmt: skip


def in_python(documents):
    return ["".join(f"{block_line(it)};" for it in simple_asn1.outline(octets).all_blocks) for octets in documents]


def in_program(program, documents):
    lines = "".join(f"{octets.hex()}\n" for octets in documents)
    done = subprocess.run([program], input=lines, stdout=subprocess.PIPE, text=True)
    return done.stdout.splitlines() if done.returncode == 0 else []


def is_right(line, blocks):
    lines = line.split(";")[:-1]
    if len(lines) != len(blocks):
        return False
    for shown_block, (offset, items, tag, contents) in zip(lines, blocks):
        fields = shown_block.split("|")
        if fields[:3] != [str(offset), str(items), contents.hex()]:
            return False
        if as_read(tag, contents, fields[3:]) != wanted_of(tag, contents):
            return False
    return True


def counted(blocks):
    """How often there is each answer."""
    kinds = collections.Counter()
    for _, _, tag, contents in blocks:
        for kind, wanted in zip(("int64", "bits", "time", "text", "oid"), wanted_of(tag, contents)):
            if wanted is not NONE:
                kinds[kind, wanted.name if isinstance(wanted, Status) else "a value"] += 1
    return kinds


def checked(documents, programs):
    """What is wrong, in each language, and how often there is each answer."""
    blocks = [blocks_of(octets) for octets in documents]
    answers = {"python": in_python(documents)}
    answers.update((kind, in_program(program, documents)) for kind, program in programs)
    wrong = []
    for kind, lines in answers.items():
        if len(lines) != len(documents):
            wrong.append(f"{kind}: {len(lines)} of {len(documents)} documents answered, from {documents[0].hex()} on")
        wrong += [
            f"{kind}: {octets.hex()} gives {line}"
            for line, octets, its in zip(lines, documents, blocks)
            if not is_right(line, its)
        ]
    return wrong, sum(map(counted, blocks), collections.Counter())


def tried(task):
    seed, count, programs = task
    source = random.Random(seed)
    return checked([document(source) for _ in range(count)], programs)


ONCE = 2_000


def kept():
    """Documents that were once answered wrongly, or that the random ones are not likely to be."""
    lines = (pathlib.Path(__file__).parents[1] / "data/fuzzed").read_text().splitlines()
    return [bytes.fromhex(line) for line in lines if line and not line.startswith("#")]


def main(seed, rounds, *programs):
    programs = [word.split("=", 1) for word in programs]
    tasks = [(f"{seed}.{start}", min(ONCE, int(rounds) - start), programs) for start in range(0, int(rounds), ONCE)]
    wrong, kinds = checked(kept(), programs)
    with multiprocessing.Pool(2) as pool:
        for more, some in pool.imap_unordered(tried, tasks):
            wrong, kinds = wrong + more, kinds + some
    for line in wrong[:20]:
        print(f"fuzzed: {line}")
    print("fuzzed: " + ", ".join(f"{kind} {answer} {count}" for (kind, answer), count in sorted(kinds.items())))
    languages = ", ".join(["python", *(kind for kind, _ in programs)])
    print(f"fuzzed: {int(rounds)} outlines in {languages}, seed {seed}, {len(wrong)} wrong")
    sys.exit(1 if wrong or not kinds else 0)


if __name__ == "__main__":
    main(*sys.argv[1:])
