"""dump_levels.py FOLDER PROGRAM BER: der_dump shows 1,000,000 levels on a stack of 256 kB, in 20 seconds.

Beside openssl asn1parse, where that is there, it shows the same offsets, sizes and levels of each certificate of FOLDER
and of each message of the folder BER. `checks/run dumps` runs it.
"""
import pathlib
import re
import shutil
import subprocess
import sys
import time

from certificates import certificates
from x690 import nested

LEVELS = 1_000_000
OURS = re.compile(rb"^ *(\d+) +(\d+) +(\d+|inf)  ( *)", re.M)
THEIRS = re.compile(rb"^ *(\d+):d=(\d+) +hl=(\d+) l= *(\d+|inf) ", re.M)

# a name, the document, the status that it has to end with, and the number of lines
DEEP = [
    ("30", nested(0x30, LEVELS, b"\x05\x00"), 0, LEVELS + 1),
    ("A0", nested(0xA0, LEVELS, b"\x05\x00"), 0, LEVELS + 1),
    ("30 around a fault", nested(0x30, LEVELS, b"\x01\x00"), 1, LEVELS + 2),
    ("30 80", b"\x30\x80" * LEVELS + b"\x00\x00" * LEVELS, 0, 2 * LEVELS),
    ("24 80", b"\x24\x80" * LEVELS + b"\x00\x00" * LEVELS, 0, 2 * LEVELS),
    ("31 80 that do not end", b"\x31\x80" * LEVELS, 1, 2 * LEVELS + 1),
]


def dump(program, octets):
    small = ["sh", "-c", 'ulimit -s 256 && exec "$0" --plain', program]
    return subprocess.run(small, input=octets, capture_output=True)


def is_shown(program, name, octets, status, lines):
    begun = time.monotonic()
    ran = dump(program, octets)
    is_fast = time.monotonic() - begun <= 20
    if not is_fast:
        print(f"{LEVELS} levels of {name}: more than 20 seconds")
    is_right = ran.returncode == status and ran.stdout.count(b"\n") == lines
    if not is_right:
        print(f"{LEVELS} levels of {name}: status {ran.returncode}, {ran.stdout.count(10)} lines")
    return is_fast and is_right


def are_as_openssl_shows(program, folder, messages):
    same = blocks = 0
    streamed = [it.read_bytes() for it in sorted(pathlib.Path(messages).iterdir())]
    documents = [*certificates(folder), *streamed]
    for octets in documents:
        ran = dump(program, octets)
        theirs = subprocess.run(["openssl", "asn1parse", "-inform", "DER"], input=octets, capture_output=True).stdout
        ours = [(o, b"%d" % (len(level) // 2), h, n) for o, h, n, level in OURS.findall(ran.stdout)]
        wanted = THEIRS.findall(theirs)
        same += ran.returncode == 0 and ours == wanted
        blocks += len(wanted)
    print(f"dumps: {same} of {len(documents)} certificates and messages, {blocks} blocks, as by openssl asn1parse")
    return bool(streamed) and same == len(documents)


def main(folder, program, messages):
    is_well = all([is_shown(program, *it) for it in DEEP])
    print(f"dumps: {LEVELS} levels")
    if shutil.which("openssl"):
        is_well = are_as_openssl_shows(program, folder, messages) and is_well
    else:
        print("dumps: NOT CHECKED beside openssl asn1parse, there is no openssl")
    sys.exit(0 if is_well else 1)


main(*sys.argv[1:])
