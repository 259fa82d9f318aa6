"""What der_dump shows on a terminal and says where output fails, and the names of dumpasn1's file: terminal.py PROGRAM

Lines are colored on a terminal unless NO_COLOR says otherwise, and without the sequences they are the plain lines. They
take no more columns there than COLUMNS says, and those that take no more are as in a pipe. Of a long input it is told
there how much was read. Each identifier that /etc/dumpasn1/dumpasn1.cfg names has that name.
"""
import itertools
import os
import pathlib
import pty
import re
import subprocess
import sys
import threading
import unicodedata

PROGRAM = sys.argv[1]
NAMES = pathlib.Path("/etc/dumpasn1/dumpasn1.cfg")
DUMPS = pathlib.Path(__file__).parent.parent / "data/dumps"
# those with long lines
WIDE = ["certificate.pem", "cut.der", "fault.hex", "tags.hex", "text.txt", "values.hex"]
WIDTHS = [1, 2, 9, 24, 40, 60, 80, 100, 132, 1000]
LONG = 12 * 10**6
wrong = []


def is_so(what, holds):
    if not holds:
        wrong.append(what)
        print(f"terminal: not so: {what}")


def run(words, octets, stream=None, **variables):
    """The output, and what is on standard error; that of the stream, `stdout` or `stderr`, goes to a terminal."""
    own = {name: value for name, value in os.environ.items() if name not in ("COLUMNS", "NO_COLOR")}
    pipes = {"stdout": subprocess.PIPE, "stderr": subprocess.PIPE}
    if stream is None:
        ran = subprocess.run([PROGRAM, *words], input=octets, env=own | variables, **pipes)
        return ran.stdout, ran.stderr
    end, other = pty.openpty()
    parts = []
    reader = threading.Thread(target=read_terminal, args=(end, parts))
    reader.start()
    ran = subprocess.run([PROGRAM, *words], input=octets, env=own | variables, **pipes | {stream: other})
    os.close(other)
    reader.join()
    os.close(end)
    shown = b"".join(parts).replace(b"\r\n", b"\n")
    return (shown, ran.stderr) if stream == "stdout" else (ran.stdout, shown)


def read_terminal(end, parts):
    """What comes out of a terminal, up to where nothing writes to it any more."""
    try:
        while part := os.read(end, 65536):
            parts.append(part)
    except OSError:
        pass


def columns_of(line):
    """How many columns a line takes in a terminal."""
    wide = sum(unicodedata.east_asian_width(c) in "WF" for c in line)
    return len(line) + wide - sum(unicodedata.combining(c) > 0 for c in line)


def without_colors(shown):
    return re.sub(rb"\x1b\[\d+m", b"", shown)


def is_cut(line, shown):
    """Whether what is shown of a line are words of it, in their order, each up to where it is cut."""
    words = iter(re.findall("[^ ,:]+", line))
    return all(any(word == part or part.endswith("..") and word.startswith(part[:-2]) for word in words)
               for part in re.findall("[^ ,:]+", shown))


def check_widths(name, octets):
    """What a document looks like on terminals of several widths."""
    plain, _ = run([], octets)
    lines = plain.decode().split("\n")
    for width, words in itertools.product(WIDTHS, ([], ["--color", "never"])):
        shown, _ = run(words, octets, "stdout", COLUMNS=str(width))
        others = without_colors(shown).decode().split("\n")
        what = f"{name}: {width} columns {words}"
        is_so(f"{what}: as many lines", len(lines) == len(others))
        is_so(f"{what}: no line is wider", max(map(columns_of, others)) <= width)
        is_so(f"{what}: the others are as in a pipe", all(
            line == other for line, other in zip(lines, others) if columns_of(line) <= width))
        is_so(f"{what}: a line that is cut", all(is_cut(line, other) for line, other in zip(lines, others)))
        is_so(f"{what}: sequences", b"\x1b" not in without_colors(shown))


def encoding(octet, contents):
    """An encoding with this leading octet."""
    return bytes([octet, 0x82]) + len(contents).to_bytes(2, "big") + contents


def sub(number):
    octets = [number & 127]
    while number := number >> 7:
        octets.append(number & 127 | 128)
    return bytes(reversed(octets))


def encoded(components):
    contents = sub(components[0] * 40 + components[1]) + b"".join(map(sub, components[2:]))
    return bytes([6, len(contents)]) + contents


def names_of(text):
    """The components of each identifier, and its description."""
    found = []
    for line in text.splitlines():
        word, _, value = (part.strip() for part in line.partition("="))
        if word == "OID":
            found.append([tuple(map(int, value.split())), None])
        elif word == "Description" and not line.startswith("#"):
            found[-1][1] = value
    return found


small = bytes.fromhex("30050201010500")
plain, _ = run([], small)
for words, variables, colored in [([], {}, True), (["--color", "never"], {}, False), ([], {"NO_COLOR": "1"}, False),
                                  ([], {"NO_COLOR": ""}, True), (["--color", "always"], {"NO_COLOR": "1"}, True)]:
    shown, _ = run(words, small, "stdout", **variables)
    is_so(f"{words} {variables}: colored is {colored}", (b"\x1b[" in shown) == colored)
    is_so(f"{words} {variables}: the lines", without_colors(shown) == plain)

for name in WIDE:
    check_widths(name, (DUMPS / name).read_bytes())
check_widths("wide characters", encoding(0x30, encoding(12, ("e\u0301 \u4e2d\u6587 \U0001f512 " * 20).encode())
                                         + encoding(4, bytes(range(200)))))
certificate = (DUMPS / "certificate.pem").read_bytes()
plain, _ = run([], certificate)
is_so("a pipe has no width", run([], certificate, COLUMNS="30")[0] == plain)
for words in ["--text"], ["--json"], ["--html"], ["--full"], ["--width", "0"]:
    shown, _ = run(words, certificate, "stdout", COLUMNS="30")
    is_so(f"{words}: as in a pipe", without_colors(shown) == run(words, certificate)[0])
for columns in "", "x", "0", "-1", "80 ", "99999999999999999999":
    shown, _ = run([], certificate, "stdout", COLUMNS=columns)
    is_so(f"COLUMNS={columns!r} is no width", without_colors(shown) == plain)
shown, _ = run(["--width", "30"], certificate, "stdout", COLUMNS="50")
is_so("--width goes before COLUMNS", without_colors(shown) == run(["--width", "30"], certificate)[0] != plain)
print(f"terminal: {len(WIDE) + 1} documents on terminals of {len(WIDTHS)} widths")

long = b"\x04\x84" + LONG.to_bytes(4, "big") + bytes(LONG)
output, error = run([], long)
is_so("nothing is told elsewhere of a long input", error == b"")
shown, told = run([], long, "stderr")
is_so("the output of a long input", shown == output)
is_so("a long input is told of", b"\r8 MB read" in told and told.endswith(b"\r\x1b[K"))
is_so("a short input is not told of", b"\r7 MB read" not in told)

with open("/dev/full", "wb") as full:
    ran = subprocess.run([PROGRAM, "--help"], stdout=full, stderr=subprocess.PIPE)
is_so("help that can't be written has status 2", (ran.returncode, ran.stderr) == (2, b"error: write fault\n"))
# the reader of the output goes after its first bytes
many = b"\x05\x00" * 100000
ran = subprocess.run(["sh", "-c", '"$0" | head -c 1', PROGRAM], input=many, capture_output=True)
is_so("a reader that has gone is not told", (ran.stdout, ran.stderr) == (b" ", b""))

if NAMES.exists():
    named = names_of(NAMES.read_text(encoding="latin-1"))
    lines = run(["--oids", str(NAMES)], b"".join(encoded(number) for number, _ in named))[0].decode().splitlines()
    wanted = [" {} {}".format(".".join(map(str, number)), name.replace('"', '\\"')) for number, name in named]
    good = sum(name in line for name, line in zip(wanted, lines))
    print(f"terminal: {good} of {len(named)} identifiers have their names of dumpasn1")
    is_so("names of dumpasn1", good == len(named) == len(lines))
else:
    print(f"dumps: NOT CHECKED with the names of dumpasn1, there is no {NAMES}")
sys.exit(1 if wrong else 0)
