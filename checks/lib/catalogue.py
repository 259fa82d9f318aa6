"""The checks: what each shows, what it needs, and where it stands in the gate.

A check is a module of this folder that has `main`, which takes words and returns a status, or a script of the folder
`scripts`. `checks/run` without words prints this list.
"""
import dataclasses
import importlib.util
import pathlib
import shutil
import subprocess
import sys

CHECKS = pathlib.Path(__file__).resolve().parent.parent
TOP = CHECKS.parent


@dataclasses.dataclass(frozen=True)
class Check:
    """One check, and how it is run."""

    name: str
    file: str
    # a line: what it shows
    shows: str
    # what it cannot do without, and what without it leaves out a part: commands, or modules of Python as `python:NAME`
    needs: str = ""
    uses: str = ""
    # the crates whose programs it runs
    programs: str = ""
    # words that it is given in the gate and by `all`
    words: tuple = ()
    # checks that have to be over before
    after: str = ""
    # seconds in which it ends, also beside other work
    limit: int = 3600
    # whether other work beside it would change its answer
    is_alone: bool = False

    def command(self):
        path = CHECKS / self.file
        if path.suffix == ".py":
            return [python_for(self), path]
        return [path] if self.file == self.name else ["sh", path]

    def lacks(self, asked):
        """Which of what is asked for is not here."""
        return [it for it in asked.split() if not is_here(it, python_for(self))]


def is_here(need, python=sys.executable):
    kind, _, name = need.rpartition(":")
    return has_module(python, name) if kind else bool(shutil.which(name))


def has_module(python, name):
    if python == sys.executable:
        return importlib.util.find_spec(name) is not None
    return subprocess.run([python, "-c", f"import {name}"], capture_output=True).returncode == 0


def python_for(check):
    """This Python, or the distribution's, where that alone has the modules that the check asks for."""
    modules = [it.partition(":")[2] for it in f"{check.needs} {check.uses}".split() if it.startswith("python:")]
    if all(has_module(sys.executable, it) for it in modules):
        return sys.executable
    other = shutil.which("python3", path="/usr/bin")
    return other if other and all(has_module(other, it) for it in modules) else sys.executable


LIBRARIES = Check(
    "libraries", "scripts/libraries", "bindings/c/build makes the libraries for C, Rust and Python",
    needs="cc ld objcopy")

# what can be seen in seconds, before anything is proved
SECONDS = [
    Check("edits", "edits", "the prover rejects each wrong body in crates/NAME/edits; --apply: each can be made",
          words=("--apply",)),
    Check("words", "lib/words.py", "the README has 800 words, pages for users no private word, lines 120 octets"),
    Check("unused", "lib/unused.py", "something uses each import, lemma and definition"),
    Check("links", "lib/links.py",
          "links resolve, named paths exist, quoted code stands in its file, one version number"),
    Check("calling", "lib/calling.py",
          "the pages of CALLING are what the source says; --write writes them, --links mends links"),
    Check("trust", "lib/trust.py", "TRUST names each file of definitions, with its lines; --print prints them"),
    Check("codes", "lib/codes.py",
          "statuses and rules are those of bindings/codes.txt in each language; --write writes them"),
    Check("lint", "lib/lint.py", "shellcheck and flake8 find nothing in the scripts", uses="shellcheck flake8"),
]

# what `rt ci` does as well, here without a proof
UNPROVED = [
    Check("layout", "lib/layout.py", "each crate has the layout of rt fmt"),
    Check("stored", "lib/stored.py", "the stored run of each program prints what is stored",
          programs="der_dump der_signed der_tool example_certificate example_types test_calls"),
]

# what runs the programs and the libraries, whole in the gate
WHOLE = [
    Check("rows", "lib/rows.py", "each row of crates/PROGRAM/rows: words, input and files give its output and status",
          programs="der_dump der_signed der_tool example_types"),
    Check("calls", "lib/calls.py", "each row of a call of the library, proved or not, has its answer, unproved"),
    Check("tests", "lib/tests.py", "tests in Rattle that `rt ci` does not run pass, unproved; --all: all tests"),
    Check("asked", "scripts/asked", "der_tool from end to end: streams, a folder as input, full outputs, no memory",
          uses="cc", programs="der_tool"),
    Check("pages", "lib/pages.py", "each program of the pages is built, unproved, and prints what the page shows",
          needs="bash base64 git xxd", uses="jq", programs="der_dump"),
    Check("json", "lib/dump_lines.py", "der_dump --json keeps to its schema, and documents are rebuilt from it",
          uses="python:jsonschema jq openssl", programs="der_dump"),
    Check("page", "scripts/page", "pages of der_dump --html: lines, bytes, one script, and what it does; on a phone",
          needs="openssl", uses="chromium", programs="der_dump"),
    Check("dumps", "scripts/dumps",
          "der_dump shows stored inputs, a million levels, terminals, offsets as openssl does",
          needs="cc", uses="dumpasn1 man openssl", programs="der_dump"),
    Check("fields", "lib/fields.py", "der_dump --json names each block of certificates, and its path, as RFC 5280 does",
          programs="der_dump", after="libraries"),
    Check("accounts", "lib/accounts.py", "what der_dump --text says of certificates and messages is what openssl says",
          needs="openssl", programs="der_dump"),
    Check("arms", "lib/arms.py", "with an arm of a match left out, or a text changed, some row of der_dump fails",
          needs="cc"),
    Check("memory", "lib/memory.py",
          "each place of the library where memory may run out is run by a row", needs="cc nm"),
    Check("refused-memory", "scripts/refused-memory",
          "each allocation of stored runs is refused in turn: status 2, no output",
          needs="cc", programs="der_tool test_calls"),
    Check("streams", "scripts/streams", "der_tool and der_signed report each read, write and allocation that fails",
          needs="cc", programs="der_tool der_signed"),
    Check("bindings", "scripts/bindings", "the library in C, Rust and Python: sanitizers, fuzzing, installing, pages",
          needs="cc", uses="c++ cargo clang make mypy openssl pkg-config python:cryptography python:pip qemu-x86_64 "
          "valgrind xxd",
          after="libraries"),
    Check("growth", "scripts/growth",
          "in C, Rust, Python and der_dump twice the size takes three times as long at most; memory has bounds",
          uses="cc cargo", programs="der_dump der_signed", after="libraries", is_alone=True),
]

# what the gate runs in a short form, and hands run whole
SHORT = [
    Check("depth", "scripts/depth",
          "der_tool on 10,000 levels, or so many, and a stack of 256 kB", programs="der_tool"),
    Check("certificates", "lib/rewritten.py",
          "der_tool rewrites each certificate to its own bytes", programs="der_tool"),
    Check("parts", "lib/parts.py", "each block of each certificate reads alone as that block",
          programs="test_calls"),
    Check("signed", "scripts/signed", "openssl verifies certificates over the output of der_signed",
          needs="cc openssl", programs="der_signed"),
    Check("departures", "lib/compare_departures.py", "departures from DER are those that a plain reader lists",
          programs="test_calls"),
    Check("marks", "lib/marks.py", "what der_dump --strict lists as not DER is what a plain reader lists",
          programs="der_dump"),
    Check("looks", "lib/looks.py", "lines, JSON, pages and accounts of der_dump show the same values",
          programs="der_dump"),
    Check("der", "lib/compare_der.py", "documents are DER or not as a plain reader says", programs="test_calls"),
    Check("changes", "lib/compare_reading.py", "prefixes of certificates and changed ones read as by a plain reader",
          programs="test_calls"),
    Check("mutants", "lib/mutants.py",
          "changed certificates, requests and lists are taken as RFCs say; others differ for known reasons",
          needs="python:cryptography openssl", after="libraries"),
    Check("dask", "lib/dask_counts.py", "four workers, one of them killed, count certificates as one process does",
          needs="python:distributed", uses="cc", after="libraries"),
    Check("dropin", "scripts/dropin", "the Rust crate beside the original: which is linked, tests, random documents",
          needs="cargo", after="libraries"),
    Check("postgres", "scripts/postgres", "the extension in a server that it starts", needs="pg_config make cc",
          after="libraries"),
    Check("release", "scripts/release", "what release/build makes is installed and used where there is no rt",
          after="libraries bindings", is_alone=True),
    Check("named-bodies", "lib/named_bodies.py",
          "each wrong body that has a name gives the wrong answer it is named for"),
]

# what no gate runs
BY_HAND = [
    Check("times", "lib/times.py", "with the log of a gate that proved everything: data/times is written anew"),
    Check("growth-shapes", "scripts/growth",
          "growth, with each call on documents of a hundred shapes: what it answers is what plain readers say",
          uses="cc cargo", programs="der_dump", words=("shapes",), after="libraries", is_alone=True),
    Check("growth-library", "lib/growth/library.py", "twice the size takes the library at most three times as long",
          programs="test_calls", is_alone=True),
    Check("picture", "scripts/picture", "the pictures of the README are a page and a terminal as chromium shows them",
          needs="chromium", programs="der_dump"),
]

# the Debian packages of what a check needs or uses, and what the bindings find by themselves
PACKAGES = {
    "c++": "g++", "cc": "gcc libc6-dev", "chromium": "chromium fonts-liberation", "clang": "clang libclang-rt-dev",
    "dumpasn1": "dumpasn1",
    "flake8": "flake8", "jq": "jq", "ld": "binutils", "make": "make", "man": "man-db", "mypy": "mypy",
    "nm": "binutils", "objcopy": "binutils", "openssl": "openssl", "pg_config": "postgresql postgresql-server-dev-all",
    "pkg-config": "pkg-config", "python:cryptography": "python3-cryptography",
    "python:distributed": "python3-distributed", "python:jsonschema": "python3-jsonschema",
    "python:pip": "python3-pip",
    "qemu-x86_64": "qemu-user", "shellcheck": "shellcheck", "valgrind": "valgrind", "xxd": "xxd",
    # the crates of Rust over which `bindings`, `dropin` and `growth` build
    "cargo": "librust-num-bigint-dev librust-simple-asn1-dev librust-thiserror-dev librust-time-dev",
}
