"""Whether simple_asn1.h, the library and its source, and the bindings for Rust and Python agree.

header.py TOP COMPILER WORK: the top of the repository, a C compiler, and a folder to build in.
"""
import ctypes
import pathlib
import re
import subprocess
import sys

top, compiler = pathlib.Path(sys.argv[1]), sys.argv[2]
header = (top / "bindings/c/simple_asn1.h").read_text()
sys.path.insert(0, str(top / "bindings/python"))
sys.dont_write_bytecode = True
import simple_asn1  # noqa: E402
from simple_asn1 import _calls  # noqa: E402


def same(what, first, second):
    if first != second:
        sys.exit(f"header: {what} differ:\n{first}\n{second}")


code = header[header.index('extern "C"') :]
declared = set(re.findall(r"^(?:simple_asn1_\w+|uint32_t) (simple_asn1_\w+)\(", code, re.M))
listed = subprocess.run(
    ["nm", "-D", "--defined-only", str(top / "bindings/c/out/lib/libsimple_asn1.so")],
    capture_output=True, text=True, check=True,
).stdout
same("the header and the library's names", declared, {line.split()[-1] for line in listed.splitlines()})
calls = (top / "bindings/rust/sys/src/calls.rs").read_text()
same("the header and Rust's names", declared, set(re.findall(r"^    pub fn (simple_asn1_\w+)", calls, re.M)))

version = int(re.search(r"^#define SIMPLE_ASN1_VERSION (\d+)", header, re.M)[1])
same("the header's and Python's versions", version, _calls._VERSION)
same("the header's and the library's versions", version, _calls._LIBRARY.simple_asn1_version())

page = (top / "bindings/c/simple_asn1.3").read_text()
inline = set(re.findall(r"^static inline .*?(simple_asn1_\w+)\(", code, re.M))
named = set(re.findall(r'^\.BI ".*?(simple_asn1_\w+)\(', page, re.M))
same("the header's and the man page's names", declared | inline, named)

statuses = {name: int(number) for name, number in re.findall(r"SIMPLE_ASN1_(?!RULE_)(\w+) = (\d+)", header)}
same("the header's and Python's statuses", statuses, {s.name: s.value for s in simple_asn1.Status})
rust = {name: int(number) for name, number in re.findall(r"pub const (?!RULE_)(\w+): u32 = (\d+)", calls)}
same("the header's and Rust's statuses", statuses, rust)
texts = dict(re.findall(r'case SIMPLE_ASN1_(\w+): return "([^"]*)"', header))
same("the header's and Python's texts", texts, {s.name: t for s, t in simple_asn1.TEXTS.items()})
told = dict(re.findall(r"^\.B SIMPLE_ASN1_(?!RULE_)(\w+)\n([^;\n]*)", page, re.M))
same("the header's and the man page's texts", {k: t for k, t in texts.items() if k != "OK"}, told)
fault = (top / "bindings/rust/records/src/fault.rs").read_text()
kinds = dict(re.findall(r"FaultKind::(\w+) => \"([^\"]*)\"", fault))
numbers = {rust[s]: kinds[k] for s, k in re.findall(r"sys::(\w+) => FaultKind::(\w+)", fault)}
never = {statuses["OK"], statuses["NO_ROOM"]}
same("the header's and Rust's texts", {n: texts[s] for s, n in statuses.items() if n not in never}, numbers)

proved = (top / "crates/asn1_records/src/status.rt").read_text()
other_names = {
    "DONE": "OK", "OUT_OF_RANGE": "RANGE", "EmptyBuffer": "EMPTY", "BadBooleanLength": "BOOLEAN_LENGTH",
    "LengthTooLarge": "LENGTH", "UTF8DecodeFailure": "UTF8", "PrintableStringDecodeFailure": "PRINTABLE",
    "InvalidDateValue": "DATE", "InvalidBitStringLength": "BIT_STRING_LENGTH", "Incomplete": "INCOMPLETE",
}
found = re.findall(r"pub const (\w+): u32 = (\d+)", proved) + re.findall(r"ASN1DecodeErr::(\w+)\S* => (\d+)", proved)
same("the header's and the library's statuses", statuses, {other_names.get(k, k): int(n) for k, n in found})

# the rules of DER by their numbers: the name, what is wrong, and the clauses
noted = re.findall(r"SIMPLE_ASN1_RULE_(\w+) = (\d+),?\s*/\* (.*?): (.*?) \*/", header, re.S)
rules = {int(n): (name, text, re.sub(r"\s*\n\s*\* ", " ", clauses)) for name, n, text, clauses in noted}
same("the numbers of rules", list(rules), list(range(1, len(rules) + 1)))
same("the header's and Python's rules", rules, {r.value: (r.name, r.text, r.section) for r in simple_asn1.Rule})
shown = re.findall(r"^\.B SIMPLE_ASN1_RULE_(\w+)\n(.*?): (.*)$", page, re.M)
same("the header's and the man page's rules", list(rules.values()), shown)
constants = {int(n): name for name, n in re.findall(r"pub const RULE_(\w+): u32 = (\d+)", calls)}
same("the header's and Rust's names of rules", {n: name for n, (name, *_) in rules.items()}, constants)


def shouted(name):
    return re.sub(r"(?<!^)(?=[A-Z])", "_", name).upper()


made = (top / "bindings/rust/records/src/departures.rs").read_text()
in_rust = re.findall(r'\(\s*Rule::(\w+),\s*"([^"]*)",\s*"([^"]*)",?\s*\)', made)
same("the header's and Rust's rules", list(rules.values()), [(shouted(name), *words) for name, *words in in_rust])
variants = re.findall(r"^    (\w+),$", made[made.index("pub enum Rule") : made.index("const RULES")], re.M)
same("Rust's rules and their order", variants, [name for name, *_ in in_rust])
proved = (top / "crates/asn1_records/src/departures.rt").read_text()
numbered = {int(n): shouted(name) for name, n in re.findall(r"Rule::(\w+) => (\d+)", proved)}
same("the header's and the library's rules", constants, numbered)
library = (top / "crates/asn1_der/src/rule.rt").read_text()
clauses, texts = (
    {shouted(name): words for name, words in re.findall(r'Rule::(\w+) => "([^"]*)"', part)}
    for part in library.split("pub fn text")
)
same("the header's texts and those of the library", {r[0]: r[1] for r in rules.values()}, texts)
same("the header's clauses and those of the library", {r[0]: r[2] for r in rules.values()}, clauses)


class Refusal(ctypes.Structure):
    _fields_ = [
        ("status", ctypes.c_uint32), ("offset", ctypes.c_size_t), ("number", ctypes.c_uint64), ("text", _calls.Outcome)
    ]


records = {
    "block": _calls.Block,
    "path": _calls.Path,
    "value": _calls.FoundBlock,
    "departure": _calls.DepartureRecord,
    "outcome": _calls.Outcome,
    "integer": _calls.Integer,
    "bit_string": _calls.BitString,
    "moment": _calls.MomentAnswer,
    "signed_parts": _calls.SignedParts,
    "certificate_parts": _calls.CertificateParts,
    "request_parts": _calls.RequestParts,
    "revocation_list_parts": _calls.RevocationListParts,
    "refusal": Refusal,
}
same("Python's records and those it hands out", simple_asn1.Record._fields, tuple(f[0] for f in _calls.Block._fields_))
moment = tuple(f[0] for f in _calls.MomentAnswer._fields_[1:])
same("Python's moments and those it hands out", simple_asn1.Moment._fields, moment)
lines = []
for name, record in records.items():
    lines.append(f'printf("{name} %zu\\n", sizeof(simple_asn1_{name}));')
    for field in record._fields_:
        lines.append(
            f'printf("{name}.{field[0]} %zu %zu\\n", offsetof(simple_asn1_{name}, {field[0]}), '
            f"sizeof(((simple_asn1_{name} *)0)->{field[0]}));"
        )
program = '#include "simple_asn1.h"\n#include <stdio.h>\nint main(void) {\n' + "\n".join(lines) + "\nreturn 0;\n}\n"
built = pathlib.Path(sys.argv[3]) / "layout"
subprocess.run(
    [compiler, f"-I{top}/bindings/c", "-x", "c", "-", "-o", str(built)], input=program, text=True, check=True
)
found = subprocess.run([str(built)], capture_output=True, text=True, check=True).stdout.splitlines()
wanted = []
for name, record in records.items():
    wanted.append(f"{name} {ctypes.sizeof(record)}")
    for field in record._fields_:
        place = getattr(record, field[0])
        wanted.append(f"{name}.{field[0]} {place.offset} {place.size}")
same("the header's and Python's records", found, wanted)

source = "".join((top / "crates/asn1_records/src" / name).read_text() for name in ("record.rt", "first_fault.rt"))
answers = {
    "IntegerAnswer": "integer", "BitStringAnswer": "bit_string", "MomentAnswer": "moment",
    "SignedAnswer": "signed_parts", "CertificateAnswer": "certificate_parts", "RequestAnswer": "request_parts",
    "RevocationListAnswer": "revocation_list_parts", "FaultAnswer": "refusal", "DepartureRecord": "departure",
}
for kind, size in re.findall(r"size_of::<(\w+)>\(\) == (\d+)", source):
    name = answers.get(kind, kind.lower())
    same(f"the sizes of {name}", int(size), ctypes.sizeof(records[name]))
print(
    f"header: {len(declared)} calls, {len(statuses)} statuses, {len(rules)} rules and {len(records)} records agree in "
    "C, Rust and Python"
)
