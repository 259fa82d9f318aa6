"""Each place of the library where memory may run out is run by a row: with a body that always says so, some row fails.

    checks/run memory [-- CRATE..]    the places of these crates, or of all of the library's that calls stand on

A contract leaves it open when memory runs out, so that a body passes the prover that always says it ran out. Rows have
to see it. A copy of the crates gets all such bodies at once, each behind a switch, and is built once, unproved. A body
gives up in one of these places of a function whose result may say that memory ran out:

    path    at the first line of the function, of an arm or of a block, and at the last line of a path
    call    behind a call with `?`
    took    behind a call with `?`, if this call took memory
    test    where an error is asked whether it says that memory ran out

Functions whose result cannot say it, since they keep the error for another one, have bodies of the last kind alone.

Each row of the check `calls` shows the bodies that it reaches, and each body is run with the rows that reach it. Bodies
that no row sees, and may not, are lines of data/memory/unseen, with the reason; others that are not seen, and lines
that no longer hold, are printed and fail.

`cc` and `nm` have to be there: a library, loaded before others, has the switch, and counts allocations.
"""
import collections
import concurrent.futures
import os
import pathlib
import re
import subprocess
import sys
import tempfile
import time

from builds import INPUTS
from calls import CRATE, small_rows, with_calls
from switched import allowed, built, switch_library, wrong_copy

TOP = pathlib.Path(__file__).resolve().parent.parent.parent
DATA = TOP / "checks" / "data" / "memory"
# seconds in which a run ends
PATIENCE = 120
CRATES = ["asn1_numbers", "asn1_headers", "asn1_leaves", "asn1_blocks", "asn1_writing", "asn1_outline", "asn1_der",
          "simple_asn1"]

# the switch in the copy: calls of the C library that the loaded library answers
SWITCH = """// Which body says that memory ran out. Where it is to do so only if a call took memory, `before` is the
// number of allocations before this call.
use std::alloc::AllocError;

unsafe extern "C" {
    pub safe fn getpgid(n: i32) -> i32;
    pub safe fn getsid(n: i32) -> i32;
}

pub fn taken() -> i32 {
    getsid(0)
}

pub fn is_wrong(n: i32) -> bool {
    getpgid(n) == -77
}

pub fn gives_up(n: i32, before: i32) -> Result<(), AllocError> {
    if taken() != before && is_wrong(n) {
        return Err(AllocError);
    }
    Ok(())
}
"""
# errors that nothing makes of want of memory in the library, and how the copy makes them
MADE = {
    "asn1_headers/error.rt": """
impl From<AllocError> for LocatedErr {
    fn from(_error: AllocError) -> LocatedErr {
        LocatedErr { error: ASN1DecodeErr::OutOfMemory, offset: 0 }
    }
}
""",
    "simple_asn1/point.rt": """
impl From<std::alloc::AllocError> for PointErr {
    fn from(_error: std::alloc::AllocError) -> PointErr {
        PointErr::Encode(ASN1EncodeErr::OutOfMemory)
    }
}
""",
}

FUNCTION = re.compile(r"^( *)(?:pub(?:\([a-z]+\))? )?(?:const )?fn (\w+)")
RESULT = re.compile(r"-> Result<.*\b(?:AllocError|ASN1DecodeErr|ASN1EncodeErr|LocatedErr|FaithfulErr|TripleErr"
                    r"|PointErr)>$")
ARM = re.compile(r"^( +)(?!let |if |while |for |//)(\S.*?) => (.*)$")
BLOCK = re.compile(r"^ +(?:\} else |let .* = |return )?(?:if|while|for|loop|else)\b.*\{$")
TAIL = re.compile(r"^ +(?:return |Ok\(|Err\()")
TEST = re.compile(r"(?<!fn )\bis_out_of_memory\([^()]*\)")
# where memory has run out already, or nothing comes
SAYS_SO = re.compile(r"AllocError|OutOfMemory|out_of_memory|unreachable!")
# a call that may take memory itself
TAKES = re.compile(r"\balloc\b|\.(?:push|clone|extend_from_slice|append|split_off|resize|reserve)\(")
Body = collections.namedtuple("Body", "crate file number place function kind text")
Function = collections.namedtuple("Function", "name indent first last")


def functions_of(lines):
    """The functions whose result may say that memory ran out: from the line after the brace to that before its end."""
    found = []
    for at, line in enumerate(lines):
        named = FUNCTION.match(line)
        if not named:
            continue
        indent, start, head = named[1], at, line
        while not re.search(r"(?:^\s*(?:requires|ensures|where)\b.*|[{;])$", lines[start]):
            start += 1
            head += " " + lines[start].strip()
        if not RESULT.search(re.split(r" (?:requires|ensures|where)\b| \{$|;$", head)[0]):
            continue
        while not (lines[start] == indent + "{" or lines[start].endswith(";")
                   or lines[start].endswith("{") and lines[start].startswith((line, indent + ")"))):
            start += 1
        if lines[start].endswith(";"):
            continue
        end = next(i for i in range(start, len(lines)) if lines[i] == indent + "}")
        found.append(Function(named[2], indent, start + 1, end))
    return found


def begin_of(text, end):
    """Where the call begins whose `?` stands at this index."""
    at, is_after_dot = end - 1, False
    while at >= 0:
        c = text[at]
        if c in ")]>":
            if c == ">" and text[at - 1] in "-=":
                return at + 1
            depth, pairs = 0, {")": "(", "]": "[", ">": "<"}
            while True:
                depth += (text[at] == c) - (text[at] == pairs[c])
                if depth == 0:
                    break
                at -= 1
            at, is_after_dot = at - 1, False
        elif c.isalnum() or c in "_?:" or c == "!" and text[at + 1] in "([":
            at, is_after_dot = at - 1, False
        elif c == ".":
            at, is_after_dot = at - 1, True
        elif c.isspace() and is_after_dot:
            at -= 1
        elif c.isspace() and text[at:end].lstrip().startswith("."):
            at -= 1
        else:
            break
    return at + 1


def calls_of(lines, function):
    """The calls with `?` of the function: where each begins and ends, as indices of the text."""
    text = "\n".join(lines)
    start = sum(len(line) + 1 for line in lines[: function.first])
    found = []
    for line in lines[function.first : function.last]:
        code = re.sub(r"b'.'|\"(?:[^\"\\]|\\.)*\"", lambda it: "_" * len(it[0]), line.split("//")[0])
        found += [(begin_of(text, start + at), start + at + 1) for at, c in enumerate(code) if c == "?"]
        start += len(line) + 1
    return found


def arm_end(lines, at):
    """The line on which the arm ends that begins on this one."""
    indent = len(lines[at]) - len(lines[at].lstrip())
    if lines[at].endswith((",", "}")):
        return at
    return next(i for i in range(at + 1, len(lines)) if len(lines[i]) - len(lines[i].lstrip()) == indent)


def paths_of(lines, function):
    """The lines of the function before which it may give up, and the arms without braces that may."""
    before, arms = [function.first], []
    inside = range(function.first, function.last)
    tail = None
    for at in inside:
        line, above = lines[at], next(lines[i] for i in range(at - 1, -1, -1) if not lines[i].lstrip().startswith("//"))
        arm = ARM.match(line)
        is_new = above.endswith((";", "}", "{"))
        if arm and arm[3] == "{":
            before.append(at + 1)
        elif arm and "matches!" not in line:
            if not SAYS_SO.search(" ".join(lines[at : arm_end(lines, at) + 1]).split(" => ", 1)[1]):
                arms.append(at)
        elif BLOCK.match(line) or line.strip() == "{":
            before.append(at + 1)
        elif TAIL.match(line) and above.endswith((";", "}")):
            before.append(at)
        elif is_new and line.startswith(function.indent + "    ") and line[len(function.indent) + 4] not in " })":
            tail = at
    if tail and not lines[tail].rstrip().endswith(";"):
        before.append(tail)
    return sorted(set(before)), arms


class Switches:
    """The switches that a file gets, and the bodies behind them, numbered from start on."""

    def __init__(self, crate, path, start):
        self.crate, self.path, self.start = crate, path, start
        self.text = path.read_text()
        self.lines, self.offsets = self.text.split("\n"), [0]
        for line in self.lines:
            self.offsets.append(self.offsets[-1] + len(line) + 1)
        # texts, each with the index where it goes, and its rank among those that go there
        self.bodies, self.inserts = [], []

    def add(self, name, at, kind):
        """The number of a new body, of a line of the function of this name."""
        number = self.start + sum(body.kind != "took" for body in self.bodies)
        text = self.lines[at].strip()
        self.bodies.append(Body(self.crate, self.path.name, number, at + 1, name, kind, text))
        return number

    def add_paths(self, function):
        before, arms = paths_of(self.lines, function)
        for at in before:
            if not SAYS_SO.search(self.lines[at]):
                number = self.add(function.name, at, "path")
                self.inserts.append((self.offsets[at], 0, f"crate::switch::gives_up({number}, -1)?;\n"))
        for at in arms:
            number, end = self.add(function.name, at, "path"), arm_end(self.lines, at)
            begin = self.offsets[at] + self.lines[at].index(" => ") + 4
            self.inserts.append((begin, 0, f"{{ crate::switch::gives_up({number}, -1)?; "))
            self.inserts.append((self.offsets[end] + len(self.lines[end].rstrip(",")), 2, " }"))

    def add_calls(self, function):
        for begin, end in calls_of(self.lines, function):
            at = next(i for i in range(len(self.lines)) if self.offsets[i + 1] > end - 1)
            number = self.add(function.name, at, "call")
            if TAKES.search(self.text[begin:end]):
                self.bodies.append(self.bodies[-1]._replace(kind="took"))
            self.inserts.append((begin, 1, "({ let taken_before = crate::switch::taken(); let its_answer = "))
            self.inserts.append((end, 1, f"; crate::switch::gives_up({number}, taken_before)?; its_answer }})"))

    def add_tests(self):
        for at, line in enumerate(self.lines):
            for test in TEST.finditer(line):
                function = next(it for it in map(FUNCTION.match, reversed(self.lines[:at])) if it)
                number = self.add(function[2], at, "test")
                begin, end = (self.offsets[at] + it for it in test.span())
                self.inserts.append((begin, 3, f"(crate::switch::is_wrong({number}) || "))
                self.inserts.append((end, 0, ")"))

    def text_with(self):
        """The text of the file with them."""
        text = self.text
        for at, _, new in sorted(self.inserts, key=lambda it: it[:2], reverse=True):
            text = text[:at] + new + text[at:]
        return text + MADE.get(f"{self.crate}/{self.path.name}", "")


def bodies_of(crate, path, start):
    """The text of the file with a switch in each place, and the bodies."""
    switches = Switches(crate, path, start)
    for function in functions_of(switches.lines):
        switches.add_paths(function)
        switches.add_calls(function)
    switches.add_tests()
    return switches.text_with(), switches.bodies


def hooks_of(program):
    """Where the program has the list of what is called after each allocation."""
    for line in subprocess.run(["nm", program], capture_output=True, text=True, check=True).stdout.splitlines():
        if line.endswith("MFHooksE"):
            return line.split()[0]
    sys.exit("memory: the program has no list of hooks")


def fails(program, library, rows, environment):
    """Whether the program answers one of the rows otherwise."""
    given, wanted = ("".join(f"{row[side]}\n" for row in rows).encode() for side in [0, 1])
    words = {**os.environ, "LD_PRELOAD": str(library), **environment}
    try:
        ran = subprocess.run([program], input=given, capture_output=True, timeout=PATIENCE, env=words)
    except subprocess.TimeoutExpired:
        return True
    return (ran.returncode, ran.stdout) != (0, wanted)


def reached(program, library, rows, room, environment):
    """The rows that reach each place, by its number, the quickest first."""
    def look(at):
        log = room / f"reached{at}"
        began = time.monotonic()
        is_wrong = fails(program, library, [rows[at]], {**environment, "REACHED": str(log)})
        took = time.monotonic() - began
        numbers = [int(word) for word in log.read_text().split()] if log.exists() else []
        log.unlink(missing_ok=True)
        return at, took, is_wrong, numbers

    found = collections.defaultdict(list)
    with concurrent.futures.ThreadPoolExecutor(os.cpu_count()) as pool:
        for at, _, is_wrong, numbers in sorted(pool.map(look, range(len(rows))), key=lambda it: it[1]):
            if is_wrong:
                sys.exit(f"memory: fails by itself: {rows[at][0][:80]}")
            for number in numbers:
                found[number].append(rows[at])
    return found


def judge(bodies, program, library, room):
    """Says which bodies no row sees; 1 where there are others than those that may be unseen."""
    rows = small_rows()
    modes = {True: {"MALLOC_HOOKS": hooks_of(program)}, False: {"ANY_PLACE": "1"}}
    found = {mode: reached(program, library, rows, room, words) for mode, words in modes.items()}

    def rows_for(body):
        return found[body.kind == "took"][body.number]

    def is_seen(body):
        words = {**modes[body.kind == "took"], "WRONG_BODY": str(body.number)}
        return bool(rows_for(body)) and fails(program, library, rows_for(body), words)

    with concurrent.futures.ThreadPoolExecutor(os.cpu_count()) as pool:
        seen = list(pool.map(is_seen, bodies))
    known = allowed(DATA / "unseen")
    unseen = [body for body, is_so in zip(bodies, seen) if not is_so]
    unexpected = [body for body in unseen if known.keys().isdisjoint(names_of(body))]
    for body in unexpected:
        print(f"unseen: {names_of(body)[-1]} -- line {body.place}, {len(rows_for(body))} rows reach it")
    of_some = {name for body, is_so in zip(bodies, seen) if is_so for name in names_of(body)[:-1]}
    of_unseen = {name for body in unseen for name in names_of(body)} - of_some
    gone = [name for name in known if name not in of_unseen and name.split("/")[0] in {body.crate for body in bodies}]
    for name in gone:
        print(f"seen, or not there: {name}")
    print(f"memory: {len(bodies)} bodies, {len(unseen)} unseen, {len(unexpected)} of them not in data/memory/unseen")
    return 1 if unexpected or gone else 0


def names_of(body):
    """The names of all bodies of its file, of all of its function, and of the body itself."""
    file = f"{body.crate}/{body.file}"
    return [file, f"{file} {body.function}", f"{file} {body.function} {body.kind} {body.text}"]


def main(names):
    with tempfile.TemporaryDirectory() as folder:
        room = pathlib.Path(folder)
        bodies = wrong_copy(room, names or CRATES, bodies_of, SWITCH)
        with_calls(room)
        program = built(room, CRATE.name, *INPUTS[CRATE.name])
        return judge(bodies, program, switch_library(room, "count_alloc.c"), room)


if __name__ == "__main__":
    sys.exit(main(sys.argv[1:]))
