"""Each arm of a match in the programs, and each text of an arm, is seen by a row: with it wrong, some row fails.

    checks/run arms [-- CRATE..]    the arms of these crates, or of all of der_dump's own

What a contract leaves open, a wrong body passes the prover, so that rows have to see it. A copy of the crates gets all
wrong bodies at once, each behind a switch, and is built once, unproved. An arm is left out, where a later arm `_` takes
what it took; a text becomes another one. Then each row of der_dump is run, which shows the bodies that it reaches, and
each body is run with the rows that reach it, until one of them fails. Bodies that no row sees, and may not, are lines
of data/arms/unseen, with the reason; others that are not seen, and lines that no longer hold, are printed and fail. Of
a body with such a line only the quickest rows are run.

It takes about half an hour of processor time, since a row takes half a second in an unproved program. `cc` has to be
there: a library, loaded before others, has the switch.
"""
import collections
import concurrent.futures
import os
import pathlib
import re
import subprocess
import sys
import tempfile
import time

from rows import rows_of
from switched import allowed, built, switch_library, wrong_copy

TOP = pathlib.Path(__file__).resolve().parent.parent.parent
DATA = TOP / "checks" / "data" / "arms"
CRATES = ["dump_values", "dump_names", "dump_rows", "dump_walk", "dump_lines", "dump_json", "der_forms", "der_digits",
          "dump_options", "dump_inputs", "dump_shapes", "dump_text"]

# so many rows of a body are run one after another, and then the others side by side
FIRST = 30

ARM = re.compile(r"^( +)(?!let |if |while |for |//)(\S.*?) => (.*)$")
# a text, octets, or a character
LITERAL = re.compile(r"""b?"(?:[^"\\]|\\.)*"|'(?:[^'\\]|\\.)'""")
FUNCTION = re.compile(r"^ *(?:pub(?:\(\w+\))? )?(?:const )?fn (\w+)")
Body = collections.namedtuple("Body", "crate file number place function kind text")


def arms_left(lines):
    """The lines of arms that a later arm `_` stands behind in the same match."""
    left, open_matches = set(), []
    for at, line in enumerate(lines):
        indent = len(line) - len(line.lstrip())
        while open_matches and line.strip() and indent < open_matches[-1][0]:
            open_matches.pop()
        found = ARM.match(line)
        if not found:
            continue
        if not open_matches or open_matches[-1][0] != indent:
            open_matches.append((indent, []))
        if found[2] == "_":
            left.update(open_matches[-1][1])
            open_matches.pop()
        else:
            open_matches[-1][1].append(at)
    return left


def text_in(rest):
    """The first text behind an arm that is not empty, and no format."""
    return next((it for it in LITERAL.finditer(rest)
                 if it[0].startswith('"') and len(it[0]) > 2 and not re.search(r"[{}]", it[0])), None)


def bodies_of(crate, path, start):
    """The text of the file with a switch before each wrong body, and the bodies."""
    lines, bodies = path.read_text().split("\n"), []
    left, out, function = arms_left(lines), [], ""
    for at, line in enumerate(lines):
        named, found = FUNCTION.match(line), ARM.match(line)
        function = named[1] if named else function
        if found and "matches!" not in line:
            indent, pattern, rest = found.groups()
            if at in left:
                number = start + len(bodies)
                bodies.append(Body(crate, path.name, number, at + 1, function, "arm", pattern))
                pattern, _, guard = pattern.partition(" if ")
                guard = f"!crate::switch::is_wrong({number})" + (f" && ({guard})" if guard else "")
                pattern = f"{pattern} if {guard}"
            text = text_in(rest)
            # a text in an array has to be one when the program is built
            if text and not re.search(r"!\(|&\[", rest[: text.start()]):
                number = start + len(bodies)
                bodies.append(Body(crate, path.name, number, at + 1, function, "text", text[0]))
                wrong = f'if crate::switch::is_wrong({number}) {{ "WRONG" }} else {{ {text[0]} }}'
                rest = rest[: text.start()] + wrong + rest[text.end() :]
            line = f"{indent}{pattern} => {rest}"
        out.append(line)
    return "\n".join(out), bodies


def is_seen(row, program, environment):
    """Whether the row fails."""
    try:
        return row.run(program, {**os.environ, **environment}) != row.wanted()
    except subprocess.TimeoutExpired:
        return True


def reached(rows, program, library, room):
    """The rows that reach each body, by its number, the quickest first."""
    def look(at):
        log = room / f"reached{at}"
        began = time.monotonic()
        is_left_out = is_seen(rows[at], program, {"LD_PRELOAD": str(library), "REACHED": str(log)})
        took = time.monotonic() - began
        numbers = [] if is_left_out or not log.exists() else [int(word) for word in log.read_text().split()]
        return at, took, is_left_out, numbers

    found, left_out = collections.defaultdict(list), 0
    with concurrent.futures.ThreadPoolExecutor(os.cpu_count()) as pool:
        for at, took, is_left_out, numbers in sorted(pool.map(look, range(len(rows))), key=lambda it: it[1]):
            left_out += is_left_out
            for number in numbers:
                found[number].append(rows[at])
    print(f"arms: {len(rows)} rows, without {left_out} that fail by themselves", flush=True)
    return found


def judge(rows, room, bodies, program, library):
    """Says which bodies no row sees; 1 where there are others than those that may be unseen."""
    found = reached(rows, program, library, room)
    known = allowed(DATA / "unseen")

    seen = set()

    def look(body, row):
        environment = {"LD_PRELOAD": str(library), "WRONG_BODY": str(body.number)}
        if body not in seen and is_seen(row, program, environment):
            seen.add(body)

    def look_first(body):
        for row in found[body.number][:FIRST]:
            look(body, row)

    with concurrent.futures.ThreadPoolExecutor(os.cpu_count()) as pool:
        list(pool.map(look_first, bodies))
        # of a body that none of these sees all rows are run, these side by side, unless it may be unseen
        left = [(body, row) for body in bodies if body not in seen and name_of(body) not in known
                for row in found[body.number][FIRST:]]
        list(pool.map(lambda it: look(*it), left))
    unseen = [body for body in bodies if body not in seen]
    unexpected = [body for body in unseen if name_of(body) not in known]
    for body in unexpected:
        print(f"unseen: {name_of(body)} -- line {body.place}, {len(found[body.number])} rows reach it")
    gone = [name for name in known if name not in {name_of(body) for body in unseen}
            and name.split(" ")[0].split("/")[0] in {body.crate for body in bodies}]
    for name in gone:
        print(f"seen, or not there: {name}")
    print(f"arms: {len(bodies)} bodies, {len(unseen)} unseen, {len(unexpected)} of them not in data/arms/unseen")
    return 1 if unexpected or gone else 0


def name_of(body):
    """The name of a body: its file and function, and the pattern or the text."""
    return f"{body.crate}/{body.file} {body.function} {body.kind} {body.text}"


def main(names):
    rows = [row for path in sorted(TOP.glob("crates/der_dump/rows/*.rows")) for row in rows_of(path)]
    with tempfile.TemporaryDirectory() as folder:
        room = pathlib.Path(folder)
        bodies = wrong_copy(room, names or CRATES, bodies_of)
        program = built(room, "der_dump")
        return judge(rows, room, bodies, program, switch_library(room))


if __name__ == "__main__":
    sys.exit(main(sys.argv[1:]))
