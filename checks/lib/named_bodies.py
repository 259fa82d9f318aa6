"""Each wrong body that has a name gives just the wrong answer that it is named for.

    checks/run named-bodies [-- NAME..]    these bodies, or all, in short one of them, two at once

Each takes about a minute and a quarter of processor time. The bodies are lines of data/named_bodies/bodies. The edit
of each is applied in a copy of the crates, which is built unproved and run on one input: exactly the wrong answer has
to come. The crates as they are have to give each right answer. That the prover refuses the edits is shown by
`rt must-fail` and `checks/edits`.
"""
import collections
import concurrent.futures
import os
import pathlib
import queue
import re
import shutil
import subprocess
import sys
import tempfile

from calls import with_calls
from edits import Edit, Unmade, edits_of, made, must_fail_of

TOP = pathlib.Path(__file__).resolve().parent.parent.parent
DATA = TOP / "checks" / "data" / "named_bodies"
COPIES = 2
SHORT = "every_fault_incomplete"  # the body of the short form
PARTS = ["src", "specs", "proofs"]

Body = collections.namedtuple("Body", "name edit program refused given right wrong")


def edit_at(path):
    """The edit that a line of the data names: one of a crate, as CRATE/edits/NAME, or one beside the data."""
    if "/" not in path:
        return Edit(path.split(".")[0], path, (DATA / f"{path}.edit").read_text())
    crate, where, name = path.split("/")
    known = {"edits": edits_of, "must-fail": must_fail_of}[where](crate)
    found = [it for it in known if it.name == name]
    return found[0] if found else sys.exit(f"named-bodies: there is no edit {path}")


def bodies():
    """The bodies of the data."""
    found = []
    for number, line in enumerate((DATA / "bodies").read_text().splitlines(), 1):
        if not line or line.startswith("#"):
            continue
        fields = line.split(" | ")
        if len(fields) != 5:
            sys.exit(f"named-bodies: line {number} has {len(fields)} fields")
        name, edit, run, right, wrong = fields
        program, given = run.split(": ", 1)
        program, _, refused = program.partition(", allocation ")
        found.append(Body(name, edit_at(edit), program, refused, given, right, wrong))
    return found


def without_line(found):
    """The edits of must-fail that no body of the data has."""
    crates = sorted(it.parent.name for it in TOP.glob("crates/*/must-fail"))
    return sorted({edit for crate in crates for edit in must_fail_of(crate)} - {it.edit for it in found})


def edited(body, folder):
    """The texts of the files that the edit changes, by their paths."""
    crate = folder / "crates" / body.edit.crate
    try:
        return {crate / path: text for path, text in made(body.edit, crate).items()}
    except Unmade as why:
        sys.exit(f"named-bodies: {body.edit.name}: {why}")


def copied(folder):
    """A copy of the crates, in which an edit can be applied."""
    for crate in (TOP / "crates").iterdir():
        for part in PARTS:
            if (crate / part).is_dir():
                shutil.copytree(crate / part, folder / "crates" / crate.name / part)
    for name in ["crates.txt", "HANDLES"]:
        shutil.copy(TOP / name, folder)
    with_calls(folder)
    (folder / ".git").mkdir()


def tried(folder, program, words, given):
    """What `rt try` of the crate writes, its status, and its lines on standard error."""
    place = folder / "crates" / program
    ran = subprocess.run(["rt", "try", *words], cwd=place, input=given, capture_output=True, text=True)
    return ran.stdout, ran.returncode, ran.stderr.splitlines()


def answers_of_program(folder, program, refused, lines):
    """What the program answers to the lines: a line each, or how it ends where its status is not 0."""
    words = ["--fail-alloc", refused] if refused else []
    output, status, errors = tried(folder, program, words, "".join(f"{line}\n" for line in lines))
    if status == 0:
        return output.splitlines()
    said = [line for line in errors if not re.match(r"(interpreter|checked|allocations|run=|rt: )", line)]
    return [f"status {status}: {' '.join(said)[:200]}"]


def answer_of_test(folder, program, name):
    """`ok`, or what the test of the name says of the first value that it compares."""
    output, _, errors = tried(folder, program, ["--test"], "")
    lines = output.splitlines() + errors
    for place, line in enumerate(lines):
        if re.match(rf"test \S*\b{name} \.\.\. ", line):
            if line.endswith(" ok"):
                return "ok"
            left = [it.strip() for it in lines[place:place + 4] if it.strip().startswith("left:")]
            return left[0] if left else line
    return f"no test {name}: {' '.join(lines[-3:])[:200]}"


def answer(folder, body):
    """The answer to what the body is given."""
    if body.program.startswith("test_") and body.program != "test_calls":
        return answer_of_test(folder, body.program, body.given)
    return "\n".join(answers_of_program(folder, body.program, body.refused, [body.given]))


def is_wrong_as_named(folder, body):
    """Whether the body's edit gives the wrong answer that it is named for; what came is told where it does not."""
    texts = edited(body, folder)
    was = {path: path.read_text() for path in texts}
    for path, text in texts.items():
        path.write_text(text)
    try:
        came = answer(folder, body)
    finally:
        for path, text in was.items():
            path.write_text(text)
    print(f"{'ok' if came == body.wrong else 'WRONG':6}{body.name}: {body.given}: {came}", flush=True)
    if came != body.wrong:
        print(f"      wanted: {body.wrong}", flush=True)
    return came == body.wrong


def are_right(folder, group):
    """How many of the bodies of one program, all with or without a refused allocation, are answered wrong as it is."""
    program, refused = group[0].program, group[0].refused
    if program == "test_calls" and not refused:
        came = answers_of_program(folder, program, refused, [it.given for it in group])
    else:
        came = [answer(folder, it) for it in group]
    wrong = [(it, said) for it, said in zip(group, came + [None] * len(group)) if said != it.right]
    for body, said in wrong:
        print(f"WRONG as it is: {body.given}: {said}\n      wanted: {body.right}", flush=True)
    return len(wrong)


def main(names):
    known = bodies()
    for edit in without_line(known):
        sys.exit(f"named-bodies: no line has {edit.crate}/must-fail/{edit.name}")
    if os.environ.get("SHORT") and not names:
        names = [SHORT]
    found = [it for it in known if not names or it.name in names]
    if not found or set(names) - {it.name for it in found}:
        sys.exit(f"named-bodies: there are none of {' '.join(names)}")
    groups = collections.defaultdict(list)
    for body in found:
        groups[body.program, body.refused].append(body)
    with tempfile.TemporaryDirectory() as room, concurrent.futures.ThreadPoolExecutor(COPIES) as pool:
        folders = queue.Queue()
        for number in range(COPIES):
            folder = pathlib.Path(room, str(number))
            copied(folder)
            folders.put(folder)

        def in_copy(work, it):
            folder = folders.get()
            try:
                return work(folder, it)
            finally:
                folders.put(folder)

        right = [pool.submit(in_copy, are_right, group) for group in groups.values()]
        wrong = [pool.submit(in_copy, is_wrong_as_named, body) for body in found]
        bad = sum(it.result() for it in right) + sum(not it.result() for it in wrong)
    print(f"named-bodies: {len({it.name for it in found})} bodies, {len(found)} wrong answers, {bad} not as named")
    return 1 if bad else 0


if __name__ == "__main__":
    sys.exit(main(sys.argv[1:]))
