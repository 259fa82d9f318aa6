"""shellcheck and flake8 find nothing in the scripts of the repository. Each that is not here is NOT CHECKED.

    checks/run lint

Scripts are tracked files that say so in their first line, the files *.py, and what scripts of checks/scripts read.
"""
import pathlib
import re
import shutil
import subprocess
import sys

TOP = pathlib.Path(__file__).resolve().parent.parent.parent
SHELL, PYTHON = re.compile(rb"#!.*\b(?:ba)?sh$"), re.compile(rb"#!.*\bpython3?$")


def tracked():
    listed = subprocess.run(["git", "ls-files", "-z", "--cached", "--others", "--exclude-standard"], cwd=TOP,
                            capture_output=True, text=True, check=True)
    return [it for it in listed.stdout.split("\0") if it and (TOP / it).is_file()]


def begins_with(name, pattern):
    with open(TOP / name, "rb") as file:
        return bool(pattern.fullmatch(file.readline(200).rstrip()))


def found_by(tool, words, files):
    """Whether the tool finds something in the files, or is not here."""
    if not shutil.which(tool):
        print(f"lint: NOT CHECKED by {tool}, which is not here")
        return False
    ran = subprocess.run([tool, *words, *files], cwd=TOP, stdout=subprocess.PIPE, stderr=subprocess.STDOUT, text=True)
    print(ran.stdout, end="")
    print(f"lint: {tool} looked at {len(files)} files" + (", and found faults" if ran.returncode else ""))
    return ran.returncode != 0


def main(_words):
    names = tracked()
    shell = [it for it in names if it.startswith("checks/scripts/") or begins_with(it, SHELL)]
    python = [it for it in names if it.endswith(".py") or begins_with(it, PYTHON)]
    wrong = [found_by("shellcheck", ["-s", "sh"], shell), found_by("flake8", [], python)]
    return 1 if any(wrong) else 0


if __name__ == "__main__":
    sys.exit(main(sys.argv[1:]))
