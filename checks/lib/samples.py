"""The commands of a page, and what it shows that they print.

A command is a paragraph of indented lines that begins with `printf` or with the name of the program. The indented
paragraph behind it, unless that is a command, is what it prints: there a line `...` stands for any lines, `..` for any
characters, and how many days a certificate is valid is not compared. What has nothing behind it only has to succeed.
Commands with `rt` build another program, and are left out.
"""
import os
import re
import shutil
import subprocess

PARAGRAPH = re.compile(r"^(?:    .*\n)+", re.M)
FOLDERS = ("checks", "crates")


def samples_of(text, program):
    """Each command, and what it prints, or None."""
    found = [(it.start(), it.end(), re.sub("^    ", "", it[0], flags=re.M)) for it in PARAGRAPH.finditer(text)]
    behind = {start: shown for start, _, shown in found}
    is_command = re.compile(rf"(?:printf|{program}) ").match
    for _, end, command in found:
        if is_command(command) and not re.search(r"\brt (?:run|try)\b", command):
            shown = behind.get(end + 1)
            yield command, None if shown is None or is_command(shown) else shown


def pattern_of(shown):
    """The pattern of what is shown."""
    lines = ["(?:.*\n)*" if line == "..." else re.escape(line).replace(r"\.\.", ".*") + "\n"
             for line in shown.splitlines()]
    return re.sub(r"\\\(\d+\\ days\\ left\\\)", r"\\(.*\\)", "".join(lines))


def wrong_samples(top, program, page, room):
    """Which commands of a page print something else, and the number of those that were run.

    They run in an empty folder that has the repository's files, one after another.
    """
    tools, place = room / "tools", room / "place"
    tools.mkdir(parents=True)
    place.mkdir()
    (tools / program.name).symlink_to(program.resolve())
    for name in FOLDERS:
        (place / name).symlink_to(top / name)
    environment = {**os.environ, "PATH": os.pathsep.join([str(tools), os.environ["PATH"]])}
    wrong, count = [], 0
    for command, shown in samples_of((top / page).read_text(), program.name):
        if re.search(r"\| jq ", command) and not shutil.which("jq"):
            print(f"pages: NOT CHECKED for {page}, there is no jq: {command.splitlines()[0]}")
            continue
        count += 1
        ran = subprocess.run(["bash", "-c", command], cwd=place, capture_output=True, env=environment)
        printed = ran.stdout.decode(errors="replace")
        is_right = ran.returncode == 0 if shown is None else re.fullmatch(pattern_of(shown), printed)
        if ran.stderr or not is_right:
            wrong.append(f"{page}: {command}  status {ran.returncode}, prints:\n{printed}{ran.stderr.decode()}"
                         + (f"  where the page has:\n{shown}" if shown else ""))
    return wrong, count
