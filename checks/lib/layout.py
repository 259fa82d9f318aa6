"""Each crate has the layout of `rt fmt`, which is found in a copy."""
import concurrent.futures
import filecmp
import os
import pathlib
import shutil
import subprocess
import sys
import tempfile

from builds import CRATES, TOP

LEFT_OUT = shutil.ignore_patterns("out", "rows", "data", "edits", "must-fail")


def laid_out_otherwise(folder):
    """The files of a crate of the copy that `rt fmt` lays out otherwise."""
    subprocess.run(["rt", "fmt"], cwd=folder, stdout=subprocess.DEVNULL, stderr=subprocess.DEVNULL, check=False)
    files = [it.relative_to(folder.parent) for kind in ("*.rt", "*.antt") for it in folder.rglob(kind)]
    return [it for it in files if not filecmp.cmp(folder.parent / it, CRATES / it, shallow=False)]


def main(_words):
    crates = [it for it in sorted(CRATES.iterdir()) if (it / "src").is_dir()]
    with tempfile.TemporaryDirectory() as room:
        shutil.copy(TOP / "crates.txt", room)
        copies = [pathlib.Path(room, "crates", it.name) for it in crates]
        for crate, copy in zip(crates, copies):
            shutil.copytree(crate, copy, ignore=LEFT_OUT)
        with concurrent.futures.ThreadPoolExecutor(os.cpu_count()) as pool:
            wrong = [it for files in pool.map(laid_out_otherwise, copies) for it in files]
    for file in wrong:
        print(f"layout: crates/{file}: run rt fmt in its crate")
    print(f"layout: {len(crates)} crates, {len(wrong)} files wrong")
    return 1 if wrong or not crates else 0


if __name__ == "__main__":
    sys.exit(main(sys.argv[1:]))
