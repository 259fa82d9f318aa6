"""What `rt ci` has kept on this machine becomes the libraries of a checkout: `rt check` then proves none of them anew.

    python3 checks/lib/kept.py [CHECKOUT]

`rt ci` keeps beside the kit what it has proved, and `rt check` takes nothing of that by itself. So this asks the kit's
own module for each library of the same text, over the same libraries. With a kit that keeps nothing it gives nothing.
"""
import contextlib
import importlib.machinery
import importlib.util
import os
import pathlib
import shutil
import sys


def kit():
    """The module of the command `rt`, or none where there is no such command."""
    found = shutil.which("rt")
    if not found:
        return None
    path = pathlib.Path(found).resolve()
    sys.path.insert(0, str(path.parent))
    loader = importlib.machinery.SourceFileLoader("rt", str(path))
    module = importlib.util.module_from_spec(importlib.util.spec_from_loader("rt", loader))
    # nothing is written beside the kit
    sys.dont_write_bytecode = True
    loader.exec_module(module)
    return module


def give(checkout):
    """Gives the checkout each library that `rt ci` has kept of its text, and returns their names."""
    rt = kit()
    if not hasattr(rt, "Kept"):
        return []
    with contextlib.chdir(checkout):
        rt.Crate.allowed = rt.handles_of(os.getcwd())
        crates = rt.crates_of(os.getcwd())
        kept = rt.Kept(crates)
        return [it.name for it in crates if is_given(rt, kept, it)]


def is_given(rt, kept, crate):
    """Whether the crate is a library that was kept, and is given now, or was before."""
    if crate.is_program or crate.is_static or any(it.name not in kept.rlibs for it in crate.below()):
        return False
    if not crate.is_built():
        folder = pathlib.Path(crate.folder, "out/rlib")
        if not kept.at or not os.path.isdir(kept.place(crate, False, kept.key(crate))):
            return False
        rt.clear(str(folder))
        folder.mkdir(parents=True)
        if not kept.give(crate, False, kept.key(crate)):
            return False
        (folder / "stamp").write_text(crate.stamp())
    kept.is_built(crate)
    return True


if __name__ == "__main__":
    print("kept:", *give(*sys.argv[1:] or ["."]))
