"""over_ci.py KIT CRATE: proves a static library over the libraries that `rt ci` left, and makes its archive.

KIT is the folder of the kit, whose own module this uses, and CRATE that of the crate. bindings/c/build runs it.
"""
import os
import sys


def main(kit, folder):
    sys.path.insert(0, kit + "/bin")
    import rtlib
    os.chdir(folder)
    rtlib.guarded()
    crate = rtlib.Crate(folder, rtlib.root_above(folder), {})
    crate.out = sys.stdout
    missing = [it.rlib for it in crate.below() if not os.path.isdir(it.rlib)]
    if missing:
        sys.exit(f"there is no {missing[0]}")
    sys.exit(crate.build_static([]))


main(*sys.argv[1:])
