"""deep.py LEVELS LEADING BESIDE AFTER: prints a document of so many levels in hex digits.

It has LEVELS encodings, whose leading octets are those of LEADING in turn, around a NULL. The octets BESIDE stand
before and after the inner one at each level; AFTER stands after the whole. `checks/run depth` runs it.
"""
import sys

from x690 import Nest


def main(levels, leading, beside, after):
    leading, beside, nest = bytes.fromhex(leading), bytes.fromhex(beside), Nest(b"\5\0")
    for level in range(int(levels)):
        nest.around(leading[level % len(leading)], beside, beside)
    print(nest.octets().hex().upper() + after)


main(*sys.argv[1:])
