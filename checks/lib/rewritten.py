"""Each certificate comes back from der_tool as its own octets.

    checks/run certificates [-- FOLDER]    those of this folder, /etc/ssl/certs unless given; in short each tenth
"""
import sys

import builds
from certificates import certificates
from compared import answers


def main(words):
    lines = [it.hex().upper() for it in certificates(*words)]
    given = answers(builds.program("der_tool"), (f"{it}\n" for it in lines))
    same = sum(line == f"ok {it}" for line, it in zip(given, lines))
    print(f"certificates: {same} of {len(lines)} come back as their own octets")
    return 0 if lines and same == len(given) == len(lines) else 1


if __name__ == "__main__":
    sys.exit(main(sys.argv[1:]))
