"""The short forms of scripts: where SHORT is set in the environment, each tries a part of what it tries whole."""
import itertools
import os

IS_SHORT = bool(os.environ.get("SHORT"))


def part(items, step):
    """All items; in short the first of them, and each that is so many further on."""
    return itertools.islice(items, 0, None, step if IS_SHORT else 1)
