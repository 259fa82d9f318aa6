"""How long calls may take on documents of some sizes, each twice the size of the one before.

With PATIENCE=N in the environment, for a machine that does other work, a call may take N times as long, and sizes are
not compared.
"""
import os

SIZES = (25_000, 50_000, 100_000)
PATIENCE = float(os.environ.get("PATIENCE", 1))
MOST_SECONDS, MOST_RATIO, NOISE, RUNS = 1.0 * PATIENCE, 3.0, 0.01, 3 if PATIENCE == 1 else 1


def is_well(times):
    """Whether these seconds are few, and with each twice the size no more than three times as many."""
    grows = any(b > MOST_RATIO * a + NOISE for a, b in zip(times, times[1:]))
    return times[-1] <= MOST_SECONDS and (not grows or PATIENCE != 1)
