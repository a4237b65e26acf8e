#!/usr/bin/env python3
"""Measures puts of 24-byte payloads into a journal over a disk in memory, by the program crates/journal_bench."""

import os
import subprocess
import sys
import time

TOP = os.path.dirname(os.path.dirname(os.path.abspath(__file__)))
CRATE = os.path.join(TOP, "crates", "journal_bench")
SIZES = (1_000, 4_096, 16_384)
PUTS = 1_638_400
ROUNDS = 15

# The allocator keeps what a round gives back, so that the figures are of puts and not of fresh pages.
KEPT = {"MALLOC_TRIM_THRESHOLD_": "1000000000", "MALLOC_MMAP_THRESHOLD_": "1000000000", "MALLOC_TOP_PAD_": "67108864"}


def program():
    """The built program, which `rt run` leaves in the crate's folder out/."""
    path = os.path.join(CRATE, "out", "journal_bench")
    if not os.access(path, os.X_OK):
        subprocess.run(["rt", "run", "journal_bench", "--", "1", "1"], cwd=CRATE)
    if not os.access(path, os.X_OK):
        sys.exit("bench: the program could not be built")
    return path


def timed(words):
    """The best wall time of a command."""
    best = float("inf")
    for _ in range(ROUNDS):
        start = time.perf_counter()
        if subprocess.run(words, env={**os.environ, **KEPT}).returncode != 0:
            sys.exit(f"bench: {' '.join(words)} failed")
        best = min(best, time.perf_counter() - start)
    return best


def main():
    path = program()
    empty = timed([path, "1", "0"])
    per_put = []
    print(f"{'payloads':>9} {'puts/s':>10} {'us/put':>8}")
    for count in SIZES:
        rounds = PUTS // count
        wall = timed([path, str(count), str(rounds)]) - empty
        per_put.append(wall / (count * rounds))
        print(f"{count:>9} {1 / per_put[-1]:>10.0f} {per_put[-1] * 1e6:>8.3f}")
    print(f"time per put, {SIZES[-1]} payloads against {SIZES[0]}: {per_put[-1] / per_put[0]:.2f}")


if __name__ == "__main__":
    main()
