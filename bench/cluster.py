#!/usr/bin/env python3
"""Measures appends by threads, beside a run of the same items by one thread, and checks both histories."""

import os
import subprocess
import sys
import tempfile

from run import ROUNDS, events_in, frame, program, target, timed

SHARDS = 2
REPLICAS = 2
APPENDS = 120
COUNTS = (1, 2, 4)
REPLY = 0x40
AT = 2


def items(lanes):
    """An addition of each shard on lane 0, then appends of 100 bytes on the lanes in turn, each to a segment of its own."""
    out = [frame(5, bytes([0]) + shard.to_bytes(2, "big")) for shard in range(SHARDS)]
    for i in range(APPENDS):
        out.append(frame(1, target(i % lanes, i % SHARDS, i // SHARDS % REPLICAS) + bytes([97 + i % 26]) * 100))
    return b"".join(out)


def placed_in(path):
    """How many appends were told their place."""
    with open(path, "rb") as source:
        data = source.read()
    at, placed = 0, 0
    while at < len(data):
        placed += data[at + 4] == REPLY and data[at + 6] == AT
        at += 4 + int.from_bytes(data[at : at + 4], "big")
    return placed


def is_lawful(scalog, path):
    """Whether the program finds the history in a file legal."""
    with open(path, "rb") as source:
        return subprocess.run([scalog, "check"], stdin=source, stdout=subprocess.DEVNULL).returncode == 0


def measured(command, folder, given):
    """The appends that were placed, the events, and the wall time, of the fastest of several rounds."""
    source, output = os.path.join(folder, "items"), os.path.join(folder, "output")
    with open(source, "wb") as out:
        out.write(given)
    best = None
    for _ in range(ROUNDS):
        wall, _ = timed(command, source, output)
        if not is_lawful(command[0], output):
            sys.exit(f"bench: the history of {' '.join(command[1:])} is not legal")
        if best is None or wall < best[2]:
            best = placed_in(output), events_in(output), wall
    return best


def main():
    scalog = program()
    print(f"{'':>28} {'placed':>7} {'events':>8} {'appends/s':>10} {'events/s':>10}")
    with tempfile.TemporaryDirectory() as folder:
        for count in COUNTS:
            for words in (["run"], ["cluster", "--workers", str(count)]):
                placed, events, wall = measured([scalog] + words, folder, items(count))
                name = f"{count} lanes, {' '.join(words)}"
                print(f"{name:>28} {placed:>7} {events:>8} {placed / wall:>10.0f} {events / wall:>10.0f}")


if __name__ == "__main__":
    main()
