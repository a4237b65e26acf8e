#!/usr/bin/env python3
"""Measures the built program on generated items, beside `sha256sum` of what it writes, in the same run."""

import os
import subprocess
import sys
import tempfile
import time

TOP = os.path.dirname(os.path.dirname(os.path.abspath(__file__)))
CRATE = os.path.join(TOP, "crates", "scalog")
COUNTS = (200, 2_000)
SEED = 7
ROUNDS = 5
EVENT = 0x62
WIDE = (3, 4, 200)


def frame(kind, body):
    return (len(body) + 1).to_bytes(4, "big") + bytes([kind]) + body


def target(lane, shard, replica):
    return bytes([lane]) + shard.to_bytes(2, "big") + bytes([replica])


def generated(scalog, count):
    """The items that the program makes from the seed."""
    return subprocess.run([scalog, "make", str(SEED), str(count)], stdout=subprocess.PIPE, check=True).stdout


def appends(replicas, shards, count):
    """An addition of each shard, then appends of 100 bytes to each replica of each shard in turn."""
    out = [frame(5, bytes([0]) + shard.to_bytes(2, "big")) for shard in range(shards)]
    for i in range(count):
        out.append(frame(1, target(i % 64, i % shards, i // shards % replicas) + bytes([97 + i % 26]) * 100))
    return b"".join(out)


def program():
    """The built program, which `rt run` leaves in the crate's folder out/."""
    path = os.path.join(CRATE, "out", "scalog")
    if not os.access(path, os.X_OK):
        subprocess.run(["rt", "run", "scalog", "--", "none"], cwd=CRATE, stdin=subprocess.DEVNULL)
    if not os.access(path, os.X_OK):
        sys.exit("bench: the program could not be built")
    return path


def timed(command, source_path, sink_path):
    """The wall time of a command from one file to another, and the peak memory of the child in kilobytes."""
    with open(source_path, "rb") as source, open(sink_path, "wb") as sink:
        start = time.perf_counter()
        child = subprocess.Popen(command, stdin=source, stdout=sink)
        _, status, usage = os.wait4(child.pid, 0)
        wall = time.perf_counter() - start
    if status != 0:
        sys.exit(f"bench: {command[0]} ended with {status}")
    return wall, usage.ru_maxrss


def events_in(path):
    """How many frames of events a file has."""
    with open(path, "rb") as source:
        data = source.read()
    at, events = 0, 0
    while at < len(data):
        events += data[at + 4] == EVENT
        at += 4 + int.from_bytes(data[at : at + 4], "big")
    return events


def measured(command, folder, items):
    """Events, bytes, and the best times of the program and of sha256sum over its output."""
    source, output = os.path.join(folder, "items"), os.path.join(folder, "output")
    with open(source, "wb") as out:
        out.write(items)
    best, best_sum, peak = float("inf"), float("inf"), 0
    for _ in range(ROUNDS):
        wall, memory = timed(command, source, output)
        wall_sum, _ = timed(["sha256sum"], output, os.devnull)
        best, best_sum, peak = min(best, wall), min(best_sum, wall_sum), max(peak, memory)
    return events_in(output), os.path.getsize(output), best, best_sum, peak


def main():
    scalog = program()
    per_event = []
    print(f"{'items':>7} {'events':>8} {'bytes':>10} {'events/s':>10} {'MB/s':>7} {'us/event':>9} {'peak KB':>8} {'x sha256sum':>12}")
    with tempfile.TemporaryDirectory() as folder:
        for count in COUNTS:
            events, size, best, best_sum, peak = measured([scalog, "run"], folder, generated(scalog, count))
            per_event.append(best / events)
            print(
                f"{count:>7} {events:>8} {size:>10} {events / best:>10.0f} {size / best / 1e6:>7.2f}"
                f" {best / events * 1e6:>9.2f} {peak:>8} {best / best_sum:>12.1f}"
            )
        replicas, shards, count = WIDE
        words = ["run", "--replicas", str(replicas), "--shards", str(shards)]
        events, size, best, _, peak = measured([scalog] + words, folder, appends(replicas, shards, count))
    print(f"time per event, {COUNTS[-1]} items against {COUNTS[0]}: {per_event[-1] / per_event[0]:.2f}")
    print(
        f"{count} appends on {replicas} replicas of {shards} shards: {best:.3f} s,"
        f" {best / events * 1e6:.2f} us an event, peak {peak} KB"
    )


if __name__ == "__main__":
    main()
