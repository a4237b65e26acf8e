#!/usr/bin/env python3
"""Measures `scalog check` on the output of a run of generated items, beside `sha256sum` of the same file, in the same run."""

import os
import tempfile

from run import ROUNDS, events_in, generated, program, timed

COUNT = 2_000
VERDICT = 0x63


def best_of(command, source, sink):
    """The best wall time of several rounds, and the greatest peak memory in kilobytes."""
    rounds = [timed(command, source, sink) for _ in range(ROUNDS)]
    return min(wall for wall, _ in rounds), max(peak for _, peak in rounds)


def main():
    scalog = program()
    with tempfile.TemporaryDirectory() as folder:
        items, output, verdict = (os.path.join(folder, name) for name in ("items", "output", "verdict"))
        with open(items, "wb") as out:
            out.write(generated(scalog, COUNT))
        timed([scalog, "run"], items, output)
        wall, peak = best_of([scalog, "check"], output, verdict)
        wall_sum, _ = best_of(["sha256sum"], output, os.devnull)
        size, events = os.path.getsize(output), events_in(output)
        with open(verdict, "rb") as source:
            told = source.read()
    expected = (5).to_bytes(4, "big") + bytes([VERDICT]) + events.to_bytes(4, "big")
    if told != expected:
        raise SystemExit("bench: the history of a run is not told as lawful")
    print(
        f"{events} events, {size} bytes: {size / wall / 1e6:.2f} MB/s, {wall / events * 1e6:.2f} us an event,"
        f" peak {peak} KB; sha256sum {size / wall_sum / 1e6:.2f} MB/s, {wall / wall_sum:.1f} times as fast"
    )


if __name__ == "__main__":
    main()
