#!/usr/bin/env python3
"""Tests of rules.py and rows.py: the histories that the checker's tests hold are those that the rules make."""

import collections
import os
import re
import sys

import rows
from rules import OPENED_WITHOUT, Config, History

CHECKER = os.path.join(os.path.dirname(os.path.abspath(__file__)), "..", "crates", "history_check", "src")


def stored(path, name):
    """The frames of a table that a file of the checker's tests holds, each in a line."""
    with open(os.path.join(CHECKER, path)) as source:
        table = re.search(rf"const {name}: .*? = (.*?);\n\n", source.read() + "\n", re.S).group(1)
    return [bytes.fromhex(text) for text in re.findall(r"[0-9a-f]{14,}", table)]


class Serial:
    """A run in one thread: each letter is delivered in order of posting."""

    def __init__(self, config):
        self.history, self.queue = History(config), collections.deque()

    def event(self, node, *given, **mark):
        self.post(self.history.event(node, *given, **mark))

    def post(self, place):
        self.queue.extend((place, index) for index in range(len(self.history.sent[place][0])))

    def deliver_all(self):
        while self.queue:
            self.post(self.history.deliver(*self.queue.popleft()))

    def settle(self):
        config = self.history.config
        storages = range(config.replicas * config.shards)
        gatherers = range(len(storages), config.orderer(0))
        for nodes in (storages, gatherers, config.orderer_nodes(), storages):
            for node in nodes:
                self.event(node, "Tick")
            self.deliver_all()


def test_a_serial_run():
    config = Config()
    run, leader = Serial(config), config.orderer(0)
    for node in range(config.nodes()):
        run.event(node, "Restart", mark=OPENED_WITHOUT)
    run.event(leader, "Lead")
    run.deliver_all()
    run.event(leader, "Request", 0, ("Add", 0))
    run.settle()
    run.event(leader, "Settled", 0, ("Add", 0), 0)
    run.event(0, "Submit", 0, rows.RUN, b"a")
    run.settle()
    run.event(0, "Ask", 0, rows.RUN)
    run.event(0, "Read", 0, 0)
    assert len(run.history.sent) == 118, len(run.history.sent)
    frames = stored("tests.rt", "RUN")
    assert run.history.bytes() == b"".join(frames[3:]), "another history"


def test_each_row():
    tables = {
        ("rows/storing.rt", "STORING"): rows.gatherer_rows,
        ("rows/rivals.rt", "RIVALS"): rows.rival_rows,
        ("rows/gaps.rt", "GAPS"): rows.gap_rows,
        ("rows/windows.rt", "WINDOWS"): rows.window_rows,
    }
    for (path, name), script in tables.items():
        assert script().history.bytes() == b"".join(stored(path, name)), f"{name} is another history"


def test_a_full_list():
    history = rows.full_rows().history
    assert b"".join(history.frames) == b"".join(stored("rows.rt", "FULL")), "another history"


def main():
    tests = [(name, test) for name, test in globals().items() if name.startswith("test_")]
    failed = 0
    for name, test in tests:
        try:
            test()
        except AssertionError as why:
            failed += 1
            print(f"{name}: {why}")
    print(f"tools: {len(tests) - failed} passed, {failed} failed")
    return 1 if failed else 0


if __name__ == "__main__":
    sys.exit(main())
