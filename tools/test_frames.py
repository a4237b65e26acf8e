#!/usr/bin/env python3
"""Tests of frames.py: every item and reply both ways, the frames of histories, bad lines, and frames that are cut short."""

import os
import re
import subprocess
import sys

import frames

HERE = os.path.dirname(os.path.abspath(__file__))

# An item's text, and its frame.
ITEMS = [
    ("add 0", "00000004 05 00 0000"),
    ("lane 3: add 7", "00000004 05 03 0007"),
    ('append 0.0 "a"', "00000006 01 00 0000 00 61"),
    ('lane 63: append 1.4 ""', "00000005 01 3f 0001 04"),
    ('append 0.0 "\\n\\t\\\\\\"\\xff"', "0000000a 01 00 0000 00 0a095c22ff"),
    ("read 0.0 @0", "0000000d 02 00 0000 00 0000000000000000"),
    ("read 2.1 @18446744073709551615", "0000000d 02 00 0002 01 ffffffffffffffff"),
    ("trim 2", "0000000a 04 00 0000000000000002"),
    ("lane 63: trim 18446744073709551615", "0000000a 04 3f ffffffffffffffff"),
    ("finalise 0", "00000004 06 00 0000"),
    ("lane 1: finalise 258", "00000004 06 01 0102"),
    ("subscribe 0.1 @2 10", "0000000f 03 00 0000 01 0000000000000002 000a"),
    ("lane 3: subscribe 1.0 @0 4096", "0000000f 03 03 0001 00 0000000000000000 1000"),
    ("ask", "00000002 07 00"),
    ("lane 9: ask", "00000002 07 09"),
    ("hold", "00000006 08 00 686f6c64"),
    ("lane 1: resubmit", "0000000a 08 01 72657375626d6974"),
    ("stop 0 after 1 keep 1000000", "0000001d 08 00 " + b"stop 0 after 1 keep 1000000".hex()),
]

# A reply's frame, and its text.
REPLIES = [
    ("00000003 40 00 00", "lane 0  Nothing"),
    ("00000007 40 01 01 00000005", "lane 1  Stored  offset 5"),
    ("0000000b 40 00 02 0000000000000000", "lane 0  At  @0"),
    (
        "0000001a 40 00 03 0000000000000000 0000 0000000100000000 00000001 61",
        'lane 0  Found  @0  client 0 number 1.0  "a"',
    ),
    ("00000007 40 00 04 00000001", "lane 0  PendingAsk  covered 1"),
    ("0000000b 40 00 05 0000000000000000", "lane 0  PendingRead  end 0"),
    ("00000007 40 00 06 00000002", "lane 0  PendingWish  known 2"),
    ("00000003 40 00 07", "lane 0  Finalised"),
    ("00000007 40 00 08 00000003", "lane 0  FinalisedAt  frozen 3"),
    ("00000003 40 00 09", "lane 0  NotAdded"),
    ("0000000b 40 00 0a 0000000100000002", "lane 0  Stale  last 1.2"),
    ("00000003 40 00 0b", "lane 0  Full"),
    ("00000003 40 00 0c", "lane 0  Halted"),
    ("00000003 40 00 0d", "lane 0  Down"),
    ("00000003 40 00 0e", "lane 0  Missing"),
    ("0000000b 40 00 0f 0000000000000003", "lane 0  Trimmed  mark 3"),
    ("00000005 40 00 10 0001", "lane 0  Elsewhere  shard 1"),
    ("00000007 40 00 11 00000004", "lane 0  Taken  from 4"),
    ("00000003 40 00 12", "lane 0  NoSuchShard"),
    ("00000003 40 00 13", "lane 0  NotLeading"),
    ("00000007 40 00 14 00000000", "lane 0  Settled  slot 0"),
    (
        "00000025 40 00 15 0000000000000002 0001 0000 0000000100000000 00000001 72 05 0000000000000003",
        'lane 0  Stream  @2  [client 0 number 1.0  "r"]  last PendingRead  end 3',
    ),
    ("0000000e 40 00 15 0000000000000000 0000 00", "lane 0  Stream  @0  []  last Nothing"),
    (
        "0000002b 40 02 15 0000000000000000 0002 0000 0000000100000000 00000001 61 0001 0000000100000001 00000000 00",
        'lane 2  Stream  @0  [client 0 number 1.0  "a"; client 1 number 1.1  ""]  last Nothing',
    ),
    ("00000003 40 00 16", "lane 0  NoLeader"),
    ("00000007 40 00 17 00000000", "lane 0  NoLetter  waiting 0"),
    ("00000003 40 00 18", "lane 0  NothingKept"),
    ("00000003 40 00 19", "lane 0  Done"),
    ("00000007 40 00 1a 00000009", "lane 0  Spent  used 9"),
]

# The frames of one output in order, and their texts.
HISTORY = [
    ("00000003 40 00 19", "lane 0  Done"),
    ("00000009 60 02 02 03 01 00000001", "history  replicas 2  shards 2  orderers 3  gatherers 1  run 1"),
    ("00000015 61 00000000 01 0000 0000000100000000 00000001 61", 'kept  disk 0  client 0 number 1.0  "a"'),
    ("0000000e 61 00000028 02 0000000000000003", "kept  disk 40  promise 3"),
    ("00000015 61 00000028 03 0000000000000003 00000000 02 0000", "kept  disk 40  vote 3 slot 0 Add 0"),
    ("00000007 62 0000 06 02 00 00", "0  node 0  Restart  OpenedWithout"),
    (
        "0000001a 62 0005 04 00 01 0006 0000000d 05 0000000000000003 00000000 00",
        "1  node 5  Lead  Done  -> 6: Prepare{3, from 0}",
    ),
    (
        "00000037 62 0006 01 00000001 00 00 01 0005 00000025 06 0000000000000003 00000000 01 01 00000000 0000000000000002 01 02 00000001 00000000 00",
        "2  node 6  Deliver 1.0 Prepare{3, from 0}  Done  -> 5: Promised{3, from 0, who 1, [slot 0 ballot 2 Cut [1, 0]]}",
    ),
    ("00000012 62 0000 02 03 0000 0000000000000000 00 00 0d", "3  node 0  Read{client 0, @0}  Done  = Down"),
    (
        "00000017 62 0000 02 01 0000 0000000100000000 00000001 61 01 00 0c",
        '4  node 0  Submit{client 0, number 1.0, "a"}  Halted  = Halted',
    ),
    ("00000005 63 00000076", "lawful  events 118"),
    ("0000000f 7f 06 01 00000000 0000000000000000", "fault  status 6  cause 1  which 0  at 0"),
]

# Bytes that are no frames of a history, and a word of the fault.
BAD_HISTORIES = [
    ("00000007 62 0000 07 02 00 00", "a kind up to 6"),
    ("00000007 62 0000 06 05 00 00", "a mark up to 4"),
    ("00000006 62 0000 06 02 00", "end before"),
    ("00000008 62 0000 06 02 00 00 00", "left over"),
    ("0000000e 61 00000028 04 0000000000000003", "a kind up to 3"),
]

# A line that is no item, and a word of what was expected.
BAD_LINES = [
    ("take 0", "add SHARD"),
    ("add", "a shard"),
    ("add 65536", "a shard"),
    ("add 01", "leading zeros"),
    ("lane 64: add 0", "a lane"),
    ("lane x: add 0", "a lane"),
    ('append 0 "a"', "SHARD.REPLICA"),
    ('append 0.256 "a"', "a replica"),
    ("append 0.0 a", "a record"),
    ('append 0.0 "a', "a record"),
    ('append 0.0 "\\q"', "a record"),
    ("append 0.0 hex:6", "a record"),
    ("read 0.0 0", "@POSITION"),
    ("read 0.0 @18446744073709551616", "a position"),
    ("trim", "a position"),
    ("trim @2", "a position"),
    ("trim 18446744073709551616", "a position"),
    ("finalise", "a shard"),
    ("finalise 0.0", "a shard"),
    ("ask 0", "nothing behind"),
    ("subscribe 0.0 @0 0", "a count"),
    ("subscribe 0.0 @0 4097", "a count"),
    ("subscribe 0.0 0 1", "@POSITION"),
    ("hold 1", "a line of the fault script"),
    ("tick 01", "a line of the fault script"),
    ("drop 1000001", "a line of the fault script"),
    ("stop 0 after 1", "a line of the fault script"),
]

# Bytes that are no reply's frames, what is shown before them, and a word of the fault.
BAD_FRAMES = [
    ("0000", 0, "at offset 0"),
    ("00000003 40 00 19 0000", 1, "at offset 7"),
    ("00000007 40 00 14 0000", 0, "cuts short"),
    ("00000000", 0, "1 to"),
    ("00000003 40 00 1b", 0, "a kind up to 26"),
    ("00000002 05 00", 0, "kind 0x5"),
    ("00000004 40 00 19 00", 0, "left over"),
    ("00000005 40 00 14 0000", 0, "end before"),
    ("0000000e 40 00 15 0000000000000000 0000 15", 0, "a kind up to 20"),
]


def numbers(text):
    """A number that a lane drew, of its run and its draw."""
    run_number, draw = text.split(".")
    return (int(run_number) << 32 | int(draw)).to_bytes(8, "big")


def entry_bytes(tokens):
    words = [tokens.pop(0) for _ in range(5)]
    record = frames.record_of(words[4])
    return int(words[1]).to_bytes(2, "big") + numbers(words[3]) + len(record).to_bytes(4, "big") + record


def field_bytes(name, form, tokens):
    if form == frames.ENTRY:
        return entry_bytes(tokens)
    if form == frames.ENTRIES:
        entries = []
        while tokens.pop(0) != "]":
            if tokens[0] != "]":
                entries.append(entry_bytes(tokens))
        return len(entries).to_bytes(2, "big") + b"".join(entries)
    if form == frames.LAST:
        tokens.pop(0)
        return reply_bytes(tokens)
    if name == "@":
        return int(tokens.pop(0)[1:]).to_bytes(form, "big")
    assert tokens.pop(0) == name
    value = tokens.pop(0)
    return numbers(value) if "." in value else int(value).to_bytes(form, "big")


def reply_bytes(tokens):
    name = tokens.pop(0)
    kind, fields = next((kind, fields) for kind, (known, fields) in frames.REPLIES.items() if known == name)
    return bytes([kind]) + b"".join(field_bytes(field, form, tokens) for field, form in fields)


def reply_frame(text):
    """The frame of a reply's text, read back apart from the code that shows it."""
    tokens = re.findall(r'"(?:\\.|[^"\\])*"|[\[\];]|[^\s\[\];]+', text)
    assert tokens.pop(0) == "lane"
    lane = int(tokens.pop(0))
    body = bytes([lane]) + reply_bytes(tokens)
    assert not tokens, tokens
    return frames.frame(frames.REPLY, body)


def run(command, data):
    return subprocess.run([sys.executable, os.path.join(HERE, "frames.py"), command], input=data, capture_output=True)


def test_items_go_both_ways():
    for text, want in ITEMS:
        frame = frames.item_frame(text)
        assert frame == bytes.fromhex(want), text
        assert frames.item_text(frame) == text, text
    assert frames.item_frame("append 0.0 hex:6162") == frames.item_frame('append 0.0 "ab"')
    assert len(frames.item_frame("append 0.0 hex:" + "00" * 65_535)) == 65_544
    done = run("items", "\n".join(text for text, _ in ITEMS).encode())
    assert (done.returncode, done.stdout) == (0, bytes.fromhex("".join(want for _, want in ITEMS)))


def test_replies_are_shown():
    kinds = {bytes.fromhex(frame)[6] for frame, _ in REPLIES}
    assert kinds == set(frames.REPLIES), "every kind of reply stands in the table"
    done = run("show", bytes.fromhex("".join(frame for frame, _ in REPLIES)))
    assert done.returncode == 0
    assert done.stdout.decode().splitlines() == [text for _, text in REPLIES]
    for want, text in REPLIES:
        frame = reply_frame(text)
        assert frame == bytes.fromhex(want), text
        assert list(frames.frame_texts(frame)) == [(frames.REPLY, text)], text


def test_histories_are_shown():
    whole = bytes.fromhex("".join(frame for frame, _ in HISTORY))
    done = run("show", whole)
    assert done.returncode == 0, done.stderr
    assert done.stdout.decode().splitlines() == [text for _, text in HISTORY]
    alone = run("replies", whole)
    assert (alone.returncode, alone.stdout.decode()) == (0, "lane 0  Done\n")
    for data, word in BAD_HISTORIES:
        done = run("show", bytes.fromhex(data))
        assert done.returncode == 1 and word in done.stderr.decode(), (data, done.stderr)


def test_bad_lines_are_refused():
    for line, word in BAD_LINES + [("append 0.0 hex:" + "00" * 65_536, "at most 65,535")]:
        done = run("items", f"add 0\n\n{line}\n".encode())
        assert done.returncode == 1 and done.stdout == b"", line
        assert "line 3" in done.stderr.decode() and word in done.stderr.decode(), (line, done.stderr)


def test_bad_frames_are_told():
    for data, shown, word in BAD_FRAMES:
        done = run("show", bytes.fromhex(data))
        assert done.returncode == 1, data
        assert len(done.stdout.splitlines()) == shown, data
        assert word in done.stderr.decode(), (data, done.stderr)
    whole = bytes.fromhex("".join(frame for frame, _ in REPLIES))
    starts = {0}
    for frame, _ in REPLIES:
        starts.add(max(starts) + len(bytes.fromhex(frame)))
    for end in range(len(whole)):
        try:
            count = len(list(frames.frame_texts(whole[:end])))
        except frames.Refused:
            count = None
        assert (count is not None) == (end in starts), f"cut at {end}"


def main():
    tests = [(name, test) for name, test in globals().items() if name.startswith("test_")]
    failed = 0
    for name, test in tests:
        try:
            test()
        except AssertionError as why:
            failed += 1
            print(f"{name}: {why}")
    print(f"tools: {len(tests) - failed} passed, {failed} failed")
    return 1 if failed else 0


if __name__ == "__main__":
    sys.exit(main())
