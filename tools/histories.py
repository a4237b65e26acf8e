"""The frames of a history as text: a line for its head, each kept payload, and each event."""

MARKS = ["Done", "Halted", "OpenedWithout", "OpenedWith", "StayedDown"]
SIGNALS = {3: "Tick", 4: "Lead", 5: "Stop", 6: "Restart"}


class Unreadable(Exception):
    """Why some bytes are no frame of a history."""


def value_text(data):
    kind = data.number(1)
    if kind == 0:
        return "Noop"
    if kind == 1:
        return "Cut " + lengths_text(data)
    if kind in (2, 3):
        return f"{'Add' if kind == 2 else 'Finalise'} {data.number(2)}"
    if kind == 4:
        return f"Trim @{data.number(8)}"
    raise Unreadable(f"a value of a kind up to 4, not {kind}")


def lengths_text(data):
    return "[" + ", ".join(str(data.number(4)) for _ in range(data.number(1))) + "]"


def vote_text(data):
    slot, ballot = data.number(4), data.number(8)
    return f"slot {slot} ballot {ballot} {value_text(data)}"


def votes_text(data):
    return "[" + "; ".join(vote_text(data) for _ in range(data.number(1))) + "]"


def record_entry_text(data, entry_text):
    kind = data.number(1)
    if kind != 1:
        raise Unreadable(f"an entry of kind 1, not {kind}")
    return entry_text(data)


def message_text(data, entry_text):
    """A message, in the order of its fields."""
    kind = data.number(1)
    if kind == 1:
        segment, offset = data.number(1), data.number(4)
        return f"Copy{{segment {segment}, offset {offset}, {record_entry_text(data, entry_text)}}}"
    if kind == 2:
        return f"CopyAck{{peer {data.number(1)}, length {data.number(4)}}}"
    if kind == 3:
        shard, replica = data.number(2), data.number(1)
        return f"Report{{shard {shard}, replica {replica}, {lengths_text(data)}}}"
    if kind == 4:
        return f"Least{{shard {data.number(2)}, {lengths_text(data)}}}"
    if kind == 5:
        return f"Prepare{{{data.number(8)}, from {data.number(4)}}}"
    if kind == 6:
        ballot, first, who = data.number(8), data.number(4), data.number(1)
        return f"Promised{{{ballot}, from {first}, who {who}, {votes_text(data)}}}"
    if kind == 7:
        return f"Lower{{{data.number(8)}, {data.number(8)}}}"
    if kind == 8:
        return f"Accept{{{data.number(8)}, slot {data.number(4)}, {value_text(data)}}}"
    if kind == 9:
        return f"Accepted{{{data.number(8)}, slot {data.number(4)}, who {data.number(1)}}}"
    if kind == 10:
        return f"Decide{{slot {data.number(4)}, {value_text(data)}}}"
    if kind == 11:
        return f"Want{{from {data.number(4)}, node {data.number(2)}}}"
    raise Unreadable(f"a message of a kind up to 11, not {kind}")


def call_text(data, draw_text, record_text):
    kind = data.number(1)
    client = data.number(2)
    if kind == 1:
        drawn, size = data.number(8), data.number(4)
        return f"Submit{{client {client}, number {draw_text(drawn)}, {record_text(data.take(size))}}}"
    if kind == 2:
        return f"Ask{{client {client}, number {draw_text(data.number(8))}}}"
    if kind == 3:
        return f"Read{{client {client}, @{data.number(8)}}}"
    if kind == 4:
        return f"Request{{client {client}, {value_text(data)}}}"
    if kind == 5:
        value = value_text(data)
        return f"Settled{{client {client}, {value}, from {data.number(4)}}}"
    raise Unreadable(f"a call of a kind up to 5, not {kind}")


def kept_text(payload, bytes_of, entry_text):
    """A payload of a disk: an entry, a promise or a vote."""
    data = bytes_of(payload)
    kind = data.number(1)
    if kind == 1:
        return entry_text(data)
    if kind == 2:
        return f"promise {data.number(8)}"
    if kind == 3:
        ballot = data.number(8)
        return f"vote {ballot} slot {data.number(4)} {value_text(data)}"
    raise Unreadable(f"a payload of a kind up to 3, not {kind}")


class History:
    """The lines of a history's frames, in order. A delivered letter is shown by the output that it names."""

    def __init__(self, bytes_of, entry_text, draw_text, record_text, reply_words):
        self.bytes_of, self.entry_text, self.draw_text = bytes_of, entry_text, draw_text
        self.record_text, self.reply_words = record_text, reply_words
        self.sent = []

    def head(self, data):
        replicas, shards, orderers, gatherers = (data.number(1) for _ in range(4))
        return f"history  replicas {replicas}  shards {shards}  orderers {orderers}  gatherers {gatherers}  run {data.number(4)}"

    def kept(self, data):
        disk = data.number(4)
        payload = data.take(len(data.data) - data.at)
        return f"kept  disk {disk}  {kept_text(payload, self.bytes_of, self.entry_text)}"

    def event(self, data):
        place, node = len(self.sent), data.number(2)
        shown = self.input(data)
        mark = data.number(1)
        if mark >= len(MARKS):
            raise Unreadable(f"a mark up to {len(MARKS) - 1}, not {mark}")
        outputs = [self.output(data) for _ in range(data.number(1))]
        self.sent.append([text for _, text in outputs])
        reply = self.reply_words(data)
        parts = [str(place), f"node {node}", shown, MARKS[mark]]
        parts += [f"-> {to}: {text}" for to, text in outputs]
        parts += [] if reply == "Nothing" else [f"= {reply}"]
        return "  ".join(parts)

    def output(self, data):
        to, size = data.number(2), data.number(4)
        return to, message_text(self.bytes_of(data.take(size)), self.entry_text)

    def input(self, data):
        kind = data.number(1)
        if kind == 1:
            place, index = data.number(4), data.number(1)
            there = place < len(self.sent) and index < len(self.sent[place])
            return f"Deliver {place}.{index} {self.sent[place][index] if there else 'no letter'}"
        if kind == 2:
            return call_text(data, self.draw_text, self.record_text)
        if kind in SIGNALS:
            return SIGNALS[kind]
        raise Unreadable(f"an input of a kind up to 6, not {kind}")

    def verdict(self, data):
        return f"lawful  events {data.number(4)}"

    def fault(self, data):
        status, cause = data.number(1), data.number(1)
        return f"fault  status {status}  cause {cause}  which {data.number(4)}  at {data.number(8)}"
