#!/usr/bin/env python3
"""Items as text to frames, and the frames of replies and histories to text.

    frames.py items     reads a line of text for each item and writes their frames
    frames.py show      reads what the program writes, and writes a line for each frame
    frames.py replies   does so for the frames of replies alone

An item is one of

    add SHARD
    append SHARD.REPLICA RECORD
    read SHARD.REPLICA @POSITION
    subscribe SHARD.REPLICA @POSITION COUNT
    trim POSITION
    finalise SHARD
    ask

or a line of the fault script

    hold
    settle
    tick NODE
    deliver LETTER
    drop LETTER
    again LETTER
    stop NODE
    stop NODE after WRITES keep BYTES
    lose NODE after WRITES
    restart NODE
    lead ORDERER
    resubmit

with `lane N:` before it where the lane is not 0. A record is text in quotes, with the escapes \\n \\t \\\\ \\" \\xHH, or
`hex:` and pairs of hexadecimal digits. Empty lines are passed over.
"""

import re
import sys

from histories import History, Unreadable

REPLY = 0x40
HEAD, KEPT, EVENT, VERDICT, FAULT = 0x60, 0x61, 0x62, 0x63, 0x7F
RECORD_LIMIT = 65_535
FRAME_LIMIT = 2_097_152

# How a field is written: its width in bytes, or one of the forms below.
ENTRY, ENTRIES, LAST = "entry", "entries", "last"

# The kinds of replies: a name, and the names and forms of the fields.
REPLIES = {
    0: ("Nothing", ()),
    1: ("Stored", (("offset", 4),)),
    2: ("At", (("@", 8),)),
    3: ("Found", (("@", 8), ("entry", ENTRY))),
    4: ("PendingAsk", (("covered", 4),)),
    5: ("PendingRead", (("end", 8),)),
    6: ("PendingWish", (("known", 4),)),
    7: ("Finalised", ()),
    8: ("FinalisedAt", (("frozen", 4),)),
    9: ("NotAdded", ()),
    10: ("Stale", (("last", 8),)),
    11: ("Full", ()),
    12: ("Halted", ()),
    13: ("Down", ()),
    14: ("Missing", ()),
    15: ("Trimmed", (("mark", 8),)),
    16: ("Elsewhere", (("shard", 2),)),
    17: ("Taken", (("from", 4),)),
    18: ("NoSuchShard", ()),
    19: ("NotLeading", ()),
    20: ("Settled", (("slot", 4),)),
    21: ("Stream", (("@", 8), ("entries", ENTRIES), ("last", LAST))),
    22: ("NoLeader", ()),
    23: ("NoLetter", (("waiting", 4),)),
    24: ("NothingKept", ()),
    25: ("Done", ()),
    26: ("Spent", (("used", 4),)),
}
LAST_NODE_ANSWER = 20


class Refused(Exception):
    """Why a text or some bytes are none of their kind."""


def frame(kind, body):
    return (len(body) + 1).to_bytes(4, "big") + bytes([kind]) + body


# ---- records as text

ESCAPES = {"n": b"\n", "t": b"\t", "\\": b"\\", '"': b'"'}
NAMES = {10: "\\n", 9: "\\t", 92: "\\\\", 34: '\\"'}


def record_text(record):
    shown = (NAMES.get(b) or (chr(b) if 32 <= b < 127 else f"\\x{b:02x}") for b in record)
    return '"' + "".join(shown) + '"'


def record_of(text):
    if re.fullmatch(r"hex:([0-9a-fA-F]{2})*", text):
        record = bytes.fromhex(text[4:])
    elif re.fullmatch(r'"([^"\\]|\\([nt\\"]|x[0-9a-fA-F]{2}))*"', text):
        record = b"".join(
            bytes([int(part[2:], 16)]) if part[:2] == "\\x" else ESCAPES[part[1]] if part[0] == "\\" else part.encode()
            for part in re.findall(r"\\x..|\\.|[^\\]+", text[1:-1])
        )
    else:
        raise Refused('a record: text in quotes with the escapes \\n \\t \\\\ \\" \\xHH, or hex: and pairs of digits')
    if len(record) > RECORD_LIMIT:
        raise Refused(f"a record of at most {RECORD_LIMIT:,} bytes")
    return record


# ---- items

ITEM = re.compile(r"(?:lane +(?P<lane>\S+) *: *)?(?P<verb>\S+)(?: +(?P<rest>.*?))? *")


def number(text, width, name):
    if not re.fullmatch(r"0|[1-9][0-9]*", text or "") or int(text) >= 256**width:
        raise Refused(f"{name}: a number without leading zeros, below {256**width:,}")
    return int(text).to_bytes(width, "big")


def place(text):
    shard, dot, replica = text.partition(".")
    if not dot:
        raise Refused("SHARD.REPLICA")
    return number(shard, 2, "a shard") + number(replica, 1, "a replica")


def add(lane, rest):
    return frame(5, lane + number(rest, 2, "a shard"))


def append(lane, rest):
    where, _, record = (rest or "").partition(" ")
    return frame(1, lane + place(where) + record_of(record.strip()))


def read(lane, rest):
    where, _, position = (rest or "").partition(" ")
    position = position.strip()
    if not position.startswith("@"):
        raise Refused("@POSITION")
    return frame(2, lane + place(where) + number(position[1:], 8, "a position"))


def subscribe(lane, rest):
    where, _, wanted = (rest or "").partition(" ")
    position, _, count = wanted.strip().partition(" ")
    if not position.startswith("@"):
        raise Refused("@POSITION")
    wanted = number(count.strip(), 2, "a count")
    if not 1 <= int.from_bytes(wanted, "big") <= 4096:
        raise Refused("a count: 1 to 4096")
    return frame(3, lane + place(where) + number(position[1:], 8, "a position") + wanted)


def trim(lane, rest):
    return frame(4, lane + number(rest, 8, "a position"))


def finalise(lane, rest):
    return frame(6, lane + number(rest, 2, "a shard"))


def ask(lane, rest):
    if rest:
        raise Refused("nothing behind ask")
    return frame(7, lane)


# Lines of the fault script: N stands for a number.
FAULT_LINES = (
    "hold",
    "settle",
    "tick N",
    "deliver N",
    "drop N",
    "again N",
    "stop N",
    "stop N after N keep N",
    "lose N after N",
    "restart N",
    "lead N",
    "resubmit",
)
FAULT_NUMBER = r"(0|[1-9][0-9]{0,5}|1000000)"
FAULT_LINE = re.compile("|".join(line.replace("N", FAULT_NUMBER) for line in FAULT_LINES))
FAULT_VERBS = {line.split()[0] for line in FAULT_LINES}


def fault(lane, verb, rest):
    line = " ".join([verb, *(rest or "").split()])
    if not FAULT_LINE.fullmatch(line):
        raise Refused("a line of the fault script, with numbers up to 1,000,000: " + ", ".join(FAULT_LINES))
    return frame(8, lane + line.encode())


VERBS = {
    "add": add,
    "append": append,
    "read": read,
    "subscribe": subscribe,
    "trim": trim,
    "finalise": finalise,
    "ask": ask,
}


def item_frame(line):
    found = ITEM.fullmatch(line.strip())
    if not found or found["verb"] not in VERBS and found["verb"] not in FAULT_VERBS:
        raise Refused(
            "add SHARD, append SHARD.REPLICA RECORD, read SHARD.REPLICA @POSITION, subscribe SHARD.REPLICA @POSITION COUNT, "
            "trim POSITION, finalise SHARD, ask or a line of the fault script"
        )
    lane = number(found["lane"] or "0", 1, "a lane")
    if lane[0] > 63:
        raise Refused("a lane: 0 to 63")
    if found["verb"] in FAULT_VERBS:
        return fault(lane, found["verb"], found["rest"])
    return VERBS[found["verb"]](lane, found["rest"])


def item_text(frame_bytes):
    """The text of an item's frame, whole and of a kind that `items` writes."""
    kind, lane, body = frame_bytes[4], frame_bytes[5], frame_bytes[6:]
    shard = int.from_bytes(body[:2], "big")
    prefix = f"lane {lane}: " if lane else ""
    if kind == 4:
        return f"{prefix}trim {int.from_bytes(body, 'big')}"
    if kind == 5:
        return f"{prefix}add {shard}"
    if kind == 6:
        return f"{prefix}finalise {shard}"
    if kind == 7:
        return f"{prefix}ask"
    if kind == 8:
        return prefix + body.decode()
    if kind == 3:
        return f"{prefix}subscribe {shard}.{body[2]} @{int.from_bytes(body[3:11], 'big')} {int.from_bytes(body[11:], 'big')}"
    if kind == 1:
        return f"{prefix}append {shard}.{body[2]} {record_text(body[3:])}"
    return f"{prefix}read {shard}.{body[2]} @{int.from_bytes(body[3:], 'big')}"


# ---- replies


class Bytes:
    """Bytes that are taken from the front."""

    def __init__(self, data):
        self.data, self.at = data, 0

    def take(self, count):
        if self.at + count > len(self.data):
            raise Refused("a frame whose fields end before it does")
        self.at += count
        return self.data[self.at - count : self.at]

    def number(self, width):
        return int.from_bytes(self.take(width), "big")


def draw_text(value):
    """A number that a lane drew: the run, and which of its draws."""
    return f"{value >> 32}.{value & 0xFFFFFFFF}"


def entry_text(data):
    client, drawn = data.number(2), data.number(8)
    size = data.number(4)
    if size > RECORD_LIMIT:
        raise Refused(f"a record of at most {RECORD_LIMIT:,} bytes")
    return f"client {client} number {draw_text(drawn)}  {record_text(data.take(size))}"


def field_text(name, form, data):
    if form == ENTRY:
        return entry_text(data)
    if form == ENTRIES:
        return "[" + "; ".join([entry_text(data) for _ in range(data.number(2))]) + "]"
    if form == LAST:
        return "last " + reply_words(data, LAST_NODE_ANSWER)
    value = data.number(form)
    if (name, form) == ("last", 8):
        return f"last {draw_text(value)}"
    return f"@{value}" if name == "@" else f"{name} {value}"


def reply_words(data, greatest):
    kind = data.number(1)
    if kind > greatest:
        raise Refused(f"a reply of a kind up to {greatest}, not {kind}")
    name, fields = REPLIES[kind]
    return "  ".join([name] + [field_text(field, form, data) for field, form in fields])


def reply_text(kind, body):
    """The text of a reply's frame, by its kind and body."""
    if kind != REPLY:
        raise Refused(f"a reply's frame, not one of kind {kind:#x}")
    data = Bytes(body)
    lane = data.number(1)
    words = reply_words(data, max(REPLIES))
    if data.at < len(body):
        raise Refused(f"a frame with no bytes left over: {len(body) - data.at} are")
    return f"lane {lane}  {words}"


def history_shower():
    """What shows the frames of one history, by their kinds."""
    history = History(Bytes, entry_text, draw_text, record_text, lambda data: reply_words(data, LAST_NODE_ANSWER))
    return {HEAD: history.head, KEPT: history.kept, EVENT: history.event, VERDICT: history.verdict, FAULT: history.fault}


def frame_text(shower, kind, body):
    """The text of a frame that the program writes, by its kind and body."""
    if kind not in shower:
        return reply_text(kind, body)
    data = Bytes(body)
    try:
        words = shower[kind](data)
    except Unreadable as why:
        raise Refused(str(why)) from None
    if data.at < len(body):
        raise Refused(f"a frame with no bytes left over: {len(body) - data.at} are")
    return words


def frame_texts(data):
    """The kind and the text of each frame, from the front. A fault names the offset of its frame."""
    shower = history_shower()
    at = 0
    while at < len(data):
        length = int.from_bytes(data[at : at + 4], "big")
        try:
            if len(data) - at < 4:
                raise Refused("a frame, which the input cuts short")
            if not 1 <= length <= FRAME_LIMIT:
                raise Refused(f"a frame of 1 to {FRAME_LIMIT:,} bytes, not {length:,}")
            if len(data) - at - 4 < length:
                raise Refused("a frame, which the input cuts short")
            kind = data[at + 4]
            yield kind, frame_text(shower, kind, data[at + 5 : at + 4 + length])
        except Refused as why:
            raise Refused(f"at offset {at}: expected {why}") from None
        at += 4 + length


# ---- the commands


def items(source, sink):
    frames = []
    for count, line in enumerate(source.buffer.read().decode("utf-8", "surrogateescape").splitlines(), 1):
        if not line.strip():
            continue
        try:
            frames.append(item_frame(line))
        except Refused as why:
            raise Refused(f"line {count}: expected {why}") from None
    sink.buffer.write(b"".join(frames))


def show(source, sink):
    for _, text in frame_texts(source.buffer.read()):
        print(text, file=sink)


def replies(source, sink):
    for kind, text in frame_texts(source.buffer.read()):
        if kind == REPLY:
            print(text, file=sink)


COMMANDS = {"items": items, "show": show, "replies": replies}


def main(words):
    if len(words) != 1 or words[0] not in COMMANDS:
        print(__doc__, file=sys.stderr)
        return 2
    try:
        COMMANDS[words[0]](sys.stdin, sys.stdout)
    except Refused as why:
        sys.stdout.flush()
        print(f"frames.py: {why}", file=sys.stderr)
        return 1
    return 0


if __name__ == "__main__":
    sys.exit(main(sys.argv[1:]))
