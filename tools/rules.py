"""The rules of a cluster's nodes, written from docs/FORMATS.md and docs/MODEL.md alone: what each input does at a node.

Histories are made by them: a script names the inputs and the marks, and the rules say what is put out and replied.
"""

DONE, HALTED, OPENED_WITHOUT, OPENED_WITH, STAYED_DOWN = range(5)
WINDOW, COPIES, GIVEN = 64, 4, 16
FULL = KNOWN = 16_384
BALLOTS = 2**56


def number(value, width):
    return value.to_bytes(width, "big")


def frame(kind, body):
    return number(len(body) + 1, 4) + bytes([kind]) + body


# ---- values, entries and messages as tuples whose first part is their name


def value_bytes(value):
    name, *fields = value
    if name == "Noop":
        return b"\0"
    if name == "Cut":
        return b"\1" + lengths_bytes(fields[0])
    kind, width = {"Add": (2, 2), "Finalise": (3, 2), "Trim": (4, 8)}[name]
    return bytes([kind]) + number(fields[0], width)


def lengths_bytes(lengths):
    return bytes([len(lengths)]) + b"".join(number(length, 4) for length in lengths)


def record_bytes(entry):
    client, drawn, record = entry
    return number(client, 2) + number(drawn, 8) + number(len(record), 4) + record


def payload_bytes(payload):
    """An entry, a promise or a vote, as a disk keeps it."""
    name, *fields = payload
    if name == "Entry":
        return b"\1" + record_bytes(fields[0])
    if name == "Promise":
        return b"\2" + number(fields[0], 8)
    ballot, slot, value = fields
    return b"\3" + number(ballot, 8) + number(slot, 4) + value_bytes(value)


def message_bytes(message):
    name, *fields = message
    kind, widths = {
        "Copy": (1, (1, 4)),
        "CopyAck": (2, (1, 4)),
        "Report": (3, (2, 1)),
        "Least": (4, (2,)),
        "Prepare": (5, (8, 4)),
        "Promised": (6, (8, 4, 1)),
        "Lower": (7, (8, 8)),
        "Accept": (8, (8, 4)),
        "Accepted": (9, (8, 4, 1)),
        "Decide": (10, (4,)),
        "Want": (11, (4, 2)),
    }[name]
    out = bytes([kind]) + b"".join(number(field, width) for field, width in zip(fields, widths))
    rest = fields[len(widths) :]
    if name == "Copy":
        return out + payload_bytes(("Entry", rest[0]))
    if name in ("Report", "Least"):
        return out + lengths_bytes(rest[0])
    if name in ("Accept", "Decide"):
        return out + value_bytes(rest[0])
    if name == "Promised":
        votes = rest[0]
        return out + bytes([len(votes)]) + b"".join(number(k, 4) + number(b, 8) + value_bytes(v) for k, b, v in votes)
    return out


REPLIES = {
    "Nothing": (0, ()), "Stored": (1, (4,)), "At": (2, (8,)), "Found": (3, (8,)), "PendingAsk": (4, (4,)), "PendingRead": (5, (8,)),
    "PendingWish": (6, (4,)), "Finalised": (7, ()), "FinalisedAt": (8, (4,)), "NotAdded": (9, ()), "Stale": (10, (8,)), "Full": (11, ()),
    "Halted": (12, ()), "Down": (13, ()), "Missing": (14, ()), "Trimmed": (15, (8,)), "Elsewhere": (16, (2,)), "Taken": (17, (4,)),
    "NoSuchShard": (18, ()), "NotLeading": (19, ()), "Settled": (20, (4,)),
}


def reply_bytes(reply):
    name, *fields = reply
    kind, widths = REPLIES[name]
    out = bytes([kind]) + b"".join(number(field, width) for field, width in zip(fields, widths))
    return out + record_bytes(fields[1]) if name == "Found" else out


def input_bytes(given):
    name, *fields = given
    if name == "Deliver":
        return b"\1" + number(fields[0], 4) + number(fields[1], 1)
    if name in SIGNALS:
        return bytes([SIGNALS[name]])
    kind = 1 + ["Submit", "Ask", "Read", "Request", "Settled"].index(name)
    call = b"\2" + bytes([kind]) + number(fields[0], 2)
    if name == "Submit":
        return call + number(fields[1], 8) + number(len(fields[2]), 4) + fields[2]
    if name in ("Ask", "Read"):
        return call + number(fields[1], 8)
    return call + value_bytes(fields[1]) + (number(fields[2], 4) if name == "Settled" else b"")


SIGNALS = {"Tick": 3, "Lead": 4, "Stop": 5, "Restart": 6}
CALLS = ("Submit", "Ask", "Read", "Request", "Settled")


class Config:
    def __init__(self, replicas=2, shards=2, orderers=3, gatherers=1):
        self.replicas, self.shards, self.orderers, self.gatherers = replicas, shards, orderers, gatherers
        self.majority = orderers // 2 + 1

    def storage(self, shard, replica):
        return shard * self.replicas + replica

    def gatherer(self, shard):
        return self.replicas * self.shards + shard % self.gatherers

    def orderer(self, index):
        return self.replicas * self.shards + self.gatherers + index

    def orderer_nodes(self):
        return [self.orderer(index) for index in range(self.orderers)]

    def nodes(self):
        return self.orderer(self.orderers)


class Chain:
    """The decided values, applied in order."""

    def __init__(self, config, values):
        self.config, self.order, self.live, self.covered = config, [], {}, {}
        self.places, self.mark = [], 0
        for value in values:
            self.apply(*value)

    def apply(self, name, field=None):
        if name == "Add" and field not in self.live:
            self.order.append(field)
            self.live[field], self.covered[field] = True, [0] * self.config.replicas
        elif name == "Finalise" and field in self.live:
            self.live[field] = False
        elif name == "Trim":
            self.mark = max(self.mark, min(field, len(self.places)))
        elif name == "Cut":
            for shard in self.order:
                for segment in range(self.config.replicas if self.live[shard] else 0):
                    length = field[shard * self.config.replicas + segment]
                    old = self.covered[shard][segment]
                    self.places += [(shard, segment, offset) for offset in range(old, length)]
                    self.covered[shard][segment] = max(old, length)

    def raises(self, lengths):
        return any(
            lengths[shard * self.config.replicas + segment] > covered
            for shard in self.order
            if self.live[shard]
            for segment, covered in enumerate(self.covered[shard])
        )


class Node:
    """What all roles share: a node is down at first, and its disks keep lists."""

    def __init__(self, config, number, lists):
        self.config, self.number, self.lists = config, number, lists
        self.is_down, self.flight, self.known, self.ticks = True, None, [], 0
        self.fresh()

    def step(self, given, mark):
        """The outputs and the reply of an input with this mark."""
        name = given[0]
        if name == "Restart":
            self.restart(mark)
            return [], ("Nothing",)
        assert mark in (DONE, HALTED)
        if name == "Stop":
            self.is_down, self.flight = True, self.flight if self.is_down else None
            return [], ("Nothing",)
        if self.is_down:
            assert mark == DONE
            return [], ("Down",) if name in CALLS else ("Nothing",)
        self.put_at, self.puts = None, None
        outputs, reply, after = self.message(given[3]) if name == "Deliver" else getattr(self, name.lower())(*given[1:])
        if mark == HALTED:
            assert self.puts is not None
            self.is_down, self.flight = True, (self.put_at, self.puts)
            return [], ("Halted",) if name in CALLS else ("Nothing",)
        if self.puts is not None:
            self.lists[self.put_at].append(self.puts)
        return outputs + (after() if after else []), reply

    def restart(self, mark):
        if mark == STAYED_DOWN:
            self.is_down, self.flight = True, self.flight if self.is_down else None
            return
        if mark == OPENED_WITH:
            at, payload = self.flight
            self.lists[at].append(payload)
        else:
            assert mark == OPENED_WITHOUT
        self.is_down, self.flight, self.known, self.ticks = False, None, [], 0
        self.fresh()

    def put(self, at, payload):
        self.put_at, self.puts = at, payload

    def message(self, message):
        return getattr(self, message[0].lower())(*message[1:])


class Storage(Node):
    def __init__(self, config, number, lists):
        self.shard, self.own = divmod(number, config.replicas)
        super().__init__(config, number, lists)

    def fresh(self):
        self.acked = [0] * self.config.replicas

    def chain(self):
        return Chain(self.config, self.known)

    def entries(self):
        return [payload[1] for payload in self.lists[self.own]]

    def stored(self, client, drawn):
        """The offset of a pair that is stored and not trimmed, and the greatest number of its client."""
        chain = self.chain()
        covered = chain.covered.get(self.shard, [0] * self.config.replicas)[self.own]
        found, last = None, None
        for offset, entry in enumerate(self.entries()):
            if entry[0] == client:
                last = max(entry[1], -1 if last is None else last)
                found = offset if entry[1] == drawn else found
        if found is not None and found < covered and chain.places.index((self.shard, self.own, found)) < chain.mark:
            found = None
        return found, last, covered, chain

    def submit(self, client, drawn, record):
        offset, last, _, chain = self.stored(client, drawn)
        length = len(self.lists[self.own])
        if offset is not None:
            return [], ("Stored", offset), None
        if last is not None and drawn <= last:
            return [], ("Stale", last), None
        if self.shard not in chain.live:
            return [], ("NotAdded",), None
        if not chain.live[self.shard]:
            return [], ("Finalised",), None
        if length == FULL:
            return [], ("Full",), None
        self.put(self.own, ("Entry", (client, drawn, record)))
        return [], ("Stored", length), None

    def ask(self, client, drawn):
        offset, last, covered, chain = self.stored(client, drawn)
        if offset is not None and offset < covered:
            return [], ("At", chain.places.index((self.shard, self.own, offset))), None
        if offset is not None and not chain.live.get(self.shard, True):
            return [], ("FinalisedAt", covered), None
        if offset is not None:
            return [], ("PendingAsk", covered), None
        return [], ("Stale", last) if last is not None and drawn <= last else ("Missing",), None

    def read(self, client, position):
        chain = self.chain()
        if position < chain.mark:
            return [], ("Trimmed", chain.mark), None
        if position >= len(chain.places):
            return [], ("PendingRead", len(chain.places)), None
        shard, segment, offset = chain.places[position]
        if shard != self.shard:
            return [], ("Elsewhere", shard), None
        return [], ("Found", position, self.lists[segment][offset][1]), None

    def ack(self, segment):
        return (self.config.storage(self.shard, segment), ("CopyAck", self.own, len(self.lists[segment])))

    def report(self):
        lengths = [len(payloads) for payloads in self.lists]
        return (self.config.gatherer(self.shard), ("Report", self.shard, self.own, lengths))

    def copies(self, peer, first, end):
        to = self.config.storage(self.shard, peer)
        return [(to, ("Copy", self.own, offset, self.entries()[offset])) for offset in range(first, end)]

    def copy(self, segment, offset, entry):
        if offset != len(self.lists[segment]):
            return [self.ack(segment)], ("Nothing",), None
        self.put(segment, ("Entry", entry))
        return [], ("Nothing",), lambda: [self.ack(segment), self.report()]

    def copyack(self, peer, length):
        acked = self.acked[peer]
        if length <= acked:
            return [], ("Nothing",), None
        self.acked[peer] = length
        own = len(self.lists[self.own])
        return self.copies(peer, max(acked + COPIES, length), min(length + COPIES, own)), ("Nothing",), None

    def decide(self, slot, value):
        if slot == len(self.known):
            self.known.append(value)
        return [], ("Nothing",), None

    def tick(self):
        own = len(self.lists[self.own])
        outputs = []
        for peer in range(self.config.replicas):
            if peer != self.own:
                outputs += self.copies(peer, self.acked[peer], min(self.acked[peer] + COPIES, own))
        outputs.append(self.report())
        outputs.append((self.config.orderer(self.ticks % self.config.orderers), ("Want", len(self.known), self.number)))
        self.ticks += 1
        return outputs, ("Nothing",), None


class Gatherer(Node):
    def fresh(self):
        self.heard = {}

    def report(self, shard, replica, lengths):
        old = self.heard.get((shard, replica), [0] * len(lengths))
        self.heard[shard, replica] = [max(pair) for pair in zip(old, lengths)]
        return [], ("Nothing",), None

    def tick(self):
        outputs = []
        for shard in range(self.config.shards):
            lists = [self.heard.get((shard, replica)) for replica in range(self.config.replicas)]
            if self.config.gatherer(shard) == self.number and None not in lists:
                least = [min(lengths) for lengths in zip(*lists)]
                outputs += [(node, ("Least", shard, least)) for node in self.config.orderer_nodes()]
        return outputs, ("Nothing",), None


class Orderer(Node):
    def __init__(self, config, number, lists):
        self.index = number - config.orderer(0)
        super().__init__(config, number, lists)

    def fresh(self):
        self.heard = [0] * (self.config.replicas * self.config.shards)
        self.wishes, self.leads = [], None

    def promised_ballot(self):
        return max((payload[1] for payload in self.lists[0] if payload[0] == "Promise"), default=0)

    def votes(self):
        return [payload[1:] for payload in self.lists[0] if payload[0] == "Vote"]

    def to_all(self, message):
        return [(node, message) for node in self.config.orderer_nodes()]

    def to_leader(self, ballot, message):
        return (self.config.orderer(ballot % self.config.orderers), message)

    # ---- a leader

    def advance(self):
        leads, known = self.leads, len(self.known)
        if leads is None or len(leads["answers"]) < self.config.majority or leads["pending"] or known == KNOWN:
            return []
        if known >= leads["from"] + WINDOW:
            leads["from"], leads["answers"], leads["best"] = known, set(), {}
            return self.to_all(("Prepare", leads["ballot"], known))
        value = self.pick(known)
        if value is None:
            return []
        leads["pending"] = (known, value, set())
        return self.to_all(("Accept", leads["ballot"], known, value))

    def pick(self, slot):
        best = self.leads["best"]
        if slot in best:
            return best[slot][1]
        if any(later > slot for later in best):
            return ("Noop",)
        if self.wishes:
            return self.wishes[0][0]
        return ("Cut", tuple(self.heard)) if Chain(self.config, self.known).raises(self.heard) else None

    def learn(self, slot, value):
        if slot == len(self.known):
            self.known.append(value)
        self.wishes = [wish for wish in self.wishes if not (wish[0] == value and wish[1] <= slot)]
        if self.leads and self.leads["pending"] and self.leads["pending"][0] == slot:
            self.leads["pending"] = None

    def lead(self):
        count = self.config.orderers
        ballot = next(b for b in range(self.promised_ballot() + 1, self.promised_ballot() + 2 * count + 1) if b % count == self.index and b >= count)
        if ballot >= BALLOTS:
            return [], ("Nothing",), None
        self.put(0, ("Promise", ballot))

        def after():
            self.leads = {"ballot": ballot, "from": len(self.known), "answers": set(), "best": {}, "pending": None}
            return self.to_all(("Prepare", ballot, len(self.known)))

        return [], ("Nothing",), after

    def prepare(self, ballot, first):
        promised = self.promised_ballot()
        if ballot < promised:
            return [self.to_leader(ballot, ("Lower", ballot, promised))], ("Nothing",), None
        if ballot > promised:
            self.put(0, ("Promise", ballot))
        best = {}
        for vote_ballot, slot, value in self.votes():
            if first <= slot < first + WINDOW and vote_ballot < ballot and (slot not in best or best[slot][0] < vote_ballot):
                best[slot] = (vote_ballot, value)
        votes = [(slot, *best[slot]) for slot in sorted(best)]
        return [self.to_leader(ballot, ("Promised", ballot, first, self.index, votes))], ("Nothing",), None

    def promised(self, ballot, first, who, votes):
        leads = self.leads
        if not leads or (leads["ballot"], leads["from"]) != (ballot, first):
            return [], ("Nothing",), None
        leads["answers"].add(who)
        for slot, vote_ballot, value in votes:
            if slot not in leads["best"] or leads["best"][slot][0] < vote_ballot:
                leads["best"][slot] = (vote_ballot, value)
        return self.advance(), ("Nothing",), None

    def lower(self, ballot, promised):
        if self.leads and self.leads["ballot"] == ballot:
            self.leads = None
        return [], ("Nothing",), None

    def accept(self, ballot, slot, value):
        promised = self.promised_ballot()
        if ballot < promised:
            return [self.to_leader(ballot, ("Lower", ballot, promised))], ("Nothing",), None
        if not any(vote[:2] == (ballot, slot) for vote in self.votes()):
            self.put(0, ("Vote", ballot, slot, value))
        return [self.to_leader(ballot, ("Accepted", ballot, slot, self.index))], ("Nothing",), None

    def accepted(self, ballot, slot, who):
        leads = self.leads
        if not leads or leads["ballot"] != ballot or not leads["pending"] or leads["pending"][0] != slot:
            return [], ("Nothing",), None
        _, value, accepted = leads["pending"]
        accepted.add(who)
        if len(accepted) < self.config.majority:
            return [], ("Nothing",), None
        self.learn(slot, value)
        others = [*range(self.config.replicas * self.config.shards), *self.config.orderer_nodes()]
        decides = [(node, ("Decide", slot, value)) for node in others if node != self.number]
        return decides + self.advance(), ("Nothing",), None

    def decide(self, slot, value):
        self.learn(slot, value)
        return [], ("Nothing",), None

    def want(self, first, node):
        given = self.known[first : first + GIVEN]
        return [(node, ("Decide", first + at, value)) for at, value in enumerate(given)], ("Nothing",), None

    def least(self, shard, lengths):
        at = shard * self.config.replicas
        self.heard[at : at + len(lengths)] = [max(pair) for pair in zip(self.heard[at:], lengths)]
        return [], ("Nothing",), None

    def tick(self):
        asked = self.ticks % self.config.orderers
        self.ticks += 1
        if not self.leads:
            want = (self.config.orderer(asked), ("Want", len(self.known), self.number))
            return [] if asked == self.index else [want], ("Nothing",), None
        if len(self.leads["answers"]) < self.config.majority:
            return self.to_all(("Prepare", self.leads["ballot"], self.leads["from"])), ("Nothing",), None
        if self.leads["pending"]:
            slot, value, _ = self.leads["pending"]
            return self.to_all(("Accept", self.leads["ballot"], slot, value)), ("Nothing",), None
        return self.advance(), ("Nothing",), None

    def request(self, client, value):
        if not self.leads:
            return [], ("NotLeading",), None
        if value[0] == "Finalise" and value[1] not in Chain(self.config, self.known).live:
            return [], ("NoSuchShard",), None
        self.wishes.append((value, len(self.known)))
        return [], ("Taken", len(self.known)), None

    def settled(self, client, value, first):
        for slot in range(first, len(self.known)):
            if self.known[slot] == value:
                return [], ("Settled", slot), None
        return [], ("PendingWish", len(self.known)), None


class History:
    """A history on its way: its kept payloads, its events, and the letters that they put out."""

    def __init__(self, config, run=1, kept=()):
        self.config, self.run, self.kept = config, run, sorted(kept, key=lambda each: each[0])
        self.sent, self.frames = [], []
        self.nodes = [self.made(node) for node in range(config.nodes())]

    def made(self, node):
        """A node over what its disks kept."""
        config = self.config
        if node < config.replicas * config.shards:
            return Storage(config, node, self.lists(node, config.replicas))
        if node < config.orderer(0):
            return Gatherer(config, node, [])
        return Orderer(config, node, self.lists(node, 1))

    def lists(self, node, disks):
        return [[payload for disk, payload in self.kept if disk == node * 8 + at] for at in range(disks)]

    def event(self, node, *given, mark=DONE):
        """The place of one more event: an input of a node, that turns out with this mark."""
        outputs, reply = self.nodes[node].step(given, mark)
        body = number(node, 2) + input_bytes(given) + bytes([mark, len(outputs)])
        for to, message in outputs:
            letter = message_bytes(message)
            body += number(to, 2) + number(len(letter), 4) + letter
        self.frames.append(frame(0x62, body + reply_bytes(reply)))
        self.sent.append((outputs, reply))
        return len(self.sent) - 1

    def deliver(self, place, index, mark=DONE):
        to, message = self.sent[place][0][index]
        return self.event(to, "Deliver", place, index, message, mark=mark)

    def bytes(self):
        config = self.config
        head = bytes([config.replicas, config.shards, config.orderers, config.gatherers]) + number(self.run, 4)
        kept = [frame(0x61, number(disk, 4) + payload_bytes(payload)) for disk, payload in self.kept]
        return b"".join([frame(0x60, head), *kept, *self.frames])
