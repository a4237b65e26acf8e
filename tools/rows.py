"""Histories that show each row of the nodes' rules, with what each event is to put out and reply."""

from rules import DONE, HALTED, OPENED_WITH, OPENED_WITHOUT, STAYED_DOWN, Config, History

RUN = 2**32


class Script:
    """Inputs one after another, each with the reply and the letters that it is to have."""

    def __init__(self, config, **given):
        self.history = History(config, **given)

    def at(self, node, *given, mark=DONE, reply=("Nothing",), puts_out=()):
        return self.shows(self.history.event(node, *given, mark=mark), reply, puts_out)

    def letter(self, place, index, mark=DONE, puts_out=()):
        return self.shows(self.history.deliver(place, index, mark), ("Nothing",), puts_out)

    def shows(self, place, reply, puts_out):
        outputs, replied = self.history.sent[place]
        assert replied == reply, (place, replied, reply)
        names = [(to, message[0]) for to, message in outputs]
        assert names == list(puts_out), (place, names, puts_out)
        return place

    def start(self, *nodes):
        for node in nodes:
            self.at(node, "Restart", mark=OPENED_WITHOUT)

    def index_of(self, place, name, to):
        """The index of the letter of this name to this node."""
        outputs = self.history.sent[place][0]
        return next(i for i, (node, message) in enumerate(outputs) if node == to and message[0] == name)

    def pass_on(self, place, name, to, puts_out=(), mark=DONE):
        return self.letter(place, self.index_of(place, name, to), mark, puts_out)


def one_orderer_leads(script, orderer):
    """The only orderer leads: it promises, and hears its own promise."""
    led = script.at(orderer, "Lead", puts_out=[(orderer, "Prepare")])
    told = script.letter(led, 0, puts_out=[(orderer, "Promised")])
    script.letter(told, 0)


def decides(script, orderer, storages, accept, more=()):
    """A proposal of the only orderer is accepted and decided. The place of the event that decides."""
    voted = script.pass_on(accept, "Accept", orderer, puts_out=[(orderer, "Accepted")])
    return script.letter(voted, 0, puts_out=[(node, "Decide") for node in storages] + list(more))


def storage_rows():
    """Two shards of two replicas (nodes 0 to 3), a gatherer (4), an orderer (5)."""
    script, storages = Script(Config(orderers=1)), range(4)
    script.at(0, "Ask", 0, RUN, reply=("Down",))
    script.at(0, "Tick")
    script.start(*range(6))
    script.at(0, "Submit", 0, RUN, b"a", reply=("NotAdded",))
    script.at(0, "Ask", 0, RUN, reply=("Missing",))
    one_orderer_leads(script, 5)
    script.at(5, "Request", 0, ("Finalise", 0), reply=("NoSuchShard",))
    script.at(5, "Request", 0, ("Add", 0), reply=("Taken", 0))
    script.at(5, "Request", 0, ("Add", 1), reply=("Taken", 0))
    script.at(5, "Settled", 0, ("Add", 0), 0, reply=("PendingWish", 0))
    ticked = script.at(5, "Tick", puts_out=[(5, "Accept")])
    first = decides(script, 5, storages, ticked, [(5, "Accept")])
    second = decides(script, 5, storages, first)
    script.at(5, "Settled", 0, ("Add", 1), 0, reply=("Settled", 1))
    # A later slot is not learned, nor is one twice.
    script.pass_on(second, "Decide", 0)
    script.pass_on(first, "Decide", 0)
    script.pass_on(first, "Decide", 0)
    script.pass_on(second, "Decide", 0)
    # Entries of two clients, and what their pairs are answered.
    for number in range(1, 5):
        script.at(0, "Submit", 0, RUN + number, b"a", reply=("Stored", number - 1))
    script.at(0, "Submit", 0, RUN + 2, b"a", reply=("Stored", 1))
    script.at(0, "Submit", 0, RUN, b"a", reply=("Stale", RUN + 4))
    script.at(0, "Submit", 1, RUN, b"b", reply=("Stored", 4))
    script.at(0, "Ask", 0, RUN + 1, reply=("PendingAsk", 0))
    script.at(0, "Ask", 0, RUN, reply=("Stale", RUN + 4))
    script.at(0, "Ask", 2, RUN, reply=("Missing",))
    # A put that fails, and the node after it: down, still down, and up with the entry or without it.
    script.at(0, "Submit", 1, RUN + 1, b"c", mark=HALTED, reply=("Halted",))
    script.at(0, "Read", 0, 0, reply=("Down",))
    script.at(0, "Restart", mark=STAYED_DOWN)
    script.at(0, "Restart", mark=OPENED_WITH)
    script.at(0, "Submit", 1, RUN + 1, b"c", reply=("Stored", 5))
    script.at(0, "Submit", 1, RUN + 2, b"d", reply=("NotAdded",))
    ticked = script.at(0, "Tick", puts_out=[(1, "Copy")] * 4 + [(4, "Report"), (5, "Want")])
    given = script.pass_on(ticked, "Want", 5, puts_out=[(0, "Decide"), (0, "Decide")])
    script.letter(given, 0)
    script.letter(given, 1)
    script.at(0, "Submit", 1, RUN + 2, b"d", mark=HALTED, reply=("Halted",))
    script.at(0, "Stop")
    script.at(0, "Restart", mark=OPENED_WITHOUT)
    script.at(0, "Ask", 1, RUN + 2, reply=("Missing",))
    # Copies: one past the end, the next ones, one whose put fails, and one that is there.
    copied, told = [(0, "CopyAck"), (4, "Report")], [(0, "CopyAck")]
    script.letter(ticked, 1, puts_out=told)
    acked = script.letter(ticked, 0, puts_out=copied)
    script.letter(ticked, 1, mark=HALTED)
    script.letter(ticked, 2)
    script.at(1, "Restart", mark=OPENED_WITH)
    again = script.letter(ticked, 1, puts_out=told)
    third = script.letter(ticked, 2, puts_out=copied)
    script.letter(ticked, 3, puts_out=copied)
    # Acknowledgements: what comes into the window is sent.
    script.letter(acked, 0, puts_out=[(1, "Copy")])
    sent = script.letter(again, 0, puts_out=[(1, "Copy")])
    script.letter(acked, 0)
    script.letter(third, 0)
    script.letter(sent, 0, puts_out=told)
    return script, storages, ticked, third


def gatherer_rows():
    """The same cluster goes on: reports, the least of them, a cut, and what is read."""
    script, storages, ticked, third = storage_rows()
    leasts = [(5, "Least")]
    script.pass_on(ticked, "Report", 4)
    script.at(4, "Tick")
    script.pass_on(third, "Report", 4)
    told = script.at(4, "Tick", puts_out=leasts)
    for node in (2, 3):
        other = script.at(node, "Tick", puts_out=[(4, "Report"), (5, "Want")])
        script.pass_on(other, "Report", 4)
    script.at(4, "Tick", puts_out=leasts * 2)
    script.at(4, "Stop")
    script.at(4, "Tick")
    script.at(4, "Restart", mark=OPENED_WITHOUT)
    script.at(4, "Tick")
    # Node 0 came up anew, and knows nothing.
    asked = script.at(0, "Tick", puts_out=[(1, "Copy")] * 3 + [(4, "Report"), (5, "Want")])
    given = script.pass_on(asked, "Want", 5, puts_out=[(0, "Decide")] * 2)
    script.letter(given, 0)
    script.letter(given, 1)
    script.letter(told, 0)
    proposed = script.at(5, "Tick", puts_out=[(5, "Accept")])
    cut = decides(script, 5, storages, proposed)
    script.pass_on(cut, "Decide", 0)
    script.at(0, "Ask", 0, RUN + 3, reply=("At", 2))
    script.at(0, "Ask", 0, RUN + 4, reply=("PendingAsk", 3))
    script.at(0, "Read", 0, 2, reply=("Found", 2, (0, RUN + 3, b"a")))
    script.at(0, "Read", 0, 3, reply=("PendingRead", 3))
    # A node of the other shard learns all, and says where the entry is.
    asked = script.at(2, "Tick", puts_out=[(4, "Report"), (5, "Want")])
    given = script.pass_on(asked, "Want", 5, puts_out=[(2, "Decide")] * 3)
    for index in range(3):
        script.letter(given, index)
    script.at(2, "Read", 0, 2, reply=("Elsewhere", 0))
    # A trim and a finalisation.
    script.at(5, "Request", 0, ("Trim", 1), reply=("Taken", 3))
    script.at(5, "Request", 0, ("Finalise", 0), reply=("Taken", 3))
    proposed = script.at(5, "Tick", puts_out=[(5, "Accept")])
    trimmed = decides(script, 5, storages, proposed, [(5, "Accept")])
    frozen = decides(script, 5, storages, trimmed)
    script.pass_on(trimmed, "Decide", 0)
    script.at(0, "Read", 0, 0, reply=("Trimmed", 1))
    script.at(0, "Submit", 0, RUN + 1, b"a", reply=("Stale", RUN + 4))
    script.at(0, "Ask", 0, RUN + 1, reply=("Stale", RUN + 4))
    script.pass_on(frozen, "Decide", 0)
    script.at(0, "Ask", 0, RUN + 4, reply=("FinalisedAt", 3))
    script.at(0, "Submit", 2, RUN, b"e", reply=("Finalised",))
    script.at(0, "Submit", 0, RUN + 4, b"a", reply=("Stored", 3))
    return script


def rival_rows():
    """One shard of one replica (node 0), a gatherer (1), three orderers (2 to 4), of which two lead in turn."""
    script, orderers = Script(Config(1, 1, 3, 1)), (2, 3, 4)
    prepares, accepts = [(node, "Prepare") for node in orderers], [(node, "Accept") for node in orderers]
    script.at(2, "Request", 0, ("Add", 0), reply=("Down",))
    script.start(*range(5))
    script.at(2, "Request", 0, ("Add", 0), reply=("NotLeading",))
    # Without a leader: a want to each orderer in turn, but to itself.
    want = script.at(3, "Tick", puts_out=[(2, "Want")])
    script.letter(want, 0)
    script.at(3, "Tick")
    script.at(3, "Tick", puts_out=[(4, "Want")])
    led = script.at(2, "Lead", puts_out=prepares)
    script.at(2, "Tick", puts_out=prepares)
    first = script.pass_on(led, "Prepare", 2, puts_out=[(2, "Promised")])
    second = script.pass_on(led, "Prepare", 3, puts_out=[(2, "Promised")])
    script.letter(first, 0)
    script.letter(second, 0)
    script.at(2, "Tick")
    script.at(2, "Request", 0, ("Add", 0), reply=("Taken", 0))
    script.at(2, "Tick", puts_out=accepts)
    accept = script.at(2, "Tick", puts_out=accepts)
    voted = script.pass_on(accept, "Accept", 2, puts_out=[(2, "Accepted")])
    script.pass_on(accept, "Accept", 2, puts_out=[(2, "Accepted")])
    script.letter(voted, 0)
    # A rival: a promise whose put fails is kept or not, and the old leader is told so.
    rival = script.at(3, "Lead", puts_out=prepares)
    script.pass_on(rival, "Prepare", 4, mark=HALTED)
    script.pass_on(rival, "Prepare", 4)
    script.at(4, "Restart", mark=STAYED_DOWN)
    script.at(4, "Restart", mark=OPENED_WITH)
    lower = script.pass_on(led, "Prepare", 4, puts_out=[(2, "Lower")])
    reported = script.pass_on(rival, "Prepare", 2, puts_out=[(3, "Promised")])
    own = script.pass_on(rival, "Prepare", 3, puts_out=[(3, "Promised")])
    script.pass_on(accept, "Accept", 3, puts_out=[(2, "Lower")])
    script.letter(lower, 0)
    script.at(2, "Request", 0, ("Trim", 0), reply=("NotLeading",))
    script.letter(voted, 0)
    script.letter(second, 0)
    # The value that was voted for is proposed, before any wish.
    script.letter(own, 0)
    script.at(3, "Request", 0, ("Trim", 0), reply=("Taken", 0))
    proposed = script.letter(reported, 0, puts_out=accepts)
    script.letter(lower, 0)
    voted = script.pass_on(proposed, "Accept", 2, puts_out=[(3, "Accepted")])
    script.pass_on(proposed, "Accept", 4, mark=HALTED)
    script.at(4, "Restart", mark=OPENED_WITHOUT)
    other = script.pass_on(proposed, "Accept", 4, puts_out=[(3, "Accepted")])
    script.letter(voted, 0)
    others = [(node, "Decide") for node in (0, 2, 4)]
    decided = script.letter(other, 0, puts_out=others + accepts)
    script.letter(other, 0)
    script.pass_on(decided, "Decide", 2)
    script.pass_on(decided, "Decide", 0)
    script.at(3, "Settled", 0, ("Add", 0), 0, reply=("Settled", 0))
    script.at(3, "Settled", 0, ("Trim", 0), 0, reply=("PendingWish", 1))
    script.at(3, "Lead", mark=HALTED)
    return script


def gap_rows():
    """Orderers that begin with a vote for a later slot alone: what is left out is filled first. The other's next ballot is the last."""
    vote, promise = ("Vote", 4, 1, ("Add", 0)), ("Promise", 2**56 - 1)
    script = Script(Config(1, 1, 3, 1), run=2, kept=[(2 * 8, ("Promise", 4)), (2 * 8, vote), (3 * 8, promise)])
    script.start(*range(5))
    script.at(3, "Lead")
    led = script.at(2, "Lead", puts_out=[(node, "Prepare") for node in (2, 3, 4)])
    own = script.pass_on(led, "Prepare", 2, puts_out=[(2, "Promised")])
    other = script.pass_on(led, "Prepare", 4, puts_out=[(2, "Promised")])
    script.pass_on(led, "Prepare", 3, puts_out=[(2, "Lower")])
    accepts = [(node, "Accept") for node in (2, 3, 4)]
    script.letter(own, 0)
    filled = script.letter(other, 0, puts_out=accepts)
    assert script.history.sent[filled][0][0][1][3] == ("Noop",)
    votes = [script.pass_on(filled, "Accept", node, puts_out=[(2, "Accepted")]) for node in (2, 4)]
    script.letter(votes[0], 0)
    decided = script.letter(votes[1], 0, puts_out=[(node, "Decide") for node in (0, 3, 4)] + accepts)
    assert script.history.sent[decided][0][3][1][3] == ("Add", 0)
    return script


def full_rows():
    """One replica whose list is full, with one orderer: a shard is added, and a submission is refused."""
    script = Script(Config(1, 1, 1, 1), run=2, kept=[(0, ("Entry", (0, RUN, b"")))] * 16384)
    script.start(0, 2)
    one_orderer_leads(script, 2)
    script.at(2, "Request", 0, ("Add", 0), reply=("Taken", 0))
    proposed = script.at(2, "Tick", puts_out=[(2, "Accept")])
    decided = decides(script, 2, [0], proposed)
    script.letter(decided, 0)
    script.at(0, "Submit", 0, 2 * RUN, b"", reply=("Full",))
    script.at(0, "Submit", 0, 2 * RUN, b"", reply=("Full",))
    return script


def window_rows():
    """One orderer that begins with a vote for each slot of a window: behind the last of them it asks for the next window."""
    votes = [("Vote", 1, slot, ("Noop",)) for slot in range(64)]
    script = Script(Config(1, 1, 1, 1), run=2, kept=[(2 * 8, payload) for payload in [("Promise", 1), *votes]])
    script.start(2)
    led = script.at(2, "Lead", puts_out=[(2, "Prepare")])
    told = script.letter(led, 0, puts_out=[(2, "Promised")])
    accept = script.letter(told, 0, puts_out=[(2, "Accept")])
    for slot in range(63):
        accept = decides(script, 2, [0], accept, [(2, "Accept")])
    moved = decides(script, 2, [0], accept, [(2, "Prepare")])
    assert script.history.sent[moved][0][1][1] == ("Prepare", 2, 64)
    told = script.pass_on(moved, "Prepare", 2, puts_out=[(2, "Promised")])
    script.letter(told, 0)
    script.start(0)
    want = script.at(0, "Tick", puts_out=[(1, "Report"), (2, "Want")])
    script.letter(want, 1, puts_out=[(0, "Decide")] * 16)
    return script


if __name__ == "__main__":
    for rows in (gatherer_rows, rival_rows, gap_rows, window_rows, full_rows):
        history = rows().history
        frames = history.frames
        print(rows.__name__, len(frames), "events", sum(map(len, frames)), "bytes", max(map(len, frames)))
