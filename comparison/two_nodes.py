"""Traces by seed at two nodes, joined by a link that loses, repeats, reorders, delays and corrupts, with demand 3's
history kept beside them."""
from __future__ import annotations

import collections
import random
from typing import NamedTuple

from comparison import history, model
from comparison.model import ACKNOWLEDGE, CLOSED, DATA, OPEN, RECEIVES, RESET, SENDS, URGENT, Entry, Receiver, Sender
from comparison.blocks import broken_blocks
from comparison.history import Carried, Channel
from comparison.tables import WINDOWS
from comparison.trace import Full, Trace, delivered

# how a link behaves: the chance of losing, repeating, damaging a frame; of laying a copy aside and of bringing such an
# old one back; among how many on the link one is picked
Manners = collections.namedtuple("Manners", "lose repeat damage keep recall shuffle")
CALM = Manners(0.01, 0.02, 0.01, 0.03, 0.01, 2)
ROUGH = Manners(0.08, 0.06, 0.05, 0.08, 0.03, 6)
DEAD = Manners(1.0, 0.0, 0.0, 0.0, 0.0, 1)


class Link:
    """One direction: frames that have gone in, and old copies that may come back long after."""

    def __init__(self, rng: random.Random) -> None:
        self.rng = rng
        self.frames: list[Carried] = []
        self.aside: list[Carried] = []

    def put(self, carried: Carried, manners: Manners) -> None:
        rng = self.rng
        # Resets are few, and an old one is worth much
        if rng.random() < (manners.keep if carried.frame[3] != RESET else 0.3):
            self.aside = self.aside[-30:] + [carried]
        if rng.random() >= manners.lose:
            self.frames += [carried] * (2 if rng.random() < manners.repeat else 1)

    def get(self, manners: Manners) -> tuple[Carried, bool] | None:
        """The next frame to come out and whether it is damaged, or None."""
        rng = self.rng
        if self.aside and rng.random() < manners.recall:
            return rng.choice(self.aside), False
        if not self.frames:
            return None
        at = rng.randrange(min(manners.shuffle, len(self.frames)))
        return self.frames.pop(at), rng.random() < manners.damage


class Side:
    """One of the two nodes: its trace, its channels by entry index, the link that leads away from it."""

    def __init__(self, name: str, rng: random.Random, own: int) -> None:
        self.trace = Trace(name)
        self.own = own
        self.link = Link(rng)
        self.routes: list[Route | None] = []  # of each entry, None of a stranger's
        self.sending: dict[int, Channel] = {}  # by entry index
        self.receiving: dict[int, Channel] = {}
        self.loads: list[int] = []  # how much traffic each of those that send has
        self.asleep_until = 0  # hands nothing out before that step
        self.lost_until = 0  # reports no end of a frame before that step

    def channel_of(self, frame: bytes, inwards: bool) -> Channel | None:
        """The channel of a frame that comes in or goes out here, None where it is no channel's of these two nodes."""
        sent_by_sender = frame[3] != ACKNOWLEDGE
        ours = self.receiving if sent_by_sender == inwards else self.sending
        remote = frame[2] if inwards else frame[0]
        for index, channel in ours.items():
            entry = self.trace.node.ends[index].entry
            if (entry.remote, entry.channel) == (remote, frame[6]):
                return channel
        return None


class Route(NamedTuple):
    """A channel between the two: which way, and what its entries say."""
    up: bool
    number: int
    window: int
    largest: int
    retries: int
    timeout: int


def choose_routes(rng: random.Random, steady: bool) -> list[Route]:
    """Channels in both directions. In a steady pair the first of each, which has most of the traffic, seldom fails."""
    routes: list[Route] = []
    for up in (True, False):
        for number in rng.sample(range(256), rng.choice((1, 1, 2, 2, 3))):
            busy = steady and all(route.up != up for route in routes)
            window = rng.choice(WINDOWS[4:] if busy else WINDOWS)
            retries = rng.choice((3, 6, 255) if busy else (0, 1, 2, 3))
            timeout = rng.choice((8, 20) if busy else (2, 4, 8))
            routes.append(Route(up, number, window, rng.choice((1, 2, 3, 4)), retries, timeout))
    if rng.random() < 0.3 and all(route.number != routes[0].number for route in routes[1:]):
        # a number may serve once in each direction
        routes[-1] = routes[-1]._replace(number=routes[0].number)
    return routes


class Pair:
    """Two nodes, their links and hosts, the channels' histories."""

    def __init__(self, seed: int) -> None:
        self.rng = rng = random.Random("b %d" % seed)
        # two traces of three are steady: long runs, in which numbers fold; the others fail and reopen often
        self.steady = seed % 3 != 0
        # one trace of four takes frames in that break a premise; the history is then checked up to there
        self.wild = seed % 4 == 0
        a, b = rng.sample(range(32, 255), 2)
        self.sides = [Side("b%d.%s" % (seed, name), rng, own) for name, own in (("A", a), ("B", b))]
        self.channels: list[Channel] = []
        self.blocks = [model.block([])]  # that arrivals at either node delivered; one with no payload is enough
        # premise: how often the link would have broken it and was kept from it; how often it was broken
        self.withheld: collections.Counter[str] = collections.Counter()
        self.breaks: collections.Counter[str] = collections.Counter()
        self.broken: str | None = None  # how the promise failed though its premises held
        self.manners, self.until = CALM, 0
        self.ticking = rng.choice((0.5, 1.5)) if self.steady else rng.choice((1.5, 4))
        self.set_up(rng.choice((238, 1, 255)))

    # tables

    def set_up(self, protocol: int) -> None:
        routes = choose_routes(self.rng, self.steady)
        for here, side in enumerate(self.sides):
            remote = self.sides[1 - here].own
            rows = [(self.entry_of(r, r.up == (here == 0), remote), r) for r in routes] + self.strangers()
            self.rng.shuffle(rows)
            side.trace.setup(side.own, protocol, [entry for entry, _ in rows])
            side.routes = [route for _, route in rows]
        for route in routes:
            self.join(route)
        for side in self.sides:
            # one channel of each direction has most of the traffic, so that its numbers fold
            side.loads = [8] + [1] * (len(side.sending) - 1)

    def entry_of(self, route: Route, sends: bool, remote: int) -> Entry:
        retries, timeout = (route.retries, route.timeout) if sends else (0, 0)
        # both ways of writing the default window
        both = (0, model.DEFAULT_WINDOW)
        window = self.rng.choice(both) if route.window in both else route.window
        return Entry(SENDS if sends else RECEIVES, remote, route.number, retries, window, route.largest, timeout)

    def strangers(self) -> list[tuple[Entry, None]]:
        """Entries that lead to a third station, which never answers."""
        taken = [side.own for side in self.sides]
        rows: list[tuple[Entry, None]] = []
        for channel in range(self.rng.choice((0, 0, 1, 2))):
            remote = self.rng.choice([x for x in range(32, 255) if x not in taken])
            rows.append((Entry(SENDS, remote, channel, 1, 4, 4, 30), None))
        return rows

    def join(self, route: Route) -> None:
        sender, receiver = self.sides if route.up else self.sides[::-1]
        name = "channel %d %s" % (route.number, "up" if route.up else "down")
        channel = Channel(name, route.window or model.DEFAULT_WINDOW)
        self.channels.append(channel)
        for side, ends, kind in ((sender, sender.sending, Sender), (receiver, receiver.receiving, Receiver)):
            here = zip(side.routes, side.trace.node.ends)
            index = [r == route and isinstance(end, kind) for r, end in here].index(True)
            ends[index] = channel

    # the hosts' calls, noted in the histories

    def open(self, side: Side, index: int) -> None:
        if side.trace.open(index).refusal == 0 and index in side.sending:
            side.sending[index].begin()

    def close(self, side: Side, index: int) -> None:
        if side.trace.close(index).refusal:
            return
        if index in side.sending:
            side.sending[index].end()
        if index in side.receiving:
            self.breaks[history.HOST_CLOSES] += side.receiving[index].close_receiver()

    def payload(self, side: Side, index: int, ahead: int = 0) -> bytes:
        """A channel's next payload, or that after so many more."""
        channel, largest = side.sending[index], side.trace.node.ends[index].entry.largest
        number = 1 + len(channel.accepted) + ahead
        # of two payloads whose numbers are 256 apart, or that have the same number in two runs, the first bytes differ
        body = bytes(((number * 7 + channel.run * 13) % 251,)) + model.two(number) + bytes((channel.run % 256,))
        return body[:self.rng.randint(max(1, largest - 1), largest)]

    def send(self, side: Side, index: int) -> None:
        payload = self.payload(side, index)
        if side.trace.send(index, payload).refusal == 0:
            side.sending[index].accept(payload)

    def block(self, side: Side, index: int) -> bytes:
        """Of a plan: payloads that the window has mostly room for, seldom one of a wrong length among them, or what a
        receiver wrote, handed on; seldom with a rule of the block broken."""
        rng, end = self.rng, side.trace.node.ends[index]
        assert isinstance(end, Sender)
        left = min(model.MOST_PLANNED, end.entry.window - len(end.taken))
        count = rng.choice((left, left + 1, rng.randint(0, left), rng.randint(0, min(left, 4))))
        payloads = [self.payload(side, index, ahead) for ahead in range(count)]
        if payloads and rng.random() < 0.1:
            payloads[rng.randrange(count)] = rng.choice((b"", bytes(end.entry.largest + 1)))
        block = rng.choice(self.blocks) if rng.random() < 0.1 else model.block(payloads)
        return rng.choice(list(broken_blocks(block)))[1] if rng.random() < 0.05 else block

    def plan(self, side: Side, index: int) -> None:
        """What is accepted of it is noted as that of single sends."""
        block = self.block(side, index)
        answer = side.trace.plan(index, block)
        if answer.refusal == 0:
            for payload in model.payloads_of(block)[:answer.fields[0]]:
                side.sending[index].accept(payload)

    def counts(self, side: Side, index: int) -> None:
        side.sending[index].counts(*side.trace.counts(index).fields)

    def tick(self, side: Side) -> None:
        bits = side.trace.tick().fields[0]
        for index, channel in side.sending.items():
            if bits >> index & 1:
                channel.begin()

    # frames

    def hand_out(self, side: Side, step: int) -> None:
        """A frame is on the link as soon as it is handed out, so that an answer may come before its end is reported,
        which mostly happens at once."""
        answer = side.trace.hand_out()
        if answer.refusal or not answer.fields[0]:
            return
        frame = bytes(answer.fields[1:])
        side.link.put(self.carried(side, frame), self.manners)
        if self.rng.random() < 0.7:
            self.report(side, step)

    def report(self, side: Side, step: int) -> None:
        """The end of the frame under way, unless reports are lost; seldom twice, or where none is under way."""
        if step >= side.lost_until and (side.trace.node.under_way or self.rng.random() < 0.01):
            side.trace.report()
            if self.rng.random() < 0.003:
                side.trace.report()

    def carried(self, side: Side, frame: bytes) -> Carried:
        channel = side.channel_of(frame, inwards=False)
        if channel is None or frame[3] == URGENT:
            return Carried(frame, channel, 0, 0)
        if frame[3] == RESET:
            return channel.hand_out_reset(frame)
        return channel.hand_out_data(frame) if frame[3] == DATA else channel.hand_out_ack(frame)

    def deliver(self, source: Side, side: Side) -> None:
        """Something comes out of the link: withheld where it would break a premise, unless the trace is wild."""
        got = source.link.get(self.manners)
        if got is None:
            return
        carried, damage = got
        frame = self.damaged(carried.frame) if damage else carried.frame
        if side.trace.node.refusal_of(frame) == 0:
            broken: str | None = history.FORGED
            if frame == carried.frame:
                assert carried.channel  # a stranger's frame is refused
                broken = carried.channel.premise(carried)
            if broken and not self.wild:
                self.withheld[broken] += 1
                return
            if broken:
                self.breaks[broken] += 1
                self.channel_at(side, frame).break_premise()
        self.take_in(side, frame, carried)

    def channel_at(self, side: Side, frame: bytes) -> Channel:
        """The channel whose end takes this frame in. A damaged frame may also hit a stranger's entry; what it does
        there is nobody's."""
        return side.channel_of(frame, inwards=True) or Channel("nobody's", 1)

    def damaged(self, frame: bytes) -> bytes:
        """A frame with some bytes altered or cut off; the check byte misses one damage in 256, here somewhat more."""
        rng, out = self.rng, bytearray(frame)
        for _ in range(rng.choice((1, 1, 2, 3))):
            out[rng.randrange(len(out))] = rng.randrange(256)
        if rng.random() < 0.03:
            out[-1] = model.check(out[:-1])
        return bytes(out[:rng.randrange(len(out))] if rng.random() < 0.1 else out)

    def take_in(self, side: Side, frame: bytes, carried: Carried) -> None:
        answer = side.trace.arrival(frame)
        if answer.refusal:
            return
        channel, what, block = self.channel_at(side, frame), answer.fields[0], delivered(answer)
        self.blocks = self.blocks[-8:] + [block] if len(block) > model.EMPTY_BLOCK else self.blocks
        if what == model.OPENED:
            channel.opened()
        elif what == model.ACKNOWLEDGED:
            channel.confirm(answer.fields[2])
        elif what == model.TOOK_RESET:
            channel.take_reset(carried.run, carried.number)
        elif what == model.TOOK_DATA:
            channel.take_data(carried.run, carried.number, model.payloads_of(block))

    # the play

    def weather(self, step: int) -> None:
        """The link's manners change from time to time."""
        if step >= self.until:
            self.manners = self.rng.choices((CALM, ROUGH, DEAD), (8, 2, 0.2) if self.steady else (3, 3, 1))[0]
            self.until = step + (self.rng.randint(40, 300) if self.manners == DEAD else self.rng.randint(200, 1500))

    def host_move(self, side: Side) -> None:
        """An end is opened, and rarely one is closed."""
        rng, ends = self.rng, side.trace.node.ends
        index = rng.randrange(len(ends))
        if ends[index].state == CLOSED or rng.random() < 0.01:
            self.open(side, index)
        elif rng.random() < 0.03:
            self.close(side, index)

    def idle(self) -> bool:
        """Nothing waits and nothing is on a link: only a tick, a host or a report goes on from here."""
        return not any(side.link.frames or any(side.trace.node.waiting) for side in self.sides)

    def step(self, number: int) -> None:
        rng = self.rng
        self.weather(number)
        here = rng.randrange(2)
        side, other = self.sides[here], self.sides[1 - here]
        what = rng.choices(("send", "plan", "hand out", "report", "deliver", "tick", "counts", "urgent", "host",
                            "sleep", "lose reports"),
                           (20, 1.2, 36, 12, 36, self.ticking, 0.6, 0.6, 0.5, 0.05, 0.03))[0]
        if what == "hand out":
            # with nothing waiting, or a frame under way, it is worth a record only now and then
            free = any(side.trace.node.waiting) and not side.trace.node.under_way
            if number >= side.asleep_until and (free or rng.random() < 0.03):
                self.hand_out(side, number)
        elif what == "report":
            self.report(side, number)
        elif what == "deliver":
            self.deliver(other, side)
        elif what == "tick" or self.idle() and rng.random() < 0.1:
            self.tick(side)
        elif what == "host":
            self.host_move(side)
        elif what == "sleep":
            side.asleep_until = number + rng.randint(50, 250)
        elif what == "lose reports":
            side.lost_until = number + rng.randint(20, 200)
        else:
            self.sender_move(side, what)

    def sender_move(self, side: Side, what: str) -> None:
        rng = self.rng
        index = rng.choices(list(side.sending), side.loads)[0]
        end = side.trace.node.ends[index]
        if what in ("send", "plan"):
            free = isinstance(end, Sender) and end.state == OPEN and len(end.taken) < end.entry.window
            if free or rng.random() < 0.03:
                call = self.send if what == "send" else self.plan
                call(side, index)
        elif what == "urgent":
            side.trace.urgent(index, rng.randbytes(1))
        else:
            self.counts(side, index)

    def play(self) -> Pair:
        """Goes on until a stream is full or the promise is broken."""
        try:
            self.play_on()
        except Full:
            pass
        except history.Broken as broken:
            self.broken = str(broken)
        return self

    def play_on(self) -> None:
        for side in self.sides:
            for index in range(len(side.trace.node.ends)):
                if self.rng.random() < 0.9:
                    self.open(side, index)
        number = made = 0
        while True:
            self.step(number)
            number += 1
            if made != (made := sum(len(side.trace.lines) for side in self.sides)):
                for channel in self.channels:
                    channel.check()


def two_nodes(seed: int) -> Pair:
    """(b): a pair that has played until one of its streams was full."""
    return Pair(seed).play()
