"""Traces by seed at one node, under calls sensible and not."""
from __future__ import annotations

import random
from collections.abc import Callable

from comparison import model
from comparison.blocks import broken_blocks
from comparison.model import ACKNOWLEDGE, DATA, ENABLED, FAILING, OPEN, RESET, URGENT, Answer, AnyEnd, Sender
from comparison.tables import broken_tables, random_table
from comparison.trace import Full, Trace, delivered, from_remote


class Player:
    """A host and a wire without manners, at one node."""

    def __init__(self, rng: random.Random, trace: Trace) -> None:
        self.rng, self.trace = rng, trace
        self.frames = [b"\0" * 9]  # seen on the wire in either direction
        self.blocks = [model.block([])]  # that arrivals delivered; one with no payload is enough
        self.focus = 0
        self.lost_for = 0  # moves for which the port's reports are lost

    def index(self) -> int:
        """Mostly the entry in focus, so that something comes of it; sometimes any, sometimes none."""
        ends, roll = self.trace.node.ends, self.rng.random()
        if not ends or roll < 0.01:
            return self.rng.choice((len(ends), 16, 17, 128, 255))
        if roll < 0.35:
            return self.rng.randrange(len(ends))
        return self.focus % len(ends)

    def end(self) -> AnyEnd | None:
        """An end point, None on a node without any; often one at Failing, since that is soon over."""
        index, ends = self.index(), self.trace.node.ends
        failing = [end for end in ends if end.state == FAILING]
        if failing and self.rng.random() < 0.4:
            return self.rng.choice(failing)
        return ends[index] if index < len(ends) else None

    def payload(self, largest: int) -> bytes:
        rng, room = self.rng, max(1, min(self.trace.room() - model.OVERHEAD, 65535))
        if largest > 1000 and rng.random() < 0.9:
            # long payloads fill the stream, so they are few
            return rng.randbytes(rng.randint(1, 12))
        size = rng.choice((1, largest, rng.randint(1, largest), min(largest, 8), min(largest, 8)))
        if rng.random() < 0.03:
            size = rng.choice((0, largest + 1))
        return rng.randbytes(min(size, room))

    # frames

    def sequence_near(self, end: AnyEnd) -> int:
        """A sequence number worth trying: in the window, at its edges, just behind, anywhere."""
        rng, window = self.rng, end.entry.window
        if isinstance(end, Sender) and end.taken and rng.random() < 0.7:
            return rng.choice(end.taken).sequence
        step = rng.choice((0, 0, 0, 0, rng.randrange(window), rng.randrange(window), window - 1, window,
                           -1, -rng.randint(1, window), 128))
        return rng.randrange(256) if rng.random() < 0.02 else (end.start + step) % 256

    def fitting(self, end: AnyEnd) -> bytes:
        """A frame that the end's remote could well have written."""
        rng, node = self.rng, self.trace.node
        if isinstance(end, Sender):
            sequence = 0 if end.state == ENABLED and rng.random() < 0.7 else self.sequence_near(end)
            return from_remote(node, end, ACKNOWLEDGE, sequence)
        roll = rng.random()
        if roll < (0.6 if end.state == ENABLED else 0.03):
            return from_remote(node, end, RESET, 0)
        if roll > 0.93:
            return from_remote(node, end, URGENT, rng.choice((0, rng.randrange(256))), self.payload(end.entry.largest))
        return from_remote(node, end, DATA, self.sequence_near(end), self.payload(end.entry.largest))

    def odd(self, end: AnyEnd) -> bytes:
        """A sound frame with something wrong, or for somebody else, or from the wrong end."""
        rng, node = self.rng, self.trace.node
        fields = dict(destination=node.own, protocol=node.protocol, source=end.entry.remote, control=rng.randrange(4),
                      channel=end.entry.channel, sequence=rng.choice((0, 0, self.sequence_near(end))))
        payload = self.payload(end.entry.largest) if rng.random() < 0.5 else b""
        for _ in range(rng.choice((0, 1, 1, 2))):
            name = rng.choice(("destination", "protocol", "source", "control", "channel"))
            fields[name] = rng.choice((0, 1, 255, fields[name] ^ 1 << rng.randrange(8), rng.randrange(256)))
        return model.frame(**fields, payload=payload)

    def damaged(self, frame: bytes) -> bytes:
        rng = self.rng
        how = rng.randrange(5)
        if how == 0:
            return frame[:rng.randrange(len(frame) + 1)]
        if how == 1:
            return frame + rng.randbytes(rng.randint(1, 3))
        if how == 2:
            return rng.randbytes(rng.randrange(24))
        out = bytearray(frame)
        for _ in range(how - 2 + (rng.random() < 0.2)):
            if out:
                out[rng.randrange(len(out))] ^= 1 << rng.randrange(8)
        return bytes(out)

    def frame(self) -> bytes:
        end, roll = self.end(), self.rng.random()
        if end is None or roll < 0.06:
            return self.rng.choice(self.frames)
        if roll < 0.12:
            return self.odd(end)
        return self.damaged(self.fitting(end)) if roll < 0.2 else self.fitting(end)

    # moves

    def arrive(self) -> None:
        frame = self.frame()
        if len(frame) <= self.trace.room():
            self.frames = self.frames[-40:] + [frame]
            block = delivered(self.trace.arrival(frame))
            self.blocks = self.blocks[-8:] + [block] if len(block) > model.EMPTY_BLOCK else self.blocks

    def hand_out(self) -> None:
        """Mostly the frame's end is reported at once, else by a later move, and now and then ticks pass first. While a
        frame is under way it is tried less often, since all that comes of it is a refusal."""
        rng, trace = self.rng, self.trace
        if trace.node.under_way and rng.random() < 0.6:
            return
        answer = trace.hand_out()
        if answer.refusal or not answer.fields[0]:
            return
        self.frames = self.frames[-40:] + [bytes(answer.fields[1:])]
        if rng.random() < 0.75:
            self.report()
        elif rng.random() < 0.15:
            self.wait()

    def report(self) -> None:
        """The end of the frame under way, now and then twice; seldom one where none is."""
        if self.lost_for or not self.trace.node.under_way and self.rng.random() < 0.95:
            return
        self.trace.report()
        if self.rng.random() < 0.02:
            self.trace.report()

    def lose_reports(self) -> None:
        self.lost_for = self.rng.randint(10, 60)

    def sender(self) -> int:
        """An entry's index, mostly that of a sender that is up."""
        ends = self.trace.node.ends
        good = [k for k, end in enumerate(ends) if isinstance(end, Sender) and end.state == OPEN]
        if good and self.rng.random() < 0.9:
            focus = self.focus % len(ends)
            return focus if focus in good and self.rng.random() < 0.8 else self.rng.choice(good)
        return self.index()

    def largest(self, index: int) -> int:
        """An entry's P, or one to try where there is no entry."""
        ends = self.trace.node.ends
        return ends[index].entry.largest if index < len(ends) else 4

    def give(self, call: Callable[[int, bytes], Answer]) -> None:
        """A send or an Urgent."""
        index = self.sender()
        call(index, self.payload(self.largest(index)))

    def payloads(self, index: int) -> list[bytes]:
        """Of a plan: as many as the window has left, one more, a few, or any number up to the most that there may be
        and one more."""
        rng, ends = self.rng, self.trace.node.ends
        end = ends[index] if index < len(ends) else None
        left = min(model.MOST_PLANNED, end.entry.window - len(end.taken)) if isinstance(end, Sender) else 0
        count = rng.choice((left, left + 1, left + 1, rng.randint(0, 8), rng.randint(1, 8)))
        if rng.random() < 0.05:
            count = rng.choice((model.MOST_PLANNED, model.MOST_PLANNED + 1, rng.randint(0, model.MOST_PLANNED)))
        return [self.payload(self.largest(index)) for _ in range(count)]

    def plan(self) -> None:
        """Now and then what a receiver wrote is handed on, and now and then a rule of the block is broken."""
        rng, index = self.rng, self.sender()
        block = rng.choice(self.blocks) if rng.random() < 0.2 else model.block(self.payloads(index))
        if rng.random() < 0.15:
            block = rng.choice(list(broken_blocks(block)))[1]
        if len(block) <= self.trace.room():
            self.trace.plan(index, block)

    def open_some(self) -> None:
        for index in range(len(self.trace.node.ends)):
            if self.rng.random() < 0.8:
                self.trace.open(index)

    def new_table(self) -> None:
        rng = self.rng
        own, protocol, entries = random_table(rng)
        data = model.table(own, protocol, entries)
        if rng.random() < 0.6 and entries:
            data = rng.choice(list(broken_tables(data)))[1]
        self.trace.table(data)

    def close(self) -> None:
        """Often the entry whose frame is under way, and now and then it is opened again at once."""
        under_way, index = self.trace.node.under_way, self.index()
        if under_way and self.rng.random() < 0.7:
            index = under_way.owner
        self.trace.close(index)
        if self.rng.random() < 0.4:
            self.trace.open(index)

    def wait(self) -> None:
        for _ in range(self.rng.choice((2, 5, 10, 40))):
            self.trace.tick()

    def look_elsewhere(self) -> None:
        self.focus = self.rng.randrange(16)

    def flood(self) -> None:
        for _ in range(self.rng.randint(20, 50)):
            self.arrive()

    def begin_anew(self) -> None:
        if self.rng.random() < 0.7:
            self.new_table()
            self.open_some()

    def move(self) -> None:
        """Any of these, by its weight."""
        trace = self.trace
        moves: list[tuple[float, Callable[[], object]]] = [
            (40, self.arrive), (34, self.hand_out), (20, self.report), (0.3, self.lose_reports),
            (20, lambda: self.give(trace.send)), (3, lambda: self.give(trace.urgent)), (2, self.plan), (7, trace.tick),
            (0.6, self.wait), (2, lambda: trace.counts(self.index())), (2, lambda: trace.open(self.index())),
            (0.6, self.close), (3, self.look_elsewhere), (0.3, self.flood), (0.15, self.begin_anew)]
        self.lost_for = max(0, self.lost_for - 1)
        self.rng.choices([call for _, call in moves], [weight for weight, _ in moves])[0]()


def stray_end(rng: random.Random, trace: Trace) -> None:
    """Now and then a stream ends badly."""
    roll, number = rng.random(), len(trace.lines) + 1
    record = bytes((rng.choice((1, 4, 6, 7, 8, 9, 10, 20)), rng.randrange(3), 0, 5)) + rng.randbytes(5)
    if len(trace.stream) + len(record) > model.MOST_STREAM or roll < 0.8:
        return
    if roll < 0.9:
        trace.end_with(record[:rng.randint(1, 8)], "torn %d\n" % number)
    else:
        kind = rng.choice((0, 11, 19, 21, rng.randint(22, 255)))
        trace.end_with(bytes((kind,)) + record[1:], "unknown %d\n" % number)


def one_node(seed: int) -> Trace:
    """(a): a trace at one node."""
    rng = random.Random("a %d" % seed)
    trace = Trace("a%d" % seed)
    player = Player(rng, trace)
    if rng.random() < 0.1:
        for _ in range(10):
            player.move()  # on a node that nobody set up
    own, protocol, entries = random_table(rng)
    trace.setup(own, protocol, entries)
    player.open_some()
    try:
        for _ in range(rng.choice((60, 300, 1500, 3000))):
            player.move()
    except Full:
        pass
    stray_end(rng, trace)
    return trace
