#!/usr/bin/python3
"""The sample traces in samples/: NAME.words, the calls in words, NAME.trace, the file of them, and NAME.replay, what
its replay prints; and crates/replay/stdin and stdout, the run that `rt ci` looks at.

Two nodes of the model stand at the ends of a link that this script loses, damages and repeats frames on; what is called
at each is its trace. What a replay must print is the model's answer (comparison/replays.py), never our program's.
tools/trace_samples.py           writes the files
tools/trace_samples.py --check   tests that the files are those"""
from __future__ import annotations

import os
import sys
from collections.abc import Callable, Iterator, Sequence

sys.dont_write_bytecode = True  # the source tree stays as it is
sys.path.insert(0, os.path.join(os.path.dirname(os.path.abspath(__file__)), ".."))
from comparison import model, programs, replays
from comparison.corners.corner import rx, tx
from comparison.model import ACKNOWLEDGE, DATA, RESET, URGENT, Entry
from traces import files, words
from traces.files import Record

GROUND, PEDESTAL, PROTOCOL = 64, 65, 238
PLAN, READINGS = 7, 9  # the channels: moves go up to the pedestal, readings come down
SENDER, RECEIVER = 0, 1  # the entries of every table here
FIRST_RUN = "morning_ground"  # the sample that rt ci runs

# 1. A NODE AT WORK, AND WHAT IS CALLED THERE


class Side:
    """A node of the model, whose calls are recorded."""

    def __init__(self, own: int, entries: Sequence[Entry]) -> None:
        self.node = model.Node()
        self.records: list[Record] = []
        self.call(files.TABLE, 0, model.table(own, PROTOCOL, entries))

    def call(self, kind: int, index: int = 0, data: bytes = b"") -> model.Answer:
        self.records.append(Record(kind, index, data))
        return model.call(self.node, kind, index, data)

    def open(self, index: int) -> None:
        self.call(files.OPEN, index)

    def close(self, index: int) -> None:
        self.call(files.CLOSE, index)

    def send(self, index: int, *payloads: bytes) -> None:
        for payload in payloads:
            self.call(files.SEND, index, payload)

    def begin(self) -> bytes:
        """The frame that is handed out next and is under way then; none where nothing waits."""
        return bytes(self.call(files.HAND_OUT).fields[1:])

    def report(self) -> None:
        self.call(files.REPORT)

    def out(self) -> bytes:
        """The same by a quick port, which reports the frame's end at once."""
        frame = self.begin()
        if frame:
            self.report()
        return frame

    def take(self, frame: bytes) -> None:
        self.call(files.ARRIVAL, 0, frame)


class Link:
    """Two nodes and the frames between them."""

    def __init__(self, ground: Sequence[Entry], pedestal: Sequence[Entry]) -> None:
        self.ground, self.pedestal = Side(GROUND, ground), Side(PEDESTAL, pedestal)

    def other(self, side: Side) -> Side:
        return self.pedestal if side is self.ground else self.ground

    def pass_on(self, side: Side, *how: str) -> None:
        """As many frames as there are words go from a side to the other: passed, lost, damaged or twice."""
        for word in how:
            frame = side.out()
            if word == "damaged":
                frame = frame[:7] + bytes((frame[7] ^ 1,)) + frame[8:]
            for _ in range({"lost": 0, "twice": 2}.get(word, 1)):
                self.other(side).take(frame)

    def drain(self) -> None:
        """All that waits passes, in turn, until both sides have nothing more."""
        quiet = 0
        side = self.ground
        while quiet < 2:
            frame = side.out()
            quiet = 0 if frame else quiet + 1
            if frame:
                self.other(side).take(frame)
            side = self.other(side)

    def ticks(self, count: int) -> None:
        for _ in range(count):
            self.ground.call(files.TICK)
            self.pedestal.call(files.TICK)

    def open(self) -> None:
        for side in (self.pedestal, self.ground):
            side.open(RECEIVER)
            side.open(SENDER)


def link() -> Link:
    """The table of both: a sender with W 4 that tries twice more after 4 ticks each; a receiver whose window is written
    as 0, the default, at the ground, since readings come in any number."""
    plan = dict(channel=PLAN, window=4, largest=8)
    readings = dict(channel=READINGS, window=0, largest=8)
    return Link([tx(remote=PEDESTAL, retries=2, timeout=4, **plan), rx(remote=PEDESTAL, **readings)],
                [tx(remote=GROUND, retries=2, timeout=4, **readings), rx(remote=GROUND, **plan)])


# 2. THE SAMPLES

Sample = tuple[str, list[Record]]
SAMPLES: list[Callable[[], list[Sample]]] = []


def sample(make: Callable[[], list[Sample]]) -> Callable[[], list[Sample]]:
    SAMPLES.append(make)
    return make


def moves(*degrees: int) -> list[bytes]:
    return [b"az %d" % degree for degree in degrees]


@sample
def morning() -> list[Sample]:
    """A pedestal's morning: both ends open, a plan of six moves goes up and readings come down, frames are lost,
    damaged, late and twice, and are sent again; an Urgent goes before all data; the last move is under way for longer
    than its timer runs, which starts when it has left; then both close."""
    net = link()
    ground, pedestal = net.ground, net.pedestal
    net.open()
    net.pass_on(ground, "lost")  # the Reset
    net.pass_on(pedestal, "passed")
    net.ticks(4)
    net.drain()
    ground.send(SENDER, *moves(10, 20, 30, 40, 50))  # the fifth is refused: the window takes four
    net.pass_on(ground, "passed", "lost", "passed", "passed")
    net.pass_on(pedestal, "passed", "lost", "passed")
    pedestal.send(SENDER, b"el 4", b"el 5")
    net.pass_on(pedestal, "passed", "twice")
    net.pass_on(ground, "passed", "damaged", "passed")
    net.ticks(4)
    net.drain()
    ground.send(SENDER, *moves(50))
    ground.call(files.URGENT, SENDER, b"slow")
    net.drain()
    ground.send(SENDER, *moves(60))
    slow = ground.begin()
    net.ticks(5)  # T is 4
    ground.report()
    pedestal.take(slow)
    net.drain()
    net.ticks(1)
    for side in (ground, pedestal):
        side.close(SENDER)
        side.close(RECEIVER)
    return [("morning_ground", ground.records), ("morning_pedestal", pedestal.records)]


@sample
def failing() -> list[Sample]:
    """A failing link: nothing passes any more; the sender tries its Data again until the retries of the first are
    spent, is Failing while the second's timer runs, and becomes Enabled again with a Reset waiting; the link comes
    back, and the rest of the plan goes in a new run."""
    net = link()
    ground, pedestal = net.ground, net.pedestal
    pedestal.open(RECEIVER)
    ground.open(SENDER)
    net.drain()
    ground.send(SENDER, *moves(10, 20))
    net.pass_on(ground, "passed")
    net.pass_on(pedestal, "lost")  # its acknowledgement
    net.ticks(1)
    net.pass_on(ground, "lost")
    for _ in range(2):
        net.ticks(3)
        net.pass_on(ground, "lost")  # the first again
        net.ticks(1)
        net.pass_on(ground, "lost")  # the second again
    net.ticks(3)  # the first has spent its retries
    ground.send(SENDER, *moves(20))  # refused: Failing
    net.ticks(1)  # and the second's timer has ended
    net.pass_on(ground, "lost")  # the Reset
    net.ticks(4)
    net.drain()
    ground.send(SENDER, *moves(20, 30))
    net.drain()
    ground.close(SENDER)
    pedestal.close(RECEIVER)
    return [("failing_ground", ground.records), ("failing_pedestal", pedestal.records)]


@sample
def readings() -> list[Sample]:
    """A window that is written as 0: nine readings are to go down at once, and it takes eight of them. The first is
    lost; the ground holds the seven behind it and delivers all eight when that comes again. Then the ninth goes."""
    net = link()
    ground, pedestal = net.ground, net.pedestal
    ground.open(RECEIVER)
    pedestal.open(SENDER)
    net.drain()
    pedestal.send(SENDER, *[b"el %d" % reading for reading in range(1, 10)])  # the ninth is refused
    net.pass_on(pedestal, "lost", *["passed"] * 7)
    net.pass_on(ground, *["passed"] * 7)
    net.ticks(4)
    net.drain()
    pedestal.send(SENDER, b"el 9")
    net.drain()
    ground.close(RECEIVER)
    pedestal.close(SENDER)
    return [("readings_ground", ground.records), ("readings_pedestal", pedestal.records)]


def header(frame: bytes, **over: int) -> bytes:
    """A frame with other header bytes, and the check byte that fits them."""
    body = bytearray(frame[:-1])
    for place, value in over.items():
        body[int(place[1:])] = value
    return bytes(body) + bytes((model.check(body),))


@sample
def refusals() -> list[Sample]:
    """Each refusal that a trace can show, by number: all but 6 and 8, and 1, which is a trace of its own."""
    side = Side(GROUND, [tx(remote=PEDESTAL, window=1, largest=4), rx(remote=PEDESTAL, window=2, largest=4)])

    def frame(control: int, number: int, payload: bytes = b"", channel: int = READINGS) -> bytes:
        return model.frame(GROUND, PROTOCOL, PEDESTAL, control, channel, number, payload)

    side.open(2)  # 2: no such entry
    side.send(RECEIVER, b"up")  # 3: it receives
    side.close(SENDER)  # 4: it is Closed
    side.open(SENDER)
    side.open(RECEIVER)
    side.out()
    side.take(frame(ACKNOWLEDGE, 0, channel=PLAN))
    side.send(SENDER, b"", b"too far")  # 5: no payload, and one above P
    side.send(SENDER, b"up", b"up")  # 7: the window is full
    side.call(files.URGENT, SENDER, b"slow")
    side.call(files.URGENT, SENDER, b"stop")  # 9: one waits
    side.take(frame(RESET, 0)[:-1])  # 10: a byte is missing
    side.take(header(frame(RESET, 0), b0=66))  # 11: for another
    side.take(frame(DATA, 1, b"up"))  # 13: it is Enabled
    side.take(frame(RESET, 0))
    for _ in range(31):
        side.take(frame(DATA, 2, b"down"))
    side.take(frame(DATA, 1, b"up"))  # 14: 32 acknowledgements wait
    side.take(header(frame(DATA, 1, b"up"), b3=4))  # 15, 16, 17, 18: what is wrong with the frame, and in which byte
    side.take(header(frame(DATA, 1, b"up"), b3=16))
    side.take(frame(DATA, 1))
    side.take(header(frame(RESET, 0), b7=1))
    side.take(frame(URGENT, 0, b"bell"))
    side.begin()
    side.begin()  # 19: a frame is under way
    side.report()
    side.report()  # 20: none is
    return [("refusals", side.records), ("refused_table", [Record(files.TABLE, 0, b"\0\1"), Record(files.TICK)])]


# 3. THE FILES


def written() -> Iterator[tuple[str, bytes]]:
    """Each file by its path from the root."""
    for make in SAMPLES:
        for name, records in make():
            data = files.pack(records)
            text = "\n".join(words.lines(data)) + "\n"
            printed = replays.replay(data).encode()
            yield "samples/%s.words" % name, text.encode()
            yield "samples/%s.trace" % name, data
            yield "samples/%s.replay" % name, printed
            if name == FIRST_RUN:
                yield "crates/replay/stdin", data
                yield "crates/replay/stdout", printed
                # the same file with its count one too high, as a recorder leaves it that lost power
                yield "samples/damaged.trace", replays.with_word(data, 0, len(records) + 1)
                yield "samples/damaged.replay", replays.REFUSED.encode()


def main() -> int:
    wrong = []
    for path, content in written():
        whole = os.path.join(programs.ROOT, path)
        if "--check" in sys.argv[1:]:
            there = open(whole, "rb").read() if os.path.exists(whole) else None
            wrong += [] if there == content else [path]
        else:
            with open(whole, "wb") as file:
                file.write(content)
    for path in wrong:
        print("%s is not what tools/trace_samples.py writes" % path)
    print("%d passed, %d failed" % ((0, 1) if wrong else (1, 0)))
    return 1 if wrong else 0


sys.exit(main())
