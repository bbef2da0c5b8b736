"""A corner trace: one by hand, in which every call says what it must answer, read off paper 01, so that the model is
tested here too and not only compared."""
from __future__ import annotations

from collections.abc import Callable, Sequence

from comparison import model, trace
from comparison.model import ACKNOWLEDGE, DATA, RECEIVES, RESET, SENDS, URGENT, Answer, Entry

OWN, REMOTE, PROTOCOL = 64, 65, 238
CORNERS: dict[str, Callable[[], list[Corner]]] = {}  # by name, what makes the traces


class Unexpected(Exception):
    """An answer that is not the one written here."""


def tx(channel: int = 7, retries: int = 3, window: int = 4, largest: int = 8, timeout: int = 5,
       remote: int = REMOTE) -> Entry:
    return Entry(SENDS, remote, channel, retries, window, largest, timeout)


def rx(channel: int = 9, window: int = 4, largest: int = 8, remote: int = REMOTE) -> Entry:
    return Entry(RECEIVES, remote, channel, 0, window, largest, 0)


class Corner(trace.Trace):
    """A trace in which every call names its answer."""

    def want(self, answer: Answer, refusal: int, fields: Sequence[int]) -> None:
        if (answer.refusal, answer.fields) != (refusal, list(fields)):
            raise Unexpected("%s, record %d: %s and not %s"
                             % (self.name, len(self.lines), tuple(answer), (refusal, list(fields))))

    def ok(self, call: Callable[..., Answer], *args: object, gives: Sequence[int] = ()) -> None:
        self.want(call(*args), 0, gives)

    def no(self, refusal: int, call: Callable[..., Answer], *args: object) -> None:
        self.want(call(*args), refusal, ())

    def fault(self, refusal: int, byte: int, frame: bytes) -> None:
        """An arrival that is refused for a fault of its header, which sits in this byte."""
        self.want(self.arrival(frame), refusal, [byte])

    def given(self, *entries: Entry) -> None:
        self.ok(self.setup, OWN, PROTOCOL, entries)

    def frame(self, index: int, control: int, sequence: int, payload: bytes = b"") -> bytes:
        """A frame as the remote of an entry would write it."""
        return trace.from_remote(self.node, self.node.ends[index], control, sequence, payload)

    # handing out

    def begin(self, index: int, control: int, sequence: int, payload: bytes = b"") -> None:
        """A frame is handed out, and is under way from then on."""
        entry = self.node.ends[index].entry
        frame = model.frame(entry.remote, PROTOCOL, OWN, control, entry.channel, sequence, payload)
        self.ok(self.hand_out, gives=[len(frame)] + list(frame))

    def out(self, index: int, control: int, sequence: int, payload: bytes = b"") -> None:
        """A frame is handed out, and its end reported before anything else happens."""
        self.begin(index, control, sequence, payload)
        self.ok(self.report)

    def nothing(self) -> None:
        self.ok(self.hand_out, gives=[0])

    def ticks(self, count: int, last: int = 0) -> None:
        """Ticks that answer nothing, but for the last."""
        for _ in range(count - 1):
            self.ok(self.tick, gives=[0])
        self.ok(self.tick, gives=[last])

    # plans

    def plans(self, index: int, *payloads: bytes) -> None:
        """A plan of these payloads, all of which are accepted."""
        self.ok(self.plan, index, model.block(payloads), gives=[len(payloads), 0])

    def stops(self, index: int, *payloads: bytes, by: int, after: int = 0) -> None:
        """A plan of these payloads, stopped by this refusal after so many were accepted."""
        self.ok(self.plan, index, model.block(payloads), gives=[after, by])

    # arrivals at a sender

    def ack(self, index: int, sequence: int, what: int, *value: int) -> None:
        self.ok(self.arrival, self.frame(index, ACKNOWLEDGE, sequence), gives=[what, index, *value])

    def passes(self, index: int, sequence: int, count: int) -> None:
        self.ack(index, sequence, model.ACKNOWLEDGED, count)

    def ignores(self, index: int, sequence: int) -> None:
        self.ack(index, sequence, model.IGNORED)

    def opens(self, index: int) -> None:
        """Acknowledgement 0 opens it."""
        self.ack(index, 0, model.OPENED)

    # arrivals at a receiver

    def reset(self, index: int, held: int = 0) -> None:
        self.ok(self.arrival, self.frame(index, RESET, 0), gives=[model.TOOK_RESET, index, held])

    def data(self, index: int, sequence: int, payload: bytes, *delivered: bytes) -> None:
        block = model.block(delivered)
        self.ok(self.arrival, self.frame(index, DATA, sequence, payload),
                gives=[model.TOOK_DATA, index, len(block)] + list(block))

    def urgently(self, index: int, payload: bytes, sequence: int = 0) -> None:
        block = model.block([payload])
        self.ok(self.arrival, self.frame(index, URGENT, sequence, payload),
                gives=[model.TOOK_URGENT, index, len(block)] + list(block))

    # longer ways

    def up(self, *indices: int) -> None:
        """Opens each entry and brings it to Open; nothing waits afterwards that did not before."""
        for index in indices:
            self.ok(self.open, index)
            if self.node.ends[index].entry.kind == SENDS:
                self.out(index, RESET, 0)
                self.opens(index)
            else:
                self.reset(index)
                self.out(index, ACKNOWLEDGE, 0)

    def send_out(self, index: int, *sequences: int) -> None:
        """Sends and hands out a payload for each number, which are the next, and reports the ends."""
        for sequence in sequences:
            self.ok(self.send, index, b"%d" % sequence)
            self.out(index, DATA, sequence, b"%d" % sequence)

    def confirm(self, index: int, first: int, last: int) -> None:
        """Numbers, counted without folding, sent, handed out and acknowledged one by one."""
        for number in range(first, last + 1):
            self.send_out(index, number % 256)
            self.passes(index, number % 256, 1)

    def deliver(self, index: int, first: int, last: int) -> None:
        """Numbers, counted without folding, taken in in order and acknowledged."""
        for number in range(first, last + 1):
            self.data(index, number % 256, b"%d" % number, b"%d" % number)
            self.out(index, ACKNOWLEDGE, number % 256)


def corner(make: Callable[[Corner], None]) -> Callable[[Corner], None]:
    """A trace at one node."""
    def build() -> list[Corner]:
        trace = Corner(make.__name__)
        make(trace)
        return [trace]
    CORNERS[make.__name__] = build
    return make


def double(make: Callable[[], list[Corner]]) -> Callable[[], list[Corner]]:
    """Traces at two nodes; `make` gives them."""
    CORNERS[make.__name__] = make
    return make
