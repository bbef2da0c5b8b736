"""What happened at a node, record by record: a trace with the answers of the node that `desk` runs."""
from __future__ import annotations

from dataclasses import dataclass, field

from comparison import model
from traces import files, words
from traces.files import Record

WRONG_FRAME = 10  # the refusal of a frame that was damaged on its way
NOTHING = "nothing waits"
MOST_LISTED = 30  # characters of payloads in a line


@dataclass
class Frame:
    """A frame as somebody reads it who stands beside the link."""
    data: bytes

    @property
    def name(self) -> str:
        """Its type and number; an Urgent and a Reset have none."""
        if not model.is_sound(self.data) or self.data[3] not in words.TYPE_NAMES:
            return "frame of %d bytes" % len(self.data)
        kind = words.TYPE_NAMES[self.data[3]]
        return "%s %d" % (kind, self.number) if self.data[3] in words.NUMBERED else kind

    @property
    def type(self) -> str:
        sound = len(self.data) > 3 and self.data[3] in words.TYPE_NAMES
        return words.TYPE_NAMES[self.data[3]] if sound else ""

    @property
    def number(self) -> int:
        return self.data[7]

    @property
    def channel(self) -> int:
        return self.data[6] if len(self.data) > 6 else 0

    @property
    def ends(self) -> tuple[int, int]:
        """From whom and to whom."""
        return (self.data[2], self.data[0]) if len(self.data) > 2 else (0, 0)


@dataclass
class Event:
    """A record with its answer: what the host or the driver sees of it, and the frame that went out or came in."""
    side: int
    number: int  # of the record, from 1
    tick: int  # how many ticks have passed
    words: str = ""
    refused: int = 0
    delivered: bool = False
    out: Frame | None = None
    arrived: Frame | None = None
    again: bool = False  # a frame that has gone out before
    begun: Event | None = field(default=None, compare=False)  # of a report, the handing out of the frame that has ended
    ended: Event | None = field(default=None, compare=False)  # of a handing out, the report of that frame's end, if any
    starts: dict[int, int] = field(default_factory=dict)  # by channel, where a window starts now that moved
    ticks: int = 0

    @property
    def key(self) -> tuple[int, int]:
        return self.side, self.number

    @property
    def idle(self) -> bool:
        return self.words == NOTHING

    @property
    def at_once(self) -> bool:
        """A report that is the next record behind its handing out."""
        return self.begun is not None and self.number == self.begun.number + 1

    @property
    def out_data(self) -> bytes:
        return self.out.data if self.out else b""

    @property
    def arrived_data(self) -> bytes:
        return self.arrived.data if self.arrived else b""


class End:
    """What the picture has to know of an end point."""

    def __init__(self, entry: model.Entry) -> None:
        self.entry = entry
        self.restart()

    def restart(self) -> None:
        self.start, self.next = 1, 1
        self.seen: set[int] = set()  # numbers from the start on: of a sender handed out, of a receiver held
        self.reset_out = False

    def passes(self, count: int) -> None:
        for _ in range(count):
            self.seen.discard(self.start)
            self.start = (self.start + 1) % 256


def payload_words(payload: bytes) -> str:
    """As text where it is text, else in hexadecimal; a long one is cut."""
    if not payload:
        return "(empty)"
    shown = payload.decode("ascii") if all(32 <= b < 127 for b in payload) else payload.hex(" ")
    return shown if len(shown) <= 20 else shown[:18] + "…"


def listed(shown: list[str]) -> str:
    """Payloads, as many as a line of the picture has room for; else how many, with the first and the last."""
    for words_of_all in (", ".join(shown), "%d: %s to %s" % (len(shown), shown[0], shown[-1])):
        if len(words_of_all) <= MOST_LISTED:
            return words_of_all
    return "%d payloads" % len(shown)


class Reader:
    """Goes through a trace and its answers."""

    def __init__(self, side: int, records: list[Record], answers: list[list[int]]) -> None:
        self.side, self.tick = side, 0
        self.under_way: Event | None = None  # the handing out whose frame has not ended
        self.own = words.Side(records[0].data).own
        try:
            self.ends = list(map(End, model.read_table(records[0].data)[2]))
        except model.Refused:
            self.ends = []
        self.events = [self.event(number, record, answer)
                       for number, (record, answer) in enumerate(zip(records, answers), 1)]

    def event(self, number: int, record: Record, answer: list[int]) -> Event:
        event = Event(self.side, number, self.tick, refused=answer[0])
        if record.kind == files.ARRIVAL:
            self.arrival(event, Frame(record.data), answer)
        elif record.kind == files.HAND_OUT:
            self.hand_out(event, answer)
        elif record.kind == files.REPORT:
            self.report(event)
        elif record.kind == files.TICK:
            self.ticked(event, answer[1])
        else:
            self.called(event, record)
        if event.refused:
            event.words = ("%s refused %d" % (event.words, event.refused)).strip()
        return event

    def moved(self, event: Event, end: End) -> None:
        event.starts[end.entry.channel] = end.start

    def called(self, event: Event, record: Record) -> None:
        """A call of the host's."""
        name = files.NAMES[record.kind]
        if record.kind == files.TABLE:
            event.words = "table, %d entries" % len(self.ends) if not event.refused else "table"
            return
        end = self.ends[record.index] if record.index < len(self.ends) else None
        event.words = "%s %d" % (name, record.index) if end is None else "%s %d" % (name, end.entry.channel)
        if record.kind in files.TAKES_BYTES:
            event.words += ": " + payload_words(record.data)
        if end is None or event.refused:
            return
        if record.kind == files.SEND:
            event.words += " as %d" % end.next
            end.next = (end.next + 1) % 256
        elif record.kind in (files.OPEN, files.CLOSE):
            end.restart()

    def ticked(self, event: Event, enabled: int) -> None:
        self.tick += 1
        event.ticks = 1
        for k, end in enumerate(self.ends):
            if enabled >> k & 1:
                event.words = "%d failed, Enabled again" % end.entry.channel
                end.restart()
                self.moved(event, end)

    def find(self, sends: bool, remote: int, channel: int) -> End:
        kind = model.SENDS if sends else model.RECEIVES
        return next((end for end in self.ends if end.entry[:3] == (kind, remote, channel)), End(model.Entry(*[0] * 7)))

    def hand_out(self, event: Event, answer: list[int]) -> None:
        if event.refused or answer[1] == 0:
            event.words = "hand out" if event.refused else NOTHING
            return
        frame = Frame(bytes(answer[2:]))
        event.out = frame
        self.under_way = event
        end = self.find(frame.type != "Acknowledge", frame.data[0], frame.channel)
        if frame.type == "Data":
            event.again = frame.number in end.seen
            end.seen.add(frame.number)
        elif frame.type == "Reset":
            event.again, end.reset_out = end.reset_out, True

    def report(self, event: Event) -> None:
        """The end of the frame under way, in words where it does not follow at once."""
        if self.under_way is None or event.refused:
            event.words = "report"
            return
        event.begun, self.under_way.ended = self.under_way, event
        if self.under_way.out and not event.at_once:
            event.words = self.under_way.out.name + " has left"
        self.under_way = None

    def arrival(self, event: Event, frame: Frame, answer: list[int]) -> None:
        event.arrived = frame
        if event.refused:
            event.words = "byte %d," % answer[1] if len(answer) > 1 else ""
            return
        what, end = answer[1], self.ends[answer[2]]
        if what == model.IGNORED:
            event.words = "ignored"
        elif what == model.ACKNOWLEDGED:
            end.passes(answer[3])
            event.words = "confirms %d" % answer[3]
            if answer[3]:
                self.moved(event, end)
        elif what in (model.OPENED, model.TOOK_RESET):
            end.restart()
            event.words = "Open"
            self.moved(event, end)
        else:
            self.delivers(event, end, what, bytes(answer[4:]), frame)

    def delivers(self, event: Event, end: End, what: int, block: bytes, frame: Frame) -> None:
        payloads = model.payloads_of(block)
        event.delivered = bool(payloads)
        if what == model.TOOK_DATA:
            inside = (frame.number - end.start) % 256 < end.entry.window
            event.words = "holds %d" % frame.number if inside and frame.number not in end.seen else "had it already"
            end.seen |= {frame.number} if inside else set()
            end.passes(len(payloads))
            if payloads:
                self.moved(event, end)
        if payloads:
            event.words = "delivers " + listed([payload_words(payload) for payload in payloads])


def answers_of(text: str) -> list[list[int]]:
    """What `desk` printed, a list a record: the refusal or 0, then what came back."""
    return [list(map(int, line.split()[2:])) for line in text.splitlines()]


def events_of(side: int, data: bytes, printed: str) -> Reader:
    """The events of a trace file, with what `desk` printed on its records; a table that is refused ends it."""
    records, answers = files.unpack(data), answers_of(printed)
    if answers[0][0]:
        records = records[:1]
    return Reader(side, records, answers)
