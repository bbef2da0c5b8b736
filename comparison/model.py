"""A node and its desk as papers 01 and 02 describe them, in plain Python: makes the traces, and is a third opinion on
answers.

Written for the reader, not for speed, and with no lent memory: the desk's store, block and frame buffers are always
long enough, so refusal 6 is never given here."""
from __future__ import annotations

import collections
import functools
from collections.abc import Callable, Iterator, Sequence
from typing import Any, NamedTuple

SENDS, RECEIVES = 0, 1
CLOSED, ENABLED, OPEN, FAILING = "Closed", "Enabled", "Open", "Failing"
DATA, ACKNOWLEDGE, RESET, URGENT = range(4)
# what an arrival was
IGNORED, ACKNOWLEDGED, OPENED, TOOK_RESET, TOOK_DATA, TOOK_URGENT = range(6)
# the five sorts of frame that wait, in the order of handing out
SORTS = ACKS, RESETS, URGENTS, AGAIN, FIRST = range(5)
SORT_NAMES = ("acknowledgement", "Reset", "Urgent", "retransmission", "data")
# the desk's kinds of record
TABLE_CALL, OPEN_CALL, CLOSE_CALL, SEND_CALL, URGENT_CALL, ARRIVAL_CALL, TICK_CALL, HAND_OUT_CALL = range(1, 9)
REPORT_CALL, PLAN_CALL = 9, 10
COUNTS_CALL = 20

DEFAULT_WINDOW = 8  # what a window of 0 stands for (02, K5)
MOST_ENTRIES = 16
MOST_STORE = 32768
MOST_PAYLOAD = 65520
MOST_ACCEPTED = 4294967295
MOST_ACKS = 32
MOST_PLANNED = 64
MOST_STREAM = 65536
OVERHEAD = 9
EMPTY_BLOCK = 6  # bytes of a block of no payloads
POLYNOMIAL = 0x107  # x^8 + x^2 + x + 1
CHECK_START = 0xFF

# the faults of a header by their refusals, and the byte where each sits
UNKNOWN_TYPE, USER_BITS, WRONG_LENGTH, WRONG_SEQUENCE = 15, 16, 17, 18
FAULT_BYTE = {UNKNOWN_TYPE: 3, USER_BITS: 3, WRONG_LENGTH: 4, WRONG_SEQUENCE: 7}


class Refused(Exception):
    """A call that is refused; nothing has altered."""

    def __init__(self, number: int) -> None:
        super().__init__(number)
        self.number = number


def refuse_if(condition: object, number: int) -> None:
    if condition:
        raise Refused(number)


# 1. THE WIRE (01, "The frame"; 02, K4)


def times_x(value: int) -> int:
    """One bit's step: times x, modulo the polynomial."""
    return value << 1 ^ (POLYNOMIAL if value & 0x80 else 0)


@functools.cache  # each of the 256 is asked for over and over
def eight_steps(value: int) -> int:
    for _ in range(8):
        value = times_x(value)
    return value


def check(data: bytes | bytearray) -> int:
    value = CHECK_START
    for byte in data:
        value = eight_steps(value ^ byte)
    return value


def two(number: int) -> bytes:
    return number.to_bytes(2, "big")


def frame(destination: int, protocol: int, source: int, control: int, channel: int, sequence: int,
          payload: bytes = b"") -> bytes:
    """A frame with a fitting length and check byte, whatever its fields are."""
    body = bytes((destination, protocol, source, control)) + two(len(payload)) + bytes((channel, sequence)) + payload
    return body + bytes((check(body),))


def is_sound(data: bytes) -> bool:
    """Refusal 10's three tests."""
    return len(data) >= OVERHEAD and int.from_bytes(data[4:6], "big") + OVERHEAD == len(data) and check(data) == 0


def faults_of(control: int, length: int, sequence: int) -> list[int]:
    """What in a header is against the frame rules, in the order of the tests (02, K1). A type that is none asks nothing
    of length and sequence."""
    user, kind = divmod(control, 16)
    carries = kind in (DATA, URGENT)
    tests = ((UNKNOWN_TYPE, kind > URGENT), (USER_BITS, user != 0),
             (WRONG_LENGTH, kind <= URGENT and not (1 <= length <= MOST_PAYLOAD if carries else length == 0)),
             (WRONG_SEQUENCE, kind == RESET and sequence != 0))
    return [fault for fault, fits in tests if fits]


def first_payload(count: int) -> int:
    """Where the payloads of a block start: right after its offsets."""
    return EMPTY_BLOCK + 4 * count


def block(payloads: Sequence[bytes]) -> bytes:
    """The host's block: count, offsets, payloads."""
    at = first_payload(len(payloads))
    out = two(len(payloads)) + at.to_bytes(4, "big")
    for payload in payloads:
        at += len(payload)
        out += at.to_bytes(4, "big")
    return out + b"".join(payloads)


def offsets_of(data: bytes) -> list[int]:
    """One more than a block counts: the last is its end."""
    count = int.from_bytes(data[:2], "big")
    return [int.from_bytes(data[2 + 4 * k:6 + 4 * k], "big") for k in range(count + 1)]


def payloads_of(data: bytes) -> list[bytes]:
    """What a block holds: the other way round."""
    at = offsets_of(data)
    return [data[start:end] for start, end in zip(at, at[1:])]


def faults_of_plan(data: bytes) -> list[str]:
    """What in a plan's block is against its form (02, K6). One that is too short has no offsets to ask about."""
    if len(data) < EMPTY_BLOCK:
        return ["shorter than 6 bytes"]
    count = int.from_bytes(data[:2], "big")
    faults = ["a count above 64"] if count > MOST_PLANNED else []
    first, end = first_payload(count), len(data)
    if end < first:
        return faults + ["shorter than its count asks"]
    at = offsets_of(data)
    tests = (("the first offset too low", at[0] < first), ("the first offset too high", at[0] > first),
             ("an offset falls", any(later < earlier for earlier, later in zip(at, at[1:]))),
             ("the last offset before the end", at[-1] < end), ("the last offset beyond the end", at[-1] > end))
    return faults + [fault for fault, fits in tests if fits]


# 2. THE CHANNEL TABLE (01, "The channel table")


class Entry(NamedTuple):
    kind: int
    remote: int
    channel: int
    retries: int
    window: int
    largest: int
    timeout: int


def table(own: int, protocol: int, entries: Sequence[Entry]) -> bytes:
    """A table's bytes; an entry's window is written as it stands, 0 for the default."""
    out = two(len(entries)) + two(8) + bytes((own, protocol, 0, 0))
    for e in entries:
        out += bytes((e.kind, e.remote, e.channel, e.retries))
        out += two(e.window) + two(e.largest) + two(e.timeout) + bytes(2)
    return out


def is_address(byte: int) -> bool:
    return 32 <= byte <= 254


def is_window(size: int) -> bool:
    return size.bit_count() <= 1 and size <= 128


def _read_entry(data: bytes) -> Entry:
    words = [int.from_bytes(data[k:k + 2], "big") for k in (4, 6, 8, 10)]
    e = Entry(data[0], data[1], data[2], data[3], *words[:3])
    refuse_if(e.kind > 1 or not is_address(e.remote) or words[3] != 0, 1)
    refuse_if(not is_window(e.window) or not 1 <= e.largest <= 32768, 1)
    refuse_if(e.timeout == 0 if e.kind == SENDS else e.timeout or e.retries, 1)
    return e._replace(window=e.window or DEFAULT_WINDOW)


def store_of(e: Entry) -> int:
    return (e.window + 1 if e.kind == SENDS else e.window) * e.largest


def read_table(data: bytes) -> tuple[int, int, list[Entry]]:
    """Own address, protocol ID and entries with the windows in force, or refusal 1."""
    refuse_if(len(data) < 8, 1)
    count = int.from_bytes(data[:2], "big")
    refuse_if(count > MOST_ENTRIES or len(data) != 8 + 12 * count or data[2:4] != two(8) or data[6:8] != bytes(2), 1)
    refuse_if(not is_address(data[4]) or data[5] == 0, 1)
    entries = [_read_entry(data[8 + 12 * k:20 + 12 * k]) for k in range(count)]
    refuse_if(len({(e.kind, e.remote, e.channel) for e in entries}) < count, 1)
    refuse_if(sum(store_of(e) for e in entries) > MOST_STORE, 1)
    return data[4], data[5], entries


# 3. THE END POINTS (01, "End points")


class Number:
    """A sequence number that a sender has taken for a payload; taken again, of a later payload, it is another."""

    def __init__(self, sequence: int, payload: bytes) -> None:
        self.sequence, self.payload = sequence, payload
        self.handed_out = self.acknowledged = False
        self.timer = self.retries = 0


class End:
    """What both kinds share: the entry, the state, where the window starts."""

    name: str
    start: int

    def __init__(self, entry: Entry) -> None:
        self.entry, self.state = entry, CLOSED
        self.run = 0  # how often it has become Enabled
        self.clear()

    def clear(self) -> None:
        """Becoming Closed or Enabled."""
        raise NotImplementedError

    def distance(self, sequence: int) -> int:
        return (sequence - self.start) % 256


class Sender(End):
    name = "sender"

    def __init__(self, entry: Entry) -> None:
        super().__init__(entry)
        self.accepted = self.confirmed = 0

    def clear(self) -> None:
        """The counts are kept."""
        self.start = 1
        self.taken: list[Number] = []  # from the start on
        self.reset_timer = 0
        self.reset_went_out = False

    def running(self, but: Number | None = None) -> bool:
        return any(number.timer for number in self.taken if number is not but)


class Receiver(End):
    name = "receiver"

    def clear(self) -> None:
        self.start = 1
        self.held: dict[int, bytes] = {}  # by sequence number

    def take_run(self) -> list[bytes]:
        """The held payloads from the start on without a gap; the start passes them."""
        run = []
        while self.start in self.held:
            run.append(self.held.pop(self.start))
            self.start = (self.start + 1) % 256
        return run


AnyEnd = Sender | Receiver


class Astray(Exception):
    """Other timers have ended than were due."""


Seen = collections.Counter[Any]  # by a word for what happened, or by the kind of a call and its refusal
TimerOf = tuple[int, Number | None]  # an entry's index, and the number that it runs for or None for the Reset's


class Running(NamedTuple):
    """A timer that runs."""
    due: int
    place: int  # how many had started before it
    timeout: int


class Timers:
    """A bystander of the running timers, for coverage: what comes of them is counted in `seen`.

    Each is kept as the tick at which it is due, so that taking timers down by one is held against counting ticks."""

    def __init__(self, seen: Seen) -> None:
        self.seen, self.now, self.started = seen, 0, 0
        self.running: dict[TimerOf, Running] = {}
        self.missed: set[int] = set()  # the ticks at which timers that were stopped would have been due

    def start(self, index: int, number: Number | None, timeout: int) -> None:
        self.running[index, number] = Running(self.now + timeout, self.started, timeout)
        self.started += 1
        self.seen["a timer of T 65,535 starts"] += timeout == 65535

    def stop(self, index: int, number: Number | None) -> None:
        """An acknowledgement stops it, if it runs."""
        timer = self.running.pop((index, number), None)
        if timer is None:
            return
        self.missed.add(timer.due)
        first = bool(self.running) and timer.due < min(other.due for other in self.running.values())
        self.seen["acknowledgement stops the first timer due of several"] += first

    def forget(self, index: int) -> None:
        """Those of an entry are gone."""
        for key in [key for key in self.running if key[0] == index]:
            self.missed.add(self.running.pop(key).due)

    def tick(self, ended: list[TimerOf], enabled: int) -> None:
        """A tick in which these timers have ended, in this order, and so many entries became Enabled."""
        self.now += 1
        due = {key: timer for key, timer in self.running.items() if timer.due == self.now}
        for key in due:
            del self.running[key]
        if set(ended) != set(due):
            raise Astray("tick %d" % self.now)
        self.count_ended([(index, due[index, number]) for index, number in ended])
        if not ended:
            missed = self.now in self.missed
            self.seen["a stopped timer's tick ends none of those that run"] += missed and bool(self.running)
            self.seen["recovery in a tick at which no timer was due, stopped or not"] += enabled * (not missed)

    def count_ended(self, timers: list[tuple[int, Running]]) -> None:
        """Of (entry index, timer)."""
        entries = [index for index, _ in timers]
        self.seen["several timers of an entry end in one tick"] += len(entries) > len(set(entries))
        self.seen["timers of several entries end in one tick"] += len(set(entries)) > 1
        self.seen["timers end in one tick in another order than they started"] += any(
            a[0] == b[0] and a[1].place > b[1].place for a, b in zip(timers, timers[1:]))
        for _, timer in timers:
            self.seen["a timer of T 1 ends"] += timer.timeout == 1
            overtakes = any(timer.place > other.place for other in self.running.values())
            self.seen["a timer ends before one that started earlier"] += overtakes


# 4. THE NODE


# what is needed to write a frame that waits: by its sort a sequence number, nothing, a payload, a Number
What = Any


class UnderWay(NamedTuple):
    """The frame that was handed out last, until the port reports its end (02, K3): what it was while it waited, whose
    it is, and its owner's run at handing out."""
    sort: int
    owner: int
    what: What
    run: int


class Node:
    """A node with its calls, each of which gives a list of numbers or raises Refused.

    `seen` counts what happened, for coverage."""

    def __init__(self) -> None:
        self.own = self.protocol = 0
        self.ends: list[AnyEnd] = []
        self.waiting: list[list[tuple[int, What]]] = [[] for _ in SORTS]  # of (entry index, ...)
        self.under_way: UnderWay | None = None
        self.seen: Seen = collections.Counter()
        self.timers = Timers(self.seen)

    # what waits

    def wait(self, sort: int, index: int, what: What = None) -> None:
        self.waiting[sort].append((index, what))

    def drop(self, index: int, *sorts: int) -> None:
        for sort in sorts:
            self.waiting[sort] = [item for item in self.waiting[sort] if item[0] != index]

    def waits(self, sort: int, index: int) -> bool:
        return any(item[0] == index for item in self.waiting[sort])

    def is_under_way(self, index: int) -> bool:
        """Whether the frame under way is this entry's."""
        return self.under_way is not None and self.under_way.owner == index

    # changes of state

    def turn(self, end: AnyEnd, state: str) -> None:
        self.seen["%s %s to %s" % (end.name, end.state, state)] += 1
        end.state = state

    def enable(self, index: int, end: AnyEnd) -> None:
        self.turn(end, ENABLED)
        end.clear()
        end.run += 1
        if isinstance(end, Sender):
            self.wait(RESETS, index)

    def fail(self, index: int, end: Sender) -> None:
        for sort, name in ((URGENTS, "an Urgent"), (FIRST, "data"), (AGAIN, "a retransmission")):
            self.seen["failing drops " + name] += self.waits(sort, index)
        self.turn(end, FAILING)
        self.drop(index, URGENTS, AGAIN, FIRST)

    # the host's calls

    def end(self, index: int) -> AnyEnd:
        refuse_if(index >= len(self.ends), 2)
        return self.ends[index]

    def sender(self, index: int) -> Sender:
        end = self.end(index)
        if not isinstance(end, Sender):
            raise Refused(3)
        return end

    def setup(self, data: bytes) -> list[int]:
        self.own, self.protocol, entries = read_table(data)
        self.ends = [Sender(e) if e.kind == SENDS else Receiver(e) for e in entries]
        self.waiting = [[] for _ in SORTS]
        self.seen["setup while a frame is under way"] += self.under_way is not None
        self.under_way = None
        self.seen["setup while timers run"] += bool(self.timers.running)
        self.timers = Timers(self.seen)
        return []

    def open(self, index: int) -> list[int]:
        end = self.end(index)
        refuse_if(end.state != CLOSED, 4)
        self.enable(index, end)
        return []

    def close(self, index: int) -> list[int]:
        """Its frame under way stays so until its end is reported."""
        end = self.end(index)
        refuse_if(end.state == CLOSED, 4)
        self.seen["close of an end whose frame is under way"] += self.is_under_way(index)
        self.turn(end, CLOSED)
        end.clear()
        self.drop(index, *SORTS)
        self.timers.forget(index)
        return []

    def counts(self, index: int) -> list[int]:
        end = self.sender(index)
        return [end.accepted, end.confirmed]

    def send(self, index: int, payload: bytes) -> list[int]:
        end = self.sender(index)
        refuse_if(end.state != OPEN, 4)
        refuse_if(not 1 <= len(payload) <= end.entry.largest, 5)
        refuse_if(end.accepted == MOST_ACCEPTED, 8)
        refuse_if(len(end.taken) == end.entry.window, 7)
        number = Number((end.start + len(end.taken)) % 256, payload)
        end.taken.append(number)
        end.accepted += 1
        self.wait(FIRST, index, number)
        return []

    def plan(self, index: int, data: bytes) -> list[int]:
        """How many of a block's payloads were accepted, and the refusal that stopped the rest or 0 (02, K6). Such a
        stop is no refused call: what was accepted before it stays, and nothing is counted as a send's refusal."""
        self.refuse_malformed(faults_of_plan(data))
        payloads = payloads_of(data)
        accepted, stopped = self.send_all(index, payloads)
        self.count_plan(index, len(payloads), accepted, stopped)
        return [accepted, stopped]

    def refuse_malformed(self, faults: list[str]) -> None:
        """Before everything, the index too. A fault is counted where it is the only one: else another could be what the
        block was refused for."""
        if len(faults) == 1:
            self.seen["plan malformed: " + faults[0]] += 1
        refuse_if(faults, 22)

    def send_all(self, index: int, payloads: list[bytes]) -> tuple[int, int]:
        """Single sends in order, up to and including the first that is refused; of no payloads none is made."""
        for accepted, payload in enumerate(payloads):
            try:
                self.send(index, payload)
            except Refused as refused:
                return accepted, refused.number
        return len(payloads), 0

    def count_plan(self, index: int, count: int, accepted: int, stopped: int) -> None:
        """What became of a plan, for coverage."""
        if not count:
            self.seen["plan empty" if index < len(self.ends) else "plan empty, at an index of no entry"] += 1
        elif stopped:
            where = "its first" if not accepted else "its last" if accepted + 1 == count else "a middle"
            self.seen["plan stopped by %d at %s payload" % (stopped, where)] += 1
        else:
            self.seen["plan accepted whole"] += 1
            self.seen["plan of 64 payloads accepted whole"] += count == MOST_PLANNED
        if accepted:
            self.count_planned(self.sender(index), accepted, stopped)

    def count_planned(self, end: Sender, accepted: int, stopped: int) -> None:
        """What became of the payloads that were accepted, for coverage."""
        self.seen["plan accepted whole fills the window"] += len(end.taken) == end.entry.window and not stopped
        sequences = [number.sequence for number in end.taken[len(end.taken) - accepted:]]
        self.seen["plan's numbers fold"] += 0 in sequences[1:]
        self.seen["plan accepted while a frame is under way"] += self.under_way is not None

    def urgent(self, index: int, payload: bytes) -> list[int]:
        end = self.sender(index)
        refuse_if(end.state != OPEN, 4)
        refuse_if(not 1 <= len(payload) <= end.entry.largest, 5)
        refuse_if(self.waits(URGENTS, index), 9)
        self.wait(URGENTS, index, payload)
        return []

    # arrival

    def find(self, kind: type[End], source: int, channel: int) -> int:
        for index, end in enumerate(self.ends):
            if isinstance(end, kind) and (end.entry.remote, end.entry.channel) == (source, channel):
                return index
        raise Refused(13)

    def refuse_faults(self, faults: list[int]) -> None:
        """The first fault is told; the others are counted as those that it hides."""
        for hidden in faults[1:]:
            self.seen["fault %d before %d" % (faults[0], hidden)] += 1
        if faults:
            raise Refused(faults[0])

    def admit(self, data: bytes) -> int:
        """The index of the entry that takes the frame in, or the refusal; alters nothing."""
        refuse_if(not is_sound(data), 10)
        destination, protocol, source, control, _, _, channel, sequence = data[:8]
        length = len(data) - OVERHEAD
        refuse_if((destination, protocol) != (self.own, self.protocol), 11)
        self.refuse_faults(faults_of(control, length, sequence))
        index = self.find(Sender if control == ACKNOWLEDGE else Receiver, source, channel)
        end = self.ends[index]
        refuse_if(end.state == CLOSED or control in (DATA, URGENT) and end.state == ENABLED, 13)
        refuse_if(length > end.entry.largest, 5)
        refuse_if(control in (DATA, RESET) and len(self.waiting[ACKS]) == MOST_ACKS, 14)
        return index

    def refusal_of(self, data: bytes) -> int:
        """The number with which an arriving frame would be refused, or 0."""
        try:
            self.admit(data)
        except Refused as refused:
            return refused.number
        return 0

    def arrival(self, data: bytes) -> list[int]:
        index = self.admit(data)
        what, *value = self.take_in(index, data)
        return [what, index] + value

    def take_in(self, index: int, data: bytes) -> list[int]:
        """What the frame was to its entry, and the value of that."""
        end, control, sequence, payload = self.ends[index], data[3], data[7], data[8:-1]
        if isinstance(end, Sender):  # of an acknowledgement alone
            return self.acknowledged(index, end, sequence)
        if control == RESET:
            return self.take_reset(index, end)
        if control == URGENT:
            self.seen["Urgent delivered"] += 1
            return [TOOK_URGENT] + self.block_fields([payload])
        return self.take_data(index, end, sequence, payload)

    def block_fields(self, payloads: list[bytes]) -> list[int]:
        data = block(payloads)
        return [len(data)] + list(data)

    def acknowledged(self, index: int, end: Sender, sequence: int) -> list[int]:
        if end.state == ENABLED:
            return self.opened(index, end, sequence)
        distance = end.distance(sequence)
        if distance >= end.entry.window or distance >= len(end.taken):
            return self.ignored(end, "outside")
        number = end.taken[distance]
        if number.acknowledged or not number.handed_out:
            return self.ignored(end, "again" if number.acknowledged else "not handed out")
        self.seen["acknowledgement stops a waiting retransmission"] += (index, number) in self.waiting[AGAIN]
        self.waiting[AGAIN] = [item for item in self.waiting[AGAIN] if item != (index, number)]
        under_way = self.under_way is not None and self.under_way.what is number
        self.seen["acknowledgement before the report counts"] += under_way
        stops_last = number.timer and not end.running(but=number)
        self.seen["acknowledgement at Failing stops the last timer"] += bool(end.state == FAILING and stops_last)
        self.timers.stop(index, number)
        number.acknowledged, number.timer = True, 0
        passed = 0
        while end.taken and end.taken[0].acknowledged:
            self.seen["sender's start folds"] += end.start == 255
            end.taken.pop(0)
            end.start = (end.start + 1) % 256
            passed += 1
        end.confirmed += passed
        self.seen["acknowledgement at %s passes %s" % (end.state, passed if passed < 2 else "more")] += 1
        return [ACKNOWLEDGED, passed]

    def ignored(self, end: Sender, why: str) -> list[int]:
        self.seen["acknowledgement at %s ignored, %s" % (end.state, why)] += 1
        return [IGNORED]

    def opened(self, index: int, end: Sender, sequence: int) -> list[int]:
        if sequence != 0 or not end.reset_went_out:
            return self.ignored(end, "not 0" if sequence else "no Reset out")
        self.seen["acknowledgement 0 removes a waiting Reset"] += self.waits(RESETS, index)
        self.seen["acknowledgement 0 before the report opens"] += self.is_under_way(index)
        self.turn(end, OPEN)
        end.clear()
        end.accepted = end.confirmed = 0
        self.drop(index, RESETS)
        self.timers.stop(index, None)
        return [OPENED]

    def take_reset(self, index: int, end: Receiver) -> list[int]:
        held = len(end.held)
        self.seen["Reset drops waiting acknowledgements"] += self.waits(ACKS, index)
        self.seen["Reset drops held payloads"] += held > 0
        self.turn(end, OPEN)
        end.clear()
        self.drop(index, ACKS)
        self.wait(ACKS, index, 0)
        return [TOOK_RESET, held]

    def take_data(self, index: int, end: Receiver, sequence: int, payload: bytes) -> list[int]:
        given: list[bytes] = []
        if end.distance(sequence) >= end.entry.window:
            self.seen["Data outside the window"] += 1
        elif sequence in end.held:
            self.seen["Data held already"] += 1
        else:
            before = end.start
            end.held[sequence] = payload
            given = end.take_run()
            self.seen["Data delivers %s" % (len(given) if len(given) < 2 else "more")] += 1
            self.seen["receiver's start folds"] += end.start < before
        self.wait(ACKS, index, sequence)
        return [TOOK_DATA] + self.block_fields(given)

    # handing out, and the report of a frame's end

    def hand_out(self) -> list[int]:
        if self.under_way is not None:
            self.seen["refusal 19, %s waits" % ("something" if any(self.waiting) else "nothing")] += 1
            raise Refused(19)
        for sort in SORTS:
            if self.waiting[sort]:
                index, what = self.waiting[sort].pop(0)
                self.under_way = UnderWay(sort, index, what, self.ends[index].run)
                data = self.write(sort, index, what)
                return [len(data)] + list(data)
        return [0]

    def write(self, sort: int, index: int, what: What) -> bytes:
        """The frame of something that waited."""
        end = self.ends[index]
        control, sequence, payload = DATA, 0, b""
        if sort == ACKS:
            control, sequence = ACKNOWLEDGE, what
        elif sort == RESETS:
            assert isinstance(end, Sender)
            control, end.reset_went_out = RESET, True
        elif sort == URGENTS:
            control, payload = URGENT, what
        else:
            sequence, payload = what.sequence, what.payload
            what.handed_out = True
        self.seen["handed out: " + SORT_NAMES[sort]] += 1
        return frame(end.entry.remote, self.protocol, self.own, control, end.entry.channel, sequence, payload)

    def report(self) -> list[int]:
        """The last byte of the frame under way has left. The timer of a Reset and of data starts now, where an answer
        is still to come."""
        if self.under_way is None:
            raise Refused(20)
        left, self.under_way = self.under_way, None
        end = self.ends[left.owner]
        if isinstance(end, Sender) and self.is_awaited(left, end):
            self.start_timer(left, end)
            self.seen["report starts the timer: " + SORT_NAMES[left.sort]] += 1
            self.seen["report starts the timer of data that was under way when its end failed"] += end.state == FAILING
        else:
            self.seen["report starts nothing: " + self.why_nothing(left, end)] += 1
        recovers = isinstance(end, Sender) and end.state == FAILING and not end.running()
        self.seen["report lets a Failing end recover at the next tick"] += recovers
        return []

    def is_awaited(self, left: UnderWay, end: Sender) -> bool:
        """Whether an answer to a frame that has left is still to come: to a Reset while its end is Enabled in the same
        run, to data while its number, the very one, is taken and not acknowledged."""
        if left.sort == RESETS:
            return end.state == ENABLED and end.run == left.run
        return left.sort in (AGAIN, FIRST) and left.what in end.taken and not left.what.acknowledged

    def start_timer(self, left: UnderWay, end: Sender) -> None:
        if left.sort == RESETS:
            end.reset_timer = end.entry.timeout
        else:
            left.what.timer = end.entry.timeout
        self.timers.start(left.owner, left.what, end.entry.timeout)

    def why_nothing(self, left: UnderWay, end: AnyEnd) -> str:
        """What was under way, and what became of it meanwhile, for coverage."""
        if not isinstance(end, Sender) or left.sort == URGENTS:
            return SORT_NAMES[left.sort]
        name = "Reset" if left.sort == RESETS else "data"
        if end.state == CLOSED or end.run != left.run:
            return name + (", closed" if end.state == CLOSED else ", closed and opened again") + " meanwhile"
        slots = [number.sequence % end.entry.window for number in end.taken if number is not left.what]
        if left.sort != RESETS and left.what.sequence % end.entry.window in slots:
            return name + ", acknowledged and its slot taken meanwhile"
        return name + ", acknowledged meanwhile"

    # ticks

    def tick(self) -> list[int]:
        senders = [(index, end) for index, end in enumerate(self.ends) if isinstance(end, Sender)]
        failing = {index for index, end in senders if end.state == FAILING}
        ended: list[TimerOf] = []
        for index, end in senders:
            if end.state == ENABLED:
                ended += self.tick_reset(index, end)
            for number in list(end.taken):
                ended += self.tick_number(index, end, number)
        failed = {index for index, end in senders if end.state == FAILING} - failing
        enabled = [index for index, end in senders if self.recovers(index, end)]
        for index in enabled:
            self.enable(index, self.ends[index])
            alone = index in failed and self.ends[index].entry.retries == 0 and [i for i, _ in ended].count(index) == 1
            self.seen["failing and recovery in one tick, M 0, one timer"] += alone
        self.timers.tick(ended, len(enabled))
        return [sum(1 << index for index in enabled)]

    def recovers(self, index: int, end: Sender) -> bool:
        """Failing ends when none of the end's timers runs and none of its frames is under way, answered or not."""
        if end.state != FAILING or end.running():
            return False
        if self.under_way is None:
            return True
        if self.under_way.owner != index:
            self.seen["recovery while another entry's frame is under way"] += 1
            return True
        name, number = "Urgent", self.under_way.what
        if self.under_way.sort != URGENTS:
            name = "acknowledged data" if number.acknowledged else "data"
        self.seen["Failing goes on for its own frame under way: " + name] += 1
        return False

    def tick_reset(self, index: int, end: Sender) -> list[TimerOf]:
        """The Reset's timer, if it ends."""
        if not end.reset_timer:
            return []
        end.reset_timer -= 1
        if end.reset_timer:
            return []
        self.seen["Reset's timer ends"] += 1
        self.wait(RESETS, index)
        return [(index, None)]

    def tick_number(self, index: int, end: Sender, number: Number) -> list[TimerOf]:
        """A number's timer, if it ends."""
        if not number.timer:
            return []
        number.timer -= 1
        if number.timer:
            return []
        self.seen["data's timer ends at " + end.state] += 1
        earlier = end.taken[:end.taken.index(number)]
        self.seen["data's timer ends, an earlier number's runs on"] += any(n.timer for n in earlier)
        if end.state == FAILING:
            pass
        elif number.retries < end.entry.retries:
            number.retries += 1
            self.wait(AGAIN, index, number)
        else:
            self.fail(index, end)
        return [(index, number)]


# 5. THE DESK


class Answer(NamedTuple):
    refusal: int
    fields: list[int]


CALLS: dict[int, Callable[[Node, int, bytes], list[int]]] = {
    TABLE_CALL: lambda node, index, data: node.setup(data),
    OPEN_CALL: lambda node, index, data: node.open(index),
    CLOSE_CALL: lambda node, index, data: node.close(index),
    SEND_CALL: lambda node, index, data: node.send(index, data),
    URGENT_CALL: lambda node, index, data: node.urgent(index, data),
    ARRIVAL_CALL: lambda node, index, data: node.arrival(data),
    TICK_CALL: lambda node, index, data: node.tick(),
    HAND_OUT_CALL: lambda node, index, data: node.hand_out(),
    REPORT_CALL: lambda node, index, data: node.report(),
    PLAN_CALL: lambda node, index, data: node.plan(index, data),
    COUNTS_CALL: lambda node, index, data: node.counts(index),
}
CALL_NAMES = {
    TABLE_CALL: "table", OPEN_CALL: "open", CLOSE_CALL: "close", SEND_CALL: "send", URGENT_CALL: "urgent",
    ARRIVAL_CALL: "arrival", TICK_CALL: "tick", HAND_OUT_CALL: "hand out", REPORT_CALL: "report", PLAN_CALL: "plan",
    COUNTS_CALL: "counts",
}


def call(node: Node, kind: int, index: int, data: bytes) -> Answer:
    """One call and its answer; counted by kind and refusal."""
    try:
        answer = Answer(0, CALLS[kind](node, index, data))
    except Refused as refused:
        answer = Answer(refused.number, [FAULT_BYTE[n] for n in (refused.number,) if n in FAULT_BYTE])
    node.seen[(kind, answer.refusal)] += 1
    return answer


def line(number: int, kind: int, answer: Answer) -> str:
    return " ".join(map(str, [number, kind, answer.refusal] + answer.fields)) + "\n"


def records(stream: bytes) -> Iterator[tuple[int, int, bytes, int]]:
    """The whole records of a stream as (kind, index, data, where it ends)."""
    at = 0
    while at + 4 <= len(stream):
        end = at + 4 + int.from_bytes(stream[at + 2:at + 4], "big")
        if end > len(stream):
            return
        yield stream[at], stream[at + 1], stream[at + 4:end], end
        at = end


def desk(stream: bytes) -> str:
    """What the desk writes on a stream."""
    if len(stream) > MOST_STREAM:
        return "too long\n"
    out: list[str] = []
    node, number, end = Node(), 0, 0
    for number, (kind, index, data, end) in enumerate(records(stream), 1):
        if kind not in CALLS:
            return "".join(out) + "unknown %d\n" % number
        out.append(line(number, kind, call(node, kind, index, data)))
    return "".join(out) + ("torn %d\n" % (number + 1) if end < len(stream) else "")
