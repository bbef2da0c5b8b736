#!/usr/bin/python3
"""Outside vectors for the machine of crates/machine: proofs/Vectors.antt, a table of calls, each with what the C peer's
desk writes on it, and the claim that the machine answers the same, which the checker computes.

The calls are one trace on one node, by hand. Every call names its answer, read off paper 01 as in comparison/corners,
and the model (comparison/model.py) must give it; the answers in the table are the peer's. Refusals 6 and 8 are left
out, since a desk cannot be brought to them, and 1, since setup is no call of the machine.
tools/machine_vectors.py           writes the file
tools/machine_vectors.py --check   tests that the file is that, that the trace shows all that it should, and that the
model answers the same"""
import collections
import itertools
import os
import sys

sys.dont_write_bytecode = True  # the source tree stays as it is
sys.path.insert(0, os.path.join(os.path.dirname(os.path.abspath(__file__)), ".."))
from comparison import blocks, coverage, model, programs
from comparison.corners.corner import OWN, PROTOCOL, Corner, rx, tx
from comparison.model import ACKNOWLEDGE, DATA, RESET, URGENT

FILE = "crates/machine/proofs/Vectors.antt"
SCENES = []


def scene(play):
    SCENES.append(play)
    return play


# 1. THE TRACE: one node, three senders and two receivers

FIRST, SECOND = 65, 66  # the remotes
ENTRIES = [
    tx(remote=FIRST, channel=7, retries=1, window=4, largest=3, timeout=1),
    rx(remote=FIRST, channel=7, window=4, largest=3),
    tx(remote=SECOND, channel=7, retries=0, window=2, largest=4, timeout=2),
    rx(remote=SECOND, channel=9, window=0, largest=4),  # 0 is 8
    tx(remote=SECOND, channel=8, retries=3, window=2, largest=1, timeout=3),
]


def of(*numbers):
    """A payload."""
    return bytes(numbers)


@scene
def senders_open(t):
    """senders open: a Reset goes out, and again when its timer ends; acknowledgement 0 opens"""
    t.no(2, t.open, 5)  # entries are 0 to 4
    for index in (3, 1, 2, 0):
        t.ok(t.open, index)
    t.no(4, t.open, 0)  # not Closed
    t.no(4, t.send, 0, of())  # not Open; 5 is tested later
    t.ignores(0, 0)  # no Reset of it went out
    t.out(2, RESET, 0)  # opened before 0; receivers have none
    t.out(0, RESET, 0)
    t.ticks(1)  # T 1: entry 0's waits again
    t.opens(0)  # and waits no more
    t.ticks(1)  # T 2: entry 2's waits again
    t.out(2, RESET, 0)
    t.ignores(2, 1)  # not 0
    t.opens(2)


@scene
def acknowledgements_full(t):
    """a receiver opens, delivers, holds, until 32 acknowledgements wait: no Data and no Reset then"""
    t.reset(3)
    t.data(3, 1, of(1), of(1))
    t.data(3, 3, of(3))  # held
    t.data(3, 9, of(9))  # W 8: the last in the window, held
    for _ in range(28):
        t.data(3, 10, of(10))  # the first outside, acknowledged all the same
    t.no(13, t.arrival, t.frame(1, DATA, 1, of(1, 2, 3, 4)))  # Enabled; 5 and 14 are tested later
    t.no(5, t.arrival, t.frame(3, DATA, 2, of(1, 2, 3, 4, 5)))  # P 4; 14 is tested later
    t.no(14, t.arrival, t.frame(3, DATA, 2, of(2)))
    t.no(14, t.arrival, t.frame(3, RESET, 0))
    t.urgently(3, of(7, 8), sequence=9)  # is not acknowledged; its sequence is not looked at
    t.out(3, ACKNOWLEDGE, 0)
    t.reset(3, held=2)  # its other acknowledgements go
    t.reset(1)
    t.data(3, 1, of(4), of(4))  # number 1 anew, and 3 is not held


@scene
def out_of_order(t):
    """Data out of order is held; when the gap is filled all is delivered in one block; each is acknowledged"""
    t.data(1, 3, of(30, 31, 32))  # held
    t.data(1, 2, of(20, 21))  # held
    t.data(1, 2, of(99))  # held already: dropped
    t.data(1, 5, of(50))  # W 4: outside
    t.data(1, 1, of(10), of(10), of(20, 21), of(30, 31, 32))
    for index, sequence in ((3, 0), (1, 0), (3, 1), (1, 3), (1, 2), (1, 2), (1, 5), (1, 1)):
        t.out(index, ACKNOWLEDGE, sequence)  # in the order in which they began to wait


@scene
def frames_refused(t):
    """frames refused by their bytes, or since nobody takes them"""
    others = model.frame(OWN + 1, PROTOCOL, FIRST, DATA, 7, 4, of(40))
    t.no(10, t.arrival, others[:-1] + bytes((others[-1] ^ 1,)))  # the check byte; 11 is tested later
    t.no(11, t.arrival, others)
    t.no(11, t.arrival, model.frame(OWN, PROTOCOL - 1, FIRST, 4, 7, 4))  # the protocol ID; 15 is tested later
    t.fault(15, 3, model.frame(OWN, PROTOCOL, SECOND, 16 | 4, 7, 4))  # type 4; 16 and 13 are tested later
    t.fault(16, 3, model.frame(OWN, PROTOCOL, SECOND, 16 | RESET, 7, 4, of(1)))  # a user bit; 17 and 18 later
    t.fault(17, 4, model.frame(OWN, PROTOCOL, SECOND, RESET, 7, 4, of(1)))  # a payload; 18 and 13 are tested later
    t.fault(18, 7, model.frame(OWN, PROTOCOL, SECOND, RESET, 7, 4))  # number 4; 13 is tested later
    # a sender's channel; 5 is tested later
    t.no(13, t.arrival, model.frame(OWN, PROTOCOL, SECOND, DATA, 7, 1, of(1, 2, 3, 4, 5)))


@scene
def lost(t):
    """Data is lost and sent again when its timer ends; acknowledged out of order, the start passes what it can"""
    t.no(3, t.send, 1, of())  # a receiver; 5 is tested later
    t.no(5, t.send, 0, of())
    t.ok(t.send, 2, of(100))
    for number in (1, 2, 3):
        t.ok(t.send, 0, of(number))
    t.out(2, DATA, 1, of(100))  # the first sent
    t.out(0, DATA, 1, of(1))
    t.out(0, DATA, 2, of(2))
    t.ignores(0, 3)  # it has not gone out
    t.out(0, DATA, 3, of(3))
    t.passes(0, 2, 0)
    t.ignores(0, 2)  # again
    t.ok(t.counts, 0, gives=[3, 0])
    t.ok(t.send, 2, of(101, 102, 103, 104))  # waits, so that it has no timer
    t.ticks(1)  # T 1: of entry 0 numbers 1 and 3 wait again; T 2: of entry 2 number 1 does not
    t.passes(0, 1, 2)  # late: it waits no more
    t.out(0, DATA, 3, of(3))  # retransmissions before data
    t.passes(0, 3, 1)
    t.ignores(0, 3)  # behind the start


@scene
def failing(t):
    """retries are used up: Failing. Urgent, retransmission and data that wait go; the tick says who is Enabled again"""
    t.out(2, DATA, 2, of(101, 102, 103, 104))
    t.no(7, t.send, 2, of(1))  # W 2
    t.no(5, t.send, 2, of(1, 2, 3, 4, 5))  # P 4; 7 is tested later
    for number in (4, 5):
        t.ok(t.send, 0, of(number))
        t.out(0, DATA, number, of(number))
    t.ok(t.urgent, 2, of(200))
    t.ticks(1)  # M 0: entry 2's number 1 fails while 2 runs, its Urgent goes; of entry 0 numbers 4 and 5 wait again
    t.no(4, t.urgent, 2, of(1))  # Failing
    t.passes(2, 1, 1)
    t.ok(t.send, 0, of(6))
    t.ok(t.urgent, 0, of(201))
    t.no(9, t.urgent, 0, of(1))
    t.out(0, URGENT, 0, of(201))  # before retransmissions
    t.out(0, DATA, 4, of(4))
    t.ok(t.urgent, 0, of(202))
    t.data(1, 4, of(40), of(40))
    # M 1: number 4 fails; 5 waited again, 6 for the first time, and an Urgent. Entry 2's number 2 ends
    t.ticks(1, last=0b101)


@scene
def enabled_again(t):
    """Enabled again: acknowledgements before Resets before Urgents; counts are kept until acknowledgement 0"""
    t.out(1, ACKNOWLEDGE, 4)
    t.out(0, RESET, 0)
    t.ok(t.counts, 0, gives=[6, 3])
    t.opens(0)
    t.ok(t.urgent, 0, of(203))
    t.out(2, RESET, 0)
    t.out(0, URGENT, 0, of(203))


@scene
def closed(t):
    """closed, and what waits goes; opened again, all begins anew"""
    t.ok(t.send, 0, of(1))
    t.ok(t.urgent, 0, of(204))
    t.data(1, 5, of(50), of(50))
    t.ok(t.close, 0)
    t.ok(t.close, 1)
    t.no(4, t.close, 1)
    t.nothing()
    t.no(13, t.arrival, t.frame(1, RESET, 0))  # Closed
    t.no(3, t.counts, 1)
    t.ok(t.open, 0)
    t.out(0, RESET, 0)
    t.opens(0)
    t.ok(t.send, 0, of(2))
    t.ok(t.urgent, 0, of(205))
    t.out(0, URGENT, 0, of(205))
    t.out(0, DATA, 1, of(2))
    t.ok(t.counts, 0, gives=[1, 0])
    t.passes(0, 1, 1)
    t.opens(2)


@scene
def started_in_another_order(t):
    """timers of one sender end each at its own tick, in whatever order they started"""
    t.up(4)
    t.send_out(4, 1)
    t.ticks(2)
    t.send_out(4, 2)
    t.ticks(1)  # T 3: number 1 waits again
    t.out(4, DATA, 1, b"1")
    t.ticks(2)  # number 2 waits again, and 1's timer runs on
    t.ticks(1)  # number 1 waits again
    t.out(4, DATA, 2, b"2")
    t.out(4, DATA, 1, b"1")
    t.ticks(3)  # both wait again, in the order of the window
    t.out(4, DATA, 1, b"1")
    t.out(4, DATA, 2, b"2")
    t.passes(4, 1, 1)
    t.passes(4, 2, 1)


@scene
def stopped(t):
    """a timer that is stopped ends nothing when its tick comes; the next ends at its own"""
    t.send_out(4, 3)
    t.ticks(1)
    t.send_out(4, 4)
    t.passes(4, 3, 1)
    t.ticks(2)  # number 3's tick
    t.nothing()
    t.ticks(1)  # number 4's
    t.out(4, DATA, 4, b"4")
    t.passes(4, 4, 1)


@scene
def failing_for_how_long(t):
    """Failing lasts no tick when no other timer runs, and until the next when the last is stopped"""
    t.send_out(2, 1)
    t.ticks(2, last=0b100)  # M 0, T 2
    t.out(2, RESET, 0)
    t.opens(2)
    t.send_out(4, 5)
    for _ in range(3):  # M 3
        t.ticks(3)
        t.out(4, DATA, 5, b"5")
    t.ticks(2)
    t.send_out(4, 6)
    t.ticks(1)  # number 5 fails; 6 has 2 ticks left
    t.passes(4, 6, 0)
    t.no(4, t.send, 4, b"7")
    t.ticks(1, last=0b10000)
    t.out(4, RESET, 0)


@scene
def under_way(t):
    """a frame is under way until its end is reported: no other goes out, and its timer starts then"""
    t.opens(4)
    t.no(20, t.report)
    t.ok(t.send, 2, of(1))
    t.begin(2, DATA, 1, of(1))
    t.no(19, t.hand_out)  # though nothing waits
    t.ok(t.urgent, 2, of(206))
    t.no(19, t.hand_out)
    t.ticks(3)  # T 2: it does not run
    t.ok(t.report)
    t.no(20, t.report)
    t.begin(2, URGENT, 0, of(206))
    t.ticks(1)
    t.ok(t.report)  # an Urgent has no timer
    t.ticks(1, last=0b100)  # M 0, T 2 from its report on


@scene
def acknowledged_meanwhile(t):
    """acknowledged before the report: that counts, and no timer starts; not of a later number in its slot either"""
    t.begin(2, RESET, 0)
    t.opens(2)
    t.ok(t.report)
    t.ok(t.send, 4, of(1))
    t.begin(4, DATA, 1, of(1))
    t.passes(4, 1, 1)
    t.ok(t.report)
    t.ok(t.send, 4, of(2))
    t.begin(4, DATA, 2, of(2))
    t.passes(4, 2, 1)
    for number in (3, 4):  # W 2: 4 is where 2 was
        t.ok(t.send, 4, of(number))
    t.ok(t.report)
    t.ticks(3)  # T 3
    t.out(4, DATA, 3, of(3))


@scene
def closed_meanwhile(t):
    """closed before the report, and opened again: no timer starts; the new Reset's own report starts its own"""
    t.begin(4, DATA, 4, of(4))
    t.ok(t.close, 4)
    t.no(19, t.hand_out)
    t.ok(t.report)
    t.ok(t.open, 4)
    t.begin(4, RESET, 0)
    t.ok(t.close, 4)
    t.ok(t.report)
    t.ok(t.open, 4)
    t.begin(4, RESET, 0)
    t.ok(t.close, 4)
    t.ok(t.open, 4)
    t.ignores(4, 0)  # the Reset of this run waits
    t.ok(t.report)
    t.ticks(3)
    t.out(4, RESET, 0)
    t.opens(4)
    t.ok(t.send, 4, of(1))
    t.begin(4, DATA, 1, of(1))
    t.ok(t.close, 4)
    t.ok(t.open, 4)
    t.ok(t.report)
    t.ticks(3)
    t.out(4, RESET, 0)  # once
    t.ok(t.close, 4)
    t.nothing()


@scene
def failing_with_its_frame_under_way(t):
    """Failing waits for its own frame: data, whose timer then starts; data that was acknowledged; an Urgent"""
    for acknowledged in (False, True):
        t.send_out(2, 1)
        t.ok(t.send, 2, of(2))
        t.begin(2, DATA, 2, of(2))
        t.ticks(3)  # M 0, T 2: number 1 fails; 2 is under way
        if acknowledged:
            t.passes(2, 2, 0)
            t.ticks(1)
        t.ok(t.report)
        t.ticks(1 if acknowledged else 2, last=0b100)
        t.out(2, RESET, 0)
        t.opens(2)
    t.send_out(2, 1)
    t.ok(t.urgent, 2, of(207))
    t.begin(2, URGENT, 0, of(207))
    t.ticks(3)
    t.ok(t.report)
    t.ticks(1, last=0b100)
    t.out(2, RESET, 0)
    t.opens(2)
    t.send_out(2, 1)
    t.ok(t.urgent, 0, of(208))
    t.begin(0, URGENT, 0, of(208))  # another entry's
    t.ticks(2, last=0b100)
    t.ok(t.report)


@scene
def plans(t):
    """plans: payload after payload is sent, up to and including the first that is refused; 22 before everything"""
    t.stops(4, of(1), by=4)  # Closed
    t.stops(3, of(1), by=3)
    t.stops(5, of(1), by=2)
    t.plans(4)
    t.plans(5)
    good = model.block([of(1), of(2)])  # offsets 14, 15 and 16
    for block in (good[:5], good[:13], blocks.with_offset(good, 0, 13), blocks.with_offset(good, 0, 15),
                  blocks.with_offset(good, 1, 13), blocks.with_offset(good, 1, 17), good[:-1], good + of(0)):
        t.no(22, t.plan, 5, block)
    t.out(2, RESET, 0)
    t.up(4)
    t.stops(4, of(), of(1), by=5)
    t.stops(4, of(1), of(), of(2), by=5, after=1)
    t.begin(4, DATA, 1, of(1))
    t.plans(4, of(2))
    t.ok(t.report)
    t.stops(4, of(3), by=7)
    t.out(4, DATA, 2, of(2))
    t.passes(4, 1, 1)
    t.stops(4, of(3), of(4), of(5), by=7, after=1)
    t.out(4, DATA, 3, of(3))
    t.passes(4, 3, 0)
    t.passes(4, 2, 2)
    t.stops(4, of(4), of(5, 5), by=5, after=1)  # P 1
    t.out(4, DATA, 4, of(4))
    t.passes(4, 4, 1)
    t.plans(4, of(5), of(6))
    t.out(4, DATA, 5, of(5))
    t.out(4, DATA, 6, of(6))
    t.passes(4, 5, 1)
    t.passes(4, 6, 1)
    t.stops(4, of(7), of(8), of(9), by=7, after=2)
    t.ok(t.counts, 4, gives=[8, 6])


def trace():
    """The whole trace, and the scene of each of its records; the table is of none."""
    out, scenes = Corner("machine"), [""]
    out.ok(out.setup, OWN, PROTOCOL, ENTRIES)
    for play in SCENES:
        play(out)
        scenes += [play.__doc__] * (len(out.lines) - len(scenes))
    return out, scenes


# 2. THE VECTORS

Vector = collections.namedtuple("Vector", "scene kind index data line")


def vectors(stream, text, scenes):
    """Every record but the table, with what a desk wrote on it less the record's number and kind."""
    lines = [[int(word) for word in line.split()[2:]] for line in text.splitlines()]
    whole = zip(scenes, model.records(stream), lines, strict=True)
    return [Vector(scene, kind, index, data, line) for scene, (kind, index, data, _), line in whole][1:]


def frame(vector):
    """The frame that arrives or goes out; empty where there is none."""
    if vector.kind == model.HAND_OUT_CALL:
        return bytes(vector.line[2:])
    return vector.data if vector.kind == model.ARRIVAL_CALL else b""


def window(entry):
    return entry.window or model.DEFAULT_WINDOW


def block_room(data):
    """What a frame that arrives needs of the host's block."""
    control, name = data[3], (model.RECEIVES, data[2], data[6])
    rooms = [6 + window(e) * (4 + e.largest) for e in ENTRIES if (e.kind, e.remote, e.channel) == name]
    return sum(rooms) if control in (DATA, URGENT) else 0


def lent(vector):
    """How long block or frame buffer is: just long enough, and longer for an Urgent and where nothing goes out."""
    data = frame(vector)
    needed = block_room(data) if vector.kind == model.ARRIVAL_CALL else len(data)
    return needed + (3 if not data or data[3] == URGENT else 0)


# 3. THE FILE


def joined(values):
    return " ∷ ".join(map(str, values))


def listed(values):
    return joined([*values, "[]"])


def argument(values):
    return "(%s)" % listed(values) if values else "[]"


CALLS = {
    model.OPEN_CALL: lambda v: "opens %d" % v.index,
    model.CLOSE_CALL: lambda v: "closes %d" % v.index,
    model.COUNTS_CALL: lambda v: "counts %d" % v.index,
    model.SEND_CALL: lambda v: "sends %d %s" % (v.index, argument(v.data)),
    model.URGENT_CALL: lambda v: "urges %d %s" % (v.index, argument(v.data)),
    model.PLAN_CALL: lambda v: "plans %d %s" % (v.index, argument(v.data)),
    model.ARRIVAL_CALL: lambda v: "arrives (lent %d) %s" % (lent(v), argument(v.data)),
    model.HAND_OUT_CALL: lambda v: "hands_out (lent %d)" % lent(v),
    model.REPORT_CALL: lambda v: "reports",
    model.TICK_CALL: lambda v: "ticks",
}


def row(vector):
    return "(%s, %s)" % (CALLS[vector.kind](vector), listed(vector.line))


def rows(found):
    """The lines of the list, a comment before each scene; what comes more than twice on end is one line."""
    joint = ""
    for words, part in itertools.groupby(found, key=lambda vector: vector.scene):
        yield "-- " + words
        for text, same in itertools.groupby(map(row, part)):
            count = len(list(same))
            for line in [text] * count if count <= 2 else ["replicate %d %s" % (count, text)]:
                yield joint + line
                joint = "∷ " if line == text else "++ "
    yield joint + "[]"


def entry_words(entry):
    words = "sends to" if entry.kind == model.SENDS else "receives from"
    size = entry.window or "0 for %d" % window(entry)
    words += " %d over %d: W %s, P %d" % (entry.remote, entry.channel, size, entry.largest)
    return words + (", M %d, T %d" % (entry.retries, entry.timeout) if entry.kind == model.SENDS else "")


def table_rows(data):
    """The lines of the table: its head, and its entries with what they say."""
    yield joined(data[:8])
    for index, entry in enumerate(ENTRIES):
        yield "∷ %s  -- %d %s" % (joined(data[8 + 12 * index:20 + 12 * index]), index, entry_words(entry))
    yield "∷ []"


TEXT = """\
-- OUTSIDE VECTORS OF THE MACHINE: calls on one node, each with what the C peer's desk (peer/) wrote on it, and the
-- claim that the machine (specs/Machine.antt) answers every one so, by computing. This file is written by
-- tools/machine_vectors.py, where each step of the trace is explained; tests/machine_vectors holds it to that.
-- Assumes nothing.
use Prim.Native.Nat.{ℕ}
use mathlib.Core.Path.{◌≡◌, refl}
use mathlib.Core.List.{List, [], ◌∷◌, ◌++◌}
use lib.ListN.{get_or, take, replicate}
use lib.Dec.{leb}
use Rattle.units.specs.Bytes.{get16_of, get32_of, be32}
use Rattle.units.specs.Refusals.{pick}
use Rattle.units.specs.Sizes.{default_size}
use Rattle.check8.specs.Polynomial.{times_x, times_xs, step_byte, check_from}
use Rattle.table.specs.Layout.{entry_of, entry_from}
use Rattle.table.specs.Areas as areas
use Rattle.frame.specs.Layout.{payload_of, head_bytes, body_bytes, frame_bytes}
use Rattle.frame.specs.Reading.{sound_of, header_of}
use Rattle.arrive_lookup.specs.Fitting.{fits}
use Rattle.blocks.specs.Blocks.{offsets, joined_up, block_of}
use Rattle.blocks.specs.Reading.{payload_in, payloads_in, read_block, never_fall, is_block, is_plan}
use Rattle.machine.specs.Calls.{Call, opens, closes, counts, sends, urges, plans, arrives, hands_out, reports}
use Rattle.machine.specs.Calls.{ticks, Answer}
use Rattle.machine.specs.Machine as machine
use Rattle.machine.specs.Machine.{Machine, begun, step}

-- ---- the table, and as much store as it asks for

pub table : List ℕ
table =
    %(table)s

pub room : ℕ
room = %(room)d

-- ---- the vectors

-- a call, and the desk's line on it without number and kind: the refusal or 0; values; the bytes of a block, or of a
-- frame that went out
abbrev Vector : Type 0
Vector = Call × List ℕ

-- a block or frame buffer of n bytes
abbrev lent : ℕ → List ℕ
lent n = replicate n 0

pub vectors : List Vector
vectors =
    %(vectors)s

-- ---- the desk's line on a call, from what the machine answers

-- the length of the block that an arrival wrote: of Data and Urgent, which are 4 and 5, the number after the index
abbrev block_length : List ℕ → ℕ
block_length numbers = pick (leb 4 (get_or numbers 1 0)) (get_or numbers 3 0) 0

-- the length of the frame that went out
abbrev frame_length : List ℕ → ℕ
frame_length numbers = get_or numbers 1 0

abbrev line_of : Call → Answer → List ℕ
line_of (opens i) a = a.numbers
line_of (closes i) a = a.numbers
line_of (counts i) a = a.numbers
line_of (sends i p) a = a.numbers
line_of (urges i p) a = a.numbers
line_of (plans i block) a = a.numbers
line_of (arrives block f) a = a.numbers ++ take (block_length a.numbers) a.out
line_of (hands_out buffer) a = a.numbers ++ take (frame_length a.numbers) a.out
line_of reports a = a.numbers
line_of ticks a = 0 ∷ a.numbers

-- call after call, from a machine on
pub machines : Machine → List Vector → List (List ℕ)
machines m [] = []
machines m (v ∷ vs) = line_of v.0 (step m v.0).answer ∷ machines (step m v.0).machine vs

pub peers : List Vector → List (List ℕ)
peers [] = []
peers (v ∷ vs) = v.1 ∷ peers vs

-- ---- the claim

-- what the machine computes with
computes : Unit {0}
unfolding get16_of get32_of be32 default_size times_x times_xs step_byte check_from entry_of entry_from areas.area_of
    areas.place_of areas.store_of payload_of head_bytes body_bytes frame_bytes sound_of header_of fits offsets joined_up
    block_of payload_in payloads_in read_block never_fall is_block is_plan begun step machine.without machine.enabled
    machine.listed machine.opening machine.closing machine.counting machine.sending machine.urgent_sending
    machine.sending_all machine.planning machine.acked_run machine.running machine.acking machine.held_count
    machine.held_run machine.receiving machine.resetting machine.taken_in machine.place_of machine.reading
    machine.arriving machine.frame_of machine.going_out machine.in_order machine.handing_out machine.reported
    machine.reporting machine.ticked_all machine.any_spent machine.again_from machine.ticked machine.each
    machine.bits_from machine.ticking
computes = tt

pub vectors_agree : machines (begun table room) vectors ≡ peers vectors
unfolding computes table room vectors machines peers
vectors_agree = refl
"""


def whole_file(found):
    data = model.table(OWN, PROTOCOL, ENTRIES)
    store = sum(model.store_of(e._replace(window=window(e))) for e in ENTRIES)
    return TEXT % {"table": "\n    ".join(table_rows(data)), "room": store, "vectors": "\n    ".join(rows(found))}


# 4. THE CHECK

REFUSED = {2, 3, 4, 5, 7, 9, 10, 11, 13, 14, 15, 16, 17, 18, 19, 20, 22}
ARRIVED = {model.IGNORED, model.ACKNOWLEDGED, model.OPENED, model.TOOK_RESET, model.TOOK_DATA, model.TOOK_URGENT}
TYPES = {DATA, ACKNOWLEDGE, RESET, URGENT}
LEFT_OUT = {
    "receiver's start folds", "sender's start folds",  # would take 255 numbers
    "sender Enabled to Closed", "sender Failing to Closed", "receiver Enabled to Closed",
    "acknowledgement at Failing passes more", "acknowledgement at Failing ignored, outside",
    "acknowledgement at Failing ignored, again", "acknowledgement at Failing ignored, not handed out",
    "plan malformed: a count above 64", "plan of 64 payloads accepted whole", "plan's numbers fold",
    "a timer of T 65,535 starts",  # would take 65,535 ticks to show more than that
    "setup while timers run", "setup while a frame is under way",  # setup is no call of the machine
}
EVENTS = set(coverage.TRANSITIONS + coverage.EVENTS) - LEFT_OUT


def gaps(found, seen):
    """What the vectors should show and do not; `seen` is what the model counted."""
    done = [vector for vector in found if vector.line[0] == 0]
    arrived = [vector for vector in done if vector.kind == model.ARRIVAL_CALL]
    handed = [vector for vector in done if vector.kind == model.HAND_OUT_CALL and frame(vector)]
    for what, wanted, there in (
            ("a call done", set(CALLS), [vector.kind for vector in done]),
            ("a refusal", REFUSED, [vector.line[0] for vector in found]),
            ("what an arrival was", ARRIVED, [vector.line[1] for vector in arrived]),
            ("a type of frame that arrives", TYPES, [frame(vector)[3] for vector in arrived]),
            ("a type of frame that goes out", TYPES, [frame(vector)[3] for vector in handed]),
            ("an event", EVENTS, [name for name in seen if seen[name]])):
        for missing in sorted(wanted - set(there)):
            yield "%s: %s" % (what, missing)


def content():
    with open(os.path.join(programs.ROOT, FILE), encoding="utf-8") as file:
        return file.read()


def write(text):
    with open(os.path.join(programs.ROOT, FILE), "w", encoding="utf-8") as file:
        file.write(text)


def check(made, answered, found):
    """What is wrong, for each of the tests: the file, what the trace shows, the model."""
    yield "", [] if content() == whole_file(found) else [FILE + " is not what tools/machine_vectors.py writes"]
    yield "the vectors do not show ", list(gaps(found, made.node.seen))
    wrong = programs.difference(made.text().encode(), answered, ("model", "peer"))
    yield "", [wrong] if wrong else []


def main():
    made, scenes = trace()
    programs.build_peer()
    answered = programs.peers("desk", bytes(made.stream))
    found = vectors(bytes(made.stream), answered.decode(), scenes)
    if "--check" not in sys.argv[1:]:
        write(whole_file(found))
        return
    results = list(check(made, answered, found))
    for words, wrong in results:
        for what in wrong:
            print(words + what)
    failed = sum(bool(wrong) for _, wrong in results)
    print("%d vectors" % len(found))
    print("%d passed, %d failed" % (len(results) - failed, failed))
    sys.exit(1 if failed else 0)


main()
