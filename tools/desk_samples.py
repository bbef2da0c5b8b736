#!/usr/bin/python3
"""The sample run of `desk` that `rt ci` holds to its expected output: crates/desk/stdin, stdout and the list of its
scenes, SAMPLE.md.

rt runs a program once, so all scenes stand in one stream; each but the first begins with a table, which makes every
entry new. Every call names its answer, read off paper 01 by hand as in comparison/corners, and what the desk must write
is the model's (comparison/model.py), never our desk's.
tools/desk_samples.py           writes the three files
tools/desk_samples.py --check   tests that the files are those, and that the C peer writes the same"""
import collections
import os
import sys

sys.dont_write_bytecode = True  # the source tree stays as it is
sys.path.insert(0, os.path.join(os.path.dirname(os.path.abspath(__file__)), ".."))
from comparison import coverage, model, programs
from comparison.corners.corner import OWN, PROTOCOL, REMOTE, Corner, rx, tx
from comparison.model import ACKNOWLEDGE, DATA, RESET, URGENT

DESK = os.path.join(programs.ROOT, "crates", "desk")
SCENES = []
Span = collections.namedtuple("Span", "name shows first last")


def scene(play):
    SCENES.append(play)
    return play


# 1. THE SCENES


@scene
def a_new_node(t):
    """On a node of zeros calls on an entry are refused with 2, nothing goes out and no frame has a taker; bad tables
    are refused with 1, paper 01's own table is taken."""
    for call in (t.open, t.close, t.counts):
        t.no(2, call, 0)
    for call in (t.send, t.urgent):
        t.no(2, call, 0, b"move")
    t.nothing()
    t.ticks(1)
    t.no(13, t.arrival, model.frame(0, 0, REMOTE, RESET, 9, 0))
    t.no(1, t.table, b"")
    t.no(1, t.setup, OWN, PROTOCOL, [tx(window=3)])
    t.no(1, t.setup, OWN, PROTOCOL, [tx(), tx()])  # the same remote and channel
    t.given(tx(channel=7, retries=3, window=16, largest=256, timeout=100), rx(channel=9, window=0, largest=64))
    t.ok(t.counts, 0, gives=[0, 0])
    t.nothing()


@scene
def opening(t):
    """Two entries are opened and closed again at once, and nothing waits of it. Then a sender opens by its Reset, which
    goes out again when T ticks brought no acknowledgement 0, and a receiver by the Reset that it takes; a payload goes
    each way; both are closed with frames waiting, which go, and the sender keeps its counts."""
    t.given(tx(timeout=3), rx())
    for index in (0, 1):
        t.ok(t.open, index)
        t.ok(t.close, index)
    t.nothing()
    t.ok(t.open, 0)
    t.ignores(0, 0)  # no Reset has gone out
    t.out(0, RESET, 0)
    t.ticks(3)
    t.out(0, RESET, 0)
    t.ignores(0, 1)  # not 0
    t.opens(0)
    t.ok(t.open, 1)
    t.reset(1)
    t.out(1, ACKNOWLEDGE, 0)
    t.ok(t.send, 0, b"slew")
    t.ok(t.counts, 0, gives=[1, 0])
    t.out(0, DATA, 1, b"slew")
    t.passes(0, 1, 1)
    t.data(1, 1, b"slewing", b"slewing")
    t.out(1, ACKNOWLEDGE, 1)
    t.ok(t.send, 0, b"stow")
    t.data(1, 2, b"there", b"there")
    for index in (0, 1):
        t.ok(t.close, index)
    t.nothing()
    t.ok(t.counts, 0, gives=[2, 1])


@scene
def refused(t):
    """Every refusal number that a desk can be brought to, by every call but the table, each call's in the order of its
    tests."""
    t.given(tx(window=1, largest=4), rx(largest=4))
    refused_by_the_host(t)
    refused_from_the_wire(t)
    t.begin(1, ACKNOWLEDGE, 200)
    t.no(19, t.hand_out)
    t.ok(t.report)
    t.no(20, t.report)


def refused_by_the_host(t):
    for call in (t.open, t.close, t.counts):
        t.no(2, call, 2)
    t.no(4, t.close, 0)
    t.ok(t.open, 0)
    t.no(4, t.open, 0)
    t.no(3, t.counts, 1)
    for call in (t.send, t.urgent):
        t.no(2, call, 2, b"move")
        t.no(3, call, 1, b"move")
        t.no(4, call, 0, b"move")  # at Enabled
    t.out(0, RESET, 0)
    t.opens(0)
    for call, full in ((t.send, 7), (t.urgent, 9)):
        t.no(5, call, 0, b"")
        t.no(5, call, 0, b"moves")
        t.ok(call, 0, b"move")
        t.no(full, call, 0, b"move")
    t.out(0, URGENT, 0, b"move")
    t.out(0, DATA, 1, b"move")
    t.ok(t.close, 0)


def refused_from_the_wire(t):
    good = t.frame(1, DATA, 1, b"move")
    t.no(10, t.arrival, good[:8])
    t.no(10, t.arrival, good + b"\0")
    t.no(10, t.arrival, good[:-1] + bytes((good[-1] ^ 1,)))
    t.no(11, t.arrival, model.frame(OWN + 1, PROTOCOL, REMOTE, DATA, 9, 1, b"move"))
    t.no(11, t.arrival, model.frame(OWN, PROTOCOL + 1, REMOTE, DATA, 9, 1, b"move"))
    t.fault(15, 3, t.frame(1, 4, 1))  # type 4
    t.fault(16, 3, t.frame(1, 16 | DATA, 1, b"move"))  # a user bit
    t.fault(17, 4, t.frame(1, DATA, 1))
    t.fault(18, 7, t.frame(1, RESET, 1))
    t.no(13, t.arrival, model.frame(OWN, PROTOCOL, REMOTE, DATA, 8, 1, b"move"))  # no such channel
    t.no(13, t.arrival, good)  # Closed
    t.ok(t.open, 1)
    t.no(13, t.arrival, good)  # Enabled
    t.reset(1)
    t.out(1, ACKNOWLEDGE, 0)
    t.no(5, t.arrival, t.frame(1, DATA, 1, b"moves"))
    for _ in range(32):
        t.data(1, 200, b"old")
    t.no(14, t.arrival, good)
    t.no(14, t.arrival, t.frame(1, RESET, 0))
    t.urgently(1, b"stop")  # is not acknowledged, so it passes
    t.out(1, ACKNOWLEDGE, 200)
    t.data(1, 1, b"move", b"move")


@scene
def lost_and_sent_again(t):
    """Of three payloads the first is lost and the third's acknowledgement is late: after T ticks both wait again, the
    late acknowledgement takes one back, the start passes all three at once; the receiver holds what came early and
    acknowledges what it has."""
    t.given(tx(timeout=3, retries=2), rx())
    t.up(0, 1)
    t.send_out(0, 1, 2, 3)
    t.passes(0, 2, 0)
    t.ticks(3)
    t.passes(0, 3, 0)
    t.out(0, DATA, 1, b"1")
    t.nothing()
    t.passes(0, 1, 3)
    t.ignores(0, 1)  # behind the start
    t.ticks(3)
    t.nothing()
    t.ok(t.counts, 0, gives=[3, 3])
    t.data(1, 2, b"two")
    t.data(1, 3, b"three")
    t.data(1, 3, b"three")  # held already
    t.data(1, 1, b"one", b"one", b"two", b"three")
    t.data(1, 1, b"one")  # behind the window
    for sequence in (2, 3, 3, 1, 1):
        t.out(1, ACKNOWLEDGE, sequence)
    t.data(1, 5, b"five")
    t.reset(1, held=1)
    t.out(1, ACKNOWLEDGE, 0)  # the one of number 5 was dropped
    t.nothing()


@scene
def failing(t):
    """After M retries a sender is Failing: what waits of it is dropped and calls are refused; once no timer of it runs
    a tick answers its bit, it is Enabled with a Reset waiting and its counts kept, and acknowledgement 0 opens a new
    run. Another is closed while it is Failing."""
    t.given(rx(), tx(timeout=2, retries=1), tx(channel=8, timeout=2, retries=0))
    t.up(1, 2)
    t.send_out(1, 1)
    t.ticks(2)
    t.out(1, DATA, 1, b"1")  # the one retry
    t.ticks(1)
    t.send_out(1, 2)
    t.ok(t.send, 1, b"3")
    t.ok(t.urgent, 1, b"!")
    t.ticks(1)  # number 1 fails, number 2 runs
    t.nothing()
    t.no(4, t.send, 1, b"4")
    t.passes(1, 1, 1)
    t.send_out(2, 1)
    t.ticks(1, last=0b010)
    t.ok(t.counts, 1, gives=[3, 1])
    t.out(1, RESET, 0)
    t.ticks(1, last=0b100)  # no retries
    t.out(2, RESET, 0)
    t.opens(1)
    t.ok(t.counts, 1, gives=[0, 0])
    t.opens(2)
    t.send_out(2, 1)
    t.ticks(1)
    t.send_out(2, 2)
    t.ticks(1)  # number 1 fails, number 2 runs
    t.ok(t.close, 2)
    t.ticks(1)
    t.nothing()
    t.send_out(1, 1)


@scene
def under_way(t):
    """A frame is under way until the port reports its end, and no other is handed out before. The timers of a Reset and
    of data start then, and not where an acknowledgement came before the report, or a close and an open; a close ends no
    frame, a table does. A Failing end waits for its own frame, here data, whose timer then starts, and an Urgent."""
    t.given(tx(timeout=2, retries=0))
    t.no(20, t.report)
    t.ok(t.open, 0)
    t.begin(0, RESET, 0)
    t.ok(t.close, 0)
    t.ok(t.open, 0)
    t.no(19, t.hand_out)
    t.ok(t.report)  # of the old Reset; the new one waits
    t.ticks(2)
    t.begin(0, RESET, 0)
    t.ticks(5)
    t.ok(t.report)
    t.ticks(2)
    t.begin(0, RESET, 0)  # again, 2 ticks after the report
    t.opens(0)
    t.ok(t.report)
    t.ok(t.send, 0, b"slew")
    t.begin(0, DATA, 1, b"slew")
    t.passes(0, 1, 1)
    t.ok(t.report)  # acknowledged already
    t.ticks(2)
    t.send_out(0, 2)
    t.ok(t.send, 0, b"stow")
    t.begin(0, DATA, 3, b"stow")
    t.ticks(2)  # number 2 fails, 3 is under way
    t.ticks(3)
    t.ok(t.report)
    t.ticks(2, last=1)
    t.out(0, RESET, 0)
    t.opens(0)
    t.send_out(0, 1)
    t.ok(t.urgent, 0, b"stop")
    t.begin(0, URGENT, 0, b"stop")
    t.ticks(3)  # number 1 fails, the Urgent is under way
    t.ok(t.report)
    t.ticks(1, last=1)
    t.begin(0, RESET, 0)


@scene
def full_and_urgent(t):
    """A window of 2 takes no third payload until the start moves; an Urgent goes out before data, and comes in past
    what is held; of all that waits acknowledgements go first, then Resets, Urgents, retransmissions, data."""
    t.given(tx(window=2, timeout=3), rx(), tx(channel=8))
    t.up(0, 1)
    t.send_out(0, 1)
    t.ok(t.send, 0, b"2")
    t.no(7, t.send, 0, b"3")
    t.ticks(3)
    t.ok(t.urgent, 0, b"stop")
    t.no(9, t.urgent, 0, b"again")
    t.ok(t.open, 2)
    t.data(1, 2, b"early")
    t.urgently(1, b"stop")
    t.out(1, ACKNOWLEDGE, 2)
    t.out(2, RESET, 0)
    t.out(0, URGENT, 0, b"stop")
    t.out(0, DATA, 1, b"1")
    t.out(0, DATA, 2, b"2")
    t.nothing()
    t.passes(0, 2, 0)
    t.no(7, t.send, 0, b"3")  # 1 is the start still
    t.passes(0, 1, 2)
    t.send_out(0, 3)


@scene
def a_plan(t):
    """Plans: a block of payloads, each sent as though alone. One is accepted whole and goes out in order; a full
    window, an empty payload, another kind of entry stop the rest, and what was accepted before stays; an empty plan
    stops at nothing, whatever the index; what a receiver delivered is handed on; blocks against the form are refused
    with 22 before everything, and nothing is sent."""
    t.given(tx(window=4, largest=5), rx())
    moves = model.block([b"slew", b"track"])
    t.ok(t.plan, 0, moves, gives=[0, 4])  # Closed
    t.up(0, 1)
    t.plans(0, b"slew", b"track")
    t.stops(0, b"point", b"", b"stow", by=5, after=1)
    t.stops(0, b"point", b"stow", by=7, after=1)
    t.ok(t.counts, 0, gives=[4, 0])
    for number, move in enumerate((b"slew", b"track", b"point", b"point"), 1):
        t.out(0, DATA, number, move)
        t.passes(0, number, 1)
    t.stops(1, b"slew", by=3)
    t.stops(2, b"slew", by=2)
    for index in (0, 1, 2):
        t.plans(index)
    t.data(1, 2, b"there")
    t.data(1, 1, b"halt", b"halt", b"there")
    t.plans(0, b"halt", b"there")
    for block in (b"", moves[:-1], moves + b"\0", model.two(1) + moves[2:], model.block([b"x"] * 65)):
        t.no(22, t.plan, 0, block)
        t.no(22, t.plan, 2, block)
    t.ok(t.counts, 0, gives=[6, 4])
    for sequence in (2, 1):
        t.out(1, ACKNOWLEDGE, sequence)
    t.out(0, DATA, 5, b"halt")
    t.out(0, DATA, 6, b"there")


@scene
def past_255(t):
    """Numbers fold: with W 16 and start 250 number 9 is in, 10 and 249 are out, at both ends; the sender's window fills
    from 250 to 9, and is acknowledged from the far end."""
    t.given(tx(window=16), rx(window=16))
    t.up(0, 1)
    t.confirm(0, 1, 249)
    t.send_out(0, *[number % 256 for number in range(250, 266)])
    t.no(7, t.send, 0, b"10")
    t.ignores(0, 10)
    t.ignores(0, 249)
    for number in range(265, 249, -1):
        t.passes(0, number % 256, 16 if number == 250 else 0)
    t.send_out(0, 10)
    t.ok(t.counts, 0, gives=[266, 265])
    t.deliver(1, 1, 249)
    for sequence in (10, 249, 9):
        t.data(1, sequence, b"%d" % sequence)
        t.out(1, ACKNOWLEDGE, sequence)
    t.deliver(1, 250, 263)
    t.data(1, 8, b"264", b"264", b"9")  # and the 9 that was held


@scene
def torn(t):
    """The stream ends inside a record: the desk says which."""
    t.given(tx())
    record = bytes((model.ARRIVAL_CALL, 0)) + model.two(9) + t.frame(0, ACKNOWLEDGE, 0)
    t.end_with(record[:-1], "torn %d\n" % (len(t.lines) + 1))


# 2. THE FILES


def sample():
    """The whole trace, and where each scene lies in it."""
    trace, spans = Corner("sample"), []
    for play in SCENES:
        first = len(trace.lines) + 1
        play(trace)
        name, shows = play.__name__.replace("_", " "), " ".join(play.__doc__.split())
        spans.append(Span(name, shows, first, trace.text().count("\n")))
    return trace, spans


def gaps(trace):
    """Calls, refusals and changes of state that a sample should show and this one does not."""
    totals = coverage.Totals()
    totals.add_trace(trace, "c")
    return [name for name in totals.missing() if name not in coverage.EVENTS]


HEADER = """# The sample run of desk

`rt ci` runs `desk` on `stdin` and holds what it writes to `stdout`. Both files and this one are written by \
`tools/desk_samples.py`, with the
answers of the model in `comparison/model.py`; `tests/desk_sample` asks the C peer for the same. Scenes stand one \
after the other in one stream, each but
the first begun by a table. Together they show every kind of call, every refusal number of every call but 6 and 8, \
and every change of state. A
desk cannot be brought to 6, since it always lends enough, nor to 8, since 4,294,967,295 payloads fit in no stream.

| scene | records | what it shows |
|---|---|---|
"""


def listing(spans):
    return HEADER + "".join("| %s | %d to %d | %s |\n" % (s.name, s.first, s.last, s.shows) for s in spans)


def files(trace, spans):
    return {"stdin": bytes(trace.stream), "stdout": trace.text().encode(), "SAMPLE.md": listing(spans).encode()}


def content(name):
    with open(os.path.join(DESK, name), "rb") as file:
        return file.read()


def check(trace, made):
    """What is wrong, for each of the tests: the files, what the sample shows, the peer."""
    yield "", ["crates/desk/%s is not what tools/desk_samples.py writes" % name
               for name, data in made.items() if content(name) != data]
    yield "the sample does not show: ", gaps(trace)
    programs.build_peer()
    theirs = programs.written(programs.command_of_peers("desk"), made["stdin"])
    wrong = programs.difference(made["stdout"], theirs, ("model", "peer"))
    yield "", [wrong] if wrong else []


def main():
    trace, spans = sample()
    made = files(trace, spans)
    if "--check" not in sys.argv[1:]:
        for name, data in made.items():
            with open(os.path.join(DESK, name), "wb") as file:
                file.write(data)
        return
    results = list(check(trace, made))
    for words, wrong in results:
        for what in wrong:
            print(words + what)
    failed = sum(bool(wrong) for _, wrong in results)
    print("%d passed, %d failed" % (len(results) - failed, failed))
    sys.exit(1 if failed else 0)


main()
