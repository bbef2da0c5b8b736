"""Plans (change request K6): blocks that are malformed, what stops a plan, and that it is the single sends of its
payloads."""
from comparison import history, model
from comparison.blocks import broken_blocks, with_offset, written
from comparison.corners.corner import Corner, Unexpected, corner, double, rx, tx
from comparison.corners.failing import failing
from comparison.corners.linked import handed_out, open_both, take_in
from comparison.corners.sizes import LONG
from comparison.model import ACKNOWLEDGE, DATA, RESET, URGENT
from comparison.tables import put

EMPTY = model.block([])
GOOD = model.block([b"a", b"bb", b"ccc"])  # offsets 18, 19, 21 and 24


def counted(first: int, last: int) -> list[bytes]:
    """A payload for each number."""
    return [b"%d" % number for number in range(first, last + 1)]


# 1. REFUSAL 22


def refused(t: Corner, *blocks: bytes) -> None:
    """Each is refused at an open sender, and nothing is sent: what waits, the counts and the next number stay."""
    t.given(tx())
    t.up(0)
    t.send_out(0, 1)
    t.ok(t.send, 0, b"2")
    for block in blocks:
        t.no(22, t.plan, 0, block)
        t.ok(t.counts, 0, gives=[2, 0])
    t.out(0, DATA, 2, b"2")
    t.nothing()
    t.plans(0, b"3", b"4")
    t.out(0, DATA, 3, b"3")
    t.out(0, DATA, 4, b"4")
    t.nothing()


@corner
def plan_with_each_rule_broken(t: Corner) -> None:
    """In the ways in which traces by seed break them."""
    refused(t, *[block for _, block in broken_blocks(GOOD)], *[block for _, block in broken_blocks(EMPTY)])


@corner
def plan_shorter_than_6_bytes(t: Corner) -> None:
    refused(t, *[EMPTY[:length] for length in range(6)], *[GOOD[:length] for length in range(6)])


@corner
def plan_shorter_than_its_count_asks(t: Corner) -> None:
    """The offsets of three payloads end at 18: cut before each of their bytes."""
    refused(t, *[GOOD[:length] for length in range(6, 18)], written(1, [6]), written(64, [262] * 64, b"xxx"))


@corner
def plan_first_offset_too_low(t: Corner) -> None:
    refused(t, *[with_offset(GOOD, 0, at) for at in (0, 2, 6, 17)], written(0, [0]), written(0, [5]))


@corner
def plan_first_offset_too_high(t: Corner) -> None:
    """Though the other offsets fit: a byte between them and the payloads is nobody's."""
    refused(t, with_offset(GOOD, 0, 19), written(1, [11, 12], b"xy"), written(0, [7], b"x"), written(0, [7]))


@corner
def plan_offset_falls(t: Corner) -> None:
    """Below the first, below the one ahead, back from beyond the end, at the last."""
    refused(t, with_offset(GOOD, 1, 17), with_offset(GOOD, 1, 0), with_offset(GOOD, 2, 18), with_offset(GOOD, 1, 22),
            with_offset(GOOD, 2, 25), written(2, [14, 16, 15], b"x"))


@corner
def plan_last_offset_before_the_end(t: Corner) -> None:
    refused(t, GOOD + b"\0", GOOD + GOOD, with_offset(GOOD, 3, 23), with_offset(GOOD, 3, 21), EMPTY + b"x")


@corner
def plan_last_offset_beyond_the_end(t: Corner) -> None:
    refused(t, *[GOOD[:length] for length in range(18, 24)], with_offset(GOOD, 3, 25))


@corner
def plan_offsets_have_four_bytes(t: Corner) -> None:
    """Of each of them each byte counts, and so does the highest bit."""
    refused(t, *[put(GOOD, 2 + 4 * place + at, (1,)) for place in range(4) for at in range(3)],
            *[with_offset(GOOD, place, at) for place in range(4) for at in (1 << 31, (1 << 32) - 1)])


@corner
def plan_counts_high_byte(t: Corner) -> None:
    """256, 257 and 320 payloads, in good order and not there at all: they are not 0, 1 and 64."""
    refused(t, *[model.block([b"x"] * count) for count in (256, 257, 320)], put(EMPTY, 0, (1,)),
            put(model.block([b"x"]), 0, (1,)), written(65535, [6]))


@corner
def plan_of_64_and_of_65(t: Corner) -> None:
    """65 are refused, whatever the window would take of them; two plans of 64 fill the largest."""
    t.given(tx(window=128, largest=3), tx(channel=8, window=1))
    t.up(0, 1)
    for index in (0, 1):
        t.no(22, t.plan, index, model.block(counted(1, 65)))
        t.ok(t.counts, index, gives=[0, 0])
    t.nothing()
    t.plans(0, *counted(1, 64))
    t.ok(t.counts, 0, gives=[64, 0])
    t.plans(0, *counted(65, 128))
    t.ok(t.counts, 0, gives=[128, 0])
    t.stops(0, *counted(129, 192), by=7)
    for number in range(1, 129):
        t.out(0, DATA, number, b"%d" % number)
    t.nothing()
    t.stops(1, *counted(1, 64), by=7, after=1)


@corner
def refusal_22_before_2(t: Corner) -> None:
    t.given(tx())
    for index in (1, 16, 255):
        for block in (b"", GOOD[:-1], GOOD + b"\0", model.block([b"x"] * 65)):
            t.no(22, t.plan, index, block)
        t.stops(index, b"x", by=2)


@corner
def refusal_22_before_3(t: Corner) -> None:
    t.given(rx())
    t.up(0)
    t.no(22, t.plan, 0, GOOD[:-1])
    t.stops(0, b"x", by=3)


@corner
def refusal_22_at_a_closed_entry(t: Corner) -> None:
    """Before 4; a close and an open after it show that it is Closed still."""
    t.given(tx())
    for block in (b"", GOOD[:-1], GOOD + b"\0", model.block([b"x"] * 65)):
        t.no(22, t.plan, 0, block)
    t.no(4, t.close, 0)
    t.nothing()
    t.up(0)
    t.ok(t.counts, 0, gives=[0, 0])


@corner
def refusal_22_before_5_and_7(t: Corner) -> None:
    t.given(tx(window=1, largest=3))
    t.up(0)
    wrong = model.block([b"", b"1234"])
    t.no(22, t.plan, 0, wrong + b"\0")
    t.stops(0, b"", b"1234", by=5)
    t.plans(0, b"1")
    t.no(22, t.plan, 0, GOOD + b"\0")
    t.stops(0, b"2", by=7)
    t.no(22, t.plan, 0, wrong + b"\0")  # behind both
    t.out(0, DATA, 1, b"1")
    t.nothing()


@corner
def refusal_22_on_a_new_node(t: Corner) -> None:
    t.no(22, t.plan, 0, b"")
    t.no(22, t.plan, 0, GOOD[:-1])
    t.stops(0, b"x", by=2)
    t.nothing()


@corner
def refusal_22_is_of_the_whole_block(t: Corner) -> None:
    """What is wrong stands behind payloads that would be accepted: none of them is sent."""
    t.given(tx(window=64))
    t.up(0)
    good = model.block([b"x"] * 64)
    for block in (good[:-1], good + b"\0", with_offset(good, 63, 1000)):
        t.no(22, t.plan, 0, block)
        t.nothing()
    t.ok(t.counts, 0, gives=[0, 0])
    t.ok(t.plan, 0, good, gives=[64, 0])


@corner
def refusal_22_alters_nothing(t: Corner) -> None:
    """A frame is under way, timers run, and one of each sort waits."""
    t.given(tx(window=8, timeout=4, retries=1), rx(), tx(channel=8))
    t.up(0, 1)
    t.send_out(0, 1, 2)
    t.ticks(3)
    t.send_out(0, 3)
    t.ticks(1)  # numbers 1 and 2 wait again
    t.begin(0, DATA, 1, b"1")
    t.ok(t.send, 0, b"4")
    t.ok(t.urgent, 0, b"!")
    t.ok(t.open, 2)
    t.data(1, 2, b"early")
    for index in (0, 1, 2, 3):
        for block in (b"", GOOD[:-1], GOOD + b"\0", model.block([b"x"] * 65)):
            t.no(22, t.plan, index, block)
    t.ok(t.counts, 0, gives=[4, 0])
    t.no(19, t.hand_out)
    t.ok(t.report)
    t.out(1, ACKNOWLEDGE, 2)
    t.out(2, RESET, 0)
    t.out(0, URGENT, 0, b"!")
    t.out(0, DATA, 2, b"2")
    t.out(0, DATA, 4, b"4")
    t.nothing()
    t.data(1, 1, b"now", b"now", b"early")
    t.ticks(3)  # number 3 alone has come to its end
    t.out(1, ACKNOWLEDGE, 1)
    t.out(0, DATA, 3, b"3")
    t.nothing()


# 2. STOPS


@corner
def plan_stopped_by_2(t: Corner) -> None:
    t.given(tx())
    t.up(0)
    for index in (1, 16, 255):
        t.stops(index, b"a", by=2)
        t.stops(index, b"a", b"b", by=2)
    t.nothing()


@corner
def plan_stopped_by_3(t: Corner) -> None:
    """In every state of a receiver."""
    t.given(rx())
    t.stops(0, b"a", b"b", by=3)
    t.ok(t.open, 0)
    t.stops(0, b"a", b"b", by=3)
    t.reset(0)
    t.stops(0, b"a", b"b", by=3)
    t.out(0, ACKNOWLEDGE, 0)
    t.nothing()


@corner
def plan_stopped_by_4(t: Corner) -> None:
    """In every state of a sender but Open and Failing."""
    t.given(tx(retries=0, timeout=1))
    t.stops(0, b"a", b"b", by=4)
    t.ok(t.open, 0)
    t.stops(0, b"a", b"b", by=4)
    t.out(0, RESET, 0)
    t.stops(0, b"a", b"b", by=4)
    t.opens(0)
    t.plans(0, b"a", b"b")
    t.out(0, DATA, 1, b"a")
    t.ticks(1, last=1)  # it failed and is Enabled
    t.stops(0, b"a", b"b", by=4)
    t.ok(t.close, 0)
    t.stops(0, b"a", b"b", by=4)
    t.ok(t.counts, 0, gives=[2, 0])
    t.nothing()


@corner
def plan_at_failing(t: Corner) -> None:
    t.given(tx(retries=0, timeout=3))
    failing(t)
    t.stops(0, b"a", b"b", by=4)
    t.no(22, t.plan, 0, b"")
    t.plans(0)
    t.ok(t.counts, 0, gives=[4, 0])
    t.nothing()
    t.ticks(2, last=1)
    t.out(0, RESET, 0)
    t.nothing()


def stopped_by_5(t: Corner, wrong: bytes) -> None:
    """A payload of this length is the only one, the first, in the middle, the last; what stands behind it is not sent
    though it fits."""
    t.given(tx(window=8, largest=3))
    t.up(0)
    t.stops(0, wrong, by=5)
    t.stops(0, wrong, b"x", by=5)
    t.stops(0, b"1", wrong, b"x", by=5, after=1)
    t.stops(0, b"2", b"3", wrong, by=5, after=2)
    t.stops(0, b"4", wrong, wrong, b"x", b"x", by=5, after=1)
    t.ok(t.counts, 0, gives=[4, 0])
    t.plans(0, b"5")
    for number in range(1, 6):
        t.out(0, DATA, number, b"%d" % number)
    t.nothing()


@corner
def plan_stopped_by_5_length_0(t: Corner) -> None:
    """Offsets that are equal are in order: this is no 22."""
    stopped_by_5(t, b"")


@corner
def plan_stopped_by_5_longer_than_p(t: Corner) -> None:
    stopped_by_5(t, b"1234")


@corner
def plan_of_payloads_of_length_p(t: Corner) -> None:
    """P and a byte more; the P is the entry's own."""
    t.given(tx(window=8, largest=3), tx(channel=8, window=8, largest=4))
    t.up(0, 1)
    t.stops(0, b"123", b"1", b"1234", by=5, after=2)
    t.plans(1, b"123", b"1", b"1234")
    for index, sequence, payload in ((0, 1, b"123"), (0, 2, b"1"), (1, 1, b"123"), (1, 2, b"1"), (1, 3, b"1234")):
        t.out(index, DATA, sequence, payload)
    t.nothing()


@corner
def plan_stopped_by_7(t: Corner) -> None:
    """At the first payload, the only one, a middle one, the last."""
    t.given(tx(window=4))
    t.up(0)
    t.stops(0, *counted(1, 6), by=7, after=4)
    t.stops(0, *counted(5, 7), by=7)
    t.stops(0, b"5", by=7)
    t.ok(t.counts, 0, gives=[4, 0])
    for number in (1, 2):
        t.out(0, DATA, number, b"%d" % number)
        t.passes(0, number, 1)
    t.stops(0, *counted(5, 7), by=7, after=2)
    t.ok(t.counts, 0, gives=[6, 2])
    for number in range(3, 7):
        t.out(0, DATA, number, b"%d" % number)
    t.nothing()


@corner
def plan_tests_in_the_order_of_a_send(t: Corner) -> None:
    t.given(tx(window=2, largest=3), rx())
    t.stops(2, b"", by=2)
    t.stops(1, b"", by=3)  # before 4 and 5
    t.stops(0, b"", by=4)  # before 5
    t.up(0)
    t.stops(0, b"1", b"2", b"", by=5, after=2)  # before 7: the window is full by then
    t.stops(0, b"1234", b"3", by=5)
    t.stops(0, b"3", b"", by=7)  # what comes after the stop is not tested
    t.out(0, DATA, 1, b"1")
    t.passes(0, 1, 1)
    t.stops(0, b"3", b"4", b"1234", by=7, after=1)
    t.out(0, DATA, 2, b"2")
    t.out(0, DATA, 3, b"3")
    t.nothing()


# 3. EMPTY PLANS


@corner
def empty_plan(t: Corner) -> None:
    """It stops at nothing, in every state of a sender, of a receiver, and where the window is full."""
    t.given(tx(window=1), rx())
    for index in (0, 1):
        t.plans(index)
        t.ok(t.open, index)
        t.plans(index)
    t.out(0, RESET, 0)
    t.opens(0)
    t.reset(1)
    t.out(1, ACKNOWLEDGE, 0)
    for index in (0, 1):
        t.plans(index)
    t.nothing()
    t.ok(t.send, 0, b"1")
    t.plans(0)
    t.ok(t.counts, 0, gives=[1, 0])
    t.out(0, DATA, 1, b"1")
    t.nothing()


@corner
def empty_plan_at_an_index_of_no_entry(t: Corner) -> None:
    """No send is made, so nobody asks for the entry."""
    t.given(tx())
    for index in (1, 16, 255):
        t.plans(index)
        t.stops(index, b"x", by=2)
        t.no(22, t.plan, index, EMPTY + b"\0")
    t.nothing()


@corner
def empty_plan_on_a_new_node(t: Corner) -> None:
    t.plans(0)
    t.plans(255)
    t.nothing()
    t.given()
    t.plans(0)


# 4. A PLAN IS ITS SINGLE SENDS


def give(t: Corner, singly: bool, index: int, *payloads: bytes, after: int, by: int = 0) -> None:
    """Payloads as one plan or one by one, up to the one that is refused."""
    if not singly:
        t.stops(index, *payloads, by=by, after=after)
        return
    for payload in payloads[:after]:
        t.ok(t.send, index, payload)
    if by:
        t.no(by, t.send, index, payloads[after])


def given_either_way(name: str, singly: bool) -> Corner:
    """Two senders that are given payloads; all other calls answer the same either way: what goes out, in which order
    and under which numbers, the counts, the timers."""
    t = Corner(name)
    t.given(tx(timeout=2, retries=1), tx(channel=8, timeout=3, retries=1))
    t.up(0, 1)
    give(t, singly, 0, b"a", b"bb", b"ccc", after=3)
    give(t, singly, 1, b"dddd", b"", b"e", after=1, by=5)
    give(t, singly, 0, b"f", b"gg", b"h", after=1, by=7)
    t.ok(t.counts, 0, gives=[4, 0])
    t.ok(t.counts, 1, gives=[1, 0])
    t.out(0, DATA, 1, b"a")
    t.out(0, DATA, 2, b"bb")
    t.ticks(1)
    t.passes(0, 1, 1)
    give(t, singly, 0, b"i", b"j", after=1, by=7)
    t.out(0, DATA, 3, b"ccc")
    t.out(1, DATA, 1, b"dddd")
    t.ticks(1)
    t.out(0, DATA, 2, b"bb")  # again, before what waits for the first time
    t.out(0, DATA, 4, b"f")
    t.out(0, DATA, 5, b"i")
    t.nothing()
    t.passes(0, 5, 0)
    t.passes(0, 2, 1)
    t.ok(t.counts, 0, gives=[5, 2])
    t.ticks(1)
    t.out(0, DATA, 3, b"ccc")
    t.nothing()
    return t


@double
def plan_is_its_single_sends() -> list[Corner]:
    return [given_either_way("plan_is_its_single_sends." + way, way == "sends") for way in ("plans", "sends")]


@corner
def plan_and_then_its_rest(t: Corner) -> None:
    """The window takes four of seven; as acknowledgements free it, the rest is sent by other plans."""
    t.given(tx(window=4))
    t.up(0)
    t.stops(0, *counted(1, 7), by=7, after=4)
    for number in range(1, 5):
        t.out(0, DATA, number, b"%d" % number)
    t.stops(0, *counted(5, 7), by=7)  # handed out is still taken
    t.passes(0, 2, 0)
    t.stops(0, *counted(5, 7), by=7)  # and so is what was acknowledged early
    t.passes(0, 1, 2)
    t.stops(0, *counted(5, 7), by=7, after=2)
    t.passes(0, 3, 1)
    t.passes(0, 4, 1)
    t.plans(0, b"7")
    t.ok(t.counts, 0, gives=[7, 4])
    for number in range(5, 8):
        t.out(0, DATA, number, b"%d" % number)
        t.passes(0, number, 1)
    t.nothing()
    t.ok(t.counts, 0, gives=[7, 7])


@corner
def plan_over_the_fold(t: Corner) -> None:
    t.given(tx(window=4, largest=3))
    t.up(0)
    t.confirm(0, 1, 253)
    t.plans(0, b"254", b"255", b"0", b"1")
    t.stops(0, b"2", by=7)
    for sequence in (254, 255, 0, 1):
        t.out(0, DATA, sequence, b"%d" % sequence)
    t.nothing()
    t.passes(0, 0, 0)
    t.passes(0, 255, 0)
    t.passes(0, 254, 3)
    t.plans(0, b"2", b"3", b"4")
    t.passes(0, 1, 1)
    t.ok(t.counts, 0, gives=[260, 257])
    for sequence in (2, 3, 4):
        t.out(0, DATA, sequence, b"%d" % sequence)


@corner
def plan_of_64_over_the_fold(t: Corner) -> None:
    """Start 200: the last has number 7."""
    t.given(tx(window=64, largest=3))
    t.up(0)
    t.confirm(0, 1, 199)
    t.plans(0, *counted(200, 263))
    for number in range(200, 264):
        t.out(0, DATA, number % 256, b"%d" % number)
    t.nothing()
    for number in range(263, 199, -1):
        t.passes(0, number % 256, 64 if number == 200 else 0)
    t.ok(t.counts, 0, gives=[263, 263])


@corner
def plans_of_several_entries(t: Corner) -> None:
    """Their payloads go out in the order in which they were accepted, single sends among them."""
    t.given(tx(), tx(channel=8))
    t.up(0, 1)
    t.plans(1, b"a", b"b")
    t.plans(0, b"c")
    t.ok(t.send, 1, b"d")
    t.stops(0, b"e", b"", by=5, after=1)
    t.stops(1, b"f", b"g", by=7, after=1)
    t.plans(0, b"h", b"i")
    for index, sequence, payload in ((1, 1, b"a"), (1, 2, b"b"), (0, 1, b"c"), (1, 3, b"d"), (0, 2, b"e"), (1, 4, b"f"),
                                     (0, 3, b"h"), (0, 4, b"i")):
        t.out(index, DATA, sequence, payload)
    t.nothing()


@corner
def plan_waits_behind_the_other_sorts(t: Corner) -> None:
    t.given(tx(timeout=2), rx(), tx(channel=8))
    t.up(0, 1)
    t.send_out(0, 1)
    t.ticks(2)
    t.plans(0, b"2", b"3")
    t.ok(t.urgent, 0, b"!")
    t.ok(t.open, 2)
    t.data(1, 1, b"x", b"x")
    t.out(1, ACKNOWLEDGE, 1)
    t.out(2, RESET, 0)
    t.out(0, URGENT, 0, b"!")
    t.out(0, DATA, 1, b"1")
    t.out(0, DATA, 2, b"2")
    t.ok(t.urgent, 0, b"?")
    t.out(0, URGENT, 0, b"?")  # between two of a plan
    t.out(0, DATA, 3, b"3")
    t.nothing()


@corner
def plan_while_a_frame_is_under_way(t: Corner) -> None:
    """An acknowledgement's, and the sender's own, which is acknowledged before its report and frees a place."""
    t.given(tx(window=4), rx())
    t.up(0, 1)
    t.data(1, 1, b"x", b"x")
    t.begin(1, ACKNOWLEDGE, 1)
    t.plans(0, b"1")
    t.no(19, t.hand_out)
    t.ok(t.report)
    t.begin(0, DATA, 1, b"1")
    t.plans(0, b"2", b"3")
    t.stops(0, b"4", b"5", by=7, after=1)
    t.passes(0, 1, 1)
    t.plans(0, b"5")
    t.no(19, t.hand_out)
    t.ok(t.report)
    for number in range(2, 6):
        t.out(0, DATA, number, b"%d" % number)
    t.nothing()


@corner
def plan_in_the_slot_of_the_frame_under_way(t: Corner) -> None:
    """That one's report starts no timer of the plan's number, which waits."""
    t.given(tx(window=1, timeout=2, retries=0))
    t.up(0)
    t.plans(0, b"1")
    t.begin(0, DATA, 1, b"1")
    t.passes(0, 1, 1)
    t.stops(0, b"2", b"3", by=7, after=1)
    t.ok(t.report)
    t.ticks(9)
    t.out(0, DATA, 2, b"2")
    t.ticks(2, last=1)


@corner
def plan_sent_again(t: Corner) -> None:
    """Each payload has a timer of its own, which starts at its own report."""
    t.given(tx(timeout=3, retries=1))
    t.up(0)
    t.plans(0, b"a", b"bb", b"ccc")
    t.ticks(9)  # what waits has none
    t.out(0, DATA, 1, b"a")
    t.ticks(1)
    t.out(0, DATA, 2, b"bb")
    t.out(0, DATA, 3, b"ccc")
    t.ticks(1)
    t.passes(0, 2, 0)
    t.ticks(1)
    t.out(0, DATA, 1, b"a")
    t.nothing()
    t.ticks(1)
    t.out(0, DATA, 3, b"ccc")
    t.nothing()
    t.passes(0, 1, 2)
    t.passes(0, 3, 1)
    t.ok(t.counts, 0, gives=[3, 3])
    t.ticks(9)
    t.nothing()


@corner
def plan_dropped_by_a_close(t: Corner) -> None:
    t.given(tx(), tx(channel=8))
    t.up(0, 1)
    t.plans(0, b"a", b"b", b"c")
    t.plans(1, b"d")
    t.out(0, DATA, 1, b"a")
    t.ok(t.close, 0)
    t.out(1, DATA, 1, b"d")
    t.nothing()
    t.ok(t.counts, 0, gives=[3, 0])
    t.up(0)
    t.plans(0, b"e")
    t.out(0, DATA, 1, b"e")


@corner
def plan_dropped_when_its_sender_fails(t: Corner) -> None:
    t.given(tx(timeout=1, retries=0), tx(channel=8))
    t.up(0, 1)
    t.plans(0, b"a", b"b", b"c")
    t.plans(1, b"d", b"e")
    t.out(0, DATA, 1, b"a")
    t.ticks(1, last=0b01)
    t.ok(t.counts, 0, gives=[3, 0])
    t.out(0, RESET, 0)
    t.out(1, DATA, 1, b"d")
    t.out(1, DATA, 2, b"e")
    t.nothing()


@corner
def plan_of_many_lengths_in_its_slots(t: Corner) -> None:
    """Longer ones after shorter and shorter after longer, over a fold of the slots; each goes out again as it was."""
    t.given(tx(window=4, largest=8, timeout=1, retries=1))
    t.up(0)
    for first, payloads in ((1, (b"12345678", b"1", b"12345", b"123")), (5, (b"123", b"12345", b"1", b"12345678")),
                            (9, (b"a", b"bbbbbbbb", b"c")), (12, (b"dddddddd", b"e", b"ffff", b"gg"))):
        numbers = list(enumerate(payloads, first))
        t.plans(0, *payloads)
        for sequence, payload in numbers:
            t.out(0, DATA, sequence, payload)
        t.ticks(1)
        for sequence, payload in numbers:
            t.out(0, DATA, sequence, payload)
            t.passes(0, sequence, 1)


HALF = LONG[:16384]  # of the most that a store can have


@corner
def plan_of_the_longest_payloads(t: Corner) -> None:
    """Half a store each: offsets above 255 and above 32,767."""
    t.given(tx(window=1, largest=16384))
    t.up(0)
    t.stops(0, HALF, HALF[::-1], HALF, by=7, after=1)
    t.out(0, DATA, 1, HALF)
    t.nothing()


@corner
def plan_of_a_payload_and_a_byte(t: Corner) -> None:
    t.given(tx(window=1, largest=16384))
    t.up(0)
    t.stops(0, HALF + b"x", HALF, by=5)
    t.nothing()


@corner
def plan_as_long_as_a_stream(t: Corner) -> None:
    """One payload of all the bytes that a record has place for; its length is tested behind the entry."""
    t.stops(0, bytes(model.MOST_STREAM - 4 - 10), by=2)


# 5. WHAT A RECEIVER WROTE, HANDED ON


def block_of(t: Corner) -> bytes:
    """The block of the last arrival, read off the desk's line: behind number, kind, 0, what it was, index, length."""
    return bytes(map(int, t.lines[-1].split()[6:]))


@corner
def delivered_block_is_a_plan(t: Corner) -> None:
    """As it stands, with several payloads, none, one, an Urgent's."""
    t.given(rx(), tx(window=8))
    t.up(0, 1)
    t.data(0, 3, b"ccc")
    t.ok(t.plan, 1, block_of(t), gives=[0, 0])
    t.data(0, 2, b"bb")
    t.data(0, 1, b"a", b"a", b"bb", b"ccc")
    t.ok(t.plan, 1, block_of(t), gives=[3, 0])
    t.data(0, 4, b"dddd", b"dddd")
    t.ok(t.plan, 1, block_of(t), gives=[1, 0])
    t.urgently(0, b"now")
    t.ok(t.plan, 1, block_of(t), gives=[1, 0])
    for sequence in (3, 2, 1, 4):
        t.out(0, ACKNOWLEDGE, sequence)
    for sequence, payload in enumerate((b"a", b"bb", b"ccc", b"dddd", b"now"), 1):
        t.out(1, DATA, sequence, payload)
    t.nothing()
    t.ok(t.counts, 1, gives=[5, 0])


@corner
def delivered_block_that_does_not_fit(t: Corner) -> None:
    """A sender whose P or W is smaller takes a part of it."""
    t.given(rx(), tx(largest=2), tx(channel=8, window=2))
    t.up(0, 1, 2)
    t.data(0, 2, b"bb")
    t.data(0, 3, b"ccc")
    t.data(0, 4, b"d")
    t.data(0, 1, b"a", b"a", b"bb", b"ccc", b"d")
    block = block_of(t)
    t.ok(t.plan, 1, block, gives=[2, 5])
    t.ok(t.plan, 2, block, gives=[2, 7])
    for sequence in (2, 3, 4, 1):
        t.out(0, ACKNOWLEDGE, sequence)
    for index in (1, 2):
        t.out(index, DATA, 1, b"a")
        t.out(index, DATA, 2, b"bb")
    t.nothing()


def delivered_at_once(t: Corner, first: int, last: int) -> None:
    """Numbers to a receiver, entry 0, whose start is the first of them, which comes last."""
    for number in range(last, first, -1):
        t.data(0, number, b"%d" % number)
        t.out(0, ACKNOWLEDGE, number)
    t.data(0, first, b"%d" % first, *counted(first, last))


@corner
def delivered_block_of_65_is_no_plan(t: Corner) -> None:
    """A window of 128 can deliver more than a plan may have."""
    t.given(rx(window=128, largest=3), tx(window=128, largest=3))
    t.up(0, 1)
    delivered_at_once(t, 1, 65)
    t.no(22, t.plan, 1, block_of(t))
    t.out(0, ACKNOWLEDGE, 1)
    t.nothing()
    delivered_at_once(t, 66, 129)
    t.ok(t.plan, 1, block_of(t), gives=[64, 0])
    t.out(0, ACKNOWLEDGE, 66)
    for sequence, payload in enumerate(counted(66, 129), 1):
        t.out(1, DATA, sequence, payload)
    t.nothing()


# 6. TWO NODES


def answer(a: Corner, b: Corner, channel: history.Channel) -> None:
    """The receiver's next acknowledgement is taken in."""
    channel.confirm(a.arrival(channel.hand_out_ack(handed_out(b)).frame).fields[-1])
    channel.check()


@double
def plan_delivered_in_order() -> list[Corner]:
    """The last frame comes first, and the second is lost and comes when it was sent again."""
    name, payloads = "plan_delivered_in_order", [b"move %d" % number for number in range(1, 6)]
    a, b, channel = Corner(name + ".A"), Corner(name + ".B"), history.Channel(name, 8)
    open_both(a, b, channel, 8, 8)
    a.plans(0, *payloads)
    for payload in payloads:
        channel.accept(payload)
    sent = [channel.hand_out_data(handed_out(a)) for _ in payloads]
    for carried in (sent[4], sent[0], sent[3], sent[2]):
        take_in(b, channel, carried)
        answer(a, b, channel)
    a.ticks(5)
    take_in(b, channel, channel.hand_out_data(handed_out(a)))
    answer(a, b, channel)
    a.nothing()
    a.ok(a.counts, 0, gives=[5, 5])
    if channel.delivered != payloads:
        raise Unexpected("%s: the plan was not delivered as it was" % name)
    return [a, b]


@double
def plans_delivered_over_the_fold() -> list[Corner]:
    """W 16 and 300 payloads, of which each plan has the next 64: the window takes 16, and the last plan is whole."""
    name, payloads = "plans_delivered_over_the_fold", [b"move %d" % number for number in range(1, 301)]
    a, b, channel = Corner(name + ".A"), Corner(name + ".B"), history.Channel(name, 16)
    open_both(a, b, channel, 16, 16)
    for first in range(0, 300, 16):
        part = payloads[first:first + 16]
        a.stops(0, *payloads[first:first + 64], by=7 if len(part) == 16 else 0, after=len(part))
        for payload in part:
            channel.accept(payload)
        for carried in [channel.hand_out_data(handed_out(a)) for _ in part]:
            take_in(b, channel, carried)
            answer(a, b, channel)
    a.ok(a.counts, 0, gives=[300, 300])
    if channel.delivered != payloads or not channel.whole:
        raise Unexpected("%s: not everything was delivered" % name)
    return [a, b]
