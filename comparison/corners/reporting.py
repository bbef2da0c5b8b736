"""The frame under way and the report of its end (change request K3): when a timer starts, what can happen meanwhile,
and what Failing waits for."""
from comparison.corners.corner import OWN, PROTOCOL, Corner, corner, rx, tx
from comparison.model import ACKNOWLEDGE, DATA, RESET, URGENT


# 1. WHEN A TIMER STARTS


@corner
def timer_starts_at_the_report(t: Corner) -> None:
    """Not when the frame waits, nor when it is handed out; a Reset's, data's and a retransmission's alike."""
    t.given(tx(timeout=2, retries=1))
    t.ok(t.open, 0)
    t.ticks(9)
    for _ in range(2):
        t.begin(0, RESET, 0)
        t.ticks(9)
        t.ok(t.report)
        t.ticks(1)
        t.nothing()
        t.ticks(1)
    t.opens(0)
    t.ok(t.send, 0, b"1")
    t.ticks(9)
    for last in (0, 1):
        t.begin(0, DATA, 1, b"1")
        t.ticks(9)
        t.ok(t.report)
        t.ticks(1)
        t.nothing()
        t.ticks(1, last=last)
        t.ticks(9)  # what waits has no timer
    t.out(0, RESET, 0)


@corner
def timer_of_each_frame_from_its_own_report(t: Corner) -> None:
    t.given(tx(timeout=4, retries=1), tx(channel=8, timeout=2, retries=1))
    t.up(0, 1)
    t.ok(t.send, 0, b"1")
    t.ok(t.send, 1, b"1")
    t.begin(0, DATA, 1, b"1")
    t.ticks(3)
    t.ok(t.report)  # due at 7
    t.begin(1, DATA, 1, b"1")
    t.ticks(2)
    t.ok(t.report)  # due at 7
    t.ticks(1)
    t.nothing()
    t.ticks(1)
    t.begin(0, DATA, 1, b"1")
    t.ticks(1)
    t.ok(t.report)  # due at 12
    t.out(1, DATA, 1, b"1")  # due at 10
    t.ticks(1)
    t.nothing()
    t.ticks(1, last=0b10)
    t.out(1, RESET, 0)
    t.ticks(2, last=0b01)


@corner
def timers_of_others_fall_while_a_frame_is_under_way(t: Corner) -> None:
    t.given(tx(timeout=2, retries=3), tx(channel=8, timeout=5))
    t.up(0, 1)
    t.send_out(0, 1, 2)
    t.ok(t.send, 1, b"1")
    t.begin(1, DATA, 1, b"1")
    t.ticks(2)  # of entry 0 both wait again
    t.no(19, t.hand_out)
    t.passes(0, 2, 0)  # and number 2 waits no more
    t.ok(t.report)
    t.out(0, DATA, 1, b"1")
    t.nothing()


@corner
def acknowledge_and_urgent_start_nothing(t: Corner) -> None:
    t.given(tx(timeout=1, retries=0), rx())
    t.up(0, 1)
    t.ok(t.urgent, 0, b"!")
    t.out(0, URGENT, 0, b"!")
    t.data(1, 1, b"a", b"a")
    t.out(1, ACKNOWLEDGE, 1)
    t.ticks(9)
    t.nothing()


@corner
def calls_go_on_while_a_frame_is_under_way(t: Corner) -> None:
    """All but handing out; and what is under way waits no more, so that its place is free."""
    t.given(tx(window=1), rx(), tx(channel=8))
    t.up(0, 1)
    t.ok(t.urgent, 0, b"!")
    t.begin(0, URGENT, 0, b"!")
    t.ok(t.urgent, 0, b"?")  # none waits
    t.no(9, t.urgent, 0, b"?")
    t.ok(t.send, 0, b"1")
    t.no(7, t.send, 0, b"2")
    t.data(1, 1, b"a", b"a")
    t.ok(t.open, 2)
    t.ok(t.close, 2)
    t.ok(t.counts, 0, gives=[1, 0])
    t.ticks(9)
    t.no(19, t.hand_out)
    t.ok(t.report)
    t.out(1, ACKNOWLEDGE, 1)
    t.out(0, URGENT, 0, b"?")
    t.out(0, DATA, 1, b"1")
    t.nothing()


# 2. REFUSALS 19 AND 20


@corner
def refusal_19_with_a_frame_of_any_type(t: Corner) -> None:
    t.given(tx(timeout=1), rx())
    t.ok(t.open, 0)
    t.ok(t.open, 1)
    t.reset(1)
    frames = ((1, ACKNOWLEDGE, 0, b""), (0, RESET, 0, b""), (0, URGENT, 0, b"!"), (0, DATA, 1, b"1"))
    for index, control, sequence, payload in frames:
        t.begin(index, control, sequence, payload)
        t.no(19, t.hand_out)
        t.no(19, t.hand_out)
        t.ok(t.report)
        t.no(20, t.report)
        if control == RESET:
            t.opens(0)
            t.ok(t.urgent, 0, b"!")
            t.ok(t.send, 0, b"1")
    t.ticks(1)
    t.begin(0, DATA, 1, b"1")  # again
    t.no(19, t.hand_out)
    t.ok(t.report)
    t.no(20, t.report)


@corner
def refusal_19_with_nothing_waiting(t: Corner) -> None:
    t.given(tx())
    t.ok(t.open, 0)
    t.begin(0, RESET, 0)
    t.no(19, t.hand_out)  # and not length 0
    t.ok(t.report)
    t.nothing()


@corner
def refusal_20_where_nothing_was_handed_out(t: Corner) -> None:
    """On a new node, after setup, and after a length of 0."""
    t.no(20, t.report)
    t.nothing()
    t.no(20, t.report)
    t.given(tx())
    t.no(20, t.report)
    t.nothing()
    t.no(20, t.report)
    t.ok(t.open, 0)
    t.no(20, t.report)  # its Reset waits
    t.begin(0, RESET, 0)
    t.ok(t.report)


@corner
def report_lost(t: Corner) -> None:
    """No timer starts, however many ticks pass, and nothing more goes out."""
    t.given(tx(timeout=1, retries=0), tx(channel=8, timeout=1, retries=0))
    t.up(0, 1)
    t.ok(t.send, 0, b"1")
    t.ok(t.send, 1, b"1")
    t.begin(0, DATA, 1, b"1")
    for _ in range(50):
        t.ticks(20)
        t.no(19, t.hand_out)
    t.passes(0, 1, 1)
    t.no(19, t.hand_out)
    t.ok(t.report)
    t.out(1, DATA, 1, b"1")
    t.ticks(1, last=0b10)


@corner
def report_twice(t: Corner) -> None:
    """The second is refused and starts no timer anew."""
    t.given(tx(timeout=3, retries=0))
    t.up(0)
    t.ok(t.send, 0, b"1")
    t.begin(0, DATA, 1, b"1")
    t.ok(t.report)
    t.no(20, t.report)
    t.ticks(2)
    t.no(20, t.report)
    t.ticks(1, last=1)


# 3. SETUP AND CLOSE


@corner
def setup_clears_the_frame_under_way(t: Corner) -> None:
    t.given(tx(timeout=1, retries=0))
    t.up(0)
    t.ok(t.send, 0, b"1")
    t.begin(0, DATA, 1, b"1")
    t.given(tx(timeout=1, retries=0))
    t.no(20, t.report)
    t.nothing()
    t.up(0)
    t.send_out(0, 1)
    t.ticks(1, last=1)


@corner
def a_refused_setup_leaves_the_frame_under_way(t: Corner) -> None:
    t.given(tx(timeout=1, retries=0))
    t.up(0)
    t.ok(t.send, 0, b"1")
    t.begin(0, DATA, 1, b"1")
    t.no(1, t.table, b"")
    t.no(1, t.setup, OWN, PROTOCOL, [tx(), tx()])
    t.no(19, t.hand_out)
    t.ok(t.report)
    t.ticks(1, last=1)


@corner
def close_does_not_end_the_frame_under_way(t: Corner) -> None:
    """A Reset, an Urgent, data: handing out is refused until the report, which then starts no timer."""
    t.given(tx(timeout=1, retries=0))
    t.ok(t.open, 0)
    t.begin(0, RESET, 0)
    closed_meanwhile(t)
    t.up(0)
    t.ok(t.urgent, 0, b"!")
    t.begin(0, URGENT, 0, b"!")
    closed_meanwhile(t)
    t.up(0)
    t.ok(t.send, 0, b"1")
    t.begin(0, DATA, 1, b"1")
    closed_meanwhile(t)


def closed_meanwhile(t: Corner) -> None:
    t.ok(t.close, 0)
    t.no(19, t.hand_out)
    t.ok(t.report)
    t.ticks(3)
    t.nothing()


@corner
def receiver_closed_while_its_acknowledgement_is_under_way(t: Corner) -> None:
    t.given(rx(), rx(channel=10))
    t.up(0, 1)
    t.data(0, 1, b"a", b"a")
    t.data(0, 2, b"b", b"b")
    t.data(1, 1, b"c", b"c")
    t.begin(0, ACKNOWLEDGE, 1)
    t.ok(t.close, 0)
    t.no(19, t.hand_out)
    t.ok(t.report)
    t.out(1, ACKNOWLEDGE, 1)  # the other's; number 2's has gone
    t.nothing()


@corner
def acknowledgement_under_way_waits_no_more(t: Corner) -> None:
    """Its place among the 32 is free, and a Reset that drops those that wait does not end it."""
    t.given(rx())
    t.up(0)
    for _ in range(32):
        t.data(0, 200, b"old")
    t.no(14, t.arrival, t.frame(0, DATA, 1, b"1"))
    t.begin(0, ACKNOWLEDGE, 200)
    t.data(0, 1, b"1", b"1")
    t.no(14, t.arrival, t.frame(0, RESET, 0))
    t.ok(t.report)
    t.begin(0, ACKNOWLEDGE, 200)
    t.reset(0)
    t.no(19, t.hand_out)
    t.ok(t.report)
    t.out(0, ACKNOWLEDGE, 0)
    t.nothing()


# 4. WHAT CAN HAPPEN MEANWHILE


@corner
def ack_before_the_report_counts(t: Corner) -> None:
    """The number was handed out: the start passes it, its place in the window is free, and no timer starts."""
    t.given(tx(window=1, timeout=1, retries=0))
    t.up(0)
    t.ok(t.send, 0, b"1")
    t.ignores(0, 1)
    t.begin(0, DATA, 1, b"1")
    t.no(7, t.send, 0, b"2")
    t.passes(0, 1, 1)
    t.ignores(0, 1)
    t.ok(t.counts, 0, gives=[1, 1])
    t.ok(t.report)
    t.ticks(9)
    t.nothing()


@corner
def ack_out_of_order_before_the_report(t: Corner) -> None:
    """Number 2 is acknowledged and still taken, since number 1 is not acknowledged: no timer starts."""
    t.given(tx(timeout=5, retries=1))
    t.up(0)
    t.send_out(0, 1)
    t.ok(t.send, 0, b"2")
    t.begin(0, DATA, 2, b"2")
    t.passes(0, 2, 0)
    t.ok(t.report)
    t.ticks(5)
    t.out(0, DATA, 1, b"1")
    t.nothing()
    t.passes(0, 1, 2)
    t.ticks(9)
    t.nothing()


@corner
def retransmission_acknowledged_before_the_report(t: Corner) -> None:
    t.given(tx(timeout=2, retries=1))
    t.up(0)
    t.send_out(0, 1, 2)
    t.ticks(2)
    t.begin(0, DATA, 1, b"1")
    t.passes(0, 1, 1)
    t.ok(t.report)
    t.out(0, DATA, 2, b"2")  # which waits again still
    t.ticks(2, last=1)


@corner
def slot_taken_by_a_later_number_meanwhile(t: Corner) -> None:
    """The number under way is acknowledged and a later one is in its slot: the report is not that one's."""
    t.given(tx(window=2, timeout=2, retries=0))
    t.up(0)
    t.ok(t.send, 0, b"1")
    t.begin(0, DATA, 1, b"1")
    t.passes(0, 1, 1)
    t.ok(t.send, 0, b"2")
    t.ok(t.send, 0, b"3")  # where 1 was
    t.ok(t.report)
    t.ticks(9)
    t.ignores(0, 3)  # it waits
    t.out(0, DATA, 2, b"2")
    t.begin(0, DATA, 3, b"3")
    t.ticks(1)
    t.passes(0, 2, 1)
    t.ok(t.report)
    t.ticks(1)
    t.ticks(1, last=1)


@corner
def slot_taken_by_a_later_number_over_the_fold(t: Corner) -> None:
    t.given(tx(window=1, timeout=2, retries=0))
    t.up(0)
    t.confirm(0, 1, 254)
    t.ok(t.send, 0, b"255")
    t.begin(0, DATA, 255, b"255")
    t.passes(0, 255, 1)
    t.ok(t.send, 0, b"0")
    t.ok(t.report)
    t.ticks(9)
    t.out(0, DATA, 0, b"0")
    t.ticks(2, last=1)


@corner
def reset_answered_before_the_report(t: Corner) -> None:
    """It was handed out, so acknowledgement 0 opens; its report starts nothing, and the run begins as any other."""
    t.given(tx(timeout=2, retries=0))
    t.ok(t.open, 0)
    t.begin(0, RESET, 0)
    t.opens(0)
    t.ok(t.send, 0, b"1")
    t.no(19, t.hand_out)
    t.ok(t.report)
    t.ticks(9)
    t.out(0, DATA, 1, b"1")
    t.ticks(2, last=1)


@corner
def reset_again_answered_before_the_report(t: Corner) -> None:
    t.given(tx(timeout=1))
    t.ok(t.open, 0)
    t.out(0, RESET, 0)
    t.ticks(1)
    t.begin(0, RESET, 0)
    t.ignores(0, 1)
    t.opens(0)
    t.ok(t.report)
    t.ticks(9)
    t.nothing()


@corner
def closed_and_opened_again_while_a_reset_is_under_way(t: Corner) -> None:
    """The new Reset waits, and the end of the old one is not its own."""
    t.given(tx(timeout=1))
    t.ok(t.open, 0)
    t.begin(0, RESET, 0)
    t.ok(t.close, 0)
    t.ok(t.open, 0)
    t.no(19, t.hand_out)
    t.ignores(0, 0)  # an answer to the old one: none went out since this Enabled began
    t.ok(t.report)
    t.ticks(9)
    t.out(0, RESET, 0)
    t.nothing()  # one waited, and not a second that the old one's timer would have brought
    t.ticks(1)
    t.out(0, RESET, 0)
    t.opens(0)


@corner
def closed_and_opened_again_while_data_is_under_way(t: Corner) -> None:
    t.given(tx(timeout=1, retries=0))
    t.up(0)
    t.ok(t.send, 0, b"1")
    t.begin(0, DATA, 1, b"1")
    t.ok(t.close, 0)
    t.ok(t.open, 0)
    t.ignores(0, 1)
    t.ok(t.report)
    t.ticks(9)
    t.out(0, RESET, 0)
    t.opens(0)
    t.ok(t.send, 0, b"1")  # number 1 of the new run
    t.ticks(9)
    t.ignores(0, 1)
    t.out(0, DATA, 1, b"1")
    t.ticks(1, last=1)


@corner
def reset_under_way_does_not_wait(t: Corner) -> None:
    """Though its end is Enabled and no timer runs: an acknowledgement and a close take no other Reset away."""
    t.given(tx(), tx(channel=8), tx(channel=9), tx(channel=10))
    for index in (0, 1, 2, 3):
        t.ok(t.open, index)
    t.begin(0, RESET, 0)
    t.opens(0)
    t.ok(t.report)
    t.begin(1, RESET, 0)
    t.ok(t.close, 1)
    t.ok(t.report)
    t.out(2, RESET, 0)
    t.out(3, RESET, 0)
    t.nothing()


@corner
def retransmission_under_way_does_not_wait(t: Corner) -> None:
    """Though it is handed out and not acknowledged, and no timer runs of it."""
    t.given(tx(timeout=2), tx(channel=8, timeout=2))
    t.up(0, 1)
    t.send_out(0, 1, 2)
    t.send_out(1, 1, 2)
    t.ticks(2)  # all four wait again
    t.begin(0, DATA, 1, b"1")
    t.passes(0, 1, 1)
    t.ok(t.report)
    t.begin(0, DATA, 2, b"2")
    t.ok(t.close, 0)
    t.ok(t.report)
    t.out(1, DATA, 1, b"1")
    t.out(1, DATA, 2, b"2")
    t.nothing()


# 5. FAILING


def failing(t: Corner, under_way: int) -> None:
    """Brings entry 0 (retries 0, timeout 2) to Failing, with none of its timers running and a frame of this type of its
    own under way: number 2, or an Urgent."""
    t.up(0)
    t.send_out(0, 1)
    t.ok(t.send if under_way == DATA else t.urgent, 0, b"own")
    t.begin(0, under_way, 2 if under_way == DATA else 0, b"own")
    t.ticks(2)  # number 1 fails
    t.no(4, t.send, 0, b"x")


@corner
def failing_waits_for_its_data_under_way(t: Corner) -> None:
    """Until its end is reported, and then until its timer has ended."""
    t.given(tx(timeout=2, retries=0))
    failing(t, DATA)
    t.ticks(20)
    t.no(4, t.open, 0)
    t.ok(t.report)
    t.ticks(1)
    t.no(4, t.send, 0, b"x")
    t.nothing()
    t.ticks(1, last=1)
    t.out(0, RESET, 0)
    t.nothing()


@corner
def failing_waits_for_data_acknowledged_after_the_report(t: Corner) -> None:
    t.given(tx(timeout=9, retries=0))
    t.up(0)
    t.send_out(0, 1)
    t.ok(t.send, 0, b"2")
    t.begin(0, DATA, 2, b"2")
    t.ticks(9)
    t.ok(t.report)
    t.ticks(3)
    t.passes(0, 2, 0)
    t.ticks(1, last=1)


@corner
def failing_waits_for_acknowledged_data_under_way(t: Corner) -> None:
    """No timer starts of it, and yet it is the end's own: the tick after its report ends Failing."""
    t.given(tx(timeout=2, retries=0))
    failing(t, DATA)
    t.passes(0, 2, 0)
    t.ticks(3)
    t.passes(0, 1, 2)
    t.ticks(3)
    t.ok(t.counts, 0, gives=[2, 2])
    t.ok(t.report)
    t.no(4, t.send, 0, b"x")  # only a tick ends it
    t.ticks(1, last=1)
    t.out(0, RESET, 0)


@corner
def failing_waits_for_its_urgent_under_way(t: Corner) -> None:
    t.given(tx(timeout=2, retries=0))
    failing(t, URGENT)
    t.ticks(20)
    t.ok(t.report)
    t.nothing()
    t.ticks(1, last=1)
    t.out(0, RESET, 0)
    t.nothing()


@corner
def failing_waits_for_its_retransmission_under_way(t: Corner) -> None:
    """Number 2's, which has spent its retry too."""
    t.given(tx(timeout=3, retries=1))
    t.up(0)
    t.send_out(0, 1, 2)
    t.ticks(3)
    t.out(0, DATA, 1, b"1")
    t.ticks(1)
    t.begin(0, DATA, 2, b"2")
    t.ticks(2)  # number 1 fails
    t.ticks(9)
    t.ok(t.report)
    t.ticks(2)
    t.nothing()
    t.ticks(1, last=1)
    t.out(0, RESET, 0)
    t.nothing()


@corner
def failing_drops_what_waits_and_not_what_is_under_way(t: Corner) -> None:
    """Of others nothing is dropped; number 3 goes, and number 2 is waited for."""
    t.given(tx(timeout=2, retries=0), tx(channel=8, timeout=1, retries=9))
    t.up(0, 1)
    t.send_out(1, 1, 2)
    t.send_out(0, 1)
    t.ok(t.send, 0, b"2")
    t.ok(t.send, 0, b"3")
    t.ok(t.send, 1, b"3")
    t.begin(0, DATA, 2, b"2")
    t.ticks(2)  # of entry 1 two wait again; number 1 of entry 0 fails
    t.ok(t.report)
    for sequence in (1, 2, 3):
        t.out(1, DATA, sequence, b"%d" % sequence)
    t.nothing()
    t.ticks(2, last=0b01)
    t.out(0, RESET, 0)


@corner
def failing_waits_for_timers_and_for_its_frame(t: Corner) -> None:
    """Whichever is later: here a timer, after the report of the Urgent."""
    t.given(tx(timeout=4, retries=0))
    t.up(0)
    t.send_out(0, 1)
    t.ticks(2)
    t.send_out(0, 2)
    t.ok(t.urgent, 0, b"!")
    t.begin(0, URGENT, 0, b"!")
    t.ticks(2)  # number 1 fails, number 2 has 2 ticks left
    t.ticks(1)
    t.ok(t.report)
    t.ticks(1, last=1)
    t.out(0, RESET, 0)


@corner
def recovery_in_the_tick_of_the_last_timer_after_the_report(t: Corner) -> None:
    """The report comes before the tick in which the end fails: nothing holds it up."""
    t.given(tx(timeout=2, retries=0))
    t.up(0)
    t.send_out(0, 1)
    t.ok(t.urgent, 0, b"!")
    t.begin(0, URGENT, 0, b"!")
    t.ticks(1)
    t.ok(t.report)
    t.ticks(1, last=1)


@corner
def frames_of_others_do_not_hold_recovery_up(t: Corner) -> None:
    """Another sender's data and a receiver's acknowledgement are under way."""
    t.given(tx(timeout=1, retries=0), tx(channel=8), rx())
    t.up(0, 1, 2)
    t.send_out(0, 1)
    t.ok(t.send, 1, b"1")
    t.begin(1, DATA, 1, b"1")
    t.ticks(1, last=0b001)
    t.no(19, t.hand_out)  # its Reset waits
    t.ok(t.report)
    t.out(0, RESET, 0)
    t.opens(0)
    t.send_out(0, 1)
    t.data(2, 1, b"a", b"a")
    t.begin(2, ACKNOWLEDGE, 1)
    t.ticks(1, last=0b001)
    t.ok(t.report)
    t.out(0, RESET, 0)


@corner
def one_of_two_failing_ends_is_held_up(t: Corner) -> None:
    t.given(tx(timeout=2, retries=0), tx(channel=8, timeout=2, retries=0))
    t.up(0, 1)
    t.send_out(0, 1)
    t.send_out(1, 1)
    t.ok(t.urgent, 0, b"!")
    t.begin(0, URGENT, 0, b"!")
    t.ticks(2, last=0b10)
    t.ok(t.report)
    t.ticks(1, last=0b01)
    t.out(1, RESET, 0)
    t.out(0, RESET, 0)


@corner
def failing_closed_while_its_frame_is_under_way(t: Corner) -> None:
    """The frame's end is nobody's then, though the entry is opened again."""
    t.given(tx(timeout=2, retries=0))
    failing(t, DATA)
    t.ok(t.close, 0)
    t.ticks(3)
    t.ok(t.open, 0)
    t.ticks(3)
    t.ok(t.report)
    t.ticks(9)
    t.out(0, RESET, 0)
    t.nothing()
