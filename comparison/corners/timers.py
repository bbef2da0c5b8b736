"""Timers that run together: which ends when, whatever was started or stopped in between."""
from comparison.corners.corner import Corner, corner, tx
from comparison.model import DATA, RESET


@corner
def timers_end_in_window_order_not_as_started(t: Corner) -> None:
    """A timer of number 2 is older than number 1's after a retransmission of 1; then both end in one tick, 1 first."""
    t.given(tx(timeout=3, retries=9))
    t.up(0)
    t.send_out(0, 1)
    t.ticks(2)
    t.send_out(0, 2)
    t.ticks(1)
    t.out(0, DATA, 1, b"1")
    t.ticks(2)  # number 2 ends, number 1 runs on
    t.ticks(1)  # number 1 ends
    t.out(0, DATA, 2, b"2")
    t.out(0, DATA, 1, b"1")
    t.ticks(2)
    t.nothing()
    t.ticks(1)  # both
    t.out(0, DATA, 1, b"1")
    t.out(0, DATA, 2, b"2")
    t.nothing()


@corner
def timers_over_the_fold_not_as_started(t: Corner) -> None:
    """The same of numbers 255 and 0; number 0 then fails alone, since number 255 is acknowledged."""
    t.given(tx(timeout=3, retries=2))
    t.up(0)
    t.confirm(0, 1, 254)
    t.send_out(0, 255)
    t.ticks(2)
    t.send_out(0, 0)
    t.ticks(1)
    t.out(0, DATA, 255, b"255")
    t.ticks(3)
    t.out(0, DATA, 0, b"0")
    t.out(0, DATA, 255, b"255")
    t.ticks(1)
    t.passes(0, 255, 1)
    t.ticks(2)
    t.out(0, DATA, 0, b"0")
    t.nothing()
    t.ticks(3, last=1)
    t.out(0, RESET, 0)


@corner
def shortest_and_longest_timeout(t: Corner) -> None:
    """T 65,535 and T 1 side by side: the one does not end in a trace's time, the other ends at every tick."""
    t.given(tx(timeout=65535), tx(channel=8, timeout=1, retries=255), tx(channel=9, timeout=300, retries=1))
    t.up(0, 1, 2)
    t.send_out(0, 1)
    t.ticks(9)
    for index in (1, 2):
        t.send_out(index, 1)
    for _ in range(20):
        t.ticks(1)
        t.out(1, DATA, 1, b"1")
        t.nothing()
    t.passes(1, 1, 1)
    t.ticks(279)
    t.nothing()
    t.ticks(1)
    t.out(2, DATA, 1, b"1")
    t.send_out(1, 2)
    t.ticks(1)
    t.out(1, DATA, 2, b"2")
    t.passes(1, 2, 1)
    t.ticks(299, last=0b100)
    t.out(2, RESET, 0)
    t.ok(t.close, 2)
    t.ticks(11000)
    t.nothing()
    t.send_out(1, 3)  # a short one after a long quiet
    t.ticks(1)
    t.out(1, DATA, 3, b"3")
    t.passes(0, 1, 1)


@corner
def resets_timer_of_the_longest_timeout(t: Corner) -> None:
    t.given(tx(timeout=65535), tx(channel=8, timeout=2))
    t.ok(t.open, 0)
    t.out(0, RESET, 0)
    t.ok(t.open, 1)
    t.out(1, RESET, 0)
    t.ticks(2)
    t.out(1, RESET, 0)
    t.nothing()
    t.opens(1)
    t.ticks(500)
    t.nothing()
    t.opens(0)
    t.ticks(3)
    t.nothing()


@corner
def first_of_several_timers_is_stopped(t: Corner) -> None:
    """The next is due later than the one that was stopped, and ends at its own tick."""
    t.given(tx(timeout=5), tx(channel=8, timeout=9, retries=1))
    t.up(0, 1)
    t.send_out(1, 1)  # due at 9
    t.send_out(0, 1)  # due at 5
    t.ticks(2)
    t.send_out(0, 2)  # due at 7
    t.ticks(1)
    t.passes(0, 1, 1)
    t.ticks(3)  # past 5
    t.nothing()
    t.passes(0, 2, 1)
    t.ticks(2)  # past 7
    t.nothing()
    t.ticks(1)
    t.out(1, DATA, 1, b"1")
    t.nothing()
    t.send_out(0, 3)  # due at 14, the other at 18
    t.ticks(1)
    t.passes(0, 3, 1)
    t.ticks(7)
    t.nothing()
    t.ticks(1, last=0b10)


@corner
def first_of_several_timers_is_closed(t: Corner) -> None:
    t.given(tx(timeout=3), tx(channel=8, timeout=6), tx(channel=9, timeout=4))
    t.up(0, 1)
    t.send_out(0, 1)
    t.send_out(1, 1)
    t.ok(t.open, 2)
    t.out(2, RESET, 0)
    t.ticks(1)
    t.ok(t.close, 0)
    t.ticks(2)
    t.nothing()
    t.opens(2)  # its Reset was due at 4
    t.ticks(2)
    t.nothing()
    t.ticks(1)
    t.out(1, DATA, 1, b"1")
    t.nothing()


@corner
def first_of_several_timers_starts_again(t: Corner) -> None:
    """Stopped and started anew, it is due from its new start on."""
    t.given(tx(timeout=4, window=1), tx(channel=8, timeout=7))
    t.up(0, 1)
    t.send_out(1, 1)  # due at 7
    t.send_out(0, 1)  # due at 4
    t.ticks(2)
    t.passes(0, 1, 1)
    t.send_out(0, 2)  # due at 6
    t.ticks(3)
    t.nothing()
    t.ticks(1)
    t.out(0, DATA, 2, b"2")
    t.nothing()
    t.ticks(1)
    t.out(1, DATA, 1, b"1")
    t.ticks(3)
    t.out(0, DATA, 2, b"2")
    t.nothing()


@corner
def several_entries_end_in_one_tick(t: Corner) -> None:
    """Timeouts and starts that differ come to the same tick; Resets and data in table order, each in its own list."""
    t.given(tx(timeout=2), tx(channel=8, timeout=7), tx(channel=9, timeout=3), tx(channel=10, timeout=5))
    t.up(0, 1, 2)
    t.send_out(1, 1)
    t.ticks(2)
    t.ok(t.open, 3)
    t.out(3, RESET, 0)
    t.ticks(2)
    t.send_out(2, 1, 2)
    t.ticks(1)
    t.send_out(0, 1)
    t.ticks(1)
    t.nothing()
    t.ticks(1)
    t.out(3, RESET, 0)
    for index, sequence in ((0, 1), (1, 1), (2, 1), (2, 2)):
        t.out(index, DATA, sequence, b"%d" % sequence)
    t.nothing()


@corner
def several_entries_fail_in_one_tick(t: Corner) -> None:
    """One recovers in the tick, one waits for a timer, one that is sound sends again."""
    t.given(tx(timeout=4, retries=0), tx(channel=8, timeout=4, retries=0), tx(channel=9, timeout=4, retries=1))
    t.up(0, 1, 2)
    for index in (2, 1, 0):
        t.send_out(index, 1)
    t.ticks(3)
    t.send_out(1, 2)
    t.ticks(1, last=0b001)
    t.out(0, RESET, 0)
    t.out(2, DATA, 1, b"1")
    t.nothing()
    t.ticks(2)
    t.ticks(1, last=0b010)
    t.out(1, RESET, 0)
    t.nothing()


@corner
def acks_at_failing_recover_at_the_next_tick(t: Corner) -> None:
    """No timer runs and none is due for long: the next tick recovers the end, not that at which the last was due."""
    t.given(tx(timeout=9, retries=0), tx(channel=8, timeout=50))
    t.up(0, 1)
    t.send_out(1, 1)
    t.send_out(0, 1)
    t.ticks(7)
    t.send_out(0, 2, 3)
    t.ticks(2)  # number 1 fails; 2 and 3 have 7 ticks left
    t.passes(0, 2, 0)
    t.ticks(1)  # number 3 runs
    t.passes(0, 3, 0)
    t.no(4, t.send, 0, b"x")
    t.ticks(1, last=0b01)
    t.out(0, RESET, 0)
    t.ticks(8)
    t.nothing()
    t.ticks(1)
    t.out(0, RESET, 0)
    t.nothing()


@corner
def acks_at_failing_recover_two_ends(t: Corner) -> None:
    """In table order, by the same tick, whichever was acknowledged first."""
    t.given(tx(timeout=9, retries=0), tx(channel=8, timeout=9, retries=0))
    t.up(0, 1)
    for index in (0, 1):
        t.send_out(index, 1)
    t.ticks(4)
    for index in (0, 1):
        t.send_out(index, 2)
    t.ticks(5)
    for index in (1, 0):
        t.passes(index, 1, 1)
        t.passes(index, 2, 1)
    t.ticks(1, last=0b11)
    t.out(0, RESET, 0)
    t.out(1, RESET, 0)
    t.nothing()


@corner
def acks_at_failing_leave_one_running(t: Corner) -> None:
    t.given(tx(timeout=9, retries=0, window=8))
    t.up(0)
    t.send_out(0, 1)
    t.ticks(5)
    t.send_out(0, 2, 3)
    t.ticks(4)  # number 1 fails; 2 and 3 have 5 ticks left
    t.passes(0, 1, 1)  # its timer has ended
    t.passes(0, 3, 0)
    t.ticks(4)
    t.nothing()
    t.ticks(1, last=1)
    t.out(0, RESET, 0)


@corner
def failing_and_enabled_after_a_long_timeout(t: Corner) -> None:
    t.given(tx(timeout=700, retries=0), tx(channel=8, timeout=900))
    t.up(0, 1)
    t.send_out(1, 1)
    t.ticks(100)
    t.send_out(0, 1)
    t.ticks(700, last=0b01)
    t.out(0, RESET, 0)
    t.nothing()
    t.opens(0)
    t.send_out(0, 1)
    t.ticks(99)
    t.nothing()
    t.ticks(1)
    t.out(1, DATA, 1, b"1")
    t.ticks(600, last=0b01)


@corner
def setup_anew_stops_the_timers(t: Corner) -> None:
    t.given(tx(timeout=4, retries=0), tx(channel=8, timeout=4))
    t.up(0)
    t.send_out(0, 1)
    t.ok(t.open, 1)
    t.out(1, RESET, 0)
    t.ticks(3)
    t.given(tx(timeout=6, retries=1), tx(channel=8, timeout=2))
    t.ticks(5)
    t.nothing()
    t.up(0)
    t.send_out(0, 1)
    t.ticks(5)
    t.nothing()
    t.ticks(1)
    t.out(0, DATA, 1, b"1")
    t.nothing()
