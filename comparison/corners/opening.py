"""A sender's way from Closed to Open: acknowledgement 0, and the counts, which are kept until it."""
from comparison.corners.corner import Corner, corner, rx, tx
from comparison.model import ACKNOWLEDGE, RESET


@corner
def every_state(t: Corner) -> None:
    t.given(tx(retries=0, timeout=2), rx())
    t.ok(t.open, 0)
    t.ignores(0, 0)  # Enabled, no Reset out
    t.out(0, RESET, 0)
    t.ignores(0, 1)
    t.ticks(2)
    t.out(0, RESET, 0)  # again, its timer ended
    t.opens(0)
    t.ignores(0, 0)
    t.send_out(0, 1)
    t.ticks(1)
    t.send_out(0, 2)
    t.ticks(1)  # Failing: number 2 still runs
    t.passes(0, 1, 1)
    t.ticks(1, last=1)
    t.ok(t.counts, 0, gives=[2, 1])
    t.out(0, RESET, 0)
    t.opens(0)
    t.ok(t.counts, 0, gives=[0, 0])
    t.send_out(0, 1)


@corner
def counts_kept_over_close(t: Corner) -> None:
    t.given(tx())
    t.up(0)
    t.confirm(0, 1, 2)
    t.send_out(0, 3)
    t.ok(t.close, 0)
    t.ok(t.counts, 0, gives=[3, 2])
    t.ok(t.open, 0)
    t.ok(t.counts, 0, gives=[3, 2])
    t.out(0, RESET, 0)
    t.ok(t.counts, 0, gives=[3, 2])
    t.opens(0)
    t.ok(t.counts, 0, gives=[0, 0])
    t.send_out(0, 1)  # and the numbers begin at 1


@corner
def counts_kept_when_failing_ends(t: Corner) -> None:
    t.given(tx(retries=0, timeout=1))
    t.up(0)
    t.confirm(0, 1, 2)
    t.send_out(0, 3)
    t.ticks(1, last=1)
    t.ok(t.counts, 0, gives=[3, 2])
    t.ignores(0, 3)  # nothing of it counts any more
    t.out(0, RESET, 0)
    t.ignores(0, 3)
    t.opens(0)
    t.ok(t.counts, 0, gives=[0, 0])


@corner
def ack_0_before_the_reset_is_out(t: Corner) -> None:
    t.given(tx())
    t.ok(t.open, 0)
    t.ignores(0, 0)
    t.out(0, RESET, 0)
    t.opens(0)
    t.nothing()


@corner
def ack_0_of_an_earlier_opening(t: Corner) -> None:
    t.given(tx())
    t.ok(t.open, 0)
    t.out(0, RESET, 0)
    t.ok(t.close, 0)
    t.no(13, t.arrival, t.frame(0, ACKNOWLEDGE, 0))
    t.ok(t.open, 0)
    t.ignores(0, 0)  # no Reset went out since this Enabled began
    t.out(0, RESET, 0)
    t.opens(0)


@corner
def ack_0_removes_a_waiting_reset(t: Corner) -> None:
    t.given(tx(timeout=2), tx(channel=8, timeout=2))
    for index in (0, 1):
        t.ok(t.open, index)
    t.out(0, RESET, 0)
    t.out(1, RESET, 0)
    t.ticks(2)  # both wait again
    t.opens(0)
    t.out(1, RESET, 0)  # the other's stays
    t.nothing()
    t.opens(1)
    t.ticks(9)
    t.nothing()


@corner
def ack_0_stops_the_resets_timer(t: Corner) -> None:
    t.given(tx(timeout=2))
    t.ok(t.open, 0)
    t.out(0, RESET, 0)
    t.ticks(1)
    t.opens(0)
    t.ticks(6)
    t.nothing()
