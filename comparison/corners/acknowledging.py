"""Acknowledgements at a sender that is Open."""
from comparison.corners.corner import Corner, corner, tx
from comparison.model import DATA


@corner
def ack_of_a_number_not_handed_out(t: Corner) -> None:
    t.given(tx())
    t.up(0)
    t.ok(t.send, 0, b"1")
    t.ignores(0, 1)
    t.ignores(0, 2)  # not even taken
    t.ok(t.counts, 0, gives=[1, 0])
    t.out(0, DATA, 1, b"1")
    t.passes(0, 1, 1)
    t.ignores(0, 1)
    t.ok(t.counts, 0, gives=[1, 1])


@corner
def acks_out_of_order(t: Corner) -> None:
    t.given(tx(window=8))
    t.up(0)
    t.send_out(0, 1, 2, 3, 4, 5)
    t.passes(0, 4, 0)
    t.ignores(0, 4)
    t.passes(0, 2, 0)
    t.passes(0, 1, 2)
    t.ignores(0, 2)  # behind the start
    t.ignores(0, 9)
    t.ignores(0, 255)
    t.passes(0, 3, 2)
    t.ok(t.counts, 0, gives=[5, 4])
    t.passes(0, 5, 1)
    t.ticks(9)
    t.nothing()


@corner
def ack_removes_a_waiting_retransmission(t: Corner) -> None:
    t.given(tx(timeout=1))
    t.up(0)
    t.send_out(0, 1, 2, 3)
    t.ticks(1)
    t.passes(0, 2, 0)
    t.out(0, DATA, 1, b"1")
    t.out(0, DATA, 3, b"3")
    t.nothing()
    t.ticks(1)
    t.passes(0, 1, 2)
    t.out(0, DATA, 3, b"3")
    t.nothing()


@corner
def ack_stops_the_timer(t: Corner) -> None:
    t.given(tx(timeout=3))
    t.up(0)
    t.send_out(0, 1, 2)
    t.ticks(2)
    t.passes(0, 2, 0)
    t.ticks(1)
    t.out(0, DATA, 1, b"1")
    t.nothing()
