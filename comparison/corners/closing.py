"""What a close drops and stops, and what stays."""
from comparison.corners.corner import Corner, corner, rx, tx
from comparison.model import ACKNOWLEDGE, DATA, RESET, URGENT


@corner
def close_drops_a_reset(t: Corner) -> None:
    t.given(tx(), tx(channel=8), tx(channel=9))
    for index in (0, 1, 2):
        t.ok(t.open, index)
    t.ok(t.close, 1)
    t.out(0, RESET, 0)
    t.out(2, RESET, 0)
    t.nothing()
    t.ok(t.open, 1)
    t.ok(t.close, 0)  # its timer goes too
    t.ticks(9)
    t.out(1, RESET, 0)
    t.out(2, RESET, 0)
    t.nothing()


@corner
def close_drops_urgent_data_and_retransmissions(t: Corner) -> None:
    t.given(tx(timeout=2), tx(channel=8, timeout=2))
    t.up(0, 1)
    for index in (0, 1):
        t.send_out(index, 1, 2)
    t.ticks(2)
    for index in (0, 1):
        t.ok(t.send, index, b"3")
        t.ok(t.urgent, index, b"!")
    t.ok(t.close, 0)
    t.out(1, URGENT, 0, b"!")
    t.out(1, DATA, 1, b"1")
    t.out(1, DATA, 2, b"2")
    t.out(1, DATA, 3, b"3")
    t.nothing()
    t.ok(t.open, 0)
    t.out(0, RESET, 0)
    t.opens(0)
    t.ok(t.urgent, 0, b"?")  # none waits
    t.out(0, URGENT, 0, b"?")
    t.nothing()


@corner
def close_stops_the_timers(t: Corner) -> None:
    t.given(tx(timeout=2, retries=1))
    t.up(0)
    t.send_out(0, 1, 2)
    t.ok(t.close, 0)
    t.ticks(5)
    t.up(0)
    t.ticks(5)
    t.nothing()
    t.ignores(0, 1)  # nothing is handed out


@corner
def close_drops_a_receivers_acknowledgements(t: Corner) -> None:
    t.given(rx(), rx(channel=10))
    t.up(0, 1)
    t.data(0, 1, b"a", b"a")
    t.data(1, 1, b"b", b"b")
    t.data(0, 2, b"c", b"c")
    t.data(0, 4, b"held")
    t.data(1, 3, b"d")
    t.ok(t.close, 0)
    t.out(1, ACKNOWLEDGE, 1)
    t.out(1, ACKNOWLEDGE, 3)
    t.nothing()
    t.ok(t.open, 0)
    t.reset(0)  # none held
    t.data(0, 1, b"e", b"e")  # and the start is 1
