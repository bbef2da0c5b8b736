"""The order in which waiting frames are handed out."""
from comparison.corners.corner import Corner, corner, rx, tx
from comparison.model import ACKNOWLEDGE, DATA, RESET, URGENT


@corner
def sorts_in_order(t: Corner) -> None:
    t.given(tx(timeout=2), rx(), tx(channel=8), rx(channel=10))
    t.up(0, 1, 3)
    t.send_out(0, 1, 2)
    t.ticks(2)  # two retransmissions
    t.ok(t.send, 0, b"3")
    t.ok(t.urgent, 0, b"!")
    t.ok(t.open, 2)  # a Reset
    t.data(3, 1, b"x", b"x")
    t.data(1, 1, b"y", b"y")
    t.out(3, ACKNOWLEDGE, 1)
    t.out(1, ACKNOWLEDGE, 1)
    t.out(2, RESET, 0)
    t.out(0, URGENT, 0, b"!")
    t.out(0, DATA, 1, b"1")
    t.data(1, 2, b"z", b"z")
    t.out(1, ACKNOWLEDGE, 2)  # comes before what waited longer
    t.out(0, DATA, 2, b"2")
    t.out(0, DATA, 3, b"3")
    t.nothing()


@corner
def within_a_sort_across_entries(t: Corner) -> None:
    t.given(tx(), tx(channel=8), tx(channel=9))
    t.up(0, 1, 2)
    for index, payload in ((2, b"a"), (0, b"b"), (2, b"c"), (1, b"d"), (0, b"e")):
        t.ok(t.send, index, payload)
    for index in (1, 2, 0):
        t.ok(t.urgent, index, b"!")
    for index in (1, 2, 0):
        t.out(index, URGENT, 0, b"!")
    for index, sequence, payload in ((2, 1, b"a"), (0, 1, b"b"), (2, 2, b"c"), (1, 1, b"d"), (0, 2, b"e")):
        t.out(index, DATA, sequence, payload)
    t.nothing()


@corner
def retransmissions_across_entries(t: Corner) -> None:
    t.given(tx(timeout=3), tx(channel=8, timeout=2))
    t.up(0, 1)
    t.send_out(0, 1)
    t.send_out(1, 1)
    t.ticks(2)  # entry 1's waits first
    t.ticks(1)
    t.out(1, DATA, 1, b"1")
    t.out(0, DATA, 1, b"1")
