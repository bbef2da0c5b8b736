"""Resets, data and Urgents at a receiver: what is held, delivered, acknowledged."""
from comparison.corners.corner import Corner, corner, rx
from comparison.model import ACKNOWLEDGE


@corner
def reset_drops_acknowledgements_and_held(t: Corner) -> None:
    t.given(rx(), rx(channel=10))
    t.up(0, 1)
    t.data(0, 1, b"a", b"a")
    t.data(1, 1, b"b", b"b")
    t.data(0, 3, b"c")
    t.data(0, 4, b"d")
    t.reset(0, held=2)
    t.data(1, 2, b"e", b"e")
    t.out(1, ACKNOWLEDGE, 1)  # the other's stays, before the 0 that came later
    t.out(0, ACKNOWLEDGE, 0)
    t.out(1, ACKNOWLEDGE, 2)
    t.nothing()
    t.data(0, 1, b"f", b"f")  # 3 and 4 do not follow
    t.data(0, 2, b"g", b"g")


@corner
def every_data_is_acknowledged(t: Corner) -> None:
    t.given(rx(window=4))
    t.up(0)
    t.data(0, 1, b"in", b"in")
    t.data(0, 3, b"early")
    t.data(0, 3, b"again")  # held already: what was first stays
    t.data(0, 1, b"old")
    t.data(0, 6, b"far")
    t.data(0, 0, b"zero")
    t.data(0, 254, b"older")
    for sequence in (1, 3, 3, 1, 6, 0, 254):
        t.out(0, ACKNOWLEDGE, sequence)
    t.nothing()
    t.data(0, 2, b"two", b"two", b"early")


@corner
def delivered_in_order_out_of_the_store(t: Corner) -> None:
    t.given(rx(window=8, largest=5))
    t.up(0)
    t.data(0, 4, b"dddd")
    t.data(0, 2, b"b")
    t.data(0, 6, b"ffff")
    t.data(0, 1, b"a", b"a", b"b")
    t.data(0, 8, b"hhhhh")
    t.data(0, 5, b"eeeee")
    t.data(0, 3, b"cc", b"cc", b"dddd", b"eeeee", b"ffff")
    t.data(0, 9, b"i")
    t.data(0, 7, b"g", b"g", b"hhhhh", b"i")


@corner
def urgent_goes_past_the_held(t: Corner) -> None:
    t.given(rx())
    t.up(0)
    t.data(0, 2, b"held")
    t.urgently(0, b"now")
    t.urgently(0, b"now", sequence=1)
    t.out(0, ACKNOWLEDGE, 2)
    t.nothing()
    t.data(0, 1, b"one", b"one", b"held")
