"""Ticks: the order in which ended timers queue frames; retries and timeouts at their ends."""
from comparison.corners.corner import Corner, corner, tx
from comparison.model import DATA, RESET


@corner
def resets_of_a_tick_in_order(t: Corner) -> None:
    """A Reset whose timer ends waits before one of an end that leaves Failing in the same tick, wherever it stands in
    the table."""
    t.given(tx(retries=0, timeout=2), tx(channel=8, timeout=2), tx(channel=9, retries=0, timeout=2))
    t.up(0, 2)
    t.ok(t.open, 1)
    t.out(1, RESET, 0)
    t.send_out(2, 1)
    t.send_out(0, 1)
    t.ticks(2, last=0b101)
    t.out(1, RESET, 0)
    t.out(0, RESET, 0)
    t.out(2, RESET, 0)
    t.nothing()


@corner
def tick_in_table_order(t: Corner) -> None:
    t.given(tx(channel=9, timeout=2), tx(channel=8, timeout=2), tx(timeout=2))
    t.up(0, 1, 2)
    for index in (2, 0, 1):
        t.send_out(index, 1)
    t.ticks(2)
    for index in (0, 1, 2):
        t.out(index, DATA, 1, b"1")
    t.nothing()


@corner
def tick_in_window_order(t: Corner) -> None:
    t.given(tx(timeout=2))
    t.up(0)
    t.confirm(0, 1, 2)
    t.send_out(0, 3, 4, 5, 6)  # slots 3, 0, 1, 2
    t.ticks(2)
    for sequence in (3, 4, 5, 6):
        t.out(0, DATA, sequence, b"%d" % sequence)
    t.nothing()


@corner
def tick_in_window_order_over_the_fold(t: Corner) -> None:
    t.given(tx(timeout=2))
    t.up(0)
    t.confirm(0, 1, 253)
    t.send_out(0, 254, 255, 0, 1)
    t.ticks(2)
    for sequence in (254, 255, 0, 1):
        t.out(0, DATA, sequence, b"%d" % sequence)
    t.nothing()


@corner
def reset_without_limit(t: Corner) -> None:
    t.given(tx(retries=0, timeout=1))
    t.ok(t.open, 0)
    for _ in range(300):
        t.out(0, RESET, 0)
        t.nothing()
        t.ticks(1)
    t.out(0, RESET, 0)
    t.opens(0)


@corner
def retries_0(t: Corner) -> None:
    t.given(tx(retries=0, timeout=3))
    t.up(0)
    t.send_out(0, 1)
    t.ticks(3, last=1)
    t.out(0, RESET, 0)
    t.nothing()


@corner
def retries_255(t: Corner) -> None:
    t.given(tx(retries=255, timeout=1))
    t.up(0)
    t.send_out(0, 1)
    for _ in range(255):
        t.ticks(1)
        t.out(0, DATA, 1, b"1")
    t.ticks(1, last=1)
    t.out(0, RESET, 0)
    t.nothing()


@corner
def retries_begin_anew_for_each_number(t: Corner) -> None:
    t.given(tx(retries=1, timeout=1, window=1))
    t.up(0)
    for sequence in (1, 2, 3):
        t.send_out(0, sequence)
        t.ticks(1)
        t.out(0, DATA, sequence, b"%d" % sequence)
        t.passes(0, sequence, 1)
    t.send_out(0, 4)
    t.ticks(1)
    t.out(0, DATA, 4, b"4")
    t.ticks(1, last=1)


@corner
def timeout_longer_than_a_byte(t: Corner) -> None:
    t.given(tx(timeout=5000, retries=1))
    t.up(0)
    t.send_out(0, 1)
    t.ticks(4999)
    t.nothing()
    t.ticks(1)
    t.out(0, DATA, 1, b"1")
    t.ticks(4999)
    t.nothing()
    t.ticks(1, last=1)
