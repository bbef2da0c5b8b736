"""Store, block and payloads as large as they may be, and a byte more."""
from comparison.corners.corner import Corner, corner, rx, tx
from comparison.model import ACKNOWLEDGE, DATA, URGENT


@corner
def store_and_block_full(t: Corner) -> None:
    """The desk never lends too little, so refusal 6 is not to be had; this fills store and block to the last byte."""
    t.given(rx(window=128, largest=256))
    t.up(0)
    pieces = [bytes((n,)) * 256 for n in range(1, 129)]
    for n in range(128, 1, -1):
        t.data(0, n, pieces[n - 1])
        t.out(0, ACKNOWLEDGE, n)
    t.nothing()
    t.data(0, 1, pieces[0], *pieces)
    t.out(0, ACKNOWLEDGE, 1)


LONG = bytes(k * 7 % 253 for k in range(32769))


@corner
def longest_payload_taken_in(t: Corner) -> None:
    t.given(rx(window=1, largest=32768))
    t.up(0)
    t.data(0, 1, LONG[:-1], LONG[:-1])
    t.out(0, ACKNOWLEDGE, 1)


@corner
def longest_payload_and_a_byte(t: Corner) -> None:
    t.given(rx(window=1, largest=32768))
    t.up(0)
    t.no(5, t.arrival, t.frame(0, DATA, 1, LONG))
    t.nothing()


@corner
def longest_payload_sent(t: Corner) -> None:
    t.given(tx(window=1, largest=16384, timeout=1))
    t.up(0)
    t.no(5, t.send, 0, LONG[:16385])
    t.ok(t.send, 0, LONG[:16384])
    t.ok(t.urgent, 0, LONG[16384:32768])
    t.out(0, URGENT, 0, LONG[16384:32768])
    t.out(0, DATA, 1, LONG[:16384])
    t.ticks(1)
    t.out(0, DATA, 1, LONG[:16384])
