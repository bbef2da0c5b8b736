"""Slots of the store and counts, past a fold of the numbers."""
from comparison.corners.corner import Corner, corner, rx, tx
from comparison.model import ACKNOWLEDGE, DATA, URGENT


@corner
def counts_past_a_fold(t: Corner) -> None:
    """4,294,967,295 payloads are more than a stream holds; the counts go past 256 and 512 without folding."""
    t.given(tx(window=2, largest=3))
    t.up(0)
    t.confirm(0, 1, 600)
    t.ok(t.counts, 0, gives=[600, 600])
    t.send_out(0, 601 % 256)
    t.ok(t.counts, 0, gives=[601, 600])


@corner
def urgents_slot_is_the_last(t: Corner) -> None:
    t.given(tx(window=2, largest=3, timeout=1), tx(channel=8, window=2, largest=3))
    t.up(0, 1)
    for index in (0, 1):
        t.ok(t.send, index, b"aaa")
        t.ok(t.send, index, b"bbb")
    for index in (0, 1):
        t.ok(t.urgent, index, b"u%du" % index)
    for index in (0, 1):
        t.out(index, URGENT, 0, b"u%du" % index)
    for index in (0, 1):
        t.out(index, DATA, 1, b"aaa")
        t.out(index, DATA, 2, b"bbb")
    t.ok(t.urgent, 0, b"v")
    t.ticks(1)
    t.out(0, URGENT, 0, b"v")
    t.out(0, DATA, 1, b"aaa")  # the slots hold what they held
    t.out(0, DATA, 2, b"bbb")


@corner
def slots_over_the_fold(t: Corner) -> None:
    """Number 256 has slot 0 and not slot 256 mod (W + 1); 255 and 0 are neighbours."""
    t.given(tx(window=4, largest=3, timeout=1, retries=9), rx(window=4, largest=3))
    t.up(0, 1)
    t.confirm(0, 1, 253)
    t.deliver(1, 1, 253)
    for sequence in (254, 255, 0, 1):
        t.ok(t.send, 0, b"%d" % sequence)
    for sequence in (254, 255, 0, 1):
        t.out(0, DATA, sequence, b"%d" % sequence)
    t.ticks(1)
    for sequence in (254, 255, 0, 1):
        t.out(0, DATA, sequence, b"%d" % sequence)
    t.passes(0, 1, 0)
    t.passes(0, 255, 0)
    t.passes(0, 0, 0)
    t.passes(0, 254, 4)
    for sequence in (1, 255, 0):
        t.data(1, sequence, b"%d" % sequence)
    t.data(1, 2, b"far")
    t.data(1, 254, b"254", b"254", b"255", b"0", b"1")


@corner
def data_goes_out_after_a_shorter_one_in_its_slot(t: Corner) -> None:
    t.given(tx(window=1, largest=8), rx(window=1, largest=8))
    t.up(0, 1)
    for sequence, payload in ((1, b"12345678"), (2, b"1"), (3, b"123")):
        t.ok(t.send, 0, payload)
        t.out(0, DATA, sequence, payload)
        t.passes(0, sequence, 1)
        t.data(1, sequence, payload, payload)
        t.out(1, ACKNOWLEDGE, sequence)
