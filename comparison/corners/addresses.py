"""Entries that have a channel number or an address in common."""
from comparison.corners.corner import OWN, Corner, corner, rx, tx
from comparison.model import ACKNOWLEDGE


@corner
def one_channel_number_for_both_kinds(t: Corner) -> None:
    t.given(tx(channel=5), rx(channel=5), tx(channel=5, remote=66), rx(channel=5, remote=66))
    t.up(0, 1, 2, 3)
    t.send_out(2, 1)
    t.data(3, 1, b"a", b"a")
    t.ignores(0, 1)
    t.passes(2, 1, 1)
    t.data(1, 2, b"b")
    t.out(3, ACKNOWLEDGE, 1)
    t.out(1, ACKNOWLEDGE, 2)


def to_itself(t: Corner) -> None:
    """What waits goes round: a frame's end is reported when it has arrived already."""
    for _ in range(3):
        frame = bytes(t.hand_out().fields[1:])
        if frame:
            t.arrival(frame)
            t.ok(t.report)


@corner
def a_node_that_names_itself(t: Corner) -> None:
    t.given(tx(channel=5, remote=OWN), rx(channel=5, remote=OWN))
    for index in (1, 0):
        t.ok(t.open, index)
    to_itself(t)
    t.ok(t.send, 0, b"self")
    to_itself(t)
    t.ok(t.counts, 0, gives=[1, 1])
