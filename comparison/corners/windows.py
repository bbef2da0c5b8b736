"""Three ways to wind it too far: windows past 255, lost acknowledgements, a host that does nothing."""
from comparison.corners.corner import Corner, corner, rx, tx
from comparison.model import ACKNOWLEDGE


def one_is_in(t: Corner, window: int, start: int, *sequences: int) -> None:
    """Numbers come to a receiver whose window stands at a start; all are acknowledged, and one of them is held."""
    t.given(rx(window=window, largest=3))
    t.up(0)
    t.deliver(0, 1, start - 1)
    for sequence in sequences:
        t.data(0, sequence, b"%d" % sequence)
        t.out(0, ACKNOWLEDGE, sequence)
    t.reset(0, held=1)


@corner
def window_past_255(t: Corner) -> None:
    """Start 250, W 16: 9 is in, 10 and 249 are out."""
    one_is_in(t, 16, 250, 10, 249, 9)


@corner
def senders_window_past_255(t: Corner) -> None:
    t.given(tx(window=16, largest=3))
    t.up(0)
    t.confirm(0, 1, 249)
    t.send_out(0, *[n % 256 for n in range(250, 266)])
    t.no(7, t.send, 0, b"266")
    t.ignores(0, 10)
    t.ignores(0, 249)
    t.passes(0, 9, 0)
    for n in range(264, 249, -1):
        t.passes(0, n % 256, 16 if n == 250 else 0)
    t.ok(t.counts, 0, gives=[265, 265])


@corner
def window_written_as_0(t: Corner) -> None:
    """It is 8. Start 250: 1 is in, 2 and 249 are out; 2 is acknowledged too, and lost where the sender has more."""
    one_is_in(t, 0, 250, 2, 249, 1)


@corner
def senders_window_written_as_0(t: Corner) -> None:
    t.given(tx(window=0, largest=3), tx(channel=8, window=8, largest=3), tx(channel=9, window=16, largest=3))
    t.up(0, 1, 2)
    for index, size in ((0, 8), (1, 8), (2, 16)):
        t.send_out(index, *range(1, size + 1))
        t.no(7, t.send, index, b"one")
        t.ok(t.counts, index, gives=[size, 0])


@corner
def window_of_one(t: Corner) -> None:
    t.given(rx(window=1, largest=3))
    t.up(0)
    for start in (1, 2, 3):
        for sequence in (start - 1, start + 1, start + 128):
            t.data(0, sequence, b"x")
            t.out(0, ACKNOWLEDGE, sequence)
        t.deliver(0, start, start)
    t.reset(0, held=0)


@corner
def window_of_128(t: Corner) -> None:
    """Start 200: 71 is in, 72 and 199 are out."""
    one_is_in(t, 128, 200, 71, 72, 199)


@corner
def window_of_128_filled_over_the_fold(t: Corner) -> None:
    t.given(rx(window=128, largest=3), tx(window=128, largest=3))
    t.up(0)
    t.deliver(0, 1, 199)
    rest = [n % 256 for n in range(200, 328)]
    for sequence in rest[:0:-1]:
        t.data(0, sequence, b"%d" % sequence)
        t.out(0, ACKNOWLEDGE, sequence)
    t.data(0, 72, b"far")
    t.out(0, ACKNOWLEDGE, 72)
    t.data(0, 200, b"200", *[b"%d" % sequence for sequence in rest])
    t.reset(0, held=0)


@corner
def lost_acknowledgements_are_repaired(t: Corner) -> None:
    """Data outside the window is acknowledged, so a sender whose acknowledgement was lost does not fail."""
    t.given(rx(window=2))
    t.up(0)
    t.deliver(0, 1, 5)
    for _ in range(3):
        t.data(0, 5, b"5")
        t.out(0, ACKNOWLEDGE, 5)


@corner
def start_does_not_wait_for_its_host(t: Corner) -> None:
    """The host does nothing; what is acknowledged was delivered or is held."""
    t.given(rx(window=4))
    t.up(0)
    for n in range(1, 13):
        t.data(0, n, b"%d" % n, b"%d" % n)
    for n in range(1, 13):
        t.out(0, ACKNOWLEDGE, n)
