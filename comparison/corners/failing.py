"""Failing: what becomes of frames, numbers and timers until a tick ends it."""
from comparison.corners.corner import Corner, corner, rx, tx
from comparison.model import DATA, RESET, URGENT


def failing(t: Corner, timeout: int = 3) -> None:
    """Brings entry 0 (retries 0, this timeout) to Failing.

    Number 1 has ended, 2 has 1 tick left, 3 has 2, 4 waits no more."""
    t.up(0)
    t.send_out(0, 1)
    t.ticks(timeout - 2)
    t.send_out(0, 2)
    t.ticks(1)
    t.send_out(0, 3)
    t.ok(t.send, 0, b"4")
    t.ticks(1)
    t.nothing()


@corner
def acks_at_failing(t: Corner) -> None:
    t.given(tx(retries=0, timeout=3))
    failing(t)
    t.ignores(0, 4)  # never handed out
    t.ignores(0, 5)  # outside the window
    t.passes(0, 3, 0)  # its timer stops
    t.ignores(0, 3)
    t.passes(0, 1, 1)  # ended, but not yet acknowledged
    t.ok(t.counts, 0, gives=[4, 1])
    t.ticks(1, last=1)  # number 2 was the last that ran
    t.ok(t.counts, 0, gives=[4, 1])
    t.out(0, RESET, 0)


@corner
def acks_at_failing_stop_the_last_timer(t: Corner) -> None:
    t.given(tx(retries=0, timeout=3))
    failing(t)
    t.passes(0, 2, 0)
    t.passes(0, 3, 0)
    t.no(4, t.send, 0, b"x")  # none runs, but only a tick ends Failing
    t.nothing()
    t.passes(0, 1, 3)
    t.ticks(1, last=1)
    t.out(0, RESET, 0)
    t.ok(t.counts, 0, gives=[4, 3])


@corner
def failing_waits_for_every_timer(t: Corner) -> None:
    t.given(tx(retries=0, timeout=3))
    failing(t)
    t.ticks(1)
    t.nothing()
    t.ticks(1, last=1)
    t.out(0, RESET, 0)
    t.nothing()
    t.ticks(3)
    t.out(0, RESET, 0)  # and again


@corner
def failing_drops_what_waits(t: Corner) -> None:
    t.given(tx(retries=1, timeout=2), tx(channel=8, retries=1, timeout=2))
    t.up(0, 1)
    for index in (0, 1):
        t.send_out(index, 1, 2)
    t.ticks(2)
    t.out(0, DATA, 1, b"1")  # the others' retransmissions stay where they are
    t.ok(t.send, 0, b"3")
    t.ok(t.urgent, 0, b"!")
    t.ok(t.send, 1, b"3")
    t.ok(t.urgent, 1, b"!")
    t.ticks(2, last=1)  # number 1 a second time; nothing else of entry 0 runs
    t.out(0, RESET, 0)
    t.out(1, URGENT, 0, b"!")
    t.out(1, DATA, 1, b"1")
    t.out(1, DATA, 2, b"2")
    t.out(1, DATA, 3, b"3")
    t.nothing()


@corner
def failing_in_the_middle_of_a_tick(t: Corner) -> None:
    t.given(tx(retries=1, timeout=2, window=8))
    t.up(0)
    t.send_out(0, 1, 2)
    t.ticks(2)
    t.out(0, DATA, 1, b"1")
    t.out(0, DATA, 2, b"2")
    t.send_out(0, 3)  # its first time out
    t.ticks(1)
    t.send_out(0, 4)
    t.ticks(1)  # 1 fails; 2 and 3 end in the same tick and resend nothing; 4 falls too
    t.nothing()
    t.ticks(1, last=1)
    t.out(0, RESET, 0)
    t.nothing()


@corner
def failing_and_enabled_in_one_tick(t: Corner) -> None:
    t.given(rx(), tx(retries=0, timeout=1), tx(channel=8, retries=0, timeout=1))
    t.up(1, 2)
    t.send_out(2, 1)
    t.ticks(1, last=0b100)
    t.out(2, RESET, 0)
    t.send_out(1, 1)
    t.ticks(1, last=0b010)
    t.out(2, RESET, 0)
    t.out(1, RESET, 0)


@corner
def all_sixteen_fail_at_once(t: Corner) -> None:
    t.given(*[tx(channel=k, retries=0, timeout=1, window=1, largest=1) for k in range(16)])
    t.up(*range(16))
    for index in range(15, -1, -1):
        t.send_out(index, 1)
    t.ticks(1, last=0xFFFF)
    for index in range(16):
        t.out(index, RESET, 0)
    t.nothing()
    t.ticks(1)
    t.opens(3)
    for index in range(16):
        if index != 3:
            t.out(index, RESET, 0)
