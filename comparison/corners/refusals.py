"""Tables, and refusals: each alone, and each before those that stand after it."""
from comparison import model
from comparison.corners.corner import OWN, PROTOCOL, REMOTE, Corner, corner, rx, tx
from comparison.model import ACKNOWLEDGE, DATA, RESET, URGENT
from comparison.tables import broken_tables, put


@corner
def refusal_1_each_rule_of_the_table(t: Corner) -> None:
    good = model.table(OWN, PROTOCOL, [tx(), rx(), tx(channel=8), rx(channel=10)])
    for _, data in broken_tables(good):
        t.no(1, t.table, data)
    for bad in ([tx(), tx()], [rx(), rx()], [rx()._replace(retries=1)], [rx()._replace(timeout=1)],
                [tx(window=128, largest=255)], [rx(window=128, largest=256), rx(channel=1, window=1, largest=1)],
                [tx(channel=k) for k in range(17)]):
        t.no(1, t.setup, OWN, PROTOCOL, bad)
    t.no(2, t.open, 0)  # nothing of all this was taken
    t.ok(t.table, good)
    for fine in ([], [tx(channel=9), rx(channel=9)], [tx(), tx(remote=66)], [tx(retries=255, timeout=65535)],
                 [tx(timeout=1, retries=0)], [rx(window=128, largest=256)], [tx(window=128, largest=254)],
                 [rx(window=1, largest=32768)], [tx(window=0), rx(window=0)]):
        t.ok(t.setup, OWN, PROTOCOL, fine)
    for own, remote, protocol in ((32, 254, 1), (254, 32, 255), (64, 64, 238)):
        t.ok(t.setup, own, protocol, [tx(remote=remote), rx(remote=remote)])


@corner
def refusal_1_leaves_the_node(t: Corner) -> None:
    t.given(tx(), rx())
    t.up(0, 1)
    t.send_out(0, 1)
    t.ok(t.send, 0, b"two")
    t.data(1, 2, b"early")
    t.no(1, t.table, b"")
    t.no(1, t.setup, OWN + 1, PROTOCOL, [tx(), tx()])
    t.out(1, ACKNOWLEDGE, 2)
    t.out(0, DATA, 2, b"two")
    t.ok(t.counts, 0, gives=[2, 0])
    t.data(1, 1, b"now", b"now", b"early")


@corner
def setup_anew_forgets_all(t: Corner) -> None:
    t.given(tx(), rx())
    t.up(0, 1)
    t.confirm(0, 1, 3)
    t.ok(t.send, 0, b"4")
    t.ok(t.urgent, 0, b"!")
    t.data(1, 2, b"early")
    t.given(tx(), rx())
    t.nothing()
    t.ok(t.counts, 0, gives=[0, 0])
    t.no(4, t.close, 0)
    t.no(4, t.close, 1)
    t.up(0, 1)
    t.data(1, 1, b"1", b"1")


@corner
def new_node_is_all_zeros(t: Corner) -> None:
    for call in (t.open, t.close, t.counts):
        t.no(2, call, 0)
    for give in (t.send, t.urgent):
        t.no(2, give, 0, b"x")
    t.nothing()
    t.ticks(1)
    # address and protocol ID are 0, and there is no entry
    for control in (DATA, ACKNOWLEDGE, RESET, URGENT):
        payload = b"x" if control in (DATA, URGENT) else b""
        t.no(13, t.arrival, model.frame(0, 0, 65, control, 7, 0, payload))
        t.no(11, t.arrival, model.frame(64, 0, 65, control, 7, 0, payload))
        t.no(11, t.arrival, model.frame(0, 238, 65, control, 7, 0, payload))
    t.fault(15, 3, model.frame(0, 0, 65, 4, 7, 0))


@corner
def table_of_no_entries(t: Corner) -> None:
    t.given()
    t.no(2, t.open, 0)
    t.no(13, t.arrival, model.frame(OWN, PROTOCOL, REMOTE, RESET, 9, 0))
    t.no(11, t.arrival, model.frame(0, 0, REMOTE, RESET, 9, 0))
    t.nothing()
    t.ticks(2)


@corner
def refusals_2_3_4_in_order(t: Corner) -> None:
    t.given(tx(), rx())
    for index in (2, 16, 255):
        for call in (t.open, t.close, t.counts):
            t.no(2, call, index)
        for give in (t.send, t.urgent):
            t.no(2, give, index, b"")
    t.no(3, t.counts, 1)
    for give in (t.send, t.urgent):
        t.no(3, give, 1, b"")  # before 4 and 5
        t.no(4, give, 0, b"")  # before 5
    t.ok(t.counts, 0, gives=[0, 0])  # in every state


@corner
def refusal_4_in_every_state(t: Corner) -> None:
    t.given(tx(retries=0, timeout=1), rx())
    for index in (0, 1):
        t.no(4, t.close, index)
        t.ok(t.open, index)
        t.no(4, t.open, index)
    t.no(4, t.send, 0, b"x")
    t.no(4, t.urgent, 0, b"x")
    t.out(0, RESET, 0)
    t.no(4, t.send, 0, b"x")
    t.opens(0)
    t.reset(1)
    for index in (0, 1):
        t.no(4, t.open, index)
    t.out(1, ACKNOWLEDGE, 0)
    t.send_out(0, 1)
    t.ticks(1, last=1)  # it failed and is Enabled
    t.no(4, t.open, 0)
    t.no(4, t.send, 0, b"x")
    for index in (0, 1):
        t.ok(t.close, index)
        t.no(4, t.close, index)


@corner
def refusal_4_at_failing(t: Corner) -> None:
    t.given(tx(retries=0, timeout=2))
    t.up(0)
    t.send_out(0, 1)
    t.ticks(1)
    t.send_out(0, 2)
    t.ticks(1)  # number 1 has failed, number 2 runs
    for call in (t.send, t.urgent):
        t.no(4, call, 0, b"x")
    t.no(4, t.open, 0)
    t.ok(t.close, 0)
    t.ok(t.counts, 0, gives=[2, 0])


@corner
def refusal_5_payload_lengths(t: Corner) -> None:
    t.given(tx(largest=3), rx(largest=3))
    t.up(0, 1)
    for call in (t.send, t.urgent):
        t.no(5, call, 0, b"")
        t.no(5, call, 0, b"1234")
        t.ok(call, 0, b"123")
    for control in (DATA, URGENT):
        t.no(5, t.arrival, t.frame(1, control, 1, b"1234"))
        t.fault(17, 4, t.frame(1, control, 1, b""))
    t.data(1, 1, b"123", b"123")


@corner
def refusals_5_7_9_in_order(t: Corner) -> None:
    t.given(tx(window=2, largest=3))
    t.up(0)
    for payload in (b"1", b"2"):
        t.ok(t.send, 0, payload)
    t.no(7, t.send, 0, b"3")
    t.no(5, t.send, 0, b"1234")  # before 7
    t.ok(t.urgent, 0, b"!")  # an Urgent takes no number
    t.no(9, t.urgent, 0, b"!")
    t.no(5, t.urgent, 0, b"")  # before 9
    t.out(0, URGENT, 0, b"!")
    t.ok(t.urgent, 0, b"?")
    t.out(0, URGENT, 0, b"?")
    t.out(0, DATA, 1, b"1")
    t.no(7, t.send, 0, b"3")  # handed out is still taken
    t.out(0, DATA, 2, b"2")
    t.passes(0, 2, 0)
    t.no(7, t.send, 0, b"3")  # acknowledged early is still taken
    t.passes(0, 1, 2)
    t.ok(t.send, 0, b"3")


@corner
def refusal_7_counts_from_the_start(t: Corner) -> None:
    t.given(tx(window=1))
    t.up(0)
    t.ok(t.send, 0, b"1")
    t.no(7, t.send, 0, b"2")
    t.out(0, DATA, 1, b"1")
    t.passes(0, 1, 1)
    t.ok(t.send, 0, b"2")
    t.no(7, t.send, 0, b"3")


@corner
def refusal_9_each_entry_has_its_own(t: Corner) -> None:
    t.given(tx(), tx(channel=8))
    t.up(0, 1)
    t.ok(t.urgent, 1, b"b")
    t.ok(t.urgent, 0, b"a")
    t.no(9, t.urgent, 1, b"c")
    t.out(1, URGENT, 0, b"b")
    t.ok(t.urgent, 1, b"c")
    t.out(0, URGENT, 0, b"a")
    t.out(1, URGENT, 0, b"c")


@corner
def refusal_10_unsound_frames(t: Corner) -> None:
    t.given(tx(), rx())
    t.up(0, 1)
    good = t.frame(1, DATA, 1, b"abc")
    for length in range(len(good)):
        t.no(10, t.arrival, good[:length])
    t.no(10, t.arrival, good + b"\0")
    for at in range(len(good)):
        t.no(10, t.arrival, put(good, at, (good[at] ^ 0x10,)))
    # the check byte fits, the length does not
    for short in (b"", b"ab", b"abcd"):
        body = good[:8] + short
        t.no(10, t.arrival, body + bytes((model.check(body),)))
    t.no(10, t.arrival, b"\xff\x00")  # its check comes to 0, but it is no frame
    t.data(1, 1, b"abc", b"abc")


@corner
def refusals_10_11_15_13_5_14_in_order(t: Corner) -> None:
    t.given(tx(), rx(largest=3))
    wrong = model.frame(OWN + 1, PROTOCOL, REMOTE, 4, 200, 0, b"12345678")
    t.no(10, t.arrival, wrong[:-1] + bytes((wrong[-1] ^ 1,)))
    t.no(11, t.arrival, wrong)
    t.no(11, t.arrival, model.frame(OWN, PROTOCOL + 1, REMOTE, 4, 200, 0, b"1234"))
    t.fault(15, 3, model.frame(OWN, PROTOCOL, REMOTE, 4, 200, 0, b"1234"))
    t.no(13, t.arrival, model.frame(OWN, PROTOCOL, REMOTE, DATA, 200, 0, b"1234"))
    t.no(13, t.arrival, t.frame(1, DATA, 1, b"1234"))  # Closed
    t.up(1)
    for _ in range(32):
        t.data(1, 200, b"old")
    t.no(5, t.arrival, t.frame(1, DATA, 1, b"1234"))
    t.no(14, t.arrival, t.frame(1, DATA, 1, b"123"))
    t.urgently(1, b"now")  # needs no acknowledgement
    t.no(14, t.arrival, t.frame(1, RESET, 0))
    t.ok(t.open, 0)
    t.ignores(0, 0)  # nor does an acknowledgement
    t.out(1, ACKNOWLEDGE, 200)
    t.data(1, 1, b"123", b"123")
    t.no(14, t.arrival, t.frame(1, DATA, 2, b"123"))


@corner
def refusal_11_foreign_frames(t: Corner) -> None:
    t.given(rx())
    t.up(0)
    for destination, protocol in ((OWN + 1, PROTOCOL), (REMOTE, PROTOCOL), (0, PROTOCOL),
                                  (OWN, 1), (OWN, 0), (254, 255)):
        t.no(11, t.arrival, model.frame(destination, protocol, REMOTE, DATA, 9, 1, b"x"))
    t.data(0, 1, b"x", b"x")


@corner
def refusal_13_no_such_end(t: Corner) -> None:
    t.given(tx(), rx(), rx(channel=7, remote=66))
    t.up(0, 1)
    t.ok(t.open, 2)
    # wrong end: an acknowledgement for a receiver, the others for a sender
    t.no(13, t.arrival, t.frame(1, ACKNOWLEDGE, 0))
    t.no(13, t.arrival, t.frame(0, RESET, 0))
    for control in (DATA, URGENT):
        t.no(13, t.arrival, t.frame(0, control, 1, b"x"))
        t.no(13, t.arrival, t.frame(2, control, 1, b"x"))  # at Enabled
        # wrong source, wrong channel
        t.no(13, t.arrival, model.frame(OWN, PROTOCOL, 67, control, 9, 1, b"x"))
        t.no(13, t.arrival, model.frame(OWN, PROTOCOL, OWN, control, 9, 1, b"x"))
        t.no(13, t.arrival, model.frame(OWN, PROTOCOL, REMOTE, control, 10, 1, b"x"))
    t.reset(2)  # a Reset at Enabled is taken
    for index in (0, 1):
        t.ok(t.close, index)
    t.no(13, t.arrival, t.frame(0, ACKNOWLEDGE, 0))
    t.no(13, t.arrival, t.frame(1, RESET, 0))
    t.no(13, t.arrival, t.frame(1, DATA, 1, b"x"))
    t.no(13, t.arrival, t.frame(1, URGENT, 0, b"x"))


@corner
def refusal_14_whoever_they_belong_to(t: Corner) -> None:
    t.given(rx(window=64), rx(channel=10), tx())
    t.up(0, 1, 2)
    for sequence in range(2, 34):
        t.data(0, sequence, b"x")
    t.no(14, t.arrival, t.frame(1, DATA, 1, b"y"))
    t.no(14, t.arrival, t.frame(1, RESET, 0))
    t.no(14, t.arrival, t.frame(0, RESET, 0))  # though it would drop its own
    t.out(0, ACKNOWLEDGE, 2)
    t.reset(1)
    t.no(14, t.arrival, t.frame(0, DATA, 1, b"x"))
    t.ok(t.close, 0)
    t.out(1, ACKNOWLEDGE, 0)
    t.nothing()
