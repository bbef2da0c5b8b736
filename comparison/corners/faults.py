"""Faults of a frame's header: each with the byte where it sits, each pair, and their place among the refusals."""
from comparison import model
from comparison.corners.corner import OWN, PROTOCOL, REMOTE, Corner, corner, rx, tx
from comparison.model import ACKNOWLEDGE, DATA, RESET, URGENT

TYPES = (DATA, ACKNOWLEDGE, RESET, URGENT)


def both_open(t: Corner) -> None:
    """A sender, entry 0, and a receiver, entry 1."""
    t.given(tx(), rx())
    t.up(0, 1)


@corner
def fault_15_types_that_are_none(t: Corner) -> None:
    both_open(t)
    for control in range(4, 16):
        t.fault(15, 3, t.frame(1, control, 0))
        t.fault(15, 3, t.frame(1, control, 1, b"x"))


@corner
def fault_16_each_user_bit(t: Corner) -> None:
    both_open(t)
    for user in range(1, 16):
        t.fault(16, 3, t.frame(1, user << 4 | DATA, 1, b"x"))
        t.fault(16, 3, t.frame(0, user << 4 | ACKNOWLEDGE, 1))
        t.fault(16, 3, t.frame(1, user << 4 | RESET, 0))
        t.fault(16, 3, t.frame(1, user << 4 | URGENT, 0, b"x"))


@corner
def fault_17_length_against_type(t: Corner) -> None:
    both_open(t)
    for control in (ACKNOWLEDGE, RESET):
        t.fault(17, 4, t.frame(1, control, 0, b"x"))
        t.fault(17, 4, t.frame(1, control, 0, bytes(256)))  # the high byte of the length alone
    for control in (DATA, URGENT):
        t.fault(17, 4, t.frame(1, control, 0))


@corner
def fault_17_not_at_the_longest(t: Corner) -> None:
    # 65,520 bytes are lawful, and then there is no entry
    t.no(13, t.arrival, model.frame(0, 0, 0, DATA, 0, 0, bytes(65520)))


@corner
def fault_17_one_byte_longer(t: Corner) -> None:
    t.fault(17, 4, model.frame(0, 0, 0, URGENT, 0, 0, bytes(65521)))


@corner
def fault_18_a_resets_sequence(t: Corner) -> None:
    both_open(t)
    for sequence in (1, 128, 255):
        t.fault(18, 7, t.frame(1, RESET, sequence))
    t.urgently(1, b"now", sequence=77)  # an Urgent's is not looked at
    t.reset(1)


@corner
def fault_15_before_each_other(t: Corner) -> None:
    both_open(t)
    for kind in range(4, 16):
        for user in (1, 8, 15):
            t.fault(15, 3, t.frame(1, user << 4 | kind, 0))  # 16
            t.fault(15, 3, t.frame(1, user << 4 | kind, 1, b"x"))
        t.fault(15, 3, t.frame(1, kind, 1))  # would be 17 of Data, 18 of a Reset
        t.fault(15, 3, t.frame(1, kind, 1, b"x"))  # would be 17 of an Acknowledge


@corner
def fault_15_before_17_longer_than_any_type_allows(t: Corner) -> None:
    t.fault(15, 3, model.frame(0, 0, 0, 4, 0, 0, bytes(65521)))


@corner
def fault_16_before_17_and_18(t: Corner) -> None:
    both_open(t)
    for user in (1, 8, 15):
        t.fault(16, 3, t.frame(1, user << 4 | DATA, 1))  # 17
        t.fault(16, 3, t.frame(1, user << 4 | URGENT, 1))
        t.fault(16, 3, t.frame(0, user << 4 | ACKNOWLEDGE, 1, b"x"))
        t.fault(16, 3, t.frame(1, user << 4 | RESET, 0, b"x"))
        t.fault(16, 3, t.frame(1, user << 4 | RESET, 1))  # 18
        t.fault(16, 3, t.frame(1, user << 4 | RESET, 1, b"x"))  # 17 and 18


@corner
def fault_17_before_18(t: Corner) -> None:
    both_open(t)
    for sequence in (1, 128, 255):
        t.fault(17, 4, t.frame(1, RESET, sequence, b"x"))


@corner
def faults_behind_10_and_11(t: Corner) -> None:
    both_open(t)
    for control, sequence, payload in ((4, 0, b""), (16 | DATA, 1, b"x"), (DATA, 1, b""), (RESET, 1, b"")):
        faulty = t.frame(1, control, sequence, payload)
        t.no(10, t.arrival, faulty[:-1] + bytes((faulty[-1] ^ 1,)))
        t.no(10, t.arrival, faulty + b"x")
        t.no(11, t.arrival, model.frame(OWN + 1, PROTOCOL, REMOTE, control, 9, sequence, payload))
        t.no(11, t.arrival, model.frame(OWN, PROTOCOL + 1, REMOTE, control, 9, sequence, payload))


@corner
def faults_before_13_5_and_14(t: Corner) -> None:
    t.given(tx(), rx(largest=3))
    for at_entry in (False, True):
        # first the entries are Closed: 13; then one is Open and 32 acknowledgements wait: 14
        t.fault(15, 3, t.frame(1, 4, 1, b"1234"))  # 5
        t.fault(16, 3, t.frame(1, 16 | DATA, 1, b"1234"))
        t.fault(17, 4, t.frame(1, RESET, 0, b"1234"))
        t.fault(18, 7, t.frame(1, RESET, 1))
        for channel in (9, 200):  # nobody's
            t.fault(15, 3, model.frame(OWN, PROTOCOL, REMOTE + 1, 15, channel, 0))
            t.fault(16, 3, model.frame(OWN, PROTOCOL, REMOTE + 1, 128 | DATA, channel, 1, b"x"))
            t.fault(17, 4, model.frame(OWN, PROTOCOL, REMOTE + 1, ACKNOWLEDGE, channel, 1, b"x"))
            t.fault(18, 7, model.frame(OWN, PROTOCOL, REMOTE + 1, RESET, channel, 255))
        if not at_entry:
            t.up(1)
            for _ in range(32):
                t.data(1, 200, b"old")
    t.no(14, t.arrival, t.frame(1, DATA, 1, b"123"))


@corner
def faults_alter_nothing(t: Corner) -> None:
    both_open(t)
    t.send_out(0, 1)
    t.ok(t.send, 0, b"2")
    t.data(1, 2, b"early")
    for control in range(256):
        if control not in TYPES:
            t.fault(15 if control % 16 > URGENT else 16, 3, t.frame(1, control, 1, b"now"))
    t.fault(17, 4, t.frame(0, ACKNOWLEDGE, 1, b"x"))
    t.fault(18, 7, t.frame(1, RESET, 1))
    t.passes(0, 1, 1)
    t.data(1, 1, b"now", b"now", b"early")
    t.out(1, ACKNOWLEDGE, 2)
    t.out(1, ACKNOWLEDGE, 1)
    t.out(0, DATA, 2, b"2")
