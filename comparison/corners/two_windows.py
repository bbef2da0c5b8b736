"""The windows of a channel's two ends, which have to be the same: a full one, whose last frame overtakes the others."""
from comparison import history
from comparison.corners.corner import Corner, Unexpected, double
from comparison.corners.linked import handed_out, open_both, take_in


def last_first(name: str, sends: int, receives: int, size: int,
               same: bool) -> tuple[list[Corner], history.Channel]:
    """The sender, whose window in force is `size`, fills it; its last frame comes first, then the others in order, and
    each is acknowledged at once. `same` where the receiver's window is the same. Gives both traces and the channel's
    history."""
    a, b, channel = Corner(name + ".A"), Corner(name + ".B"), history.Channel(name, size)
    open_both(a, b, channel, sends, receives)
    if not same:
        channel.break_premise()
    sent = []
    for number in range(1, size + 1):
        payload = b"move %d" % number
        a.ok(a.send, 0, payload)
        channel.accept(payload)
        sent.append(channel.hand_out_data(handed_out(a)))
    a.no(7, a.send, 0, b"one more")
    for carried in sent[-1:] + sent[:-1]:
        take_in(b, channel, carried)
        channel.confirm(a.arrival(channel.hand_out_ack(handed_out(b)).frame).fields[-1])
        channel.check()
    a.ok(a.counts, 0, gives=[size, size])
    return [a, b], channel


def kept(name: str, sends: int, receives: int, size: int) -> list[Corner]:
    """The windows are the same: the promise holds at each step, and all is delivered."""
    both, channel = last_first(name, sends, receives, size, same=True)
    if channel.delivered != channel.accepted:
        raise Unexpected("%s: not everything was delivered" % name)
    return both


@double
def window_of_0_and_of_8() -> list[Corner]:
    """They are the same."""
    return kept("window_of_0_and_of_8", 0, 8, 8)


@double
def window_of_16_at_both_ends() -> list[Corner]:
    """What a station writes that relied on a window of 0 before K5."""
    return kept("window_of_16_at_both_ends", 16, 16, 16)


@double
def windows_of_16_and_of_0() -> list[Corner]:
    """The same before K5, and no longer: number 16 is acknowledged and dropped, and no call says so."""
    both, channel = last_first("windows_of_16_and_of_0", 16, 0, 16, same=False)
    if channel.failed_after != 1 or channel.delivered != channel.accepted[:-1]:
        raise Unexpected("windows_of_16_and_of_0: not the last payload was lost, or the history did not see it")
    both[1].note = "with windows of 16 and 8: number 16 is confirmed and was never delivered"
    return both
