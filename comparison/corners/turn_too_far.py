"""The turn too far: two nodes, and old data that comes again late, with demand 3's history beside them."""
from comparison import history, model
from comparison.corners.corner import Corner, Unexpected, double
from comparison.corners.linked import handed_out, open_both, take_in


def turn(name: str, last: int) -> tuple[list[Corner], history.Channel]:
    """W 16: data number 5 comes again when `last` payloads have been delivered, then more follow up to number 262.

    Gives both traces and the channel's history."""
    a, b, channel = Corner(name + ".A"), Corner(name + ".B"), history.Channel(name, 16)
    open_both(a, b, channel, 16, 16)
    sent = []
    for number in range(1, 263):
        payload = b"move %d" % number
        a.ok(a.send, 0, payload)
        channel.accept(payload)
        sent.append(channel.hand_out_data(handed_out(a)))
        take_in(b, channel, sent[-1])
        a.ok(a.arrival, channel.hand_out_ack(handed_out(b)).frame, gives=[model.ACKNOWLEDGED, 0, 1])
        channel.confirm(1)
        if number == last:
            take_in(b, channel, sent[5 - 1])
            channel.hand_out_ack(handed_out(b))  # this acknowledgement is lost
        channel.check()
    return [a, b], channel


@double
def turn_too_far() -> list[Corner]:
    """Start 246: 5 is in. The distance premise is broken, and the old move is wound again, in place of number 261."""
    both, channel = turn("turn_too_far", 245)
    wound_again = channel.delivered[260] == b"move 5" and channel.accepted[260] == b"move 261"
    if channel.whole or channel.failed_after != 1 or not wound_again:
        raise Unexpected("turn_too_far: the old move was not wound again, or the history did not see it")
    both[1].note = "without the distance premise: the old move number 5 is delivered again, in place of number 261"
    return both


@double
def turn_not_too_far() -> list[Corner]:
    """Start 245: 5 is out. The premises hold, and so does the promise."""
    both, channel = turn("turn_not_too_far", 244)
    if not channel.whole or channel.delivered != channel.accepted:
        raise Unexpected("turn_not_too_far: not everything was delivered")
    return both
