"""What corners at two nodes share: a channel from one to the other, with demand 3's history beside it."""
from comparison import history, model
from comparison.corners.corner import OWN, PROTOCOL, REMOTE, Corner, rx, tx


def open_both(a: Corner, b: Corner, channel: history.Channel, sends: int, receives: int) -> None:
    """Sets up and opens a sender and its receiver, each with a window as its table has it."""
    a.ok(a.setup, OWN, PROTOCOL, [tx(channel=5, window=sends)])
    b.ok(b.setup, REMOTE, PROTOCOL, [rx(channel=5, window=receives, remote=OWN)])
    b.ok(b.open, 0)
    a.ok(a.open, 0)
    channel.begin()
    reset = channel.hand_out_reset(handed_out(a))
    b.ok(b.arrival, reset.frame, gives=[model.TOOK_RESET, 0, 0])
    channel.take_reset(reset.run, reset.number)
    a.ok(a.arrival, channel.hand_out_ack(handed_out(b)).frame, gives=[model.OPENED, 0])
    channel.opened()


def handed_out(t: Corner) -> bytes:
    frame = bytes(t.hand_out().fields[1:])
    t.ok(t.report)
    return frame


def take_in(b: Corner, channel: history.Channel, carried: history.Carried) -> None:
    """Data whose premise is asked, and which is taken in all the same."""
    if channel.premise(carried) == history.FAR_DATA:
        channel.break_premise()
    answer = b.arrival(carried.frame)
    channel.take_data(carried.run, carried.number, model.payloads_of(bytes(answer.fields[3:])))
