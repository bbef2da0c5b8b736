"""A trace of as many records and bytes as a file can have, for the benchmark's row on replays: payloads go out and are
confirmed, others come in and are acknowledged, the end of each frame is reported, with ticks between them, and no call
is refused."""
from comparison import model
from comparison.corners.corner import OWN, PROTOCOL, REMOTE, rx, tx
from comparison.model import ACKNOWLEDGE, DATA, RESET
from traces import files
from traces.files import Record

OUT, IN = 7, 9  # the channels
LARGEST = 216  # the payload with which the records fill the file
GOES_OUT = (Record(files.HAND_OUT), Record(files.REPORT))


def frame(control, channel, number, payload=b""):
    return Record(files.ARRIVAL, 0, model.frame(OWN, PROTOCOL, REMOTE, control, channel, number, payload))


def made():
    """The file."""
    entries = [tx(channel=OUT, window=4, largest=LARGEST, timeout=100), rx(channel=IN, window=4, largest=LARGEST)]
    records = [Record(files.TABLE, 0, model.table(OWN, PROTOCOL, entries)),
               Record(files.OPEN, 0), Record(files.OPEN, 1), *GOES_OUT,
               frame(ACKNOWLEDGE, OUT, 0), frame(RESET, IN, 0), *GOES_OUT]
    number = 0
    while len(records) < files.MOST_RECORDS:
        number = (number + 1) % 256
        payload = bytes((number + k) % 256 for k in range(LARGEST))
        records += [Record(files.SEND, 0, payload), *GOES_OUT, frame(ACKNOWLEDGE, OUT, number),
                    frame(DATA, IN, number, payload), *GOES_OUT, Record(files.TICK)]
    return files.pack(records[:files.MOST_RECORDS])
