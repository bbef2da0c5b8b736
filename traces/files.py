"""The trace file of change request K2, with the report that K3 adds: a node's recorded calls, behind a header that says
where each begins."""
from __future__ import annotations

from collections.abc import Sequence
from dataclasses import dataclass

TABLE, OPEN, CLOSE, SEND, URGENT, ARRIVAL, TICK, HAND_OUT, REPORT = range(1, 10)
NAMES = {TABLE: "table", OPEN: "open", CLOSE: "close", SEND: "send", URGENT: "urgent", ARRIVAL: "arrival", TICK: "tick",
         HAND_OUT: "hand_out", REPORT: "report"}
TAKES_INDEX = {OPEN, CLOSE, SEND, URGENT}
TAKES_BYTES = {TABLE, SEND, URGENT, ARRIVAL}

WORD = 4  # bytes of the count, and of an offset
MOST_RECORDS = 1024
OFFSETS = MOST_RECORDS + 1
HEADER = WORD * (1 + OFFSETS)
HEAD = 4  # bytes of a record's kind, index and length
MOST_BYTES = 65536


@dataclass(frozen=True)
class Record:
    """A call: its kind, its index, and the bytes that it is given."""
    kind: int
    index: int = 0
    data: bytes = b""

    def packed(self) -> bytes:
        return bytes((self.kind, self.index)) + len(self.data).to_bytes(2, "big") + self.data


class Fault(Exception):
    """Why a file is no trace."""


def refuse_if(condition: object, words: str) -> None:
    if condition:
        raise Fault(words)


def pack(records: Sequence[Record]) -> bytes:
    """The file of these records, whether or not they keep the rules: so many records, with their offsets."""
    parts = [record.packed() for record in records]
    offsets = [HEADER]
    for part in parts:
        offsets.append(offsets[-1] + len(part))
    words = [len(parts)] + offsets + [0] * (OFFSETS - len(offsets))
    return b"".join(word.to_bytes(WORD, "big") for word in words) + b"".join(parts)


def word_at(data: bytes, place: int) -> int:
    """A word of the header: the count is at 0, offset k at k + 1."""
    return int.from_bytes(data[WORD * place:WORD * (place + 1)], "big")


def _record(data: bytes, number: int, at: int) -> tuple[Record, int]:
    """Record `number`, counted from 1, and where it ends."""
    where = "record %d: " % number
    refuse_if(at + HEAD > len(data), where + "the file ends inside it")
    kind, index = data[at], data[at + 1]
    end = at + HEAD + int.from_bytes(data[at + 2:at + HEAD], "big")
    refuse_if(end > len(data), where + "the file ends inside it")
    refuse_if(kind not in NAMES, where + "there is no kind %d" % kind)
    refuse_if(index and kind not in TAKES_INDEX, where + "index %d, and %s takes none" % (index, NAMES[kind]))
    refuse_if(end > at + HEAD and kind not in TAKES_BYTES, where + "it has bytes, and %s takes none" % NAMES[kind])
    refuse_if(number == 1 and kind != TABLE, where + "the first record is no table")
    refuse_if(number > 1 and kind == TABLE, where + "a second table")
    return Record(kind, index, data[at + HEAD:end]), end


def unpack(data: bytes) -> list[Record]:
    """The records of a trace file, or the first rule that it breaks."""
    refuse_if(len(data) < HEADER, "%d bytes, and the header alone has %d" % (len(data), HEADER))
    refuse_if(len(data) > MOST_BYTES, "more than %d bytes" % MOST_BYTES)
    count = word_at(data, 0)
    refuse_if(not 1 <= count <= MOST_RECORDS, "a count of %d, and there are 1 to %d records" % (count, MOST_RECORDS))
    refuse_if(word_at(data, 1) != HEADER, "the first offset is %d and not %d" % (word_at(data, 1), HEADER))
    records, at = [], HEADER
    for number in range(1, count + 1):
        record, at = _record(data, number, at)
        offset = word_at(data, number + 1)
        refuse_if(offset != at, "offset %d is %d, and record %d ends at %d" % (number, offset, number, at))
        records.append(record)
    refuse_if(at != len(data), "bytes behind the last record")
    unused = [place for place in range(count + 1, OFFSETS) if word_at(data, place + 1)]
    refuse_if(unused, "offset %d is not used and not zero" % (unused or [0])[0])
    return records


def is_trace(data: bytes) -> bool:
    try:
        unpack(data)
    except Fault:
        return False
    return True
