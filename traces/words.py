"""The calls of a trace in words, one a line, and back.

    table OWN PROTOCOL [sends REMOTE CHANNEL RETRIES WINDOW LARGEST TIMEOUT | receives REMOTE CHANNEL WINDOW LARGEST]..
    open INDEX        send INDEX PAYLOAD        arrival Data SOURCE CHANNEL NUMBER PAYLOAD       tick
    close INDEX       urgent INDEX PAYLOAD      arrival Acknowledge SOURCE CHANNEL NUMBER        hand_out
                                                arrival Reset SOURCE CHANNEL                     report
                                                arrival Urgent SOURCE CHANNEL PAYLOAD

Numbers are decimal, payloads hexadecimal, with or without spaces between bytes. A frame that arrives goes to the
table's own address, with its protocol ID, and its length and check byte fit. `table hex BYTES` and `arrival hex BYTES`
are for all others, damaged ones too. A report is the port's, that the frame handed out last has ended. What follows a #
is for the reader, and so is an empty line."""
from __future__ import annotations

from collections.abc import Iterator

from comparison import model
from traces import files
from traces.files import Fault, Record

KINDS = {name: kind for kind, name in files.NAMES.items()}
TYPES = {"Data": model.DATA, "Acknowledge": model.ACKNOWLEDGE, "Reset": model.RESET, "Urgent": model.URGENT}
TYPE_NAMES = {number: name for name, number in TYPES.items()}
NUMBERED = {model.DATA, model.ACKNOWLEDGE}  # the others have number 0
CARRY = {model.DATA, model.URGENT}
SENDS, RECEIVES = "sends", "receives"


class Side:
    """Who the node is, as its table says: frames that arrive in words go there."""

    def __init__(self, table: bytes = b"") -> None:
        self.own, self.protocol = (table[4], table[5]) if len(table) >= 8 else (0, 0)

    def frame(self, control: int, source: int, channel: int, number: int, payload: bytes) -> bytes:
        return model.frame(self.own, self.protocol, source, control, channel, number, payload)


# 1. FROM WORDS


class Words:
    """The words of a line, taken from front to back."""

    def __init__(self, line: str) -> None:
        self.left = line.split("#")[0].split()

    def take(self, what: str) -> str:
        if not self.left:
            raise Fault("%s is missing" % what)
        return self.left.pop(0)

    def number(self, what: str, most: int) -> int:
        word = self.take(what)
        if not word.isdecimal() or int(word) > most:
            raise Fault("%s is %s, and not a number of at most %d" % (what, word, most))
        return int(word)

    def byte(self, what: str) -> int:
        return self.number(what, 255)

    def bytes(self) -> bytes:
        """All words that are left, as hexadecimal bytes."""
        text, self.left = "".join(self.left), []
        try:
            return bytes.fromhex(text)
        except ValueError:
            raise Fault("%s is not hexadecimal, two digits a byte" % text) from None

    def is_next(self, word: str) -> bool:
        found = bool(self.left) and self.left[0] == word
        if found:
            self.left.pop(0)
        return found


def entry_from(words: Words) -> model.Entry:
    kind = words.take("an entry's kind")
    if kind not in (SENDS, RECEIVES):
        raise Fault("an entry begins with %s, and not with sends or receives" % kind)
    remote, channel = words.byte("the remote address"), words.byte("the channel")
    retries = words.byte("the retries") if kind == SENDS else 0
    window, largest = words.number("the window", 65535), words.number("the largest payload", 65535)
    timeout = words.number("the timeout", 65535) if kind == SENDS else 0
    number = model.SENDS if kind == SENDS else model.RECEIVES
    return model.Entry(number, remote, channel, retries, window, largest, timeout)


def table_from(words: Words) -> bytes:
    if words.is_next("hex"):
        return words.bytes()
    own, protocol, entries = words.byte("the own address"), words.byte("the protocol ID"), []
    while words.left:
        entries.append(entry_from(words))
    return model.table(own, protocol, entries)


def frame_from(words: Words, side: Side) -> bytes:
    if words.is_next("hex"):
        return words.bytes()
    name = words.take("the frame's type")
    if name not in TYPES:
        raise Fault("a frame is %s, and not one of %s or hex" % (name, ", ".join(TYPES)))
    control = TYPES[name]
    source, channel = words.byte("the source"), words.byte("the channel")
    number = words.byte("the number") if control in NUMBERED else 0
    return side.frame(control, source, channel, number, words.bytes() if control in CARRY else b"")


def record_from(line: str, side: Side) -> Record | None:
    """The record of a line; none of an empty one."""
    words = Words(line)
    if not words.left:
        return None
    name = words.take("a call")
    if name not in KINDS:
        raise Fault("%s is no call: %s are" % (name, ", ".join(KINDS)))
    kind = KINDS[name]
    index = words.byte("the index") if kind in files.TAKES_INDEX else 0
    data = b""
    if kind == files.TABLE:
        data = table_from(words)
    elif kind == files.ARRIVAL:
        data = frame_from(words, side)
    elif kind in files.TAKES_BYTES:
        data = words.bytes()
    if words.left:
        raise Fault("too much: %s" % " ".join(words.left))
    if len(data) > 65535:
        raise Fault("%d bytes, and a record has at most 65535" % len(data))
    return Record(kind, index, data)


def make(text: str) -> bytes:
    """The trace file of calls in words, or what is wrong with them, and in which line."""
    records: list[Record] = []
    side = Side()
    for place, line in enumerate(text.splitlines(), 1):
        try:
            record = record_from(line, side)
        except Fault as fault:
            raise Fault("line %d: %s" % (place, fault)) from None
        if record is not None:
            records.append(record)
            side = Side(record.data) if record.kind == files.TABLE else side
    if len(records) > files.MOST_RECORDS:
        raise Fault("%d calls, and a trace has at most %d" % (len(records), files.MOST_RECORDS))
    data = files.pack(records)
    files.unpack(data)  # the rules that lines by themselves do not show
    return data


# 2. INTO WORDS


def entry_words(entry: model.Entry) -> str:
    if entry.kind == model.SENDS:
        return "sends %d %d %d %d %d %d" % entry[1:]
    return "receives %d %d %d %d" % (entry.remote, entry.channel, entry.window, entry.largest)


def table_words(data: bytes) -> str:
    """In numbers where these bytes are what the numbers give, else in hexadecimal."""
    entries = [model.Entry(data[at], data[at + 1], data[at + 2], data[at + 3],
                           *(int.from_bytes(data[at + k:at + k + 2], "big") for k in (4, 6, 8)))
               for at in range(8, len(data) - 11, 12)]
    plain = len(data) >= 8 and all(entry.kind in (model.SENDS, model.RECEIVES) for entry in entries)
    words = " ".join(["%d %d" % (data[4], data[5])] + list(map(entry_words, entries))) if plain else ""
    return words if plain and table_from(Words(words)) == data else "hex " + data.hex()


def frame_words(data: bytes, side: Side) -> str:
    control, source, channel, number = (data[3], data[2], data[6], data[7]) if len(data) >= 9 else (255, 0, 0, 0)
    payload = data[8:-1]
    if control not in TYPE_NAMES or side.frame(control, source, channel, number, payload) != data:
        return "hex " + data.hex()
    words = "%s %d %d" % (TYPE_NAMES[control], source, channel)
    words += " %d" % number if control in NUMBERED else ""
    words += " " + payload.hex() if control in CARRY else ""
    return words if frame_from(Words(words), side) == data else "hex " + data.hex()


def line_of(record: Record, side: Side) -> str:
    words = [files.NAMES[record.kind]]
    if record.kind in files.TAKES_INDEX:
        words.append("%d" % record.index)
    if record.kind == files.TABLE:
        words.append(table_words(record.data))
    elif record.kind == files.ARRIVAL:
        words.append(frame_words(record.data, side))
    elif record.kind in files.TAKES_BYTES:
        words.append(record.data.hex())
    return " ".join(words).rstrip()


def lines(data: bytes) -> Iterator[str]:
    """The calls of a trace file in words; `make` gives the same file of them again."""
    records = files.unpack(data)
    side = Side(records[0].data)
    for record in records:
        yield line_of(record, side)
