"""Trace files (change request K2) by seed and by hand, good and damaged, and what a replay of one prints, by the model.

The rules of a file are read in traces/files.py, which the tools for people use too; `replay` adds the model's node."""
from __future__ import annotations

import random
from collections.abc import Callable, Iterator

from comparison import model
from comparison.corners.corner import OWN, PROTOCOL, REMOTE, rx, tx
from comparison.model import ACKNOWLEDGE, DATA, RESET, Answer
from comparison.one_node import one_node
from comparison.trace import Trace
from comparison.two_nodes import two_nodes
from traces import files
from traces.files import Record

REFUSED = "refused 21\n"

# 1. THE MODEL'S REPLAY

# how many of a call's fields are printed: not the bytes of a block or a frame
PRINTED = {model.ARRIVAL_CALL: 3, model.HAND_OUT_CALL: 1}


def replay(data: bytes, seen: model.Seen | None = None) -> str:
    """What the replay of a file prints; what its calls came to is added to `seen`."""
    if not files.is_trace(data):
        return REFUSED
    node, out = model.Node(), ""
    for number, record in enumerate(files.unpack(data), 1):
        answer = model.call(node, record.kind, record.index, record.data)
        fields = answer.fields if answer.refusal else answer.fields[:PRINTED.get(record.kind)]
        out += model.line(number, record.kind, Answer(answer.refusal, fields))
        if record.kind == files.TABLE and answer.refusal:
            break
    if seen is not None:
        seen.update(node.seen)
    return out


# 2. GOOD FILES BY SEED


def calls_of(kind: int, index: int, data: bytes, line: str) -> list[Record]:
    """A record of a desk as calls of a trace, which has no counts and no plans: a plan is the single sends that were
    made of it (02, K6), which its line tells."""
    if kind == model.PLAN_CALL:
        refusal, *fields = map(int, line.split()[2:])
        made = 0 if refusal else fields[0] + (fields[1] > 0)
        return [Record(files.SEND, index, payload) for payload in model.payloads_of(data)[:made]]
    if kind not in files.NAMES:
        return []
    return [Record(kind, index if kind in files.TAKES_INDEX else 0, data if kind in files.TAKES_BYTES else b"")]


def recorded(trace: Trace) -> bytes:
    """The file of a desk's stream: from its first table that is not refused to the next one, or to where a file is
    full."""
    found: list[Record] = []
    size = files.HEADER
    for (kind, index, data, _), line in zip(model.records(bytes(trace.stream)), trace.lines):
        if kind == files.TABLE and found:
            break
        calls = calls_of(kind, index, data, line)
        size += sum(len(call.packed()) for call in calls)
        if size > files.MOST_BYTES or len(found) + len(calls) > files.MOST_RECORDS:
            break
        if found or kind == files.TABLE and line.split()[2] == "0":
            found += calls
    return files.pack(found)


def good(seed: int) -> Iterator[tuple[str, bytes]]:
    """Files of one node under any calls, and of the two ends of a bad link."""
    yield "one node", recorded(one_node(seed))
    if seed % 5 == 0:
        for side in two_nodes(seed // 5).sides:
            yield side.trace.name, recorded(side.trace)


# 3. DAMAGED FILES: each rule broken by itself, and bytes at random


def with_word(data: bytes, place: int, value: int) -> bytes:
    at = files.WORD * place
    return data[:at] + value.to_bytes(files.WORD, "big") + data[at + files.WORD:]


def with_byte(data: bytes, at: int, value: int) -> bytes:
    return data[:at] + bytes((value,)) + data[at + 1:]


def with_record(records: list[Record], number: int, record: Record) -> bytes:
    """The file with another record, counted from 1, in its place."""
    return files.pack(records[:number - 1] + [record] + records[number:])


def broken_headers(data: bytes) -> Iterator[tuple[str, bytes]]:
    count = files.word_at(data, 0)
    for length in (0, 1, 3, 4, files.HEADER - 1, files.HEADER, len(data) - 1):
        yield "%d bytes" % length, data[:length]
    yield "a byte behind the last record", data + b"\0"
    yield "longer than a file", data + bytes(files.MOST_BYTES + 1 - len(data))
    for value in (0, count - 1, count + 1, files.OFFSETS, 2 ** 32 - 1):
        yield "count %d" % value, with_word(data, 0, value)
    for place in {1, 2, count, count + 1}:
        for step in (-1, 1, -files.HEADER, 2 ** 31):
            yield "offset %d moved" % (place - 1), with_word(data, place, (files.word_at(data, place) + step) % 2 ** 32)
    for place in {count + 2, files.OFFSETS}:
        if place <= files.OFFSETS:
            yield "offset %d not zero" % (place - 1), with_word(data, place, len(data))


def broken_records(records: list[Record]) -> Iterator[tuple[str, bytes]]:
    tick = Record(files.TICK)
    yield "no record", files.pack([])
    yield "no table first", files.pack([tick] + records)
    yield "no table", files.pack(records[1:] or [tick])
    yield "a second table", files.pack(records + [records[0]])
    last = len(records) + 1
    for kind in (0, 10, 20, 255):
        yield "kind %d" % kind, with_record(records, last, Record(kind))
    for kind in sorted(set(files.NAMES) - files.TAKES_INDEX - {files.TABLE}):
        yield "an index for " + files.NAMES[kind], with_record(records, last, Record(kind, 1))
    yield "an index for table", with_record(records, 1, Record(files.TABLE, 1, records[0].data))
    for kind in sorted(set(files.NAMES) - files.TAKES_BYTES):
        yield "bytes for " + files.NAMES[kind], with_record(records, last, Record(kind, 0, b"\0"))


def damaged_at_random(rng: random.Random, data: bytes) -> Iterator[tuple[str, bytes]]:
    """Single bytes altered, most in the header or in a record's head; some files stay good."""
    starts = [files.word_at(data, k + 1) for k in range(files.word_at(data, 0))]
    for _ in range(12):
        at = rng.choice((rng.randrange(files.HEADER), rng.choice(starts) + rng.randrange(files.HEAD),
                         rng.randrange(len(data))))
        if at < len(data):
            yield "byte %d" % at, with_byte(data, at, rng.choice((0, 1, 255, data[at] ^ 1 << rng.randrange(8))))


def damaged(seed: int, data: bytes) -> Iterator[tuple[str, bytes]]:
    records = files.unpack(data)
    yield from broken_headers(data)
    if len(records) < files.MOST_RECORDS and len(data) + 2000 < files.MOST_BYTES:
        yield from broken_records(records)
    yield from damaged_at_random(random.Random("trace %d" % seed), data)


# 4. FILES BY HAND: each says what a replay must print

Case = tuple[bytes, str]
CASES: dict[str, Callable[[], Case]] = {}


def case(make: Callable[[], Case]) -> Callable[[], Case]:
    CASES[make.__name__] = make
    return make


def table(*entries: model.Entry) -> Record:
    return Record(files.TABLE, 0, model.table(OWN, PROTOCOL, entries))


def frame(control: int, channel: int, number: int, payload: bytes = b"") -> Record:
    """A frame from the remote end arrives."""
    return Record(files.ARRIVAL, 0, model.frame(OWN, PROTOCOL, REMOTE, control, channel, number, payload))


@case
def a_table_alone() -> Case:
    """The shortest file."""
    return files.pack([table()]), "1 1 0\n"


@case
def a_refused_table_ends() -> Case:
    """A table of no bytes keeps the file's rules: its call refuses it, and nothing is called after it."""
    return files.pack([Record(files.TABLE), Record(files.TICK), Record(files.HAND_OUT)]), "1 1 1\n"


@case
def a_fault_behind_a_refused_table() -> Case:
    """The file is judged whole before any call."""
    return files.pack([Record(files.TABLE), Record(10)]), REFUSED


@case
def reports() -> Case:
    """Kind 9 (K3): the end of the frame under way, 20 where there is none, and 19 while there is one. The timer, T 5,
    runs from the report on."""
    found = [table(tx(timeout=5)), Record(files.REPORT), Record(files.OPEN), Record(files.HAND_OUT), Record(files.TICK),
             Record(files.HAND_OUT), Record(files.REPORT), Record(files.REPORT)]
    found += [Record(files.TICK)] * 4 + [Record(files.HAND_OUT), Record(files.TICK), Record(files.HAND_OUT)]
    text = "1 1 0\n2 9 20\n3 2 0\n4 8 0 9\n5 7 0 0\n6 8 19\n7 9 0\n8 9 20\n9 7 0 0\n10 7 0 0\n11 7 0 0\n12 7 0 0\n"
    return files.pack(found), text + "13 8 0 0\n14 7 0 0\n15 8 0 9\n"


@case
def a_report_with_an_index() -> Case:
    return files.pack([table(), Record(files.REPORT, 1)]), REFUSED


@case
def a_report_with_bytes() -> Case:
    return files.pack([table(), Record(files.REPORT, 0, b"\0")]), REFUSED


@case
def a_kind_behind_the_last() -> Case:
    return files.pack([table(), Record(10)]), REFUSED


@case
def a_plan() -> Case:
    """The desk's kind 10 (K6) is no call of a trace, though its block is good."""
    return files.pack([table(tx()), Record(model.PLAN_CALL, 0, model.block([b"a"]))]), REFUSED


@case
def no_bytes_are_the_calls_business() -> Case:
    """A payload and a frame of length 0 keep the file's rules: their calls refuse them, send and Urgent behind 4."""
    found = [table(tx()), Record(files.SEND), Record(files.ARRIVAL), Record(files.OPEN), Record(files.HAND_OUT),
             frame(ACKNOWLEDGE, 7, 0), Record(files.SEND), Record(files.URGENT)]
    return files.pack(found), "1 1 0\n2 4 4\n3 6 10\n4 2 0\n5 8 0 9\n6 6 0 2 0\n7 4 5\n8 5 5\n"


@case
def any_index_is_the_calls_business() -> Case:
    """An index beyond the table's entries keeps the file's rules: the call answers 2."""
    found = [table(tx())] + [Record(kind, 255) for kind in sorted(files.TAKES_INDEX)]
    return files.pack(found), "1 1 0\n2 2 2\n3 3 2\n4 4 2\n5 5 2\n"


@case
def the_longest_block() -> Case:
    """The largest window, with payloads that fill the store: the longest block that a table can ask for. The number at
    the start comes last and delivers all 128. No frame is refused with 6; an acknowledgement goes out before each."""
    found = [table(rx(window=128, largest=256)), Record(files.OPEN), frame(RESET, 9, 0)]
    text = "1 1 0\n2 2 0\n3 6 0 3 0 0\n"
    for number in range(128, 0, -1):
        found += [Record(files.HAND_OUT), Record(files.REPORT), frame(DATA, 9, number, bytes(256))]
        block = 6 + 128 * (4 + 256) if number == 1 else 6
        text += "%d 8 0 9\n%d 9 0\n%d 6 0 4 0 %d\n" % (len(found) - 2, len(found) - 1, len(found), block)
    return files.pack(found), text


@case
def the_33rd_acknowledgement_has_no_place() -> Case:
    """32 acknowledgements wait, a Reset's and 31 of old data: data and a Reset are refused with 14 until one of them
    was handed out. By hand, since files by seed seldom come to it."""
    found = [table(rx()), Record(files.OPEN), frame(RESET, 9, 0)] + [frame(DATA, 9, 200, b"a")] * 31
    text = "1 1 0\n2 2 0\n3 6 0 3 0 0\n" + "".join("%d 6 0 4 0 6\n" % k for k in range(4, 35))
    found += [frame(DATA, 9, 1, b"a"), frame(RESET, 9, 0), Record(files.HAND_OUT), frame(DATA, 9, 1, b"a")]
    return files.pack(found), text + "35 6 14\n36 6 14\n37 8 0 9\n38 6 0 4 0 11\n"


@case
def the_longest_frame() -> Case:
    """A payload of half the store, the most of a sender: window 1 and the slot for an Urgent."""
    longest = model.MOST_STORE // 2
    found = [table(tx(window=1, largest=longest)), Record(files.OPEN), Record(files.HAND_OUT), frame(ACKNOWLEDGE, 7, 0),
             Record(files.SEND, 0, bytes(longest)), Record(files.REPORT), Record(files.HAND_OUT)]
    return files.pack(found), "1 1 0\n2 2 0\n3 8 0 9\n4 6 0 2 0\n5 4 0\n6 9 0\n7 8 0 %d\n" % (longest + 9)


@case
def as_many_records_as_there_may_be() -> Case:
    found = [table()] + [Record(files.TICK)] * (files.MOST_RECORDS - 1)
    return files.pack(found), "1 1 0\n" + "".join("%d 7 0 0\n" % k for k in range(2, files.MOST_RECORDS + 1))


@case
def one_record_more() -> Case:
    """1,025 records have no place for the file's end among the offsets."""
    return files.pack([table()] + [Record(files.TICK)] * files.MOST_RECORDS), REFUSED


def filled(size: int) -> list[Record]:
    """Records of a file of so many bytes: frames of no length that fits fill it."""
    found = [table()]
    left = size - len(files.pack(found))
    while left:
        part = min(left - files.HEAD, 30000)
        part -= 0 if left - files.HEAD - part == 0 else files.HEAD
        found.append(Record(files.ARRIVAL, 0, bytes(part)))
        left -= files.HEAD + part
    return found


@case
def as_many_bytes_as_there_may_be() -> Case:
    return files.pack(filled(files.MOST_BYTES)), "1 1 0\n2 6 10\n3 6 10\n4 6 10\n"


@case
def one_byte_more() -> Case:
    return files.pack(filled(files.MOST_BYTES + 1)), REFUSED


@case
def faults_have_their_byte() -> Case:
    """15 to 18 are followed by the byte at fault (K1)."""
    found = [table(rx()), Record(files.OPEN)]
    found += [frame(control, 9, number, payload) for control, number, payload in
              ((4, 0, b""), (16, 1, b"a"), (DATA, 1, b""), (RESET, 1, b""))]
    return files.pack(found), "1 1 0\n2 2 0\n3 6 15 3\n4 6 16 3\n5 6 17 4\n6 6 18 7\n"
