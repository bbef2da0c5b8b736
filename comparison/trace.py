"""A trace: a stream of desk records, with what the model's desk writes on it."""
from __future__ import annotations

from collections.abc import Sequence

from comparison import model
from comparison.model import Answer, AnyEnd, Entry, Node


class Full(Exception):
    """The stream has no room for another record."""


class Trace:
    """A stream as it is made, the model's node beside it. Each call adds a record and gives the answer."""

    def __init__(self, name: str) -> None:
        self.name = name
        self.node = Node()
        self.stream = bytearray()
        self.lines: list[str] = []
        self.tail = ""
        self.note = ""  # what the trace shows, where that is worth a line

    def record(self, kind: int, index: int = 0, data: bytes = b"") -> Answer:
        if len(self.stream) + 4 + len(data) > model.MOST_STREAM:
            raise Full
        self.stream += bytes((kind, index)) + model.two(len(data)) + data
        answer = model.call(self.node, kind, index, bytes(data))
        self.lines.append(model.line(len(self.lines) + 1, kind, answer))
        return answer

    def setup(self, own: int, protocol: int, entries: Sequence[Entry]) -> Answer:
        return self.table(model.table(own, protocol, entries))

    def table(self, data: bytes) -> Answer:
        return self.record(model.TABLE_CALL, 0, data)

    def open(self, index: int) -> Answer:
        return self.record(model.OPEN_CALL, index)

    def close(self, index: int) -> Answer:
        return self.record(model.CLOSE_CALL, index)

    def send(self, index: int, payload: bytes) -> Answer:
        return self.record(model.SEND_CALL, index, payload)

    def urgent(self, index: int, payload: bytes) -> Answer:
        return self.record(model.URGENT_CALL, index, payload)

    def arrival(self, frame: bytes) -> Answer:
        return self.record(model.ARRIVAL_CALL, 0, frame)

    def tick(self) -> Answer:
        return self.record(model.TICK_CALL)

    def hand_out(self) -> Answer:
        return self.record(model.HAND_OUT_CALL)

    def report(self) -> Answer:
        """The port reports the end of the frame under way."""
        return self.record(model.REPORT_CALL)

    def plan(self, index: int, block: bytes) -> Answer:
        return self.record(model.PLAN_CALL, index, block)

    def counts(self, index: int) -> Answer:
        return self.record(model.COUNTS_CALL, index)

    def room(self) -> int:
        return model.MOST_STREAM - len(self.stream) - 4

    def end_with(self, data: bytes, line: str) -> None:
        """Bytes after the last record, and the line that they give."""
        self.stream += data
        self.tail = line

    def text(self) -> str:
        return "".join(self.lines) + self.tail


def delivered(answer: Answer) -> bytes:
    """The block that an arrival gave the host, no bytes where it gave none."""
    gives = answer.refusal == 0 and answer.fields[0] in (model.TOOK_DATA, model.TOOK_URGENT)
    return bytes(answer.fields[3:] if gives else ())


def from_remote(node: Node, end: AnyEnd, control: int, sequence: int, payload: bytes = b"") -> bytes:
    """A frame as the entry's remote would write it."""
    return model.frame(node.own, node.protocol, end.entry.remote, control, end.entry.channel, sequence, payload)
