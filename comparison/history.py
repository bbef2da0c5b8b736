"""Demand 3's history of one channel, kept by a bystander: calls and answers in, what was promised checked after each.

The history is that of the sender's present run. Every frame on the link carries the run and the number, counted without
folding, of the sender's frame that it is or answers; the bystander gives them when the frame is handed out. A premise
is asked of a frame before it is taken in. A frame that would be refused is free, and so is an Urgent: neither alters
what is counted."""
from __future__ import annotations

import collections
from typing import NamedTuple

from comparison import model


class Carried(NamedTuple):
    """A frame on the link; `channel` is None where no channel between the two nodes is meant."""
    frame: bytes
    channel: Channel | None
    run: int
    number: int


EARLIER = "a frame of an earlier run after this run's first Reset was handed out"
LATE_RESET = "a Reset after this run's data"
FAR_DATA = "data more than 256 - W behind the receiver's start"
FAR_ACK = "an acknowledgement more than 256 - W behind the sender's start"
FORGED = "a damaged frame that is not refused"
HOST_CLOSES = "the receiver's host closes it in the run"
PREMISES = (EARLIER, LATE_RESET, FAR_DATA, FAR_ACK, FORGED, HOST_CLOSES)


class Broken(Exception):
    """The promise was not kept though its premises held."""


class Channel:
    """One sender and the receiver it names."""

    def __init__(self, name: str, window: int) -> None:
        self.name, self.window = name, window
        self.run = 0
        self.delivered: list[bytes] = []  # since the last Reset that the receiver took
        # (run, number) of what each waiting acknowledgement answers
        self.tags: collections.deque[tuple[int, int]] = collections.deque()
        self.checks = self.folds = self.told = self.failed_after = 0
        self.start_anew()
        self.in_run = self.whole = False

    def start_anew(self) -> None:
        """An empty history; what the receiver delivered and what waits there stays."""
        self.accepted: list[bytes] = []
        self.confirmed = self.matched = 0
        self.reset_out = self.data_in = self.live = self.failed = False

    # the sender

    def begin(self) -> None:
        """The sender has become Enabled: a run starts, whatever the receiver is and holds."""
        self.start_anew()
        self.run += 1
        self.in_run = self.whole = True

    def end(self) -> None:
        """The sender's host has closed it."""
        self.in_run = self.live = False

    def accept(self, payload: bytes) -> None:
        self.accepted.append(payload)

    def hand_out_reset(self, frame: bytes) -> Carried:
        self.reset_out = True
        return Carried(frame, self, self.run, 0)

    def hand_out_data(self, frame: bytes) -> Carried:
        first = 1 + self.confirmed
        number = first + (frame[7] - first) % 256
        honest = number <= len(self.accepted) and self.accepted[number - 1] == frame[8:-1]
        self.want(honest, "data number %d is not the payload accepted as that" % number)
        return Carried(frame, self, self.run, number)

    def opened(self) -> None:
        self.live = True
        self.confirmed = 0

    def confirm(self, passed: int) -> None:
        self.confirmed += passed

    def counts(self, accepted: int, confirmed: int) -> None:
        """What the host is told; while Open or Failing it is the history's own."""
        if self.live:
            self.told += self.whole
            honest = (accepted, confirmed) == (len(self.accepted), self.confirmed)
            self.want(honest, "the counts told are not the history's")

    # the receiver

    def take_reset(self, run: int, number: int) -> None:
        self.folds += len(self.delivered) // 256
        self.delivered, self.matched = [], 0
        self.tags = collections.deque([(run, number)])

    def take_data(self, run: int, number: int, payloads: list[bytes]) -> None:
        self.delivered += payloads
        self.tags.append((run, number))
        self.data_in = self.data_in or run == self.run

    def hand_out_ack(self, frame: bytes) -> Carried:
        run, number = self.tags.popleft()
        if run == self.run:
            self.want(frame[7] == number % 256, "an acknowledgement of number %d has byte %d" % (number, frame[7]))
        return Carried(frame, self, run, number)

    def close_receiver(self) -> bool:
        """True where this breaks a premise."""
        self.tags.clear()
        self.whole = False
        return self.in_run

    # premises

    def premise(self, carried: Carried) -> str | None:
        """The premise that taking this frame in would break, or None."""
        kind = carried.frame[3]
        if not self.in_run or kind == model.URGENT:
            return None
        if carried.run != self.run:
            return EARLIER if self.reset_out else None
        if kind == model.RESET:
            return LATE_RESET if self.data_in else None
        if kind == model.DATA:
            return FAR_DATA if 1 + len(self.delivered) + self.window > carried.number + 256 else None
        return FAR_ACK if 1 + self.confirmed + self.window > carried.number + 256 else None

    def break_premise(self) -> None:
        self.whole = False

    # the conclusion

    def want(self, fact: bool, words: str) -> None:
        """A fact that is promised while the premises hold; afterwards it is only counted, once a run, if it fails."""
        if fact:
            return
        if self.whole and self.in_run:
            raise Broken("%s, run %d: %s" % (self.name, self.run, words))
        self.failed_after += not self.failed
        self.failed = True

    def in_order(self) -> bool:
        """Delivered is the beginning of accepted. What matched once stays matched until a Reset or a new run."""
        while self.matched < len(self.delivered):
            if self.delivered[self.matched:self.matched + 1] != self.accepted[self.matched:self.matched + 1]:
                return False
            self.matched += 1
        return True

    def check(self) -> None:
        """The promise as it stands now; owed while the sender is Open or Failing."""
        if not self.live:
            return
        self.checks += self.whole
        self.want(self.in_order(), "delivered is not the first %d payloads accepted" % len(self.delivered))
        self.want(self.confirmed <= len(self.delivered), "more is confirmed than delivered")
        self.want(len(self.delivered) <= len(self.accepted), "more is delivered than accepted")
