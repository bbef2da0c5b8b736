"""Two ends' traces as one story: which frame that arrived is which that was handed out, and in which order all was.

A frame that arrived is looked for among what the other end handed out: the same bytes, in the same tick or else the
latest before. What came twice has one source; of what is refused with 10 the source is guessed, by tick, length and
order. Ticks count as the same time at both ends, so traces that begin together fit best."""
from __future__ import annotations

from traces.events import WRONG_FRAME, Event, Reader


class Matched:
    """Of the events of both ends: which frame that arrived is which that was handed out."""

    def __init__(self, sides: list[Reader]) -> None:
        self.source: dict[tuple[int, int], Event] = {}  # of an arrival
        self.damaged: set[tuple[int, int]] = set()  # arrivals
        self.taken: set[tuple[int, int]] = set()  # hand outs that arrived
        for near, far in ((0, 1), (1, 0)) if len(sides) == 2 else ():
            outs = [event for event in sides[far].events if event.out]
            ins = [event for event in sides[near].events if event.arrived]
            for event in ins:
                self.take(event, self.same(event, outs))
            for place, event in enumerate(ins):
                if event.key not in self.source and event.refused == WRONG_FRAME:
                    self.take(event, self.damaged_one(event, outs, ins[:place]), True)

    def take(self, event: Event, out: Event | None, damaged: bool = False) -> None:
        if out is None:
            return
        self.source[event.key] = out
        self.taken.add(out.key)
        if damaged:
            self.damaged.add(event.key)

    def free(self, outs: list[Event]) -> list[Event]:
        return [out for out in outs if out.key not in self.taken]

    def same(self, event: Event, outs: list[Event]) -> Event | None:
        """The hand out of these very bytes: of the same tick, again where it came twice; else the latest free one."""
        may_be = [out for out in outs if out.out_data == event.arrived_data and out.tick <= event.tick]
        now = [out for out in may_be if out.tick == event.tick]
        return next(reversed(self.free(now) or now or self.free(may_be) or may_be), None)

    def damaged_one(self, event: Event, outs: list[Event], before: list[Event]) -> Event | None:
        """A hand out of the same tick and length that is free, the first behind what arrived before it."""
        behind = max((self.source[e.key].number for e in before if e.key in self.source), default=0)
        may_be = [out for out in self.free(outs) if out.tick == event.tick
                  and len(out.out_data) == len(event.arrived_data)]
        return next(iter([out for out in may_be if out.number > behind] or may_be), None)


def in_order(sides: list[Reader], matched: Matched) -> list[Event]:
    """The events of both ends in one order: each end's own, by ticks, and no frame arrives before it went out."""
    left = [list(reader.events) for reader in sides]
    done: set[tuple[int, int]] = set()
    order: list[Event] = []

    def may_go(event: Event) -> bool:
        return event.key not in matched.source or matched.source[event.key].key in done

    def is_due(side: int) -> bool:
        """A frame is on its way to this end: it goes on until that has arrived, so that arrows are short."""
        now = [event for event in left[side] if event.tick == left[side][0].tick]
        return any(event.key in matched.source and may_go(event) for event in now)

    while any(left):
        heads = [events[0] for events in left if events]
        # a report that came at once stays with its handing out; else the end that is behind in ticks goes on, and a
        # report goes before what arrives at the other end
        heads.sort(key=lambda e: (not e.at_once, not may_go(e), e.tick, e.ticks, not e.begun, not is_due(e.side),
                                  e.side))
        event = heads[0]
        if not may_go(event):  # the two traces are not of one time: an arrow would go back
            del matched.source[event.key]
        left[event.side].pop(0)
        done.add(event.key)
        order.append(event)
    return order
