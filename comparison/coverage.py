"""What the traces are to reach, and what they reached: refusals, changes of state, events, premises of demand 3."""
from __future__ import annotations

import collections
from collections.abc import Iterator

from comparison import history, model
from comparison.trace import Trace
from comparison.two_nodes import Pair
from traces import files

REFUSALS = {
    "table": (0, 1), "open": (0, 2, 4), "close": (0, 2, 4), "counts": (0, 2, 3), "send": (0, 2, 3, 4, 5, 7),
    "urgent": (0, 2, 3, 4, 5, 9), "arrival": (0, 10, 11, 15, 16, 17, 18, 13, 5, 14), "tick": (0,), "hand out": (0, 19),
    "report": (0, 20), "plan": (0, 22),
}
PLAYED = {code: name for code, name in model.CALL_NAMES.items() if code in files.NAMES}  # the calls of a trace file
TRANSITIONS = ["sender " + way for way in (
    "Closed to Enabled", "Enabled to Open", "Open to Failing", "Failing to Enabled",
    "Enabled to Closed", "Open to Closed", "Failing to Closed")]
TRANSITIONS += ["receiver " + way for way in (
    "Closed to Enabled", "Enabled to Open", "Open to Open", "Enabled to Closed", "Open to Closed")]
EVENTS = ["handed out: " + what for what in ("acknowledgement", "Reset", "Urgent", "retransmission", "data")]
EVENTS += ["Data delivers 0", "Data delivers 1", "Data delivers more", "Data held already", "Data outside the window"]
EVENTS += ["Urgent delivered"]
EVENTS += ["fault %d before %d" % pair for pair in ((15, 16), (16, 17), (16, 18), (17, 18))]
EVENTS += ["Reset drops held payloads", "Reset drops waiting acknowledgements"]
EVENTS += ["receiver's start folds", "sender's start folds"]
EVENTS += ["acknowledgement at %s passes %s" % (state, count)
           for state in (model.OPEN, model.FAILING) for count in (0, 1, "more")]
EVENTS += ["acknowledgement at %s ignored, %s" % (state, why)
           for state in (model.OPEN, model.FAILING) for why in ("outside", "again", "not handed out")]
EVENTS += ["acknowledgement at Enabled ignored, not 0", "acknowledgement at Enabled ignored, no Reset out"]
EVENTS += ["acknowledgement 0 removes a waiting Reset", "acknowledgement stops a waiting retransmission"]
EVENTS += ["Reset's timer ends", "data's timer ends at Open", "data's timer ends at Failing"]
EVENTS += ["failing drops an Urgent", "failing drops data", "failing drops a retransmission"]
EVENTS += ["a timer of T 1 ends", "a timer of T 65,535 starts", "a timer ends before one that started earlier"]
EVENTS += ["data's timer ends, an earlier number's runs on"]
EVENTS += ["timers end in one tick in another order than they started"]
EVENTS += ["several timers of an entry end in one tick", "timers of several entries end in one tick"]
EVENTS += ["acknowledgement stops the first timer due of several", "a stopped timer's tick ends none of those that run"]
EVENTS += ["acknowledgement at Failing stops the last timer"]
EVENTS += ["recovery in a tick at which no timer was due, stopped or not"]
EVENTS += ["failing and recovery in one tick, M 0, one timer", "setup while timers run"]
EVENTS += ["refusal 19, something waits", "refusal 19, nothing waits"]
EVENTS += ["setup while a frame is under way", "close of an end whose frame is under way"]
EVENTS += ["acknowledgement before the report counts", "acknowledgement 0 before the report opens"]
EVENTS += ["report starts the timer: " + what for what in ("data", "retransmission", "Reset")]
EVENTS += ["report starts the timer of data that was under way when its end failed"]
EVENTS += ["report starts nothing: " + what for what in ("acknowledgement", "Urgent")]
EVENTS += ["report starts nothing: %s, %s meanwhile" % (what, why) for what in ("data", "Reset")
           for why in ("acknowledged", "closed", "closed and opened again")]
EVENTS += ["report starts nothing: data, acknowledged and its slot taken meanwhile"]
EVENTS += ["Failing goes on for its own frame under way: " + what for what in ("data", "acknowledged data", "Urgent")]
EVENTS += ["report lets a Failing end recover at the next tick", "recovery while another entry's frame is under way"]
EVENTS += ["plan malformed: " + fault for fault in (
    "shorter than 6 bytes", "shorter than its count asks", "a count above 64", "the first offset too low",
    "the first offset too high", "an offset falls", "the last offset before the end", "the last offset beyond the end")]
EVENTS += ["plan stopped by %d at its first payload" % n for n in (2, 3, 4)]
EVENTS += ["plan stopped by %d at %s payload" % (n, where)
           for n in (5, 7) for where in ("its first", "a middle", "its last")]
EVENTS += ["plan empty", "plan empty, at an index of no entry"]
EVENTS += ["plan accepted whole", "plan accepted whole fills the window", "plan of 64 payloads accepted whole"]
EVENTS += ["plan's numbers fold", "plan accepted while a frame is under way"]


class Totals:
    """What was compared so far."""

    def __init__(self) -> None:
        self.kinds: dict[str, collections.Counter[str]] = collections.defaultdict(collections.Counter)  # of traces
        self.by_hand: dict[str, list[Trace]] = collections.defaultdict(list)  # by event, the corners that reach it
        self.seen: model.Seen = collections.Counter()
        self.pairs = self.wild = 0
        self.channels: collections.Counter[str] = collections.Counter()
        self.withheld: collections.Counter[str] = collections.Counter()  # by premise
        self.breaks: collections.Counter[str] = collections.Counter()
        self.notes: list[str] = []
        self.files = self.refused = self.lines = 0  # trace files
        self.replayed: model.Seen = collections.Counter()

    def add_trace(self, trace: Trace, kind: str) -> None:
        seen = trace.node.seen
        frames = sum(n for key, n in seen.items()
                     if str(key).startswith("handed out") or key[0] == model.ARRIVAL_CALL)
        self.kinds[kind] += collections.Counter(traces=1, records=trace.text().count("\n"), bytes=len(trace.stream),
                                                frames=frames)
        self.seen += seen
        for event in EVENTS if kind == "c" else ():
            if seen[event]:
                self.by_hand[event].append(trace)
        self.notes += ["%s: %s" % (trace.name, trace.note)] if trace.note else []

    def count(self, what: str) -> int:
        """How many traces there were, or how much of something was in them all."""
        return sum(kind[what] for kind in self.kinds.values())

    def add_pair(self, pair: Pair) -> None:
        self.pairs += 1
        self.wild += pair.wild
        for channel in pair.channels:
            self.channels["channels"] += 1
            self.channels["runs"] += channel.run
            self.channels["checks"] += channel.checks
            self.channels["counts told"] += channel.told
            self.channels["folds"] += channel.folds + len(channel.delivered) // 256
            self.channels["failed"] += channel.failed_after
        self.withheld += pair.withheld
        self.breaks += pair.breaks

    def add_file(self, data: bytes, text: str) -> None:
        self.files += 1
        self.refused += text.startswith("refused")
        self.lines += text.count("\n")

    def unplayed(self) -> list[str]:
        """The calls and refusals that a trace can show and that no file showed."""
        return ["%s refused with %d in a trace file" % (name, n)
                for code, name in PLAYED.items() for n in REFUSALS[name] if not self.replayed[(code, n)]]

    def missing(self) -> list[str]:
        """What was to be reached and was not."""
        codes = {name: code for code, name in model.CALL_NAMES.items()}
        out = ["%s refused with %d" % (name, n)
               for name, numbers in REFUSALS.items() for n in numbers if not self.seen[(codes[name], n)]]
        out += [name for name in TRANSITIONS + EVENTS if not self.seen[name]]
        return out

    def by_seed_alone(self) -> list[str]:
        """The events that no trace by hand reaches."""
        return [name for name in EVENTS if not self.by_hand[name]]

    def unlisted(self) -> list[str]:
        """What happened and stands in no list above: the lists would then be wrong."""
        refusals = {(code, n) for code, name in model.CALL_NAMES.items() for n in REFUSALS[name]}
        return [str(key) for key in self.seen if key not in refusals | set(TRANSITIONS + EVENTS)]

    # the table

    def refusal_rows(self, seen: model.Seen, names: dict[int, str]) -> Iterator[str]:
        numbers = [n for n in range(23) if n not in (12, 21)]  # 12 is given no more, and 21 by no call
        yield "refusal   " + "".join("%8d" % n for n in numbers)
        for code, name in names.items():
            counts = [seen[(code, n)] if n in REFUSALS[name] else "." for n in numbers]
            yield "%-10s" % name + "".join("%8s" % count for count in counts)

    def show(self, gaps: bool) -> None:
        """The coverage table; `gaps` where all kinds were run, so that nothing should be missing."""
        print(", ".join("%d %s" % (self.count(what), what) for what in ("traces", "records", "bytes", "frames")))
        print("\nCalls by refusal number (0: done). The desk cannot be brought to 6, since its buffers are always long"
              " enough, nor to 8.")
        for row in self.refusal_rows(self.seen, model.CALL_NAMES):
            print(row)
        for title, names in (("State transitions", TRANSITIONS), ("Events", EVENTS)):
            print("\n" + title)
            for name in names:
                print("%10d  %s" % (self.seen[name], name))
        if self.pairs:
            self.show_promise()
        print("\n".join([""] + self.notes))
        for name in self.missing() if gaps else ():
            print("NOT REACHED: " + name)
        for name in self.by_seed_alone() if gaps else ():
            print("NOT REACHED BY HAND: " + name)

    def show_files(self, gaps: bool) -> None:
        """The trace files' part of the table."""
        print("\n%d trace files, %d of them refused with 21; %d lines. Their calls by refusal number:"
              % (self.files, self.refused, self.lines))
        for row in self.refusal_rows(self.replayed, PLAYED):
            print(row)
        for name in self.unplayed() if gaps else ():
            print("NOT REACHED: " + name)

    def show_promise(self) -> None:
        print("\nDemand 3: %d pairs, of which %d take in what breaks a premise; %d channels, %d runs,"
              " %d folds of a receiver's numbers;"
              % (self.pairs, self.wild, self.channels["channels"], self.channels["runs"], self.channels["folds"]))
        print("checked %d times with all premises holding, %d counts told among them;"
              " %d runs with a broken premise in which it then failed"
              % (self.channels["checks"], self.channels["counts told"], self.channels["failed"]))
        print("  withheld    broken  premise")
        for name in history.PREMISES:
            print("%10d%10d  %s" % (self.withheld[name], self.breaks[name], name))
