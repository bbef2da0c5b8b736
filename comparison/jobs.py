"""The comparison of desks on traces: the model's, ours, the peer's. What differs is shrunk and saved.

./compare and tests/traces are thin over it."""
from __future__ import annotations

import collections
import os
import sys
import time
from collections.abc import Callable
from typing import NamedTuple

from comparison import corners, history, model, programs, replays
from comparison.coverage import Totals
from comparison.one_node import one_node
from comparison.trace import Trace
from comparison.two_nodes import two_nodes

SEEDS, PAIRS = 60, 12  # seeds of one node and of two that tests/traces runs, and docs/COVERAGE.md shows
SAVED = os.path.join(programs.ROOT, "target", "compare")
OUR_DESK = os.path.join(programs.ROOT, "crates", "desk", "src", "main.rt")

# 1. ONE TRACE


class Program(NamedTuple):
    name: str
    command: list[str]


def desks_of(peer_only: bool = False, sanitized: bool = False) -> list[Program]:
    """The desks to compare, built."""
    peer = programs.build_sanitized() if sanitized else programs.build_peer()
    out = [Program("peer's", programs.command_of_peers("desk", peer))]
    if peer_only:
        return out
    if not os.path.exists(OUR_DESK):
        sys.exit("there is no crate desk yet; --peer-only compares the model with the peer alone")
    programs.ours("desk", b"")
    return [Program("ours", programs.command_of_ours("desk"))] + out


def replays_of(peer_only: bool = False, sanitized: bool = False) -> list[Program]:
    """The programs that replay a trace file, built."""
    peer = programs.build_sanitized() if sanitized else programs.build_peer()
    out = [Program("peer's", programs.command_of_peers("replay", peer))]
    if peer_only:
        return out
    programs.ours("replay", b"")
    return [Program("ours", programs.command_of_ours("replay"))] + out


def disagreement(stream: bytes, text: str, desks: list[Program]) -> str | None:
    """How the first program that does not write `text` differs from it, or None."""
    for desk in desks:
        wrong = programs.difference(text.encode(), programs.written(desk.command, stream), ("model", desk.name))
        if wrong:
            return wrong
    return None


def shortest(stream: bytes, desks: list[Program]) -> bytes:
    """The shortest beginning of a stream, in whole records, on which the model and some desk differ; the stream itself
    where none is found."""
    ends = [end for _, _, _, end in model.records(stream)]
    ends += [len(stream)] if not ends or ends[-1] < len(stream) else []
    low, high = 0, len(ends) - 1
    while low < high:
        middle = (low + high) // 2
        part = stream[:ends[middle]]
        low, high = (low, middle) if disagreement(part, model.desk(part), desks) else (middle + 1, high)
    part = stream[:ends[low]]
    return part if disagreement(part, model.desk(part), desks) else stream


def thinned(stream: bytes, desks: list[Program], seconds: int = 20) -> bytes:
    """The same with records left out, as many as can be found in a while: what is left is quicker to read."""
    ends = [0] + [end for _, _, _, end in model.records(stream)]
    pieces = [stream[a:b] for a, b in zip(ends, ends[1:])]
    until, size = time.monotonic() + seconds, len(pieces) // 2
    while size:
        at = 0
        while at < len(pieces) and time.monotonic() < until:
            fewer = pieces[:at] + pieces[at + size:]
            part = b"".join(fewer)
            if disagreement(part, model.desk(part), desks):
                pieces = fewer
            else:
                at += size
        size //= 2
    part = b"".join(pieces)
    return part if disagreement(part, model.desk(part), desks) else stream


def save(name: str, stream: bytes, text: str) -> str:
    """Keeps a stream and what the model's desk writes on it; gives the stream's path."""
    os.makedirs(SAVED, exist_ok=True)
    path = os.path.join(SAVED, name + ".desk")
    with open(path, "wb") as file:
        file.write(stream)
    with open(path + ".model", "w") as file:
        file.write(text)
    return os.path.relpath(path, programs.ROOT)


def report(trace: Trace, wrong: str, again: str, desks: list[Program]) -> str:
    """A trace that differs, shrunk and saved."""
    part = shortest(bytes(trace.stream), desks)
    thin = thinned(part, desks)
    out = ["%s differs, %s" % (trace.name, disagreement(part, model.desk(part), desks) or wrong), "again: " + again]
    for name, stream, words in ((trace.name, part, "the shortest beginning"),
                                (trace.name + ".thin", thin, "records left out")):
        count, path = len(list(model.records(stream))), save(name, stream, model.desk(stream))
        out.append("%s, %d records: %s" % (words, count, path))
    return "\n".join(out)


def compare_trace(trace: Trace, kind: str, again: str, desks: list[Program], totals: Totals) -> str | None:
    """None, or what is wrong with a trace."""
    stream, text = bytes(trace.stream), trace.text()
    totals.add_trace(trace, kind)
    wrong = disagreement(stream, text, desks)
    return report(trace, wrong, again, desks) if wrong else None


# 2. JOBS: a seed or a corner each; `run` gives None, or what is wrong


class Job(NamedTuple):
    kind: str
    run: Callable[[], str | None]


def job_a(seed: int, desks: list[Program], totals: Totals, option: str = "") -> Job:
    again = "./compare --kind a --seed %d%s" % (seed, option)

    def run() -> str | None:
        return compare_trace(one_node(seed), "a", again, desks, totals)
    return Job("a", run)


def job_b(seed: int, desks: list[Program], totals: Totals, option: str = "") -> Job:
    again = "./compare --kind b --seed %d%s" % (seed, option)

    def run() -> str | None:
        pair = two_nodes(seed)
        totals.add_pair(pair)
        found = [compare_trace(side.trace, "b", again, desks, totals) for side in pair.sides]
        if pair.broken:
            # the play has stopped there, so the streams are no longer than they must be
            paths = [save(side.trace.name, bytes(side.trace.stream), side.trace.text()) for side in pair.sides]
            found.append("the promise is broken: %s\nagain: %s\nsaved: %s" % (pair.broken, again, ", ".join(paths)))
        return "\n".join(filter(None, found)) or None
    return Job("b", run)


def job_c(name: str, desks: list[Program], totals: Totals, option: str = "") -> Job:
    again = "./compare --kind c --name %s%s" % (name, option)

    def run() -> str | None:
        try:
            made = corners.CORNERS[name]()
        except (corners.Unexpected, history.Broken) as wrong:
            return "the model's answer is not the one by hand: %s\nagain: %s" % (wrong, again)
        found = [compare_trace(trace, "c", again, desks, totals) for trace in made]
        return "\n".join(filter(None, found)) or None
    return Job("c", run)


def job_d(seed: int, replayers: list[Program], totals: Totals, option: str = "") -> Job:
    """The trace files of a seed, good and damaged."""
    again = "./compare --kind d --seed %d%s" % (seed, option)

    def run() -> str | None:
        for name, data in replays.good(seed):
            wrong = compare_file(name, data, again, replayers, totals)
            if wrong:
                return wrong
            for how, other in replays.damaged(seed, data) if seed % 4 == 1 else ():
                wrong = compare_file("%s, %s" % (name, how), other, again, replayers, totals)
                if wrong:
                    return wrong
        return None
    return Job("d", run)


def job_e(name: str, replayers: list[Program], totals: Totals, option: str = "") -> Job:
    """A trace file by hand."""
    again = "./compare --kind e --name %s%s" % (name, option)

    def run() -> str | None:
        data, text = replays.CASES[name]()
        if replays.replay(data) != text:
            return "the model's replay is not the one by hand: %s\nagain: %s" % (name, again)
        return compare_file(name, data, again, replayers, totals)
    return Job("e", run)


def compare_file(name: str, data: bytes, again: str, replayers: list[Program], totals: Totals) -> str | None:
    """None, or what is wrong with the replays of a file."""
    text = replays.replay(data, totals.replayed)
    totals.add_file(data, text)
    wrong = disagreement(data, text, replayers)
    return "%s differs, %s\nagain: %s\nsaved: %s" % (name, wrong, again, save("file", data, text)) if wrong else None


class Progress:
    """How far a list of jobs is, with an estimate of the time left, on standard error; kinds differ much in time."""

    GUESS = {"a": 0.3, "b": 2.0, "c": 0.1, "d": 0.8, "e": 0.1}

    def __init__(self, jobs: list[Job], every: float) -> None:
        self.left = collections.Counter(job.kind for job in jobs)
        self.count, self.every = len(jobs), every
        self.began = self.told = time.monotonic()
        self.done: collections.Counter[str] = collections.Counter()
        self.spent: dict[str, float] = collections.defaultdict(float)

    def add(self, kind: str, seconds: float) -> None:
        self.left[kind] -= 1
        self.done[kind] += 1
        self.spent[kind] += seconds
        now = time.monotonic()
        if now - self.told >= self.every:
            self.told = now
            print("%d of %d, %d s gone, about %d s left"
                  % (self.done.total(), self.count, now - self.began, self.estimate()), file=sys.stderr, flush=True)

    def estimate(self) -> float:
        return sum(left * self.time_of(kind) for kind, left in self.left.items())

    def time_of(self, kind: str) -> float:
        """The seconds that a job of this kind took so far, or is guessed to take."""
        return self.spent[kind] / self.done[kind] if self.done[kind] else self.GUESS[kind]


def run_jobs(jobs: list[Job], every: float = 5, most: int = 5) -> tuple[int, int]:
    """Runs jobs, prints what fails, stops after `most` failures; gives how many passed and failed."""
    passed = failed = 0
    progress = Progress(jobs, every)
    for job in jobs:
        began = time.monotonic()
        wrong = job.run()
        progress.add(job.kind, time.monotonic() - began)
        if wrong is None:
            passed += 1
            continue
        failed += 1
        print(wrong, flush=True)
        if failed == most:
            print("stopped after %d failures" % failed)
            break
    return passed, failed
