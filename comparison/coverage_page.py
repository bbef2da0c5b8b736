"""The tables of docs/COVERAGE.md, from what ./compare and tests/long_runs reached. Each stands between two marks with
its name; the words around them are written by hand and have no counts in them."""
from __future__ import annotations

import os
import re
from collections.abc import Iterable

from comparison import history, model, programs
from comparison.coverage import EVENTS, PLAYED, REFUSALS, TRANSITIONS, Totals

PAGE = os.path.join(programs.ROOT, "docs", "COVERAGE.md")
KINDS = {"c": "corners by hand (`comparison/corners/`)", "a": "one node under random calls and damaged frames",
         "b": "two nodes over a bad link"}
SHOWN = 2  # how many corners are named for an event


def table(head: Iterable[str], rows: Iterable[Iterable[object]]) -> str:
    """A table; whole numbers have a comma at each thousand."""
    names = list(head)
    lines = [names, ["---"] * len(names)]
    lines += [["{:,}".format(cell) if isinstance(cell, int) else str(cell) for cell in row] for row in rows]
    return "".join("| %s |\n" % " | ".join(line) for line in lines)


def traces(totals: Totals) -> str:
    columns = ("traces", "records", "frames")
    rows: list[list[object]] = [[words] + [totals.kinds[kind][what] for what in columns]
                                for kind, words in KINDS.items()]
    rows.append(["together"] + [totals.count(what) for what in columns])
    return table(("", *columns), rows)


def refusals(seen: model.Seen, names: dict[int, str]) -> str:
    """Calls by refusal number; empty where a call does not give one."""
    numbers = sorted({n for name in names.values() for n in REFUSALS[name]})
    rows = ([name] + [seen[(code, n)] if n in REFUSALS[name] else "" for n in numbers] for code, name in names.items())
    return table(["call"] + ["done" if n == 0 else str(n) for n in numbers], rows)


def states(totals: Totals) -> str:
    rows = ([name.replace(" to ", " → "), totals.seen[name]] for name in TRANSITIONS)
    return table(("change of state", "times"), rows)


def promise(totals: Totals) -> str:
    told = totals.channels
    head = ("pairs of nodes", "that take in what breaks a premise", "channels", "runs", "folds of a receiver's numbers",
            "times checked, all premises holding", "runs with a broken premise in which it then failed")
    row = [totals.pairs, totals.wild] + [told[name] for name in ("channels", "runs", "folds", "checks", "failed")]
    return table(head, [row])


def premises(totals: Totals) -> str:
    return table(("premise", "broken", "withheld"),
                 ([name, totals.breaks[name], totals.withheld[name]] for name in history.PREMISES))


def by_hand(totals: Totals, event: str) -> str:
    """The corners that reach an event and few others, and how many more reach it."""
    found = sorted(totals.by_hand[event],
                   key=lambda trace: (sum(name in trace.node.seen for name in EVENTS), len(trace.lines), trace.name))
    names = ", ".join("`%s`" % trace.name for trace in found[:SHOWN])
    return names + (" and %d more" % (len(found) - SHOWN) if len(found) > SHOWN else "")


def events(totals: Totals) -> str:
    return table(("event", "times", "by hand"), ([name, totals.seen[name], by_hand(totals, name)] for name in EVENTS))


def files(totals: Totals) -> str:
    head = table(("trace files", "of them refused with 21", "lines"), [[totals.files, totals.refused, totals.lines]])
    return head + "\n" + refusals(totals.replayed, PLAYED)


def long_runs(said: str) -> str:
    """What tests/long_runs said: how much in its first line, then how often it reached what."""
    first, *others = said.splitlines()[:-1]
    much = [part.split(" ", 1) for part in first.split(", ")]
    reached = (line.split(None, 1) for line in others)
    return (table((what for _, what in much), [[int(number) for number, _ in much]]) + "\n"
            + table(("event", "times"), ([event, int(times)] for times, event in reached)))


def write(totals: Totals) -> None:
    """Puts what ./compare reached into the page."""
    put({"traces": traces(totals), "refusals": refusals(totals.seen, model.CALL_NAMES), "states": states(totals),
         "promise": promise(totals), "premises": premises(totals), "events": events(totals), "files": files(totals)})


def put(made: dict[str, str]) -> None:
    """Puts tables into the page, each in its place."""
    with open(PAGE, encoding="utf-8") as file:
        text = file.read()
    for name, content in made.items():
        begin, end = "<!-- %s: begin -->\n" % name, "<!-- %s: end -->\n" % name
        text, times = re.subn(re.escape(begin) + ".*?" + re.escape(end), lambda _: begin + content + end, text,
                              flags=re.DOTALL)
        assert times == 1, "docs/COVERAGE.md has no place for the table of %s" % name
    with open(PAGE, "w", encoding="utf-8") as file:
        file.write(text)
