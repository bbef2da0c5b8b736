#!/usr/bin/env python3
"""Draws docs/memory.svg, the map of node and book, from the constants of crates/memory/src/layout.rt.

Fails where a constant is there that it has no words for, or where the parts do not lie one after the other.

    tools/memory_map.py            checks that the committed picture is the one that it would draw
    tools/memory_map.py --write    draws it
"""
import re
import sys
from html import escape
from pathlib import Path
from typing import NamedTuple

sys.dont_write_bytecode = True  # the source tree stays as it is
import drawn

ROOT = Path(__file__).resolve().parent.parent
LAYOUT = ROOT / "crates" / "memory" / "src" / "layout.rt"
PICTURE = ROOT / "docs" / "memory.svg"
CONSTANT = re.compile(r"^pub const (\w+): \w+ = (\d+);", re.MULTILINE)

ENTRIES, ROWS = 16, 256  # most entries of a table; values of a byte

# the words for each constant that names one word, by where it lies
HEAD = {
    "COUNT_AT": "count of entries",
    "OWN_AT": "own address",
    "PROTOCOL_AT": "protocol ID",
    "NEED_AT": "bytes of store in use",
    "OLDEST_AT": "oldest acknowledgement's place",
    "ACKS_AT": "acknowledgements that wait",
    "CLOCK_AT": "clock: the last tick's number",
    "QUIET_AT": "quiet bound",
}
TABLE = {
    "KIND": "kind: sends, receives",
    "REMOTE": "remote address",
    "CHANNEL": "channel",
    "RETRIES": "retries M",
    "WINDOW": "window W in force",
    "LARGEST": "largest payload P",
    "TIMEOUT": "timeout T",
    "PLACE": "place: where its store begins",
}
STATE = {
    "STATE": "which state",
    "STATE_VALUE": "Reset's timer, or timers that run",
    "STATE_FLAG": "whether a Reset went out",
}
RUN = {
    "START": "start of the window",
    "LOW_MARKS": "marks 0 to 63",
    "HIGH_MARKS": "marks 64 to 127",
    "TAKEN": "numbers taken",
    "HANDED": "numbers handed out",
    "ACCEPTED": "accepted",
    "CONFIRMED": "confirmed",
    "URGENT": "waiting Urgent's length, or 0",
}
QUEUES = {"RESETS": "Resets", "URGENTS": "Urgents", "RESENDS": "retransmissions", "DATAS": "data"}
# and the others, which say where parts begin and how many there are
PARTS = {"NODE_WORDS", "ACK_AT", "ACK_PLACES", "ROW_AT", "ENTRY_AT", "ENTRY_WORDS", "BOOK_HALVES", "QUEUES", "UNDER_AT",
         "RESET_ID", "URGENT_ID", "CELL_ID", "CELLS", "PREV_AT", "LENGTH_AT", "TIMER_AT", "RETRIES_AT"}

LINE, WIDE, GAP, MARGIN, TOP = 17, 360, 26, 20, 96
BLUE, GREEN, YELLOW, RED, VIOLET, WHITE = "#e6eef9", "#e3f1e5", "#fff3d6", "#f7e3e3", "#ece6f5", "#ffffff"


class BadLayout(Exception):
    """What the constants say cannot be drawn."""


class Part(NamedTuple):
    first: int
    last: int
    name: str
    lines: list[str]
    colour: str


def constants() -> dict[str, int]:
    found = {name: int(value) for name, value in CONSTANT.findall(LAYOUT.read_text(encoding="utf-8"))}
    known = set(HEAD) | set(TABLE) | set(STATE) | set(RUN) | set(QUEUES) | PARTS
    if found.keys() != known:
        raise BadLayout(f"layout.rt and tools/memory_map.py differ in {sorted(found.keys() ^ known)}")
    return found


def named(words: dict[str, str], c: dict[str, int]) -> list[str]:
    return [f"{value}  {words[name]}" for value, name in sorted((c[name], name) for name in words)]


def group(words: dict[str, str], c: dict[str, int], name: str, colour: str) -> Part:
    places = [c[word] for word in words]
    return Part(min(places), max(places), name, named(words, c), colour)


def whole(parts: list[Part], length: int) -> list[Part]:
    """The parts in order, with what is free between them."""
    out, at = [], 0
    for part in sorted(parts):
        if part.first > at:
            out.append(Part(at, part.first - 1, "free", [], WHITE))
        if part.first < at or part.last < part.first or part.last >= length:
            raise BadLayout(f"layout.rt: {part.name} does not lie after what is before it")
        out.append(part)
        at = part.last + 1
    return out + ([Part(at, length - 1, "free", [], WHITE)] if at < length else [])


def node(c: dict[str, int]) -> list[Part]:
    entries = c["ENTRY_AT"] + ENTRIES * c["ENTRY_WORDS"] - 1
    return whole([
        group(HEAD, c, "head", BLUE),
        Part(c["ACK_AT"], c["ACK_AT"] + c["ACK_PLACES"] - 1, f"{c['ACK_PLACES']} acknowledgement places",
             ["a ring: entry and number of each"], YELLOW),
        Part(c["ROW_AT"], c["ROW_AT"] + ROWS - 1, f"{ROWS} rows of the index",
             ["row v: who sends over channel v, who", "receives over it, whose remote address it is"], GREEN),
        Part(c["ENTRY_AT"], entries, f"{ENTRIES} entries of {c['ENTRY_WORDS']} words",
             [f"entry i begins at {c['ENTRY_AT']} + {c['ENTRY_WORDS']} x i;", "its words are in the middle"], RED),
    ], c["NODE_WORDS"])


def entry(c: dict[str, int]) -> list[Part]:
    return whole([group(TABLE, c, "what the table says", RED), group(STATE, c, "its state", RED),
                  group(RUN, c, "its run", RED)], c["ENTRY_WORDS"])


def book(c: dict[str, int]) -> list[Part]:
    cells = ENTRIES * c["CELLS"]
    queues = [QUEUES[name] for name in sorted(QUEUES, key=c.__getitem__)]
    if not c["QUEUES"] <= c["UNDER_AT"] < c["RESET_ID"]:
        raise BadLayout("layout.rt: what is under way does not lie between the queues and the first Reset")
    links = [f"0 to {c['QUEUES'] - 1}  the queues: " + ", ".join(queues[:2]) + ",",
             "            " + ", ".join(queues[2:]),
             f"{c['UNDER_AT']}  no link: what is under way, or 0",
             f"{c['RESET_ID']} + i  entry i's Reset", f"{c['URGENT_ID']} + i  entry i's Urgent",
             f"{c['CELL_ID']} + g  the payload in cell g"]
    return whole([
        Part(0, c["CELL_ID"] + cells - 1, "links forward: what follows x", links, VIOLET),
        Part(c["PREV_AT"], c["PREV_AT"] + c["CELL_ID"] + cells - 1, "links back: what is before x",
             [f"at {c['PREV_AT']} + x, x as above"], VIOLET),
        Part(c["LENGTH_AT"], c["LENGTH_AT"] + cells - 1, "lengths", ["of the payload in cell g"], YELLOW),
        Part(c["TIMER_AT"], c["TIMER_AT"] + cells - 1, "timers",
             ["of cell g: the tick at which it runs out, 0 where it", "does not run, 1 while its frame is under way"],
             YELLOW),
        Part(c["RETRIES_AT"], c["RETRIES_AT"] + cells - 1, "retries",
             ["of cell g", f"cell g = {c['CELLS']} x i + k is slot k of entry i"], YELLOW),
    ], c["BOOK_HALVES"])


def column(number: int, title: str, below: str, parts: list[Part]) -> tuple[list[str], int]:
    """A column's drawing, and how far down it goes."""
    x, y = MARGIN + (WIDE + GAP) * number, TOP
    out = [f'  <text class="title" x="{x}" y="{y - 28}">{escape(title)}</text>',
           f'  <text class="small" x="{x}" y="{y - 9}">{escape(below)}</text>']
    for part in parts:
        high = 10 + LINE * (1 + len(part.lines))
        out.append(f'  <rect x="{x}" y="{y}" width="{WIDE}" height="{high}" fill="{part.colour}" stroke="#555"/>')
        out.append(f'  <text class="place" x="{x + 8}" y="{y + LINE}">{part.first} to {part.last}</text>')
        style = "free" if part.name == "free" else "name"
        out.append(f'  <text class="{style}" x="{x + 122}" y="{y + LINE}">{escape(part.name)}</text>')
        for place, text in enumerate(part.lines, 2):
            out.append(f'  <text class="small" x="{x + 24}" y="{y + LINE * place}" xml:space="preserve">'
                       f'{escape(text)}</text>')
        y += high
    return out, y


def picture() -> str:
    c = constants()
    words, halves = c["NODE_WORDS"], c["BOOK_HALVES"]
    columns = [
        column(0, "node", f"{words} words of 64 bits, {8 * words:,} bytes", node(c)),
        column(1, "an entry of the node", f"{c['ENTRY_WORDS']} words of 64 bits", entry(c)),
        column(2, "book", f"{halves:,} half words of 16 bits, {2 * halves:,} bytes", book(c)),
    ]
    wide, high = 2 * MARGIN + 3 * WIDE + 2 * GAP, max(bottom for _, bottom in columns) + 20
    head = f'''<svg xmlns="http://www.w3.org/2000/svg" viewBox="0 0 {wide} {high}" width="{wide}" height="{high}"
     font-family="Helvetica, Arial, sans-serif" font-size="13">
  <title>The memory of a node: node and book</title>
  <style>.title {{ font-size: 17px; font-weight: bold }} .name {{ font-weight: bold }} .free {{ fill: #777 }}
    .small {{ fill: #222 }} .place {{ fill: #7a2e00 }}</style>
  <rect width="{wide}" height="{high}" fill="#ffffff"/>
  <text x="{MARGIN}" y="34" font-size="20" font-weight="bold">What lies where: {8 * words + 2 * halves:,} bytes \
a node; all zeros is a new node</text>
'''
    return head + "\n".join(line for lines, _ in columns for line in lines) + "\n</svg>\n"


def main() -> int:
    try:
        return drawn.held(PICTURE, picture(), "layout.rt")
    except BadLayout as bad:
        print(f"{bad}\n0 passed, 1 failed")
        return 1


if __name__ == "__main__":
    sys.exit(main())
