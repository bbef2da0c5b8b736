#!/usr/bin/env python3
"""Draws docs/house.svg, the crates in their bands, from crates.txt.

A band begins at a line `# ---- name: text`; a crate's line `name: others`, or `name staticlib: others`, has its one
comment line right above it. The base is drawn at the bottom. A box names what the crate stands on directly: of the
crates that its line names, those that no other of them stands on.

    tools/house.py            checks that the committed picture is the one that it would draw
    tools/house.py --write    draws it
"""
import sys
import textwrap
from html import escape
from pathlib import Path
from typing import NamedTuple

sys.dont_write_bytecode = True  # the source tree stays as it is
import drawn

ROOT = Path(__file__).resolve().parent.parent
LIST = ROOT / "crates.txt"
PICTURE = ROOT / "docs" / "house.svg"

COLUMNS = 5
WIDE, MARGIN, GAP, LABEL = 222, 20, 10, 138  # of a box, around the picture, between boxes, the bands' names
LINE = 16
CHARACTERS = 30  # that a box takes in a line
COLOURS = ["#e6eef9", "#e3f1e5", "#fff3d6", "#f7e3e3", "#ece6f5", "#ececec"]


class Crate(NamedTuple):
    name: str
    text: str
    stands_on: list[str]


class Band(NamedTuple):
    name: str
    text: str
    crates: list[Crate]


def bands() -> list[Band]:
    """The bands in the order of crates.txt."""
    found: list[Band] = []
    comment = ""
    for line in LIST.read_text(encoding="utf-8").splitlines():
        if line.startswith("# ---- "):
            name, _, text = line.removeprefix("# ---- ").partition(": ")
            found.append(Band(name, text, []))
        elif line.startswith("# "):
            comment = line.removeprefix("# ")
        elif ":" in line:
            name, _, others = line.partition(":")
            found[-1].crates.append(Crate(name.removesuffix(" staticlib"), comment, others.split()))
            comment = ""
    return found


def direct(house: list[Band]) -> dict[str, list[str]]:
    """What each crate stands on directly."""
    below: dict[str, set[str]] = {}
    answer: dict[str, list[str]] = {}
    for crate in (crate for band in house for crate in band.crates):
        named = set(crate.stands_on)
        reached = set().union(*(below.get(other, set()) for other in named))
        below[crate.name] = named | reached
        answer[crate.name] = [other for other in crate.stands_on if other not in reached]
    return answer


def lines_of(crate: Crate, on: list[str]) -> list[tuple[str, str]]:
    """A box's lines: the style of each, and its text."""
    lines = [("name", crate.name)]
    lines += [("text", part) for part in textwrap.wrap(crate.text, CHARACTERS)]
    return lines + [("on", part) for part in textwrap.wrap("on " + ", ".join(on), CHARACTERS) if on]


def box(x: int, y: int, high: int, colour: str, lines: list[tuple[str, str]]) -> list[str]:
    out = [f'  <rect x="{x}" y="{y}" width="{WIDE}" height="{high}" rx="6" fill="{colour}" stroke="#555"/>']
    for place, (style, text) in enumerate(lines):
        out.append(f'  <text class="{style}" x="{x + 10}" y="{y + 20 + LINE * place}">{escape(text)}</text>')
    return out


def picture() -> str:
    house = bands()
    on = direct(house)
    out: list[str] = []
    y = 84
    for number, band in reversed(list(enumerate(house))):
        top = y
        boxes = [lines_of(crate, on[crate.name]) for crate in band.crates]
        rows = [boxes[first:first + COLUMNS] for first in range(0, len(boxes), COLUMNS)]
        for row in reversed(rows):
            high = 14 + LINE * max(map(len, row))
            for column, lines in enumerate(row):
                out += box(MARGIN + LABEL + (WIDE + GAP) * column, y, high, COLOURS[number % len(COLOURS)], lines)
            y += high + GAP
        out.append(f'  <text class="band" x="{MARGIN}" y="{top + 20}">{escape(band.name)}</text>')
        for place, part in enumerate(textwrap.wrap(band.text, 18)):
            out.append(f'  <text class="of" x="{MARGIN}" y="{top + 40 + LINE * place}">{escape(part)}</text>')
        y = max(y, top + 44 + LINE * len(textwrap.wrap(band.text, 18)))
        out.append(f'  <path d="M{MARGIN} {y} H{MARGIN + LABEL + (WIDE + GAP) * COLUMNS - GAP}" stroke="#aaa"/>')
        y += GAP
    out.pop(-1)  # nothing lies below the base
    wide, high = 2 * MARGIN + LABEL + (WIDE + GAP) * COLUMNS - GAP, y + 6
    head = f'''<svg xmlns="http://www.w3.org/2000/svg" viewBox="0 0 {wide} {high}" width="{wide}" height="{high}"
     font-family="Helvetica, Arial, sans-serif" font-size="13">
  <title>The house: crates in bands</title>
  <style>.band {{ font-size: 18px; font-weight: bold }} .of, .text {{ fill: #222 }} .on {{ fill: #7a2e00 }}
    .name {{ font-weight: bold; font-size: 15px }}</style>
  <rect width="{wide}" height="{high}" fill="#ffffff"/>
  <text x="{MARGIN}" y="34" font-size="20" font-weight="bold">The house, in bands</text>
  <text x="{MARGIN}" y="58" class="of">A crate stands on crates below it, or in its own row to the left of it. \
"on" names those on which it stands directly; itoa is the kit's.</text>
'''
    return head + "\n".join(out) + "\n</svg>\n"


def main() -> int:
    return drawn.held(PICTURE, picture(), "crates.txt")


if __name__ == "__main__":
    sys.exit(main())
