"""The picture of a trace as a ladder: time goes downwards, a frame is an arrow from end to end. A bar on an end's line
shows how long a frame of its was under way, from handing out to the report.

What came twice is drawn twice, what came damaged as damaged, what did not come as lost (matching.py says how that is
found). Of one trace the other end is a dashed line, and what became of a frame there is not known."""
from __future__ import annotations

from collections.abc import Iterator
from html import escape

from traces.events import WRONG_FRAME, Event, Frame, Reader
from traces.matching import Matched, in_order

# the columns and rows; how far a frame is drawn of which the other end knows nothing
START, NOTES, GAP, ROW, TOP, CUT = 70, 250, 420, 19, 92, 30
LEFT = START + NOTES
RIGHT = LEFT + GAP
MIDDLE = LEFT + GAP // 2
REACH = 170
BAR = 9  # how far the bar of a frame goes down whose end is reported at once
COLOURS = {"Data": "#1f5fa8", "Acknowledge": "#6b7280", "Reset": "#8a4b08", "Urgent": "#a3147f", "": "#444444"}
INK, QUIET, BAND, REFUSED, DELIVERED = "#222222", "#8a8f98", "#f1f3f5", "#b3261e", "#1b7a2f"
BOLD, HALO, SMALL, DASHES = ' font-weight="bold"', ' class="frame"', ' class="start"', ' stroke-dasharray="6 3"'

# 1. ROWS: several ticks in a row are one, and so are a handing out and a report that follows at once


class Row:
    """What stands at one height: an event, or ticks of both ends."""

    def __init__(self, event: Event) -> None:
        self.events = [event]
        self.ticks = [0, 0]
        self.ticks[event.side] = event.ticks

    def takes(self, event: Event) -> bool:
        """Ticks go into the row of the ticks before them; behind one that did something, only the other end's."""
        if event.at_once:
            self.events.append(event)
            return True
        told = any(e.words for e in self.events)
        if not event.ticks or not any(self.ticks) or told and self.ticks[event.side] >= self.ticks[1 - event.side]:
            return False
        self.events.append(event)
        self.ticks[event.side] += 1
        return True


def rows_of(order: list[Event]) -> list[Row]:
    rows: list[Row] = []
    for event in order:
        if not rows or not rows[-1].takes(event):
            rows.append(Row(event))
    return rows


# 2. STROKES


def text(x: float, y: float, words: str, colour: str = INK, anchor: str = "start", more: str = "") -> str:
    where = 'x="%.0f" y="%.0f" fill="%s" text-anchor="%s"' % (x, y, colour, anchor)
    return "<text %s%s>%s</text>" % (where, more, escape(words))


def stroke(x1: float, y1: float, x2: float, y2: float, colour: str, more: str = "") -> str:
    return '<line x1="%.0f" y1="%.0f" x2="%.0f" y2="%.0f" stroke="%s"%s/>' % (x1, y1, x2, y2, colour, more)


def way(x1: float, y1: float, x2: float, y2: float, colour: str, again: bool, head: bool = True) -> str:
    """A frame's way: dashed where it goes again, with an arrow's head where it arrives."""
    more = ' stroke-width="1.6"' + (DASHES if again else "")
    return stroke(x1, y1, x2, y2, colour, more + (' marker-end="url(#head%s)"' % colour[1:] if head else ""))


def marker(colour: str) -> str:
    return ('<marker id="head%s" viewBox="0 0 8 8" refX="8" refY="4" markerWidth="7" markerHeight="7" orient="auto">'
            '<path d="M0 0L8 4L0 8z" fill="%s"/></marker>' % (colour[1:], colour))


# 3. THE PICTURE


class Picture:
    def __init__(self, sides: list[Reader], names: list[str], first: int, most: int) -> None:
        self.sides, self.names = sides, names
        self.matched = Matched(sides)
        rows = rows_of(in_order(sides, self.matched))
        begin = next((k for k, row in enumerate(rows) if any(e.side == 0 and e.number >= first for e in row.events)), 0)
        self.before, self.rows, self.after = rows[:begin], rows[begin:begin + most], rows[begin + most:]
        self.top = TOP + (CUT if self.before else 0)
        self.place = {e.key: self.top + ROW * k for k, row in enumerate(self.rows) for e in row.events}
        self.above = {e.key for row in self.before for e in row.events}
        self.bottom = self.top + ROW * len(self.rows)
        self.high = self.bottom + 14 + (CUT if self.after else 0)
        self.wide = RIGHT + (NOTES if len(sides) == 2 else 0) + START

    def x(self, side: int) -> int:
        return (LEFT, RIGHT)[side]

    def counts(self, rows: list[Row]) -> list[int]:
        """How many records of each end stand in these rows."""
        return [sum(e.side == side for row in rows for e in row.events) for side in range(len(self.sides))]

    # frames

    def label(self, side: int, y: float, frame: Frame, again: bool, colour: str) -> str:
        """A frame's type and number, where it leaves an end; its channel where there are several."""
        several = len({end.entry.channel for reader in self.sides for end in reader.ends}) > 1
        words = frame.name + (" over %d" % frame.channel if several and frame.type else "")
        x, anchor = (LEFT + 12, "start") if side == 0 else (RIGHT - 12, "end")
        return text(x, y - 3, words + (", again" if again else ""), colour, anchor, HALO)

    def goes_out(self, event: Event, frame: Frame, y: float) -> Iterator[str]:
        """A frame that was handed out; where it is known to arrive, the arrival draws its way."""
        here, colour = event.side, COLOURS[frame.type]
        if len(self.sides) == 1:
            yield way(LEFT, y, RIGHT, y + ROW * 0.6, colour, event.again)
        elif event.key not in self.matched.taken:
            away = 1 if here == 0 else -1
            end, below = self.x(here) + away * REACH, y + ROW * 0.4
            yield way(self.x(here), y, end, below, colour, event.again, head=False)
            strange = frame.ends[1] != self.sides[1 - here].own
            words, shade = ("to %d" % frame.ends[1], QUIET) if strange else ("✕ lost", REFUSED)
            yield text(end + away * 4, below + 4, words, shade, "start" if away > 0 else "end")
        yield self.label(here, y, frame, event.again, colour)

    def comes_in(self, event: Event, frame: Frame, y: float) -> Iterator[str]:
        """A frame that arrived: from where it was handed out, or from nowhere that is known."""
        here, source = event.side, self.matched.source.get(event.key)
        colour = REFUSED if event.refused == WRONG_FRAME else COLOURS[frame.type]
        if source is not None:
            begin = self.place.get(source.key, self.top - ROW * 0.6)
            yield way(self.x(source.side), begin, self.x(here), y, colour, source.again)
            if event.key in self.matched.damaged:
                yield text(MIDDLE, (begin + y) / 2 - 3, "damaged", REFUSED, "middle", HALO)
            return
        above = y - ROW * 0.6
        yield way(self.x(1 - here), above, self.x(here), y, colour, False)
        yield self.label(1 - here, above, frame, False, colour)

    def under_way(self) -> Iterator[str]:
        """The bars; those of frames that are not reported go on to the end."""
        for event in (event for reader in self.sides for event in reader.events):
            begin, end = self.height(event), self.height(event.ended) if event.ended else self.bottom
            if event.out is not None and begin != end:
                x = self.x(event.side)
                yield stroke(x, begin, x, end, COLOURS[event.out.type], ' stroke-width="5"')

    def height(self, event: Event) -> float:
        """Where an event stands, or the edge beyond which it is left out."""
        if event.key in self.place:
            return self.place[event.key] + (BAR if event.at_once else 0)
        return self.top - ROW if event.key in self.above else self.bottom

    # a row

    def event(self, event: Event, y: float) -> Iterator[str]:
        """Its frame, what the host sees of it, and where a window starts now that moved."""
        here = event.side
        if event.out is not None:
            yield from self.goes_out(event, event.out, y)
        if event.arrived is not None:
            yield from self.comes_in(event, event.arrived, y)
        colour = REFUSED if event.refused else DELIVERED if event.delivered else QUIET if event.idle else INK
        x, anchor = (LEFT - 10, "end") if here == 0 else (RIGHT + 10, "start")
        yield text(x, y + 4, event.words, colour, anchor, BOLD if event.delivered else "") if event.words else ""
        if event.starts:
            words = ", ".join("%d: %d" % start for start in sorted(event.starts.items()))
            x, anchor = (8, "start") if here == 0 else (self.wide - 8, "end")
            yield text(x, y + 4, words, INK, anchor, SMALL)
        yield '<circle cx="%d" cy="%.0f" r="2" fill="%s"/>' % (self.x(here), y, INK)

    @staticmethod
    def band(y: float) -> str:
        place = (LEFT, y - ROW / 2 + 1, GAP, ROW - 2, BAND)
        return '<rect x="%d" y="%.0f" width="%d" height="%d" fill="%s"/>' % place

    def ticks(self, row: Row, y: float) -> str:
        counts = row.ticks[:len(self.sides)]
        same = len(set(counts)) == 1
        words = "%d tick%s" % (counts[0], "" if counts[0] == 1 else "s") if same else "ticks: %d, %d" % tuple(counts)
        return text(MIDDLE, y + 4, words, QUIET, "middle", ' class="ticks"')

    # the whole

    def names_over(self) -> Iterator[str]:
        for side, (name, reader, shown) in enumerate(zip(self.names, self.sides, self.counts(self.rows))):
            yield text(self.x(side), 22, "%s (%d)" % (name, reader.own), INK, "middle", BOLD + ' font-size="14"')
            yield text(self.x(side), 38, "%d of %d records" % (shown, len(reader.events)), QUIET, "middle")
            x, anchor = (8, "start") if side == 0 else (self.wide - 8, "end")
            yield text(x, 60, "channel: start", QUIET, anchor, SMALL)
        if len(self.sides) == 1:
            yield text(RIGHT, 22, "the other end", QUIET, "middle", ' font-size="14"')

    def legend(self) -> Iterator[str]:
        x = LEFT - 110
        for name, colour in COLOURS.items():
            yield stroke(x, 56, x + 24, 56, colour, ' stroke-width="2"' + ("" if name else DASHES))
            yield text(x + 28, 60, name or "again", colour)
            x += 50 + 8 * len(name or "again")
        yield stroke(x, 50, x, 62, INK, ' stroke-width="5"')
        yield text(x + 6, 60, "under way", INK)

    def lifelines(self) -> Iterator[str]:
        for side in range(2):
            known = side < len(self.sides)
            yield stroke(self.x(side), self.top - 18, self.x(side), self.bottom, INK, "" if known else DASHES)

    def cuts(self) -> Iterator[str]:
        """Where the picture begins late or ends early, in words."""
        for rows, y, words in ((self.before, TOP - 4, "before"), (self.after, self.bottom + 20, "after")):
            told = " and ".join("%d of %s" % pair for pair in zip(self.counts(rows), self.names))
            yield text(MIDDLE, y, "cut here: left out are the records %s, %s" % (words, told), REFUSED, "middle") \
                if rows else ""

    def svg(self) -> str:
        size = 'width="%d" height="%d"' % (self.wide, self.high)
        out = ['<svg xmlns="http://www.w3.org/2000/svg" %s font-family="sans-serif" font-size="12">' % size,
               "<style>.frame{paint-order:stroke;stroke:white;stroke-width:3px}.start{font-size:11px}",
               ".ticks{paint-order:stroke;stroke:%s;stroke-width:5px}</style>" % BAND,
               "<defs>"]
        out += [marker(colour) for colour in sorted({*COLOURS.values(), REFUSED})]
        out += ["</defs>", '<rect width="100%" height="100%" fill="white"/>', *self.names_over(), *self.legend()]
        placed = [(row, self.top + ROW * k) for k, row in enumerate(self.rows)]
        passing = [(row, y) for row, y in placed if any(row.ticks)]
        out += [self.band(y) for _, y in passing]  # first, so that no arrow ends behind them
        out += [*self.lifelines(), *self.under_way()]
        for row, y in placed:
            for event in row.events:
                out += self.event(event, y) if event.words or not (event.ticks or event.at_once) else ()
        out += [self.ticks(row, y) for row, y in passing]  # last, so that no arrow strikes them out
        return "\n".join(filter(None, [*out, *self.cuts(), "</svg>"])) + "\n"


def picture(sides: list[Reader], names: list[str], first: int, most: int) -> str:
    """The ladder from the first trace's record `first` on, of so many rows at most."""
    return Picture(sides, names, first, most).svg()
