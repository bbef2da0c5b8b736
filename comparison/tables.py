"""Channel tables by seed, and tables that break one rule."""
from __future__ import annotations

from collections.abc import Iterator, Sequence
from random import Random

from comparison import model
from comparison.model import RECEIVES, SENDS, Entry

WINDOWS = (0, 1, 2, 4, 8, 16, 32, 64, 128)


def random_entry(rng: Random, remotes: Sequence[int], channels: Sequence[int], room: int) -> Entry:
    """An entry that takes at most `room` bytes of the store."""
    kind, window = rng.choice((SENDS, RECEIVES)), rng.choice(WINDOWS)
    slots = (window or model.DEFAULT_WINDOW) + (kind == SENDS)
    if slots > room:
        window, slots = 1, 1 + (kind == SENDS)
    most = max(1, room // slots)
    largest = rng.choice((1, 2, 3, 8, 40, 256, most, rng.randint(1, most)))
    retries, timeout = 0, 0
    if kind == SENDS:
        retries, timeout = rng.choice((0, 0, 1, 1, 2, 3, 255)), rng.choice((1, 1, 2, 3, 5, 5, 12, 40, 400, 65535))
    return Entry(kind, rng.choice(remotes), rng.choice(channels), retries, window, min(largest, most), timeout)


def random_table(rng: Random) -> tuple[int, int, list[Entry]]:
    """A good table as (own address, protocol, entries); few remotes and channels, so that entries are much alike."""
    own = rng.choice((32, 64, 254, rng.randint(32, 254)))
    remotes = [own if rng.random() < 0.1 else rng.randint(32, 254) for _ in range(rng.randint(1, 3))]
    remotes.append(rng.choice((32, 254)))
    channels = [0, 255] + [rng.randrange(256) for _ in range(rng.randint(1, 6))]
    entries: list[Entry] = []
    room = model.MOST_STORE
    wanted = rng.choice((1, 2, 2, 3, 4, 6, 10, 16, 16))
    for _ in range(4 * wanted):
        # leave something for those to come, but not always
        most = room if rng.random() < 0.1 else min(room, rng.choice((300, 1000, 2048, 16384)))
        e = random_entry(rng, remotes, channels, most)
        size = model.store_of(e._replace(window=e.window or model.DEFAULT_WINDOW))
        if size <= room and all((e.kind, e.remote, e.channel) != (f.kind, f.remote, f.channel) for f in entries):
            entries.append(e)
            room -= size
        if len(entries) == wanted:
            break
    return own, rng.choice((238, 238, 1, 255)), entries


def put(data: bytes, at: int, value: bytes | tuple[int, ...]) -> bytes:
    return data[:at] + bytes(value) + data[at + len(value):]


def broken_tables(data: bytes) -> Iterator[tuple[str, bytes]]:
    """Tables that are like `data`, a good one with a sender first, but for one rule.

    Rules between entries are left to the corners."""
    first = 8
    yield "no bytes", b""
    yield "seven bytes", data[:7]
    yield "a byte short", data[:-1]
    yield "a byte over", data + b"\0"
    yield "an entry too many", data + data[8:20]
    yield "count one less", put(data, 0, model.two(data[1] - 1))
    yield "count of 17", put(data, 0, model.two(17)) + bytes(12 * (17 - data[1]))
    yield "count of 257", put(data, 0, (1, 1))
    for offset in (0, 7, 9, 20, 0x800):
        yield "offset %d" % offset, put(data, 2, model.two(offset))
    for address in (0, 31, 255):
        yield "own address %d" % address, put(data, 4, (address,))
        yield "remote address %d" % address, put(data, first + 1, (address,))
    yield "protocol 0", put(data, 5, (0,))
    for at in (6, 7, first + 10, first + 11):
        yield "byte %d not zero" % at, put(data, at, (1,))
    for kind in (2, 128, 255):
        yield "kind %d" % kind, put(data, first, (kind,))
    for window in (3, 5, 6, 127, 129, 192, 256, 512, 32768, 65535):
        yield "window %d" % window, put(data, first + 4, model.two(window))
    for largest in (0, 32769, 65535):
        yield "largest payload %d" % largest, put(data, first + 6, model.two(largest))
    yield "a sender without timeout", put(data, first + 8, (0, 0))
