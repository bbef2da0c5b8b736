"""Blocks of plans that break one rule."""
from __future__ import annotations

from collections.abc import Iterator, Sequence

from comparison import model
from comparison.tables import put


def written(count: int, offsets: Sequence[int], payloads: bytes = b"") -> bytes:
    """A block as it stands, whatever its count and offsets are."""
    return model.two(count) + b"".join(at.to_bytes(4, "big") for at in offsets) + payloads


def with_offset(data: bytes, place: int, value: int) -> bytes:
    """The block with another offset in this place, counted from 0."""
    return put(data, 2 + 4 * place, value.to_bytes(4, "big"))


def broken_blocks(data: bytes) -> Iterator[tuple[str, bytes]]:
    """Blocks that are like `data`, a good one, but for one rule, or two where it is short of payloads."""
    at = model.offsets_of(data)
    last = len(at) - 1
    yield "no bytes", b""
    yield "five bytes", data[:5]
    yield "without the last offset", data[:at[0] - 4]
    yield "a byte short of its offsets", data[:at[0] - 1]
    yield "a byte short", data[:-1]
    yield "a byte over", data + b"\0"
    yield "count one more", put(data, 0, model.two(last + 1))
    yield "count of 65", model.block([b"x"] * (model.MOST_PLANNED + 1))
    yield "count's high byte", put(data, 0, (1,))
    yield "first offset one less", with_offset(data, 0, at[0] - 1)
    yield "first offset one more", with_offset(data, 0, at[0] + 1)
    yield "last offset one less", with_offset(data, last, at[last] - 1)
    yield "last offset one more", with_offset(data, last, at[last] + 1)
    for place in {1, last - 1} if last > 1 else ():
        yield "offset %d before the one ahead of it" % place, with_offset(data, place, at[place - 1] - 1)
        yield "offset %d behind the next" % place, with_offset(data, place, at[place + 1] + 1)
    for place in {0, last}:
        yield "offset %d far beyond the end" % place, with_offset(data, place, at[place] + (1 << 31))
