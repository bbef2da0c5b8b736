"""The desk's endings: streams that are nothing but bytes, with what the desk must write."""
from comparison import model
from comparison.corners.corner import CORNERS, Corner


def ending(name: str, stream: bytes, text: str) -> None:
    """A trace that is nothing but bytes, with what the desk must write."""
    def build() -> list[Corner]:
        trace = Corner(name)
        trace.end_with(stream, text)
        return [trace]
    CORNERS[name] = build


TICK = bytes((model.TICK_CALL, 0, 0, 0))
ending("desk_nothing", b"", "")
ending("desk_torn_in_the_head", TICK + b"\x07\0\0", "1 7 0 0\ntorn 2\n")
ending("desk_torn_in_the_bytes", TICK + b"\x06\0\0\x02x", "1 7 0 0\ntorn 2\n")
ending("desk_torn_at_once", b"\x07", "torn 1\n")
ending("desk_torn_though_unknown", b"\x63\0\0\x02x", "torn 1\n")
ending("desk_unknown", TICK + b"\x0b\0\0\0" + TICK, "1 7 0 0\nunknown 2\n")
ending("desk_unknown_zero", bytes(8), "unknown 1\n")
ending("desk_spare_bytes_are_not_looked_at", b"\x07\xff\0\x03abc\x08\xff\0\x01x\x09\xff\0\x01x",
       "1 7 0 0\n2 8 0 0\n3 9 20\n")
ending("desk_as_long_as_may_be", TICK * 16384, "".join("%d 7 0 0\n" % k for k in range(1, 16385)))
ending("desk_too_long", TICK * 16384 + b"\x07", "too long\n")
ending("desk_much_too_long", TICK * 20000, "too long\n")
