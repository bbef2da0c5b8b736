#!/usr/bin/env python3
"""A check byte worked out as on paper.

    tools/check_byte.py BYTE..

Bytes are decimal numbers, as `desk` prints them. A column is a byte: the byte and its bits, the check byte so far, the
two added, and what is there after each of the eight steps; the last is the check byte so far of the next column. The
last line is the check byte of them all. docs/CHECK_BYTE.md explains one.
"""
import sys
from pathlib import Path

sys.dont_write_bytecode = True  # the source tree stays as it is
sys.path.insert(0, str(Path(__file__).resolve().parent.parent))
from comparison import model

STEPS = [f"step {n}" for n in range(1, 9)]
ROWS = ["byte", "in bits", "so far", "added", *STEPS]
COLUMNS = 8  # side by side; a longer frame goes on below


def column(so_far: int, byte: int) -> tuple[list[str], int]:
    """A byte's column, and the check byte after it."""
    bits = [byte, so_far, so_far ^ byte]
    for _ in STEPS:
        bits.append(model.times_x(bits[-1]))
    return [f"{byte:8}", *(f"{value:08b}" for value in bits)], bits[-1]


def main() -> int:
    try:
        data = bytes(map(int, sys.argv[1:]))
    except ValueError:
        print("check_byte: bytes are numbers from 0 to 255, as in: tools/check_byte.py 65 238 64", file=sys.stderr)
        return 2
    so_far, columns = model.CHECK_START, []
    for byte in data:
        cells, so_far = column(so_far, byte)
        columns.append(cells)
    for first in range(0, len(columns), COLUMNS):
        for words, *cells in zip(ROWS, *columns[first:first + COLUMNS]):
            print(f"{words:9}", *cells)
        print()
    print(f"check byte {so_far}, {so_far:08b}")
    return 0


if __name__ == "__main__":
    sys.exit(main())
