#!/usr/bin/env python3
"""Calls in words, a line each, to the records that `desk` reads: standard input to standard output.

    table BYTE..        open INDEX       send INDEX BYTE..      arrival BYTE..      hand_out      counts INDEX
                        close INDEX      urgent INDEX BYTE..    tick                report        plan INDEX BYTE..

Bytes are decimal numbers, as `desk` prints them, so a frame that one node handed out is the arrival of another.
"""
import sys
from pathlib import Path

sys.dont_write_bytecode = True  # the source tree stays as it is
sys.path.insert(0, str(Path(__file__).resolve().parent.parent))
from comparison.model import COUNTS_CALL, PLAN_CALL
from traces import files

KINDS = {name: kind for kind, name in files.NAMES.items()} | {"counts": COUNTS_CALL, "plan": PLAN_CALL}
TAKES_INDEX = files.TAKES_INDEX | {COUNTS_CALL, PLAN_CALL}


def record(line: str) -> bytes:
    """The record of a call."""
    word, *numbers = line.split()
    kind, values = KINDS[word], list(map(int, numbers))
    index = values.pop(0) if kind in TAKES_INDEX else 0
    return files.Record(kind, index, bytes(values)).packed()


def main() -> int:
    for place, line in enumerate(sys.stdin, 1):
        try:
            sys.stdout.buffer.write(record(line))
        except (ValueError, KeyError, IndexError, OverflowError):
            print(f"records: line {place} is no call: {line.strip()}", file=sys.stderr)
            return 1
    return 0


if __name__ == "__main__":
    sys.exit(main())
