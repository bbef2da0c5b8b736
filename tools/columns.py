#!/usr/bin/python3
"""No line is longer than 120 characters: in src/ and specs/ of every crate, and in all Python, C and shell, scripts
without an ending in their names among them. Names each that is, as file:line. But for an attribute that says what the
prover's tactic may use: the layout, which rt ci holds a crate to, has it in one line, however long."""
import glob
import os
import re
import sys

MOST = 120
CRATES = ("crates/*/src/**/*.rt", "crates/*/specs/**/*.antt")
ENDINGS = (".py", ".sh", ".c", ".h")
TACTIC = re.compile(r" *#\[tactic\([\w:, ()]*\)\]$")
LEFT_OUT = {".git", "crates", "target"}


def is_code(path):
    """By its ending, or a script by its first two bytes."""
    if path.endswith(ENDINGS):
        return True
    with open(path, "rb") as file:
        return file.read(2) == b"#!"


def files():
    for pattern in CRATES:
        yield from sorted(glob.glob(pattern, recursive=True))
    for folder, inner, names in os.walk("."):
        inner[:] = sorted(set(inner) - LEFT_OUT)
        yield from filter(is_code, (os.path.normpath(os.path.join(folder, name)) for name in sorted(names)))


def too_long(path):
    """The numbers of the lines, with how long they are."""
    with open(path, encoding="utf-8") as file:
        for number, line in enumerate((line.rstrip("\n") for line in file), 1):
            if len(line) > MOST and not (path.endswith(".rt") and TACTIC.match(line)):
                yield number, len(line)


def main():
    os.chdir(os.path.join(os.path.dirname(os.path.abspath(__file__)), ".."))
    found = ["%s:%d: %d columns" % (path, number, length) for path in files() for number, length in too_long(path)]
    print("\n".join(found), end="\n" if found else "")
    sys.exit(1 if found else 0)


main()
