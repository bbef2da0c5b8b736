#!/usr/bin/env python3
"""Every edit in crates/*/must-fail and crates/*/must-fail-more still applies: each text that it takes away stands
exactly once in its file. The gate tries only the first shelf, so that the second would rot unseen without this.

An edit is lines `file: PATH`, `old: TEXT`, `new: TEXT`, once or more, a text a line. They are made one after the other,
so that a later one meets what an earlier one left."""
import pathlib
import sys

ROOT = pathlib.Path(__file__).resolve().parent.parent


def steps(text: str) -> list[tuple[str, str, str]]:
    """The steps of an edit: of each its file, its old and its new text."""
    found = []
    path = old = ""
    for line in text.splitlines():
        name, _, rest = line.partition(":")
        rest = rest.removeprefix(" ")
        if name == "file":
            path = rest
        elif name == "old":
            old = rest
        elif name == "new":
            found.append((path, old, rest))
    return found


def made(edit: pathlib.Path, crate: pathlib.Path) -> tuple[dict[pathlib.Path, str], list[str]]:
    """The crate's files that an edit alters, as they then are, and what is wrong with it."""
    texts: dict[pathlib.Path, str] = {}
    wrong = []
    for name, old, new in steps(edit.read_text(encoding="utf-8")):
        path = crate / name
        if not path.is_file():
            wrong.append(f"there is no {name}")
            continue
        text = texts.get(path, path.read_text(encoding="utf-8"))
        times = text.count(old)
        if times != 1:
            wrong.append(f"stands {times} times in {name}: {old}")
        texts[path] = text.replace(old, new)
    return texts, wrong if texts else wrong + ["it has no 'old:' and 'new:' pair"]


def main() -> int:
    """The verdict on all edits."""
    edits = sorted(ROOT.glob("crates/*/must-fail*/*.edit"))
    bad = 0
    for edit in edits:
        for fault in made(edit, edit.parent.parent)[1]:
            print(f"{edit.relative_to(ROOT)}: {fault}")
            bad += 1
    print(f"{len(edits)} edits")
    print(f"{0 if bad else 1} passed, {1 if bad else 0} failed")
    return 1 if bad else 0


if __name__ == "__main__":
    sys.exit(main())
