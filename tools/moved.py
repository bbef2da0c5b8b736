#!/usr/bin/env python3
"""Counts for the note of a change (docs/changes/): what moved under crates/ since a commit, and what stayed.

    tools/moved.py COMMIT            the two tables of the note
    tools/moved.py COMMIT --names    also the names of what is altered, new or gone

A declaration is known by its file and name; it stayed where its text is the same but for comments and layout.
A statement is a name of specs/ that is the type of a proof of its crate, as tools/rules.py tells them.
"""
import io
import re
import subprocess
import sys
import tarfile
from pathlib import Path

sys.dont_write_bytecode = True  # the source tree stays as it is
from rules import ROOT, proved

KINDS = ["definitions", "statements", "proofs", "contracts", "bodies"]
FOLDERS = ["src", "specs", "proofs"]
SIGNATURE = re.compile(r"(?:(?:unfoldable|abbrev|pub|record|data) )*([^\s:(){}=]+)(?: [^:=]*)?(?: \([^=]*)?:(?!:)")
INNER = re.compile(r"  (?=(?:abbrev|unfoldable|pub record|pub data) )")  # a declaration inside a module
FUNCTION = re.compile(r'\s*(?:pub )?(?:extern "C" )?fn (\w+)')

Names = dict[tuple[str, str], str]  # kind and name, to the text


def bare(lines: list[str], mark: str) -> str:
    """The text without comments and layout."""
    return " ".join(" ".join(line.split(mark)[0] for line in lines).split())


def antt(text: str) -> dict[str, str]:
    """The declarations of a file of definitions or proofs."""
    found: dict[str, list[str]] = {}
    name = ""
    for line in text.splitlines():
        outer = INNER.sub("", line)
        begins = outer[:1].strip() and not outer.startswith(("--", "use ", "module "))
        if begins and (signature := SIGNATURE.match(outer)):
            name = signature[1]
        found.setdefault(name, []).append(line)
    return {name: bare(lines, "--") for name, lines in found.items() if name}


def functions(text: str) -> dict[str, tuple[str, str]]:
    """The functions of a file of code: the head of each with its contract, and its body."""
    found: dict[str, tuple[list[str], list[str]]] = {}
    name, in_head = "", False
    for line in text.splitlines():
        if head := FUNCTION.match(line):
            name, in_head = head[1], True
            found[name] = ([], [])
        if name:
            found[name][0 if in_head else 1].append(line)
        in_head = in_head and not line.endswith("{")
    return {name: (bare(head, "//"), bare(body, "//")) for name, (head, body) in found.items()}


def declarations(files: dict[str, str], statements: dict[str, set[str]]) -> Names:
    out: Names = {}
    for path, text in sorted(files.items()):
        _, crate, folder, *rest = path.split("/")
        where = "/".join([crate, *rest]) + ": "
        if folder == "src":
            for name, (head, body) in functions(text).items():
                out["contracts", where + name] = head
                out["bodies", where + name] = body
        else:
            for name, whole in antt(text).items():
                stated = name in statements.get(crate, set())
                kind = "proofs" if folder == "proofs" else "statements" if stated else "definitions"
                out[kind, where + name] = whole
    return out


def wanted(path: str) -> bool:
    parts = path.split("/")
    return len(parts) > 3 and parts[2] in FOLDERS and path.endswith((".rt", ".antt"))


def committed(commit: str) -> dict[str, str]:
    whole = subprocess.run(["git", "archive", commit, "crates"], cwd=ROOT, stdout=subprocess.PIPE, check=True).stdout
    with tarfile.open(fileobj=io.BytesIO(whole)) as tar:
        return {entry.name: tar.extractfile(entry).read().decode() for entry in tar if wanted(entry.name)}


def present() -> dict[str, str]:
    paths = (path.relative_to(ROOT).as_posix() for path in (ROOT / "crates").rglob("*.*t"))
    return {path: Path(ROOT, path).read_text(encoding="utf-8") for path in paths if wanted(path)}


def lines(commit: str) -> dict[str, tuple[int, int]]:
    """Lines added and removed, by folder."""
    out = dict.fromkeys(FOLDERS, (0, 0))
    diff = ["git", "diff", "--no-renames", "--numstat", commit, "--", "crates"]
    for line in subprocess.run(diff, cwd=ROOT, stdout=subprocess.PIPE, text=True, check=True).stdout.splitlines():
        added, removed, path = line.split("\t")
        if wanted(path):
            folder = path.split("/")[2]
            out[folder] = out[folder][0] + int(added), out[folder][1] + int(removed)
    return out


def main() -> int:
    if len(sys.argv) < 2:
        print(__doc__)
        return 2
    statements = {path.name: proved(path.name) for path in (ROOT / "crates").iterdir()}
    old, new = declarations(committed(sys.argv[1]), statements), declarations(present(), statements)
    print("| | stayed | altered | new | gone |\n|---|---|---|---|---|")
    moved: list[str] = []
    for kind in KINDS:
        mine, theirs = {n for k, n in new if k == kind}, {n for k, n in old if k == kind}
        altered = {name for name in mine & theirs if old[kind, name] != new[kind, name]}
        sets = {"altered": altered, "new": mine - theirs, "gone": theirs - mine}
        counts = [len(mine & theirs) - len(altered), *map(len, sets.values())]
        print(f"| {kind} | " + " | ".join(map(str, counts)) + " |")
        moved += [f"{kind}, {word}: {name}" for word, names in sets.items() for name in sorted(names)]
    print("\n| lines | added | removed |\n|---|---|---|")
    for folder, (added, removed) in lines(sys.argv[1]).items():
        print(f"| {folder} | {added} | {removed} |")
    if "--names" in sys.argv[2:]:
        print("\n".join(["", *moved]))
    return 0


if __name__ == "__main__":
    sys.exit(main())
