#!/usr/bin/env python3
"""Holds docs/RULES.md against the citations in crates/.

A rule is a line `- **F3** One sentence. (01, The frame)` of docs/RULES.md. A citation is the end of the last comment
line above a declaration, `-- .. [F3, R12]` in crates/*/specs/**/*.antt, `// .. [F3]` in crates/*/src/**/*.rt. What is
cited is named by the declaration's first identifier. It is a theorem where proofs/ of the same crate has a declaration
`pub proof : Statement` at the left margin whose type is that name, alone or with plain arguments (the last of which may
be the name: `pub starred : Claim worked`), or that over every type of writer, or every two; else it is a definition.

Fails, naming file and line or the rule, where a rule is cited nowhere in specs/, where a citation names no rule of the
page or stands anywhere but above a declaration, where a number is given twice, and where the table at the end of
docs/RULES.md is not the one that the citations give.

    tools/rules.py            check
    tools/rules.py --write    write the table, then check
"""
import re
import sys
from pathlib import Path
from typing import NamedTuple

ROOT = Path(__file__).resolve().parent.parent
PAGE = ROOT / "docs" / "RULES.md"
BEGIN, END = "<!-- rules: begin -->", "<!-- rules: end -->"
HEAD = ["| rule | definitions | theorems |", "|---|---|---|"]

RULE = re.compile(r"- \*\*([A-Z]\d+)\*\* \S.*\. \(\S.*\)$")
LOOKS_LIKE_RULE = re.compile(r"\s*[-*]?\s*\*\*[A-Z]\d+\*\*")
CITATION = re.compile(r"\[([A-Z]\d+(?:,\s*[A-Z]\d+)*)\]")
MODIFIER = re.compile(r"(?:pub(?:\(\w+\))?|abbrev|unfoldable|private|record|data|struct|enum|fn|type|const|extern"
                      r'|unsafe|"C")\s+')
IDENTIFIER = re.compile(r"[^\s:(){}<>=;,]+")
NO_DECLARATION = ("use", "ghost", "mod", "module", "import")
# over every type of writer, which assumes nothing
WRITERS = r"\(T : RattleType\) \(L : Laws T\) \(W : Write\.Ghosts T\.Denot\) \(D : Dict\)"
PROOF = re.compile(rf"^pub \S+ :\s+(?:(?:\{{[^}}]*\}} ?)+→ |{WRITERS}\s+→ )?"
                   r"([^\s(){}→×]+)(?!\S)(?![^\n]*→)", re.MULTILINE)

# the theorems of a module over every two types of writers, which assumes nothing either
TWO_WRITERS = (r"\(T T' : RattleType\) \(L : Laws T\) \(L' : Laws T'\) \(W : Write\.Ghosts T\.Denot\)"
               r" \(W' : Write\.Ghosts T'\.Denot\)\s+\(D D' : Dict\)")
MODULE = re.compile(rf"^module _ {TWO_WRITERS} where\n((?:(?:  .*)?\n)+)", re.MULTILINE)
WITHIN = re.compile(r"^  pub \S+ :\s+([^\s(){}→×]+)(?!\S)(?![^\n]*→)", re.MULTILINE)


class Citation(NamedTuple):
    crate: str
    file: str
    name: str
    rules: list[str]
    in_specs: bool
    where: str


def declared(line: str) -> str | None:
    """The first identifier of a declaration; none where the line is no declaration."""
    line = line.strip()
    while found := MODIFIER.match(line):
        line = line[found.end():]
    name = IDENTIFIER.match(line)
    return name.group() if name and name.group() not in NO_DECLARATION else None


def citations_in(path: Path, mark: str, errors: list[str]) -> list[Citation]:
    """The citations of one file; those out of place go to the errors."""
    parts = path.relative_to(ROOT).parts
    lines = path.read_text(encoding="utf-8").split("\n")
    comment = re.compile(r"(?:^|\s)" + mark + r"(?:\s|$)")
    found = []
    for k, line in enumerate(lines):
        begins = comment.search(line)
        cited = CITATION.findall(line[begins.start():]) if begins else []
        if not cited:
            continue
        where = f"{'/'.join(parts)}:{k + 1}"
        below = next((x for x in lines[k + 1:] if not x.strip().startswith("#[")), "")
        name = None if below.strip().startswith(mark) else declared(below)
        if len(cited) > 1 or not line.endswith("]") or not line.strip().startswith(mark) or name is None:
            errors.append(f"{where}: a citation that is not the end of a comment above a declaration")
            continue
        file = f"{parts[1]}/{path.stem if parts[2] == 'specs' else path.name}"
        found.append(Citation(parts[1], file, name, re.split(r",\s*", cited[0]), parts[2] == "specs", where))
    return found


def proved(crate: str) -> set[str]:
    """The names of which, with what they are applied to, a proof of the crate has the type."""
    names: set[str] = set()
    for path in sorted((ROOT / "crates" / crate / "proofs").glob("**/*.antt")):
        text = path.read_text(encoding="utf-8")
        names |= set(PROOF.findall(text)) | {name for inside in MODULE.findall(text) for name in WITHIN.findall(inside)}
    return names


def rules_on_page(text: str, errors: list[str]) -> list[str]:
    """The rules' numbers in the page's order."""
    numbers: list[str] = []
    for k, line in enumerate(text.split("\n")):
        found = RULE.match(line)
        if found and found.group(1) in numbers:
            errors.append(f"docs/RULES.md:{k + 1}: {found.group(1)} is given twice")
        elif found:
            numbers.append(found.group(1))
        elif LOOKS_LIKE_RULE.match(line):
            errors.append(f"docs/RULES.md:{k + 1}: not of the form `- **F3** One sentence. (01, The frame)`")
    return numbers


def named(citations: list[Citation]) -> str:
    """Names by file, in the order of the files."""
    files: dict[str, list[str]] = {}
    for c in citations:
        files.setdefault(c.file, []).append(f"`{c.name}`")
    return "; ".join(f"{file}: {', '.join(names)}" for file, names in files.items())


def table(rules: list[str], citations: list[Citation]) -> str:
    """The table rule, definitions, theorems."""
    theorems = {crate: proved(crate) for crate in {c.crate for c in citations}}
    rows = list(HEAD)
    for rule in rules:
        mine = [c for c in citations if rule in c.rules]
        stated = [c for c in mine if c.in_specs and c.name in theorems[c.crate]]
        rows.append(f"| {rule} | {named([c for c in mine if c not in stated])} | {named(stated)} |")
    return "\n".join(rows)


def main() -> int:
    errors: list[str] = []
    text = PAGE.read_text(encoding="utf-8")
    rules = rules_on_page(text, errors)
    citations: list[Citation] = []
    for pattern, mark in (("*/specs/**/*.antt", "--"), ("*/src/**/*.rt", "//")):
        for path in sorted((ROOT / "crates").glob(pattern)):
            citations += citations_in(path, mark, errors)
    for c in citations:
        errors += [f"{c.where}: {rule} is no rule of docs/RULES.md" for rule in c.rules if rule not in rules]
    in_specs = {rule for c in citations if c.in_specs for rule in c.rules}
    errors += [f"{rule}: cited nowhere in specs/" for rule in rules if rule not in in_specs]
    before, begin, rest = text.partition(BEGIN + "\n")
    end = rest.find(END)
    if not begin or end < 0:
        errors.append(f"docs/RULES.md: no table between `{BEGIN}` and `{END}`")
    else:
        whole = before + begin + table(rules, citations) + "\n" + rest[end:]
        if "--write" in sys.argv[1:]:
            PAGE.write_text(whole, encoding="utf-8")
        elif whole != text:
            errors.append("docs/RULES.md: the table is not the one that the citations give: tools/rules.py --write")
    print("\n".join(errors + [f"{len(rules)} rules, {len(citations)} citations"]))
    print("0 passed, 1 failed" if errors else "1 passed, 0 failed")
    return 1 if errors else 0


if __name__ == "__main__":
    sys.exit(main())
