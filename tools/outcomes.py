#!/usr/bin/env python3
"""Every exported function has its theorems over its contract's own text, and those that others call a line in
docs/CONTRACTS.md.

Goes through crates/*/src, programs left out, and looks in crates/contracts/proofs for `pub NAME_one`, where NAME is the
crate and the function (`node_send`; a function for C by its own name): only one outcome is possible. The theorem has to
be over the reading of the contract (`use Rattle.node.proofs.send.Reads as NAME` in its file), and has to speak of
everything that is lent to be altered: of each `&mut` parameter, by its place among the arguments. A conversion (`impl
From`, `TryFrom`) counts as a function, gives its answer by one equation, and has its name from the definition there:
`number_of` of units is `units_number`. Its reading, like that of a method, is one of its impl (`U8FromRefusal.from`) or
type. A function that is lent such memory and may refuse also needs `pub NAME_refused`: refused, all is as it was. Of a
function that is lent a page and a sink the theorem speaks of any two sinks, whatever writers they have (`OneBehind`),
of every type of numbers where it takes them, and of all that the page holds afterwards (`left_in`); of a function over
any type of items it speaks of every such type. The contract of what is lent a struct has to be one record of specs/,
which the theorem names. A symbol of the archive has no theorem of its own, since nothing can stand on an archive: it
has to promise, word for word, what firmware's function of its name does, and to do nothing but call that. Nor has a
trait's method, but an equation in the trait that fixes its answer. The exceptions stand below with their reasons, and
in docs/CONTRACTS.md.
"""
import pathlib
import re
import sys
from typing import NamedTuple

ROOT = pathlib.Path(__file__).resolve().parent.parent
PROGRAMS = {"label", "table_rules", "desk", "replay", "frames"}
PUBLIC = {"node", "firmware", "frame", "check8", "window", "lent_window", "table", "units", "lines", "trace",
          "trace_step", "trace_lines"}
RECORDS = "lent_window"  # lent as a struct: crates/lent_window/specs/Lending.antt
ARCHIVE, BEHIND = "firmware_c", "firmware"  # the symbols, and the functions that they call
EXCEPT = {
    "lines_flush": "answers nothing, and what it alters is the writer's to say",
    "lines_new": "what a writer does with its bytes is the writer's to say",
    "lines_put": "what a writer does with its bytes is the writer's to say",
    "lines_finish": "what a writer does with its bytes is the writer's to say",
    "intake_read_full": "how much a reader gives at a time is the reader's to say",
}
OUTSIDE = ": &mut Sink<"  # where text goes: a writer, and no lent memory
PAGE = ": &mut Page<"  # where text is put together; `lines`' own functions are its methods
# every two types of writers: a theorem in such a module is of any two sinks
WRITERS = ("module _ (T T' : RattleType) (L : Laws T) (L' : Laws T') (W : Write.Ghosts T.Denot)"
           " (W' : Write.Ghosts T'.Denot) (D D' : Dict)")
# and every type of numbers
NUMBERS = ("(X : RattleType) (M : Laws X) (C : IsCopy X) (N : AsNumber.Ghosts X.Denot) (K : Clone.Ghosts X.Denot)"
           " (G H : Dict)")
BEHIND_SINK = (r"\s+OneBehind(?: \{[^}]*\})?\s+\(([^\s.()]+)\.Post %s\)\s+\(\1\.Post %s\)"
               r"(?:\s+\(λ e\. [^λ→⊎]*\)){2}\s*")
ANY_SINKS = {f"{WRITERS} where": BEHIND_SINK % ("T L W D", "T' L' W' D'"),
             f"{WRITERS} {NUMBERS} where": BEHIND_SINK % ("T X L M C W D N G K H", "T' X L' M C W' D' N G K H")}
# every type of items, and every one that is copied
ITEMS = "module _ (T : RattleType) (L : Laws T)"
ANY_ITEMS = {f"{ITEMS} where": "T L",
             f"{ITEMS} (C : IsCopy T) (W : Clone.Ghosts T.Denot) (D : Dict) where": "T L C W D"}
REFUSES = re.compile(r"Result<.*, Refusal>|Told")  # and for C a number
NO_REFUSAL = {"shelugvar_tick"}
FUNCTION = re.compile(r'( *)pub (?:const |unsafe |extern "C" )*fn (\w+)(?:<[^>]*>)?\(')
IMPL = re.compile(r"impl(?:<[^>]*>)? (?:.* for )?(\w+)")  # and the type
CONVERSION = re.compile(r"^impl(?:<[^\n]*>)?\s(Try)?From<([^{]*?)>\s+for\s+([^{]*?)\s*\{.*?^\}", re.M | re.S)
TRAIT = re.compile(r"^pub trait .*?^\}", re.M | re.S)
GIVES = re.compile(r"^    ghost (?:try_)?from_gives = \{ λ (\w+) (\w+)\. \2 ≡ (\w+) \1 \};$", re.M)


class Function(NamedTuple):
    name: str
    of: str  # the type whose method it is, or the impl of a conversion by the prover's name, or nothing
    parameters: list[str]
    answer: str
    contract: str  # from its answer to its body
    body: str

    @property
    def altered(self) -> list[int]:
        """The places among the arguments of what is lent to be altered."""
        return [place for place, text in enumerate(self.parameters)
                if (": &mut " in text or text == "&mut self") and OUTSIDE not in text]

    @property
    def pages(self) -> list[int]:
        """The places among them of a page: what is lent beside a sink, as `self` or by its type."""
        with_sink = any(OUTSIDE in text for text in self.parameters)
        return [place for place, text in enumerate(self.parameters)
                if PAGE in text or text == "&mut self" and with_sink]


def function(name: str, of: str, head: str, body: str) -> Function:
    """A function, by its head from its first parameter on."""
    depth = end = 0
    while depth >= 0:
        depth += (head[end] == "(") - (head[end] == ")")
        end += 1
    parameters = re.split(r",(?![^(\[<]*[)\]>])", " ".join(head[:end - 1].split()))
    answer = re.match(r" -> ([^\n]+?)(?: \{)?\n", head[end:])
    contract = head[end:].split("\n", 1)[1]
    return Function(name, of, [text.strip() for text in parameters if text.strip()], answer[1] if answer else "",
                    contract, body)


def functions(text: str) -> list[Function]:
    """The `pub` functions of a file that is laid out."""
    lines = text.splitlines(keepends=True)
    found = []
    for k, line in enumerate(lines):
        if not (begun := FUNCTION.match(line)):
            continue
        inner = begun[1]
        # the body opens in the head's last line, or alone in the line after its clauses
        opens = k
        while not re.match(rf"{inner}(?! ).*\{{\}}?$", lines[opens]):
            opens += 1
        ends = opens
        while not re.match(rf"{inner}(?! ).*\}}$", lines[ends]):
            ends += 1
        impls = [it[1] for it in map(IMPL.match, lines[:k]) if it] if inner else []
        head = line[begun.end():] + "".join(lines[k + 1:opens + 1])
        found.append(function(begun[2], impls[-1] if impls else "", head, "".join(lines[opens + 1:ends])))
    return found


def conversions(text: str) -> list[tuple[str, Function]]:
    """The conversions of a file that is laid out, each with the definition that it gives, or with none. The definition
    stands in the contract's place: by it docs/CONTRACTS.md has a conversion."""
    found = []
    for impl in CONVERSION.finditer(text):
        gives = GIVES.search(impl[0])
        called = re.search(r"^    fn (\w+)", impl[0], re.M)
        name = gives[3] if gives else ""
        source, made = (it[0].upper() + it[1:] for it in impl.group(2, 3))
        plain = re.fullmatch(r"\w+", source + made)  # else the prover's name for it is not looked for
        of = f"{made}{impl[1] or ''}From{source}" if plain else r"\w+"
        found.append((name, Function(called[1] if called else "", of, [], "", name, "")))
    return found


def unfixed(crate: pathlib.Path) -> list[str]:
    """The methods of a crate's public traits whose answer no equation fixes, whichever the impl."""
    traits = [trait for path in sorted((crate / "src").glob("*.rt")) for trait in TRAIT.findall(path.read_text())]
    return [found[1] for trait in traits for found in re.finditer(r"^    fn (\w+)[^;]*;", trait, re.M)
            if not re.search(r"^ *ensures \{ result ≡ .* \};$", found[0], re.M)]


def exported(crate: pathlib.Path) -> list[tuple[str, Function]]:
    """The functions that other crates can call, each with what its theorems are named by."""
    root = (crate / "src/lib.rt").read_text()
    uses = re.findall(r"^pub use (?:\w+::)+(?:(\w+)|\{([^}]*)\});", root, re.M)
    inside = {name for one, several in uses for name in [one, *re.findall(r"\w+", several)]}
    # with their methods, whichever file has these
    types = {*inside, *re.findall(r"^pub (?:struct|enum) (\w+)", root, re.M)} - {""}
    found = []
    for path in sorted((crate / "src").glob("*.rt")):
        public = path.stem == "lib" or re.search(rf"^pub mod {path.stem};", root, re.M)
        for one in functions(path.read_text()):
            if public or one.name in inside or one.of in types:
                found.append((one.name if crate.name == BEHIND else f"{crate.name}_{one.name}", one))
        found += [(f"{crate.name}_{gives.removesuffix('_of')}", one) for gives, one in conversions(path.read_text())]
    return found


class Theorem(NamedTuple):
    stated: str  # what follows its name, up to its proof
    indent: str
    before: str  # its file up to it
    file: str


def statements(proofs: list[str], name: str) -> list[Theorem]:
    """Where a theorem of that name is stated."""
    pattern = re.compile(rf"^((?:  )?)pub {name} :(.*?)^\1(?:unfolding |{name} )", re.M | re.S)
    return [Theorem(found[2], found[1], text[:found.start()], text)
            for text in proofs for found in pattern.finditer(text)]


def leaves_out(theorem: Theorem, one: Function) -> bool:
    """Whether a statement projects not all that the function may alter at exit, each time that it says what is left:
    `e.1.1.0` is the third argument, and of a page all is said that it holds (`left_in`)."""
    said = theorem.stated.split("(λ e. ")[1:] or [""]
    return any(set(one.altered) - {steps.count(".1") for steps in re.findall(r"(?<![\w.])e((?:\.1)*)\.0\b", text)}
               or any(f"left_in e{'.1' * place}.0.now" not in text for place in one.pages)
               for text in said)


def over_contract(crate: str, one: Function, theorem: Theorem, kind: str) -> bool:
    """Whether a theorem is of a kind and over the reading of the function's contract, which its file names. One that is
    indented is of a function that is lent a page and a sink, over every two types of writers and every type of numbers,
    or of a function over any type of items, over every such type; and it assumes nothing else."""
    post = r"([^\s.()]+)\.Post\b"
    if theorem.indent:
        # what stands at the margin last, with the lines that go on with it, up to its `where`
        opened = re.split(r"^(?=[^\s-])", theorem.before, flags=re.M)[-1]
        module = " ".join(re.split(r"(?<= where)\n", opened)[0].split())
        if kind == "Spares" or module not in {*ANY_SINKS, *ANY_ITEMS}:
            return False
        form = ANY_SINKS.get(module) or rf"\s+{kind}\s+\({post} {ANY_ITEMS[module]}\)[^→⊎×]*"
    else:
        form = rf"\s+{kind}(?: \{{[^}}]*\}})?\s+{post}[^→⊎×]*"
    found = re.fullmatch(form, theorem.stated)
    path = rf"{one.of}\.{one.name}" if one.of else one.name
    # before it modules alone, whose names begin with a lower-case letter, and no type
    reading = rf"^use Rattle\.{crate}\.proofs\.(?:[a-z]\w*\.)*{path}\.Reads as (\S+)$"
    return bool(found) and found[1] in re.findall(reading, theorem.file, re.M)


def lacks(crate: str, one: Function, name: str, proofs: list[str]) -> list[str]:
    """What is missing of a function's theorems."""
    refuses = REFUSES.fullmatch(one.answer) or crate == BEHIND and name not in NO_REFUSAL
    wanted = [(f"{name}_one", r"One\w*")] + [(f"{name}_refused", "Spares")] * bool(one.altered and refuses)
    wrong = []
    for theorem, kind in wanted:
        found = [it for it in statements(proofs, theorem) if over_contract(crate, one, it, kind)]
        if len(found) != 1:
            wrong.append(f"has no theorem {theorem} over its contract")
        elif leaves_out(found[0], one):
            wrong.append(f"{theorem} does not speak of all that it may alter")
    return wrong


def lacks_record(one: Function, name: str, proofs: list[str]) -> list[str]:
    """The same of a function that is lent a struct: its contract is one record, over the struct before and after."""
    contracts = re.findall(r"^ *ensures \{ (\w+) w\.(?:now|old)([^{}\n]*) \}$", one.contract, re.M)
    if len(contracts) != 1 or one.contract.count("ensures") != 1:
        return ["its contract is not one record over what it is lent"]
    record, rest = contracts[0]
    if one.altered and not re.search(r"(?<![\w.])w\.new(?![\w.])", rest):
        return [f"{record} does not speak of what it may alter"]
    found = statements(proofs, f"{name}_one")
    over = len(found) == 1 and not found[0].indent and f" {record} " in found[0].stated
    return [] if over else [f"has no theorem {name}_one over {record}"]


def lacks_symbol(one: Function, behind: dict[str, Function]) -> list[str]:
    """What a symbol of the archive promises or does but to call the function of its name."""
    other = behind.get(one.name)
    if not other or one[2:5] != other[2:5]:
        return [f"does not promise what the function of {BEHIND} does"]
    given = ", ".join(text.split(":")[0] for text in one.parameters)
    called = re.fullmatch(rf"\s*{BEHIND}::(?:\w+::)?{one.name}\((.*?),?\s*\)\s*", one.body, re.S)
    return [] if called and " ".join(called[1].split()) == given else [f"does not call the function of {BEHIND}"]


def main() -> int:
    """The verdict on all exported functions."""
    listed = (ROOT / "docs/CONTRACTS.md").read_text()
    proofs = [p.read_text() for p in sorted((ROOT / "crates/contracts/proofs").glob("*.antt"))]
    libraries = [crate for crate in sorted((ROOT / "crates").iterdir())
                 if crate.name not in PROGRAMS and (crate / "src/lib.rt").is_file()]
    found = {crate.name: exported(crate) for crate in libraries}
    behind = {one.name: one for _, one in found[BEHIND]}
    count, missing = 0, []
    for crate, its in found.items():
        for name, one in its:
            said = one.contract if one.name in ("from", "try_from") else one.name
            short = said.removeprefix("shelugvar_")
            wrong = []
            if crate in PUBLIC and not re.search(rf"`(?:[\w:]*::)?(?:{said}|{short})`", listed):
                wrong.append("has no line in docs/CONTRACTS.md")
            if name not in EXCEPT:
                count += 1
                by_record = crate == RECORDS and any(": &" in text for text in one.parameters)
                wrong += (lacks_symbol(one, behind) if crate == ARCHIVE
                          else lacks_record(one, name, proofs) if by_record else lacks(crate, one, name, proofs))
            missing += [f"crates/{crate}: {one.name}: {text}" for text in wrong]
    missing += [f"crates/{crate.name}: {name}: no equation fixes its answer"
                for crate in libraries for name in unfixed(crate)]
    symbols = {one.name for _, one in found[ARCHIVE]}
    missing += [f"crates/{ARCHIVE}: {name}: is no symbol" for name in sorted(behind.keys() - symbols)]
    names = {name for its in found.values() for name, _ in its}
    missing += [f"tools/outcomes.py: {name}: is excepted and no function" for name in sorted(EXCEPT.keys() - names)]
    print("\n".join(missing + [f"{count} functions"]))
    print(f"{0 if missing else 1} passed, {1 if missing else 0} failed")
    return 1 if missing else 0


if __name__ == "__main__":
    sys.exit(main())
