#!/usr/bin/python3
"""What the archive's functions cost at most, held against the table of docs/C.md. Called by tests/costs.

    tools/costs.py [--write] PROGRAM ARCHIVE OBJDUMP [RUN..]

PROGRAM is tests/costs.c, built; OBJDUMP reads x86-64; RUN.. is what runs x86-64 programs here. The stack is that of the
deepest way through the machine code, which no stack that PROGRAM painted may exceed; instructions are the difference of
a run with the call and one without, by tools/icount. A stack has to be as the table has it; instructions may be 20 or
1 in 100 off, since an emulator counts whole runs of instructions. And the page names the registers that the code uses
beyond the integer ones, and no instruction is one that the first x86-64 processors lacked.
"""
import concurrent.futures
import os
import re
import subprocess
import sys
from pathlib import Path

ROOT = Path(__file__).resolve().parent.parent
PAGE = ROOT / "docs" / "C.md"
ICOUNT = ROOT / "tools" / "icount"
BEGIN, END = "<!-- costs: begin -->\n", "<!-- costs: end -->\n"
PREFIX = "shelugvar_"

# each case of tests/costs.c in words
WORDS = {
    "setup": "a table of 16 senders; without its `memset` of {memset:,} bytes",
    "open": "a sender, the last of 16",
    "close_sender": "a sender with 128 payloads that wait",
    "close_receiver": "a receiver with 127 payloads held and 32 acknowledgements that wait",
    "counts": "the last of 16 senders",
    "send": "16,384 bytes, the most that a sender can have",
    "urgent": "16,384 bytes",
    "plan": "64 payloads of 503 bytes, all accepted; 504, the most that a store has room for, cost less",
    "noise": "noise of 65,544 bytes, the most that a frame's length bytes can say; refused",
    "long_data": "Data of 32,768 bytes, the most that a receiver can have",
    "freeing": "Data of 1 byte that frees 127 held payloads of 256",
    "reset": "a Reset at a receiver with 127 payloads held and 31 acknowledgements that wait",
    "acknowledgement": "an acknowledgement after which the start passes 128 numbers",
    "hand_out": "Data of 16,384 bytes",
    "report_acknowledge": "an Acknowledge",
    "report_data": "Data: the timer of the last of 16 senders' 128 numbers starts",
    "report_failing": "the same at Failing",
    "report_reset": "a Reset: the timer of the last of 16 senders starts",
    "report_refused": "none under way; refused",
    "tick": "2,048 timers end and all 16 senders fail and recover in it",
    "entry_state": "the last of 16 senders",
    "store_need": "a table of 16 senders",
    "frame_read": "noise of 65,544 bytes; refused",
    "fault_byte": "a refusal that has none",
    "frame_write": "65,520 bytes of payload, the most that a frame can have",
    "window_test": "any",
    "version": "any",
}

FUNCTION = re.compile(r"^[0-9a-f]+ <(.+)>:$")
CALLED = re.compile(r"R_X86_64_PLT32\s+(?:\.text\.)?(\S+?)(?:-0x[0-9a-f]+)?$")
SUB = re.compile(r"\tsub +\$0x([0-9a-f]+),%rsp$")
ADD = re.compile(r"\tadd +\$0x[0-9a-f]+,%rsp$")
UNKNOWN = re.compile(r"\t(?!cmp|test).*,%rsp$|\tcall +\*")
RED = re.compile(r"-0x([0-9a-f]+)\(%rsp")
REGISTER = re.compile(r"%((?:[xyz]?mm|k|st)\d*)\b")
MNEMONIC = re.compile(r"^ +[0-9a-f]+:\t(?:(?:data16|cs|rep\w*|lock|notrack) )*([a-z]\w*)")
# what came after them: SSE3, SSSE3, SSE4, AES, SHA, POPCNT and LZCNT, MOVBE, AVX, BMI, ADX, and a few by themselves;
# `tzcnt` is read as `bsf` there
LATER = re.compile(r"""(?x)
    movddup | movs[hl]dup | addsub\w+ | h(add|sub)p[sd] | lddqu | fisttp\w? | p(abs|sign)[bwd] | ph(add|sub)\w+ | pshufb
    | palignr | pmaddubsw | pmulhrsw | p?blend\w+ | pextr[bdq] | pinsr[bdq] | (extract|insert)ps | pmov[sz]x\w+ | ptest
    | pmul(ld|dq) | pcmp(eqq|gtq|[ei]str\w) | p(min|max)(sb|uw|[su]d) | packusdw | round[ps][sd] | dpp[sd] | mpsadbw
    | phminposuw | movntdqa | movnts[sd] | (extr|insert)q | crc32\w? | aes\w+ | pclmul\w+ | sha(1|256)\w+ | gf2p8\w+
    | popcnt\w? | lzcnt\w? | movbe\w? | v\w+ | andn\w? | bextr\w? | bls(i|r|msk)\w? | bzhi\w? | mulx\w?
    | p(dep|ext)[lq]? | rorx\w? | (sar|shl|shr)x\w? | ad[co]x\w? | cmpxchg16b | [ls]ahf | rd(rand|seed)\w?""")


class Function:
    """Of a function's machine code: what it takes from the stack, how far below the stack pointer it writes, and whom
    it calls."""

    def __init__(self) -> None:
        self.frame = self.red = 0
        self.calls: set[str] = set()

    def read(self, line: str) -> None:
        line = line.split(" #")[0].rstrip()
        sub, called = SUB.search(line), CALLED.search(line)
        if sub:
            self.frame += int(sub[1], 16)
        elif UNKNOWN.search(line) and not ADD.search(line):
            sys.exit(f"costs: the stack cannot be followed: {line.strip()}")
        self.frame += 8 * ("\tpush " in line)
        self.red = max([self.red] + [int(far, 16) for far in RED.findall(line)])
        if called:
            self.calls.add(called[1])


def printed(*command: str) -> list[str]:
    return subprocess.run(command, capture_output=True, text=True, check=True).stdout.splitlines()


def functions(listing: list[str]) -> dict[str, Function]:
    found: dict[str, Function] = {}
    current = Function()
    for line in listing:
        head = FUNCTION.match(line)
        if head:
            current = found[head[1]] = Function()
        else:
            current.read(line)
    return found


def deepest(found: dict[str, Function], name: str, above: tuple[str, ...] = ()) -> int:
    """The stack from a function's return address on. A function from outside, memset, counts as its return address."""
    if name in above:
        sys.exit(f"costs: {name} calls itself")
    if name not in found:
        return 8
    below = [deepest(found, called, above + (name,)) for called in found[name].calls]
    return 8 + found[name].frame + max([found[name].red] + below)


def unnamed(listing: list[str], page: str) -> list[str]:
    """What the page does not say of registers."""
    used = set(REGISTER.findall("\n".join(listing)))
    last = len(used) - 1
    fits = used == {f"xmm{k}" for k in range(last + 1)} and f"`xmm0` to `xmm{last}`" in page
    return [] if fits else [f"docs/C.md does not name the registers {sorted(used)}"]


def later(listing: list[str]) -> list[str]:
    """Which instructions not every x86-64 processor has."""
    used = {found[1] for line in listing if (found := MNEMONIC.match(line))}
    if not used:
        return ["no instruction of the archive is read"]
    return [f"the archive's {name} is none of the first x86-64 processors'" for name in sorted(used)
            if LATER.fullmatch(name)]


def stacks(lines: list[str], found: dict[str, Function]) -> tuple[dict[str, int], list[str]]:
    """Each function's stack with its arguments on it, and what is wrong."""
    bounds, wrong = {}, []
    for line in lines:
        name, painted, arguments = line.split()
        bounds[name] = deepest(found, PREFIX + name) + 16 * ((max(0, int(arguments) - 6) + 1) // 2)
        if int(painted) > bounds[name]:
            wrong.append(f"{name}: {painted} bytes of painted stack, and by its code {bounds[name]}")
        print(f"{name}: {bounds[name]} bytes of stack by its code, {painted} of a painted one")
    exported = {name.removeprefix(PREFIX) for name in found if name.startswith(PREFIX)}
    wrong += [f"{name} is not measured" for name in sorted(exported ^ bounds.keys())]
    return bounds, wrong


def instructions_of(program: str, case: str) -> int:
    """The call's own; the function that does nothing in its place takes one."""
    def count(mode: str) -> int:
        run = subprocess.run([ICOUNT, program, case, mode], capture_output=True, text=True, check=True)
        return int(run.stderr.split()[-1])
    return count("1") - count("0") + 1


def measured(run: list[str], program: str, listing: list[str]) -> tuple[list[list[str]], list[str]]:
    """The table's rows, and what is wrong."""
    first, *lines = printed(*run, program, "stack")
    memset, size = map(int, first.split()[1:])
    bounds, wrong = stacks(lines, functions(listing))
    cases = [line.split() for line in printed(*run, program, "cases")]
    with concurrent.futures.ThreadPoolExecutor(os.cpu_count()) as pool:
        counts = list(pool.map(lambda case: instructions_of(program, case[0]), cases))
    rows, before = [], ""
    for (case, call), count in zip(cases, counts):
        count -= memset if call == "setup" else 0
        stack = "" if call == before else f"{bounds[call]:,}"
        rows.append([f"`{call}`", stack, WORDS[case].format(memset=size), f"{count:,}"])
        print(f"{call}, {rows[-1][2]}: {count:,} instructions")
        before = call
    return rows, wrong


def near(one: str, other: str) -> bool:
    """Two numbers of instructions."""
    a, b = (int(text.replace(",", "")) for text in (one, other))
    return abs(a - b) <= max(20, max(a, b) // 100)


def differing(rows: list[list[str]], page: str) -> list[str]:
    """What the page's table has otherwise."""
    found = [[cell.strip() for cell in line.strip("|").split("|")] for line in page.splitlines()[2:]]
    if len(found) != len(rows):
        return [f"docs/C.md has {len(found)} rows, not {len(rows)}"]
    return [f"docs/C.md has {' | '.join(there)}\nand it is    {' | '.join(row)}" for there, row in zip(found, rows)
            if there[:3] != row[:3] or not near(there[3], row[3])]


def main() -> int:
    words = sys.argv[1:]
    write = words[:1] == ["--write"]
    program, archive, objdump, *run = words[write:]
    page = PAGE.read_text(encoding="utf-8")
    listing = printed(objdump, "-dr", "--no-show-raw-insn", archive)
    rows, wrong = measured(run, program, listing)
    wrong += unnamed(listing, page) + later(listing)
    before, rest = page.split(BEGIN)
    table, after = rest.split(END)
    if write:
        lines = [["call", "stack", "its case here", "instructions"], ["---", "---:", "---", "---:"], *rows]
        table = "".join("| " + " | ".join(line) + " |\n" for line in lines).replace("|  |", "| |")
        PAGE.write_text(before + BEGIN + table + END + after, encoding="utf-8")
    wrong += differing(rows, table)
    print("\n".join(wrong), end="\n" if wrong else "")
    if wrong:
        print("tests/costs --write writes the table anew, and nothing else")
    print(f"{max(0, len(rows) + 2 - len(wrong))} passed, {len(wrong)} failed")
    return 1 if wrong else 0


if __name__ == "__main__":
    sys.exit(main())
