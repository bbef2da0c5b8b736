"""What the comparison tests share: building the peer, running a program of ours and the peer's on the same bytes."""
from __future__ import annotations

import os
import subprocess

ROOT = os.path.dirname(os.path.dirname(os.path.abspath(__file__)))
PEER = os.path.join(ROOT, "target", "peer")


def build_peer(extra: str = "", out: str = PEER) -> str:
    """Builds the C peer into `out` and gives that; `extra` goes to the compiler."""
    subprocess.run(["make", "-s", "-C", os.path.join(ROOT, "peer"), "OUT=" + out, "EXTRA=" + extra], check=True)
    return out


def build_sanitized() -> str:
    """Builds the C peer with sanitizers, which end it at their first finding; gives where. It allocates nothing, so
    leaks are not looked for: on some machines that takes seconds a run."""
    os.environ.setdefault("ASAN_OPTIONS", "detect_leaks=0")
    return build_peer("-g -fsanitize=address,undefined -fno-sanitize-recover=all", PEER + "_sanitized")


def ours(name: str, data: bytes) -> bytes:
    """What our program `name` writes on `data`."""
    return subprocess.run([os.path.join(ROOT, "run"), name], input=data, stdout=subprocess.PIPE, check=True).stdout


def peers(name: str, data: bytes, out: str = PEER) -> bytes:
    """What the peer's program `name` writes on `data`."""
    return subprocess.run([os.path.join(out, name)], input=data, stdout=subprocess.PIPE, check=True).stdout


def command_of_ours(name: str) -> list[str]:
    return [os.path.join(ROOT, "run"), name]


def command_of_peers(name: str, out: str = PEER) -> list[str]:
    return [os.path.join(out, name)]


def written(command: list[str], data: bytes, seconds: int = 300) -> bytes:
    """What a program writes on `data`. A bad ending is no exception but a last line, to be compared and shrunk."""
    try:
        done = subprocess.run(command, input=data, stdout=subprocess.PIPE, stderr=subprocess.PIPE, timeout=seconds)
    except subprocess.TimeoutExpired as late:
        return (late.stdout or b"") + b"(no end after %d s)\n" % seconds
    if done.returncode == 0:
        return done.stdout
    return done.stdout + b"(exit status %d) " % done.returncode + b" | ".join(done.stderr.split(b"\n")[:6]) + b"\n"


def excerpt(line: bytes, at: int) -> str:
    """A part of a line around the place `at`."""
    first = max(0, at - 60) if at > 200 else 0
    return ("..." if first else "") + line[first:first + 300].decode("latin-1")


def difference(a: bytes, b: bytes, names: tuple[str, str] = ("ours", "peer's")) -> str | None:
    """The first line in which two outputs differ, or None."""
    if a == b:
        return None
    la, lb = a.split(b"\n"), b.split(b"\n")
    for k in range(max(len(la), len(lb))):
        x = la[k] if k < len(la) else b"(nothing)"
        y = lb[k] if k < len(lb) else b"(nothing)"
        if x != y:
            at = len(os.path.commonprefix([x, y]))
            shown = names[0] + ":", excerpt(x, at), names[1] + ":", excerpt(y, at)
            return "line %d\n  %-7s %s\n  %-7s %s" % (k + 1, *shown)
    return "they differ in length alone"
