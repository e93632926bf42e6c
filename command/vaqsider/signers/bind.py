"""BIND signs a file by `dnssec-signzone`. No text goes through a shell."""

from __future__ import annotations

from pathlib import Path

from ..signing import Task, Tools

# How a zone file begins that isn't text: BIND keeps the zones so that it signs itself.
RAW = b"\0\0\0\2"
LAX = [word for check in "kmnrMST" for word in (f"-{check}", "ignore")]


def _signs(task: Task) -> list[str]:
    how = ["-e", f"now+{task.lifetime}"]
    how += [] if task.jitter is None else ["-j", str(task.jitter)]
    if task.nsec3:
        how += ["-3", task.nsec3.salt, "-H", str(task.nsec3.iterations)]
        how += ["-A"] if task.nsec3.flags & 1 else []
    keys = map(str, task.keys)
    return ["dnssec-signzone", "-q", "-z", "-P", "-O", "full", "-o", task.origin, *how,
            "-f", "draft", "whole", *keys]


def _reads(origin: str, file: Path) -> list[str]:
    with open(file, "rb") as begin:
        form = ["-f", "raw"] if begin.read(len(RAW)) == RAW else []
    return ["named-compilezone", "-i", "none", *LAX, *form, "-s", "full", "-o", "-", origin,
            str(file)]


TOOLS = Tools(_reads, _signs, knows_origin=True)
