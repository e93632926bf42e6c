"""ldns signs a file by `ldns-signzone`. No text goes through a shell."""

from __future__ import annotations

from pathlib import Path

from ..errors import Failure
from ..signing import BEFORE, Task, Tools


def _signs(task: Task) -> list[str]:
    if task.jitter is not None:
        raise Failure("ldns-signzone has no jitter: use --signer bind")
    how = ["-i", str(max(0, task.now - BEFORE)), "-e", str(task.now + task.lifetime)]
    if task.nsec3:
        salt = [] if task.nsec3.salt == "-" else ["-s", task.nsec3.salt]
        how += ["-n", "-a", str(task.nsec3.algorithm), "-t", str(task.nsec3.iterations), *salt]
        how += ["-p"] if task.nsec3.flags & 1 else []
    keys = (str(key.with_suffix("")) for key in task.keys)
    return ["ldns-signzone", "-A", "-o", task.origin, *how, "-f", "draft", "whole", *keys]


def _reads(_: str, file: Path) -> list[str]:
    return ["ldns-read-zone", str(file)]


TOOLS = Tools(_reads, _signs, knows_origin=False)
