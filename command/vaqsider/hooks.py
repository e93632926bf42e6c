"""The operator's commands. Each is run as a list of words, never by a shell, with JSON on standard
input: no text from outside is ever a word of it."""

from __future__ import annotations

import json
import os
import signal
import subprocess
from pathlib import Path
from typing import Mapping, Sequence

from .errors import UNAVAILABLE, Failure

# How long a command may take, in seconds, and how much of what it prints is said.
WITHIN, MOST = 60, 200


def run(words: Sequence[str], given: Mapping[str, object] | None = None,
        within: Path | None = None, seconds: float = WITHIN) -> None:
    """Runs a command. It fails by another status than 0, or if it has not ended in time: then all
    that it has started is ended too."""
    text = b"" if given is None else json.dumps(given).encode("ascii") + b"\n"
    try:
        ran = subprocess.Popen(words, stdin=subprocess.PIPE, stdout=subprocess.PIPE, cwd=within,
                               stderr=subprocess.STDOUT, start_new_session=True)
    except OSError as error:
        raise Failure(f"{words[0]}: {error.strerror}", UNAVAILABLE) from None
    try:
        said, _ = ran.communicate(text, seconds)
    except subprocess.TimeoutExpired:
        os.killpg(ran.pid, signal.SIGKILL)
        ran.wait()
        raise Failure(f"{words[0]}: it has not ended within {seconds:g} s", UNAVAILABLE) from None
    if ran.returncode:
        why = " ".join(said.decode(errors="replace").split())[:MOST]
        raise Failure(f"{words[0]}: status {ran.returncode}: {why}".rstrip(": "), UNAVAILABLE)


def filled(words: Sequence[str], zone: str) -> list[str]:
    """The words of a command with the zone's name for `{zone}`."""
    return [word.replace("{zone}", zone) for word in words]
