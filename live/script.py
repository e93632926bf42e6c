"""A zone's script. The built program `keyset` answers it."""

import subprocess
import time
from math import ceil, floor
from typing import NamedTuple

from processes import SceneFailure

EARLY = "refused: wait for duration "


class CallAnswer(NamedTuple):
    """The program's answer to a call, with what then has to be published, and the verdict."""

    reply: str
    sets: dict
    chain: str

    @property
    def actions(self):
        return self.reply.split(" ")[1:]


class CallRefusal(Exception):
    """The call was refused, and nothing has changed."""


class Script:
    """The lines that were accepted."""

    def __init__(self, program, zone):
        self.program, self.lines = program, [f"zone {zone}"]
        self.sets = {"ds": [], "dnskey": [], "signers": [], "zone": []}

    def tried(self, line):
        """The answer to a copy of the script with this line at its end."""
        text = "".join(f"{one}\n" for one in [*self.lines, line])
        done = subprocess.run(self.program, input=text, capture_output=True, text=True)
        if done.returncode:
            raise SceneFailure(f"keyset: status {done.returncode}: {done.stderr}")
        *_, reply, sets, chain = done.stdout.splitlines()
        keys = (part.partition("=") for part in sets.split(" "))
        return CallAnswer(
            reply, {kind: [] if it == "-" else it.split(",") for kind, _, it in keys}, chain
        )

    def call(self, line, may_break=False):
        """Makes a call, if its answer is `ok` and the last line is `chain safe`; gives the
        actions."""
        answer = self.tried(line)
        if answer.reply.startswith("refused: "):
            raise CallRefusal(f"{line}: {answer.reply}")
        if answer.chain != "chain safe" and not may_break:
            raise SceneFailure(f"{line}: {answer.chain}\n" + "\n".join(self.lines))
        self.lines.append(line)
        self.sets = answer.sets
        return answer.actions


def rounded_up():
    """The moment of a report."""
    return ceil(time.time())


def rounded_down():
    """The moment of any other call."""
    return floor(time.time())
