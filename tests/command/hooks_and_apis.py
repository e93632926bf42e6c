"""Checks of adaptors.py: what hooks, APIs and tools may answer, and databases that another program
has locked."""

from __future__ import annotations

import contextlib
import re
import socket
import threading
import time
from pathlib import Path
from unittest import mock

import keyset
from tests.command.signer_courses import ZONE, fault_of, make, sets
from tests.command.terminal import folder
from vaqsider import keyfiles
from vaqsider.errors import Failure
from vaqsider.signers import Sets, daemon, pdns_api
from vaqsider.signers.hook import Hook
from vaqsider.signers.pdns_api import Api

# What a hook prints, and what is said of it.
HOOKS = (
    ("echo '{'", "what it says is no JSON"), ("echo '[]'", "what it says is no JSON"),
    ("echo '{}'", "it lacks sets of records"), ("echo '{\"dnskey\": 3}'", "it lacks sets"),
    ("exit 3", "status 3"), ("echo no >&2; exit 1", ": no"), ("", "status"),
)


def hooks():
    """What a hook may say that can't be read."""
    for command, says in HOOKS:
        try:
            Hook(ZONE, command or "exit 9").now([])
            said = "all is well"
        except Failure as failure:
            said = str(failure)
        if says not in said:
            yield f"hook {command}: {said}"
    yield from hook_asks()
    if "it says" not in fault_of(lambda: Hook(ZONE, "echo '{\"dnskey\": -1, \"zone\": 5}'").ttls()):
        yield "hook: a TTL below 0 is taken"


def hook_asks():
    """A hook is asked for all that a signer needs to know of a key."""
    with folder():
        keys, name = make(), "pkcs11:id=%01"
        of = keys["K1"].file
        (members,) = keyset.status([f"zone {ZONE}", of.line(False, name)])["keys"]
        of.reference = keyfiles.find(keyset.Key.of(members), ["."]).reference
        hook = Hook(ZONE, 'cat >"$1"; echo "{\\"lacks\\": [\\"x\\"]}"')
        wanted = sets(keys, "K1,Z1 K1 Z1 K1")
        for step in hook.publish(Sets(), wanted, Path()):
            step.run()
        text = Path("publish").read_text()
        of_k1 = re.search(r'\{"key": "K1"[^}]*\}', text)
        says = ('"signers": true', '"cds": true', '"private": "pkcs11:id=%01"')
        if list(hook.lacks(wanted)) != ["x"] or not of_k1 or '"verb": "publish"' not in text \
                or not all(it in of_k1[0] for it in says):
            yield f"a hook is asked {text}"


OK = "HTTP/1.1 200 OK\r\nContent-Length: {}\r\n\r\n{}"
FAULT = OK.replace("200 OK", "500 x")
# What comes over the wire, and what is said of it.
WIRES = (
    (OK.format(2, "[]"), "has no zone"), (OK.format(9, "[]"), "IncompleteRead"), ("", "Remote end"),
    ("no HTTP\r\n\r\n", ": no HTTP"),
    ("HTTP/1.1 302 x\r\nLocation: http://127.0.0.2/\r\nContent-Length: 0\r\n\r\n",
     "302: refused"),
    ("HTTP/1.1 401 Unauthorized\r\nContent-Length: 2\r\n\r\n{}", "401: refused"),
    ("HTTP/1.1 422 x\r\nContent-Length: 15\r\n\r\n{\"error\": \"no\"}", "422: no"),
    (None, "timed out"),
)


def wires():
    """What an API says over HTTP that isn't as it should be."""
    for text, says in WIRES:
        with folder(), socket.create_server(("127.0.0.1", 0)) as server:
            Path("secret").write_text("of-a-test\n")
            port = server.getsockname()[1]
            answers = threading.Thread(target=_answer, args=(server, text), daemon=True)
            answers.start()
            store = Api(ZONE, f"http://127.0.0.1:{port}", "secret")
            seconds = 0.5 if text is None else daemon.SECONDS
            with mock.patch.object(pdns_api, "SECONDS", seconds):
                said = fault_of(lambda: store.now([]))
            answers.join()
        if says not in said:
            yield f"an API that answers {text!r}: {said}"
    url = f"http://127.0.0.1:{port}"
    if "refused" not in fault_of(lambda: pdns_api.exchange("GET", url, "", None)):
        yield "an API that isn't there"


def _answer(server, text) -> None:
    """Answers one request, or never."""
    asked, _ = server.accept()
    with asked:
        asked.recv(4096)
        if text is None:
            time.sleep(1)
        else:
            asked.sendall(text.encode())


# A command that says what it is given, but for the runs after so many.
TOOL = """\
#!/bin/sh
echo >>runs
[ "$(wc -l <runs)" -le "$1" ] || exit 0
echo "Error: $2 (5)" >&2
exit 1
"""
# What PowerDNS says if SQLite is locked in the midst of a change.
UNSAID = "Internal Server Error"
# How often what always fails runs: at once, and after each pause of its time.
PAUSE = daemon.SECONDS / 4
ALL = 5
# What fails, how often, what it says then, and how often it runs: a command, or a request by this
# method.
LOCKS = (
    ("tool", 2, daemon.LOCKED, 3), ("tool", 9, daemon.LOCKED, ALL), ("tool", 9, "no such key", 1),
    ("PATCH", 2, UNSAID, 3), ("PATCH", 9, UNSAID, ALL),
    ("POST", 9, UNSAID, 1), ("POST", 2, daemon.LOCKED, 3),
)


class Clock:
    """A clock that only pauses move on."""

    def __init__(self) -> None:
        self.moment = 0.0

    def monotonic(self) -> float:
        return self.moment

    def sleep(self, seconds: float) -> None:
        self.moment += seconds


def locked():
    """What failed runs again if another program has locked the database, until its time is over."""
    for what, fails, says, wanted in LOCKS:
        with folder(), mock.patch.multiple(daemon, PAUSE=PAUSE, time=Clock()), \
                mock.patch.multiple(pdns_api, PAUSE=PAUSE, time=Clock()):
            runs, fault = _by_tool(fails, says) if what == "tool" else _by_api(what, fails, says)
        if runs != wanted or (says in fault) != (fails > wanted):
            yield f"{what}: {says} {fails} times: {runs} runs, and {fault}"


def _by_tool(fails: int, says: str) -> tuple[int, str]:
    """How often a command runs, and what is said in the end."""
    Path("tool").write_text(TOOL)
    Path("tool").chmod(0o755)
    fault = fault_of(lambda: daemon.said(["./tool", str(fails), says]))
    return len(Path("runs").read_text()), fault


def _by_api(method: str, fails: int, says: str) -> tuple[int, str]:
    """The same of a request to an API."""
    Path("secret").write_text("of-a-test\n")
    runs: list[int] = []

    def answers() -> None:
        with contextlib.suppress(OSError):
            while True:
                is_over = len(runs) >= fails
                _answer(server, OK.format(2, "[]") if is_over else FAULT.format(len(says), says))
                runs.append(len(runs))

    with socket.create_server(("127.0.0.1", 0)) as server:
        thread = threading.Thread(target=answers)
        thread.start()
        store = Api(ZONE, f"http://127.0.0.1:{server.getsockname()[1]}", "secret")
        fault = fault_of(lambda: store.ask(method, "/zones"))
        server.shutdown(socket.SHUT_RDWR)
        thread.join()
    return len(runs), fault


CHECKS = (hooks, wires, locked)
COUNT = len(HOOKS) + len(WIRES) + len(LOCKS)
