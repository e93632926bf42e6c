"""Exit statuses, and which errors end the command with them."""

from __future__ import annotations

import sys

OK, DUE, WARNING, BROKEN = 0, 1, 2, 3
USAGE, UNAVAILABLE, FAULTY, UNPRINTED, LOCKED, INTERRUPTED = 64, 69, 70, 74, 75, 130

# What a status means, and which errors of Python and of the key set end the command with it.
STATUSES = {
    OK: ("done; check, watch: all is well", ()),
    DUE: ("check, watch: something is due; call, plan: the key set refused a line", ()),
    WARNING: ("a line can't be true; call: it was not made for that reason", ()),
    BROKEN: ("the chain of trust is broken, or a file is damaged, or torn at its end; check, "
             "zones: or it is missing, or a program is", ("Damaged", "Malformed")),
    USAGE: ("the command line, or the line of a call, is wrong",
            ("FileExistsError", "Misnamed", "WrongArgument")),
    UNAVAILABLE: ("a program, a file or a server is missing, or fails",
                  ("Unavailable", "OSError", "MemoryError")),
    FAULTY: ("a fault of this command", ("Exception",)),
    UNPRINTED: ("done, and standard output can't take it: standard error has it", ()),
    LOCKED: ("another program is writing the script", ("Locked",)),
    INTERRUPTED: ("interrupted from the keyboard", ("KeyboardInterrupt",)),
}


class Failure(Exception):
    """Ends the command: its text goes to standard error."""

    def __init__(self, text: str, status: int = USAGE) -> None:
        super().__init__(text)
        self.status = status


class NoAnswer(Failure):
    """Servers don't answer: they may later."""

    def __init__(self, text: str) -> None:
        super().__init__(text, UNAVAILABLE)


# Debian's packages of the modules that only some words need.
MODULES = {"dns": "python3-dnspython", "cryptography": "python3-cryptography"}


def failure_of(error: BaseException) -> Failure:
    """The failure for an error. The nearest of its classes says which."""
    if isinstance(error, Failure):
        return error
    text = str(error)
    module = (error.name or "").partition(".")[0] if isinstance(error, ImportError) else ""
    if module in MODULES:
        text = f"{MODULES[module]} is missing for {sys.executable}: install it"
        return Failure(text, UNAVAILABLE)
    if isinstance(error, OSError) and error.filename is not None:
        text = f"{error.filename}: {error.strerror}"
    if isinstance(error, MemoryError):
        text = "out of memory: make the same call again"
    if type(error).__name__ == "Torn":
        text = mended(text)
    for name in (kind.__name__ for kind in type(error).__mro__):
        for status, (says, names) in STATUSES.items():
            if name in names:
                return Failure(text or says, status)
    raise error


def mended(text: str) -> str:
    """What to do about a last line without a line feed, for the text of the error."""
    import shlex

    file = shlex.quote(text.partition(": line ")[0])
    return f"{text}. If it is whole: echo >>{file}. If it is torn: sed -i '$d' {file}"
