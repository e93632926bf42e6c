"""The words of the program `keyset`, and the names that it is called by: what it writes, what it
says on standard error, and the status that it ends with. The proved program and the one in C over
the library have to keep the same rows."""

import ctypes
import os
import re
import subprocess
from dataclasses import dataclass
from typing import Iterator, Optional

from tests.gate.tools import CRATES, NOTES_EXAMPLE, PROGRAM, RUNNER, STATUS_EXAMPLE, TOP, Fault

VERSION = f"keyset {(TOP / 'VERSION').read_text().strip()}\n".encode()
ANSWERS = STATUS_EXAMPLE[0].with_suffix(".answers").read_bytes()
SCRIPT, STATUS = (path.read_bytes() for path in STATUS_EXAMPLE)
NOTES, REPORTS = (path.read_bytes() for path in NOTES_EXAMPLE)

# A policy, a script and notes, whose last line asks.
POLICY, ZONE, BEFORE = "policy 13 ksk-roll zsk-roll\n", "zone example.com\n", "before 60 60 60\n"
NEXT_INPUT = f"{POLICY}\n{ZONE}add-ksk K1 - 13 1 0 yes\n\n{BEFORE}next 100\n".encode()
# What `next` says of other texts.
SAID = {
    f"{POLICY}\n{ZONE}\n{BEFORE}next 100": "key ksk 13",
    f"{POLICY}\n{ZONE}\n{BEFORE}next 00000000000000000100\n\n": "key ksk 13",
}
UNSAID = {
    "": "policy: line 1: malformed",
    "policy 13 ksk-roll\n": "policy: line 1: malformed",
    f"{POLICY}zsk-once 1\nzsk-once 2\n": "policy: line 3: said twice",
    f"{POLICY}csk-lifetime 1\n": "policy: line 2: no such keys by line 1",
    f"{POLICY}zsk-lifetime 121\n\n{ZONE}\n{BEFORE}next 100\n":
        "policy: a lifetime of 121 seconds is shorter than a zsk-roll takes: 122",
    POLICY: "script: line 1: malformed",
    f"{POLICY}\n{ZONE}add\n": "script: line 2: malformed",
    f"{POLICY}\n{ZONE}": "notes: line 1: malformed",
    f"{POLICY}\n{ZONE}\nnext 100\n": "notes: line 1: malformed",
    f"{POLICY}\n{ZONE}\n{BEFORE}": "notes: line 2: malformed",
    f"{POLICY}\n{ZONE}\n{BEFORE}next\n": "notes: line 2: malformed",
    f"{POLICY}\n{ZONE}\n{BEFORE}next 1 2\n": "notes: line 2: malformed",
    f"{POLICY}\n{ZONE}\n{BEFORE}next 18446744073709551616\n": "notes: line 2: malformed",
    f"{POLICY}\n{ZONE}\n{BEFORE}next 000000000000000000100\n": "notes: line 2: malformed",
    f"{POLICY}\n{ZONE}\n{BEFORE}due 100\n": "notes: line 2: malformed",
    f"{POLICY}\n{ZONE}\n{BEFORE}next 1\nnext 2\n": "notes: line 2: malformed",
    f"{POLICY}\n{ZONE}\n{BEFORE}published ds 9 5 9\nnext 10\n":
        "notes: line 2: no such call yet",
    f"{POLICY}\n{ZONE}\n{BEFORE}\nnext 2\n": "notes: line 2: malformed",
}

USAGE = 64
NO_SUCH, MORE = b"no such word: see keyset --help\n", b"more than one word: see keyset --help\n"
DEVICE = 2, b"", b"input or output fault\n"
# The longest path that a program may be called by.
LONGEST = 4096

# A word at the head of an item of the README, and a status.
WORD = re.compile(r"^- `(--\w+|\w+)`:", re.MULTILINE)
ENDS = re.compile(r"^- (\d+):", re.MULTILINE)

# What each word reads and writes.
WORDS = {
    (): (SCRIPT, ANSWERS),
    (b"status",): (SCRIPT, STATUS),
    (b"notes",): (NOTES, REPORTS),
    (b"next",): (NEXT_INPUT, b"key zsk 13\n"),
    (b"--version",): (b"", VERSION),
}
# Arguments that ask for nothing. None of them is read as a word that it begins with or that is
# written otherwise.
REFUSED = {
    (b"",): NO_SUCH,
    (b" ",): NO_SUCH,
    (b"stat",): NO_SUCH,
    (b"Status",): NO_SUCH,
    (b"status ",): NO_SUCH,
    (b"status\n",): NO_SUCH,
    (b"keyset_status",): NO_SUCH,
    (b"nexts",): NO_SUCH,
    (b"-",): NO_SUCH,
    (b"--",): NO_SUCH,
    (b"-h",): NO_SUCH,
    (b"--versions",): NO_SUCH,
    (b"--help=status",): NO_SUCH,
    (b"\xff\xfe",): NO_SUCH,
    (b"status\xff",): NO_SUCH,
    (b"s" * LONGEST,): NO_SUCH,
    (b"s" * (LONGEST + 1),): NO_SUCH,
    (b"notes" * 20_000,): NO_SUCH,
    (b"--version", b"extra"): MORE,
    (b"status", b"notes"): MORE,
    (b"status", b""): MORE,
    (b"", b""): MORE,
    (b"status", b"--help"): MORE,
    (b"none", b"s" * (LONGEST + 1)): MORE,
    (b"status", b"status", b"status"): MORE,
}
# Names that the program is called by, and the words that they stand for.
NAMES = {
    b"keyset": (),
    b"keyset_status": (b"status",),
    b"keyset_notes": (b"notes",),
    b"/usr/bin/keyset_status": (b"status",),
    b"../\xff/keyset_notes": (b"notes",),
    b"/" * (LONGEST - 13) + b"keyset_status": (b"status",),
    b"/" * (LONGEST - 12) + b"keyset_status": (),
    b"keyset_status/keyset": (),
    b"keyset_status/": (),
    b"keyset_statu": (),
    b"keyset_statuses": (),
    b"xkeyset_status": (),
    b"keyset-status": (),
    b"keyset_": (),
    b"keyset_next": (b"next",),
    b"keyset_--version": (),
    b"status": (),
    b"\xff": (),
    b"": (),
}


@dataclass(frozen=True)
class Invocation:
    """What the program is asked, and how it has to end. A name of None: it is given no arguments at
    all, not even its name."""

    arguments: tuple
    input: bytes
    status: int
    output: bytes
    errors: bytes
    name: Optional[bytes] = b"keyset"


def runner_of(program):
    """What a program runs under. The proved one is always of this machine."""
    return [] if program == PROGRAM else RUNNER


def rows(program) -> Iterator[Invocation]:
    for arguments, (text, output) in WORDS.items():
        yield Invocation(arguments, text, 0, output, b"")
    for arguments, errors in REFUSED.items():
        yield Invocation(arguments, SCRIPT, USAGE, b"", errors)
    for name, words in NAMES.items():
        text, output = WORDS[words]
        yield Invocation((), text, 0, output, b"", name)
        # Under each name it says its version. A name that is a word takes no other.
        yield Invocation((b"--version",), b"", 0, VERSION, b"", name)
        yield Invocation((b"none",), text, USAGE, b"", NO_SUCH, name)
        if words:
            yield Invocation((b"status",), text, USAGE, b"", MORE, name)
            yield Invocation((b"--version", b"notes"), text, USAGE, b"", MORE, name)
    if not runner_of(program):
        yield Invocation((), SCRIPT, 0, ANSWERS, b"", None)
    # Notes with a fault are no script, and a script is no notes.
    yield Invocation((b"notes",), SCRIPT, 1, b"", b"notes: line 1: malformed\n")
    yield Invocation((b"status",), NOTES, 1, b"", b"line 12: malformed\n")
    yield Invocation((b"status",), b"", 1, b"", b"line 1: malformed\n")
    for text, line in SAID.items():
        yield Invocation((b"next",), text.encode(), 0, f"{line}\n".encode(), b"")
    for text, fault in UNSAID.items():
        yield Invocation((b"next",), text.encode(), 1, b"", f"{fault}\n".encode())


def without_arguments(program):
    """Runs a program in place of this process, with no arguments."""
    none = (ctypes.c_char_p * 1)()
    ctypes.CDLL(None).execv(os.fsencode(program), none)


def called(program, name, arguments, **how):
    """How a program ends that is called by this name."""
    how = {"stdout": subprocess.PIPE, "stderr": subprocess.PIPE, **how}
    if name is None:
        ran = subprocess.run([program], preexec_fn=lambda: without_arguments(program), **how)
    elif runner := runner_of(program):
        ran = subprocess.run([*runner, "-0", name, program, *arguments], **how)
    else:
        ran = subprocess.run([name, *arguments], executable=program, **how)
    return ran.returncode, ran.stdout or b"", ran.stderr


def expect_rows(program):
    """The program keeps each row. Gives how many there are."""
    count = 0
    for row in rows(program):
        ended = called(program, row.name, row.arguments, input=row.input)
        if ended != (row.status, row.output, row.errors):
            asked = f"{row.name and row.name[:50]!r} {[word[:50] for word in row.arguments]}"
            raise Fault(f"{program} called as {asked} ends with {ended}, and not as {row}")
        count += 1
    return count


def expect_help(program):
    """The help names each word and each status that the README has. It is the same under each name,
    and reads nothing."""
    status, text, errors = called(program, b"keyset", (b"--help",), stdin=subprocess.DEVNULL)
    readme = (CRATES / "keyset" / "README.md").read_text()
    words, ends = WORD.findall(readme), ENDS.findall(readme)
    if (status, errors) != (0, b"") or len(words) != 5 or len(ends) != 5:
        raise Fault(f"{program} --help ends with {status} and {errors}; {words} {ends}")
    lines = text.decode().splitlines()
    for word in (*words, *ends):
        if not any(line.startswith(f"  {word} ") for line in lines):
            raise Fault(f"{program} --help has no line for {word}")
    for name in (b"keyset_status", b"keyset_notes"):
        if called(program, name, (b"--help",), input=b"rubbish") != (0, text, b""):
            raise Fault(f"{program} called as {name} has another help")
    return text


def closed():
    """Closes the standard output."""
    os.close(1)


def expect_devices(program):
    """If the disk is full, nobody reads the pipe, standard output is closed or the input is a
    folder, the program says so by its status, with each word. Gives how many devices there are."""
    reading, broken = os.pipe()
    os.close(reading)
    folder = os.open(TOP, os.O_RDONLY)
    with open("/dev/full", "wb") as full:
        ends = {
            "a full disk": {"stdout": full},
            "a broken pipe": {"stdout": broken},
            "a closed output": {"preexec_fn": closed},
            "a folder": {"stdin": folder},
        }
        for device, how in ends.items():
            for arguments, (text, _) in {**WORDS, (b"--help",): (b"", b"")}.items():
                reads = "stdin" in how
                if reads and not text:
                    continue
                ended = called(program, b"keyset", arguments, **how,
                               **({} if reads else {"input": text}))
                if ended != DEVICE:
                    raise Fault(f"{program} {arguments}: {device}: {ended}")
    os.close(broken)
    os.close(folder)
    return len(ends)


def test(program):
    """Tests a program that was built in C beside the proved one. Gives a line."""
    helps = [expect_help(each) for each in (PROGRAM, program)]
    if helps[0] != helps[1]:
        raise Fault("the program in C has another help")
    counts = [(expect_rows(each), expect_devices(each)) for each in (PROGRAM, program)]
    (count, devices), _ = counts
    return (
        f"{count} rows of words and names of the program, and {devices} devices with each word; the"
        " program in C keeps the same"
    )
