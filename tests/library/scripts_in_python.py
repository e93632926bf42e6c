"""Tests of library.py in Python: stored, damaged, malformed, long and frozen scripts, which the
program `keyset`, the library, its sessions and its key sets have to answer alike, and `keyset
status` has to show what sessions show."""

import json
import os
import random
import subprocess
from itertools import islice

from tests.gate import release
from tests.gate.tools import EVERY, PROGRAM, STATUS, TOP, Fault, stored_scripts
from tests.library import sessions
from tests.scripts import long_scripts, malformed

EXAMPLES = sorted((TOP / "examples").rglob("*.script"))

# How often each example is damaged.
DAMAGES = 20


def as_program(script, command=(PROGRAM,)):
    """How the program answers: its status, what it writes, and what it says on standard error."""
    ran = subprocess.run(command, input=script, capture_output=True)
    return ran.returncode, ran.stdout.decode(), ran.stderr.decode()


def as_library(keyset, script):
    try:
        return 0, keyset.answer(script), ""
    except keyset.Malformed as malformed:
        return 1, "", f"{malformed}\n"
    except MemoryError:
        return 3, "", "out of memory\n"


def damaged(script, chance):
    """The script with some bytes changed, left out or put in."""
    script = bytearray(script)
    for _ in range(chance.randint(1, 3)):
        at = chance.randrange(len(script))
        byte = chance.choice([0, 10, 13, 32, 44, 45, 48, 57, 120, 127, 255, chance.randrange(256)])
        script[at : at + chance.randint(0, 2)] = bytes([byte] * chance.randint(0, 2))
    return bytes(script)


def python_module(folder):
    os.environ["KEYSET_LIBRARY"] = str(folder / "lib" / "libkeyset.so")
    import keyset

    return keyset


def in_session(keyset, zone, lines):
    """What a session answers to these lines, and at the end says of them all."""
    session = keyset.open_session(zone)
    answers = [session.call(line) for line in lines]
    answers += session.closing()
    session.close()
    return answers


def in_calls(keyset, zone, lines):
    """What the calls of a key set answer to these lines. It leaves out those that are refused."""
    with keyset.KeySet(zone.removeprefix("zone ")) as keys:
        for line in lines:
            try:
                yield " ".join(["ok", *(action.value for action in keys.call(line))])
            except keyset.Refused as refused:
                yield f"refused: {refused}"
        yield str(keys.published)


def test_in_python(keyset):
    """Each stored script is answered line by line, by a session and by a key set."""
    played = 0
    for name, script, answer in stored_scripts():
        (zone, *lines), wanted = script.splitlines(), answer.splitlines()
        if in_session(keyset, zone, lines) != wanted:
            raise Fault(f"a session in Python doesn't answer {name}")
        if list(in_calls(keyset, zone, lines)) != wanted[:-1]:
            raise Fault(f"a key set in Python doesn't answer {name}")
        played += len(lines)
    return f"sessions and key sets in Python answer {played} stored lines"


def test_status_program(keyset):
    """The program `keyset status` writes the status that a session shows."""
    scripts = 0
    for name, script, _ in stored_scripts():
        zone, *lines = script.splitlines()
        session = keyset.open_session(zone)
        for line in lines:
            session.call(line)
        status, output, errors = as_program(script.encode(), STATUS)
        if (status, errors) != (0, "") or json.loads(output) != session.status():
            raise Fault(f"{name}: keyset status ends with {status}, and writes {output}{errors}")
        session.close()
        scripts += 1
    return f"keyset status writes the status of {scripts} sessions"


def test_resumed(keyset):
    """After each call a key set goes on from its lines, whatever was being written after them."""
    calls = 0
    for path in EXAMPLES:
        zone, *lines = path.read_text().splitlines()
        keys = keyset.KeySet(zone.removeprefix("zone "))
        for line in lines:
            before = keys.script
            try:
                due = keys.call(line)
            except keyset.Refused:
                if keys.script != before:
                    raise Fault(f"{path.name}: {line}: refused, and changed the key set") from None
                continue
            resumed = keyset.KeySet.resume(before + line[:-1])
            state = resumed.call(line), resumed.script, resumed.status()
            if state != (due, keys.script, keys.status()):
                raise Fault(f"{path.name}: {line}: another key set goes on")
            calls += 1
    return f"a key set in Python goes on after each of {calls} calls"


def test_damaged(keyset):
    """Stored scripts, and examples with damaged bytes, are answered by the library as by the
    program; `keyset status` calls the same ones malformed."""
    chance = random.Random("damaged")
    scripts = [b"", b"\n", b"zone .", b"zone example.com\n"]
    scripts += (script.encode() for _, script, _ in stored_scripts())
    for path in EXAMPLES[::EVERY]:
        whole = path.read_bytes()
        scripts += [whole, whole[:-1], *(damaged(whole, chance) for _ in range(DAMAGES))]
    statuses = []
    for script in scripts:
        wanted = as_program(script)
        statuses.append(wanted[0])
        if as_library(keyset, script) != wanted:
            raise Fault(f"the library doesn't answer as the program: {script!r}")
        if wanted[0] and as_program(script, STATUS) != wanted:
            raise Fault(f"keyset status doesn't end as the program: {script!r}")
    malformed = statuses.count(1)
    return f"{len(scripts)} scripts answered as by the program, {malformed} of them malformed"


# What is answered to a script without calls, and what its status is.
NO_CALLS = "ds=- dnskey=- signers=- zone=-\nchain safe\n"


def test_malformed(keyset):
    """The first malformed line is named. No line before it is run, and nothing is written."""
    rows = 0
    for script, line in malformed.scripts():
        wanted = (1, "", f"line {line}: malformed\n") if line else (0, NO_CALLS, "")
        for answerer, given in (
            ("program", as_program(script)),
            ("library", as_library(keyset, script)),
        ):
            if given != wanted:
                raise Fault(f"the {answerer} ends with {given}, and {wanted} is right: {script!r}")
        if line and as_program(script, STATUS) != wanted:
            raise Fault(f"keyset status doesn't end as the program: {script!r}")
        rows += 1
    return f"{rows} rows of malformed scripts, and beginnings of zone lines"


def as_session(library, script):
    """How a session answers, line by line. Its status has all of the keys."""
    zone, *lines = script.splitlines()
    handle = library.open(zone.encode())
    answers = [library.call(handle, line) for line in lines]
    accepted = [line for line, answer in zip(lines, answers) if answer.startswith("ok")]
    keys = sum(line.startswith("add-") - line.startswith("delete ") for line in accepted)
    answers.append(library.text("closing", handle))
    if len(json.loads(library.text("status", handle))["keys"]) != keys:
        raise Fault(f"a status doesn't have {keys} keys")
    library.close(handle)
    return 0, "".join(answers), ""


def test_long(folder, keyset):
    """Long scripts are answered whole: by the program, by the library, and by a session."""
    library = sessions.Library(folder / "lib" / "libkeyset.so", 64 * long_scripts.MEGABYTE)
    names = []
    for name, script, answer in islice(long_scripts.scripts(), None if EVERY == 1 else 1):
        names.append(name)
        for answerer, given in (
            ("program", as_program(script.encode())),
            ("library", as_library(keyset, script.encode())),
            ("session", as_session(library, script)),
        ):
            if given != (0, answer, ""):
                status, output, errors = given
                raise Fault(
                    f"{name}: the {answerer} ends with status {status} after {len(output)} bytes"
                    f" of {len(answer)}; {errors}"
                )
    return "; ".join(names)


def test_frozen(keyset):
    """The program and the library answer what a release answered."""
    count = 0
    for version in release.frozen():
        for name, script, answers in [*release.frozen_scripts(version)][::EVERY]:
            for answerer, given in (
                ("program", as_program(script.encode())),
                ("library", as_library(keyset, script.encode())),
            ):
                if given != (0, answers, ""):
                    raise Fault(f"{name}: the {answerer} doesn't answer as release {version} did")
            count += 1
    return f"{count} frozen scripts answered as by their releases"


TESTS = (
    test_in_python, test_status_program, test_resumed, test_malformed, test_damaged, test_frozen,
    test_long,
)
