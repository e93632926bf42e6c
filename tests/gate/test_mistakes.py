"""Checks all Python by flake8, and types by mypy: those of the command, and those of the Python
package, as a caller does who has installed it.

No file breaks a rule that .flake8 has, and those that pyproject.toml names have no fault under
`--strict`. In the programs below each line with a comment has a mistake. flake8 has to name exactly
these faults, and mypy exactly these lines."""

import re
import shutil
import subprocess
import sys
import venv
from importlib.util import find_spec
from pathlib import Path

import pytest

from tests.gate.tools import TOP, Fault, run

PACKAGE = TOP / "library" / "python" / "keyset"

PROGRAM = '''\
import keyset
from keyset import Due, Error, KeySet, Locked, Role, RollType, Wait, open_session, status

roll = RollType.KSK_ROLL
with KeySet.open("example.com.script", allow_refused=True) as keys:
    keys.add_key_ksk("K1", "K1.private", algorithm=13, key_tag=1, creation=0, available=False)
    keys.add_key_ksk("K1", algorthm=13, key_tag=1)  # a name of an argument
    keys.add_key_ksk("K1", algorithm=13)  # an argument is missing
    keys.add_key_zsk("Z1", algorithm=13, key_tag="1")  # a text for a number
    keys.add_public_key("P1", "P1.private", algorithm=13, key_tag=1)  # it has no private part
    keys.start_roll(roll, old=["K1"], new=("K2",), now=9)
    keys.start_roll(roll, old="K1")  # a text for a list
    keys.start_roll(roll, new=5)  # a number for a list
    keys.start_roll("ksk-roll")  # a text for a kind of roll
    number: int = keys.propagation1_complete(roll, 3600).number
    keys.propagation1_complete(roll, "3600")  # a text for a TTL
    first = keys.start_roll(roll)[0].value
    keys.keys()["K1"].stamps["visible"]
    keys.keys()["K1"].stamps["vizible"]  # a stamp that isn't there
    keys.rolls()[roll].waits_for == "caches"
    keys.rolls()[roll].waits_for == "cache"  # nobody is called so
    keys.status()["keys"][0]["roles"][0]["state"] == "leaving"
    keys.status()["keys"][0]["roles"][0]["state"] == "retried"  # a state that isn't there
    keys.status()["kyes"]  # a member that isn't there
    keys.published.ds[0].lower()
    keys.published.cds  # a set that isn't there
    due: "list[Due]" = keys.due(1)
    due[0].ttl + 1  # it may have none
    keys.verdict().at  # there may be none
    Role("ksk", "active", False, True, True, True).available  # a member that isn't there
session = open_session("zone example.com")
session.call("delete K1").upper()
session.call(b"delete K1")  # bytes for a text
session.calls + 1
session.answers()  # a question that isn't there
status(["zone example.com"])["chain"]["safe"]
keyset.run(["zone example.com"])[0].upper()
keyset.runs(["zone example.com"])  # a function that isn't there
try:
    pass
except (Locked, Wait) as error:
    caught: Error = error
'''

BROKEN = f"""\
import os  # F401
from tables import *  # F403


def Named(lines):  # N802
    said = lines == None  # E711 F841
    return undefined  # F405


raise NotImplemented  # F901 {"of long lines" * 6}  # E501
"""


def ran(*words, **how):
    """What a tool writes of the faults that it finds."""
    try:
        done = subprocess.run(list(map(str, words)), capture_output=True, text=True, **how)
    except FileNotFoundError:
        raise Fault(f"{words[0]} is missing here, and is needed") from None
    if done.returncode not in (0, 1) or done.stderr:
        raise Fault(f"{words[0]} ends with {done.returncode}: {done.stdout}{done.stderr}")
    return done.stdout.splitlines()


def mypy(*words, **how):
    """What mypy writes: a line for each fault, and then how many files it has checked."""
    return ran("mypy", "--strict", "--no-pretty", *words, **how)


def installed(room):
    """The Python of a new environment that has the package in it."""
    place = room / "environment"
    venv.create(place, symlinks=True)
    python = place / "bin" / "python3"
    words = "import sysconfig; print(sysconfig.get_path('purelib'))"
    packages = Path(run(python, "-c", words).strip())
    shutil.copytree(PACKAGE, packages / "keyset")
    return python


@pytest.fixture(scope="module")
def cache(tmp_path_factory):
    """What mypy keeps from one run to the next."""
    return tmp_path_factory.mktemp("mypy")


def test_rules(say):
    """No Python of the repository breaks a rule."""
    assert ran("flake8", "--jobs", "1", cwd=TOP) == []
    say("mistakes: no Python breaks a rule of flake8")


def test_broken_rules():
    """flake8 names each fault of a program that breaks rules, and no other."""
    named = ran("flake8", "--format", "%(row)d %(code)s", "-", cwd=TOP, input=BROKEN)
    wanted = [f"{n} {code}" for n, line in enumerate(BROKEN.splitlines(), start=1)
              for code in re.findall(r"\b[EFN]\d+", line)]
    assert sorted(named) == sorted(wanted)


def test_types(cache, say):
    """No file of the command and of the package has a fault."""
    said = mypy("--cache-dir", cache, "--python-executable", sys.executable, cwd=TOP)
    clean = re.fullmatch(r"Success: no issues found in (\d+) source files", said[-1])
    assert clean, "\n".join(said)
    lacks = "" if find_spec("psycopg") else "; psycopg isn't here, so nothing is known of its types"
    say(f"mistakes: {clean[1]} files have no fault under --strict{lacks}")


def test_mistakes(cache, say, tmp_path):
    """mypy finds each mistake of a caller, and no other."""
    (tmp_path / "program.py").write_text(PROGRAM)
    python = installed(tmp_path)
    faults = mypy("--cache-dir", cache, "--python-executable", python, "program.py", cwd=tmp_path)
    places = (re.match(r"program\.py:(\d+): error", fault) for fault in faults)
    found = {int(place[1]) for place in places if place}
    wanted = {n for n, line in enumerate(PROGRAM.splitlines(), start=1) if "  # " in line}
    assert found == wanted, "\n".join(faults)
    say(f"mistakes: mypy finds {len(wanted)} mistakes of a caller")
