"""Each transcript, crash and check of the command by its name, as act.txt, crash.act or acts.rows,
in a folder of its own. (transcripts.py runs them side by side.)"""

from functools import partial

import pytest

from tests.command import acts, adaptors, ceremonies, imports, liars, outputs, transcripts
from tests.command.terminal import STORED, folder


def played(name):
    return transcripts.compare(False, name)[0]


def crashed(part):
    return transcripts.crash_everywhere(*part)[0]


def checked(check):
    with folder():
        return [*check()]


def name_of(check):
    return f"{check.__module__.rpartition('.')[2]}.{check.__name__}"


TESTS = {
    **{path.name: partial(played, path.name) for path in sorted(STORED.glob("*.txt"))},
    **{f"crash.{part[0]}": partial(crashed, part) for part in transcripts.CRASHES},
    **{name_of(check): partial(checked, check)
       for module in (acts, adaptors, ceremonies, imports, outputs) for check in module.CHECKS},
    name_of(liars.faults): liars.faults,
}


@pytest.mark.parametrize("name", TESTS)
def test_command(name):
    if faults := TESTS[name]():
        pytest.fail("\n".join(faults), pytrace=False)
