"""What pytest gives all tests. `pytest tests -k NAME` runs a test by its name."""

from collections import Counter

import pytest

from tests.gate.tools import CRATES, PROGRAM

SAID = pytest.StashKey()


def pytest_configure(config):
    config.stash[SAID] = []


def pytest_terminal_summary(terminalreporter, config):
    for line in config.stash[SAID]:
        terminalreporter.write_line(line)


@pytest.fixture(scope="session")
def say(pytestconfig):
    """Prints a line at the end: the gate compares its numbers with those of docs/tests.txt."""
    return pytestconfig.stash[SAID].append


@pytest.fixture(scope="module")
def counts():
    """What the tests of a module have counted."""
    return Counter()


@pytest.fixture(scope="session")
def program():
    """The program keyset, which `make build` proves."""
    return built(PROGRAM)


@pytest.fixture(scope="session")
def callers():
    """The program callers, which `make memory` proves."""
    return built(CRATES / "callers" / "out" / "callers")


def built(path):
    if not path.is_file():
        pytest.fail(f"{path} is missing: it has to be built first", pytrace=False)
    return path
