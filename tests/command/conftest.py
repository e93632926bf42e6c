"""The world in which pytest runs the tests of the command."""

import os
import sys

import pytest

from tests.command import answering, rolling
from tests.command.terminal import STORED


@pytest.fixture(scope="session", autouse=True)
def world():
    """The stubs of signers are found first, and only servers of the tests answer."""
    os.environ["PATH"] = f"{STORED / 'bin'}:{os.environ['PATH']}"
    os.environ["PYTHON"] = sys.executable
    answering.install()


def pytest_terminal_summary(terminalreporter):
    """Prints what zones that rolled by themselves did: the gate compares these numbers."""
    if any(rolling.COUNTS.values()):
        terminalreporter.write_line(f"rolling: {rolling.numbers()}")
