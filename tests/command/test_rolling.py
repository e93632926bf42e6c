"""Zones that roll by themselves: each check of rolling.py, by its name."""

import pytest

from tests.command import rolling


@pytest.mark.parametrize("name", [f"rolling.{name}" for name in rolling.CHECKS])
def test_rolling(name):
    if faults := [*rolling.CHECKS[name.partition(".")[2]]()]:
        pytest.fail("\n".join(faults), pytrace=False)
