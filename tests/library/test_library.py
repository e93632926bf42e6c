"""The tests of library.py, each by its name: of the library in the folder that LIBRARY names, or in
library/out, as `make lib` leaves it."""

import os
from concurrent.futures import ThreadPoolExecutor
from pathlib import Path

import pytest

from tests import TOP
from tests.library import library, programs, scripts_in_python, session_notes


@pytest.fixture(scope="module")
def folder():
    found = Path(os.environ.get("LIBRARY", TOP / "library" / "out")).resolve()
    if not (found / "lib").is_dir():
        pytest.fail(f"{found} has no library: make lib", pytrace=False)
    return found


@pytest.fixture(scope="module")
def room(tmp_path_factory):
    """Where these tests build programs."""
    return tmp_path_factory.mktemp("library")


@pytest.fixture(scope="module")
def keyset(folder):
    """The package for Python, with this library."""
    return scripts_in_python.python_module(folder)


@pytest.fixture(scope="module")
def questions():
    return session_notes.questions_of_operators()


@pytest.fixture(scope="module")
def program(folder, room):
    """The program in C over the library."""
    return programs.build(folder, room)


@pytest.fixture(scope="module", autouse=True)
def longest(request, folder, room):
    """Tests that run beside the others, if they are asked for."""
    asked = {item.name.partition("[")[2].rstrip("]") for item in request.session.items}
    with ThreadPoolExecutor() as pool:
        yield {test: pool.submit(library.line_of, test, {"folder": folder, "room": room}.get)
               for test in library.LONGEST if name_of(test) in asked}


def name_of(test):
    return f"{test.__module__.rpartition('.')[2]}.{test.__name__}"


def test_exports(folder):
    library.expect_exports(folder)


def test_links(folder):
    library.expect_no_links(folder)


@pytest.mark.parametrize("test", library.TESTS, ids=name_of)
def test_library(test, request, say):
    say(library.line_of(test, request.getfixturevalue))


@pytest.mark.parametrize("test", library.LONGEST, ids=name_of)
def test_beside(test, longest, say):
    say(longest[test].result())
