"""What the documents print is as it stands in its sources: docs.py says what is compared."""

import pytest

from make_sample import examples
from tables import answers
from tests import TOP
from tests.gate import contracts, docs, pictures, type_names

EXAMPLES = examples()


@pytest.fixture(scope="module")
def found(counts, say):
    """Counts what is compared."""
    yield counts
    say(f"docs: {counts['examples']} examples, {counts['blocks']} blocks, {counts['quoted']} quoted"
        f" answers and {counts['links']} links are as they stand")


@pytest.fixture(scope="module")
def known():
    """The answers that the examples have."""
    files = (path.with_suffix(".answers") for path in EXAMPLES.values())
    return {line for file in files if file.is_file() for line in file.read_text().splitlines()}


@pytest.mark.parametrize("name", EXAMPLES)
def test_example(name, found):
    """The tables give the answers that stand beside a script."""
    found["examples"] += 1
    script = EXAMPLES[name]
    beside = script.with_suffix(".answers").read_text()
    assert beside.splitlines() == answers(script.read_text().splitlines())


def test_answers_have_scripts():
    beside = {path.with_suffix(".script") for path in (TOP / "examples").rglob("*.answers")}
    assert [path for path in beside if not path.is_file()] == []


def test_stored_examples():
    """The scripts that are replayed have the examples as they are."""
    assert docs.STORED.read_text() == docs.stored_text(EXAMPLES)


@pytest.mark.parametrize("page", docs.documents(), ids=lambda path: str(path.relative_to(TOP)))
def test_page(page, known, found):
    document = docs.Document(page, known, wrong := [])
    document.walk()
    found["blocks"] += document.blocks
    found["quoted"] += document.quoted
    found["links"] += docs.check_links(page, wrong)
    assert wrong == []


@pytest.mark.parametrize("differing", [pictures.differing, contracts.differing,
                                       type_names.repeated], ids=lambda it: it.__module__)
def test_written(differing):
    """What is written of the sources is as they are."""
    assert [*differing()] == []


def test_names_of_proof():
    assert [*docs.unknown_names(TOP / "docs" / "PROOF.md")] == []
