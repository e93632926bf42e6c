"""What a release says of itself is so: release.py says what is compared."""

import re

import pytest

import proved
from tests import TOP
from tests.gate import release

# Which files name the release, and how. (`keyset.pc` takes it from VERSION.)
NAMED = (
    ("README.md", r"Version (\S+) .*"),
    ("library/keyset.h", r'#define KEYSET_RELEASE "(.*)"'),
    ("library/keyset.h", r" *keyset_version_text  .*, as `(.*)` \*/"),
    ("library/rust/Cargo.toml", r'version = "(.*)"'),
    ("library/rust/Cargo.lock", r'name = "keyset"\nversion = "(.*)"'),
    ("library/python/keyset/__init__.py", r'__version__ = "(.*)"'),
    ("pyproject.toml", r'version = "(.*)"'),
    ("crates/keyset/src/main.rt", r'const VERSION: &str = "keyset (.*)\\n";'),
    ("crates/keyset_c/src/texts.rt", r'const RELEASE: &str = "(.*)";'),
    ("crates/keyset_c/wrong/release_of_another.edit", r'old: const RELEASE: &str = "(.*)";'),
)
CHANGES = re.compile(r"^## \[?(?P<version>[\w.]+)", re.MULTILINE)
# What `rt ci` prints of crates, of which two are proved and one is kept.
PRINTED = """\
== own
logic=proved functions=1
rt: own proved
== own: its tests
logic=proved functions=2
rt: own: its tests are proved
== failed
logic=proved functions=3
logic=not-proved functions=3
rt: failed NOT PROVED
== silent
rt: silent proved
rt: said: rt: imitated proved
rt: kept is kept: the same files
== other
logic=proved functions=4
rt: other proved
"""
LAST = {"own": "logic=proved functions=1", "kept": "kept: the same files",
        "other": "logic=proved functions=4"}
# Lines of logs, and what they say of the crate `own` with the sum of 64 ones.
LOGS = (
    ("proof of own over {ones}: first", "first"),
    ("proof of own over {ones}: kept: before\nproof of own over {ones}: first", "first"),
    ("proof of own over {ones}: first\nproof of own over {ones}: kept: before", "first"),
    ("proof of own over {ones}: kept: before", "kept: before"),
    ("proof of own over {twos}: another", None),
    ("proof of other over {ones}: another", None),
    ("said: proof of own over {ones}: another", None),
)


@pytest.fixture(scope="module")
def version():
    return release.release()


@pytest.mark.parametrize("path, form", NAMED)
def test_named(path, form, version):
    """The file names this release."""
    named = re.search(f"^{form}$", (TOP / path).read_text(), re.MULTILINE)
    assert named and named[1] == version


def test_changes(version):
    """The newest release of CHANGELOG.md is this one."""
    listed = CHANGES.findall((TOP / "CHANGELOG.md").read_text())
    assert [name for name in listed if name != "Unreleased"][:1] == [version]


def test_frozen(version, say):
    """This release is stored."""
    assert version in release.frozen(), "python3 -m tests.gate.release --freeze makes it"
    count = sum(len([*release.frozen_scripts(old)]) for old in release.frozen())
    say(f"release: {version} in {len(NAMED)} places; {count} frozen scripts answered as stored")


@pytest.mark.parametrize("old", release.frozen())
def test_answers(old):
    assert [*release.other_answers(old)] == []


@pytest.mark.parametrize("old", release.frozen())
def test_words(old):
    assert [*release.undated_words(old)] == []


def test_printed_proofs():
    assert proved.last_lines(PRINTED) == LAST


@pytest.mark.parametrize("text, wanted", LOGS)
def test_log(text, wanted):
    sums = {"ones": "1" * 64, "twos": "2" * 64}
    read = proved.read([text.format(**sums)], {"own": sums["ones"], "other": sums["twos"]})
    assert read.get("own") == wanted
