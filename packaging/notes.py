"""The notes of a release: what its section of CHANGELOG says, and how README installs it."""

import re

from artefact import Fault, version
from layout import TOP

# A link within the repository, which a page by itself has no place for.
LINK = re.compile(r"\[(?P<text>[^]]*)\]\((?!https?:)[^)]*\)")
INSTALL = "Install a release"


def section(path, title):
    """The text below a heading of a page, up to the next one of its kind."""
    text = (TOP / path).read_text(encoding="utf-8")
    found = re.search(rf"^## {re.escape(title)}\b.*?\n(.*?)(?=^## |\Z)", text, re.M | re.S)
    if found is None:
        raise Fault(f"{path} has no section '{title}'")
    return LINK.sub(r"\g<text>", found[1]).strip()


def write(folder):
    """Writes NOTES.md, and gives its path."""
    parts = [f"# Vaqsider {version()}", section("CHANGELOG.md", version())]
    parts += [f"## {INSTALL}", section("README.md", INSTALL)]
    (folder / "NOTES.md").write_text("\n\n".join(parts) + "\n", encoding="utf-8")
    return folder / "NOTES.md"
