"""The documents of an install. What they link to, and isn't installed, they only name."""

import os
import re

from layout import TOP, documents

# A link or a picture in Markdown.
LINK = re.compile(r"(?P<picture>!?)\[(?P<text>[^]]*)\]\((?P<target>[^)\s]+)\)")


def is_there(page, target, places):
    """Whether a page of an install may link to this: a section, a page of the web, or a file or
    folder of the install."""
    if target.startswith("#") or "://" in target:
        return True
    place = os.path.normpath(os.path.join(os.path.dirname(page), target.partition("#")[0]))
    return any(name == place or name.startswith(f"{place}/") for name in places)


def linked(page, places):
    """A page whose links all lead somewhere."""
    def kept(match):
        if is_there(page, match["target"], places):
            return match[0]
        return "" if match["picture"] else match["text"]

    return LINK.sub(kept, (TOP / page).read_text(encoding="utf-8"))


def write(folder):
    """Writes the pages that have links."""
    places = documents()
    for page in (place for place in places if place.endswith(".md")):
        copy = folder / page
        copy.parent.mkdir(parents=True, exist_ok=True)
        copy.write_text(linked(page, places), encoding="utf-8")
