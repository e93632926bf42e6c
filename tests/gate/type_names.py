"""Lists the types of the crates that share a name with another one: a reader takes two types of one
name for one thing. `tests/gate/test_docs.py` fails if there are any.

    python3 -m tests.gate.type_names    prints each name that several types have, with their files
"""

import re
import sys
from collections import defaultdict

from tests import TOP

CRATES = TOP / "crates"
# A type that stands in no other one. (Traits of std fix the names of those within an `impl`.)
TYPE = re.compile(r"^(?:pub(?:\(\w+\))? )?(?:struct|enum|union|trait|type) (\w+)", re.MULTILINE)


def places(crates=CRATES):
    """The files of each type, by its name."""
    found = defaultdict(list)
    for path in sorted(crates.glob("*/src/**/*.rt")):
        for name in TYPE.findall(path.read_text()):
            found[name].append(str(path.relative_to(crates)))
    return found


def repeated(crates=CRATES):
    """A line for each name that several types have."""
    for name, files in sorted(places(crates).items()):
        if len(files) > 1:
            yield f"types of one name, {name}: {', '.join(files)}"


def main():
    found = [*repeated()]
    print(*found, f"{len(places()):,} names of types, {len(found)} of several types", sep="\n")
    return bool(found)


if __name__ == "__main__":
    sys.exit(main())
