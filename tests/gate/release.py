"""What a release says of itself, which test_release.py compares without a build.

    python3 -m tests.gate.release --freeze    stores the scripts of a new release

- `VERSION` has the number of the release, and each other file that names it has the same.
- The newest release of `CHANGELOG.md` is this one.
- `tests/frozen/N/` has the scripts of release N with their answers, and they are answered the same
  today: here by the tables of `replay/`, and by the program and the library in
  `tests/library/test_library.py`.
- Each word of these scripts has its version in `tests/frozen/words.txt`, and that is N or earlier;
  and `docs/REFERENCE.md` has each word.
- What `rt ci` prints is taken for a proof only if it says so of the crate, and only for the files
  that it was made from.
"""

import sys

import compare
from make_sample import examples
from make_scripts import by_hand, read_scripts
from tables import KeySet, answers
from tests import TOP

FROZEN = TOP / "tests" / "frozen"
STORED = TOP / "replay" / "scripts.txt"


def release():
    return (TOP / "VERSION").read_text().rstrip("\n")


def order(version):
    """The order of versions: 1.10.0 comes after 1.9.0."""
    return [int(part) for part in version.split(".")]


def frozen():
    """The releases with frozen scripts."""
    return sorted((path.name for path in FROZEN.iterdir() if path.is_dir()), key=order)


def frozen_scripts(version):
    """The scripts of a release, by their names: each with the lines of its answers."""
    parts = (FROZEN / version / "scripts.txt").read_text().split("\n== ")[1:]
    for part in parts:
        name, _, rest = part.partition("\n")
        script, _, replies = rest.partition("-- answers\n")
        yield name, script, replies.rstrip("\n") + "\n"


def other_answers(version):
    names = []
    for name, script, replies in frozen_scripts(version):
        names.append(name)
        if answers(script.splitlines()) != replies.splitlines():
            yield f"the tables don't answer {name} as {version} did"
    rows = (FROZEN / version / "sources.txt").read_text().splitlines()
    if [row.partition(":")[0] for row in rows] != names:
        yield f"tests/frozen/{version}/sources.txt doesn't name each script"


def undated_words(version):
    since = dict(line.split() for line in (FROZEN / "words.txt").read_text().splitlines())
    page = (TOP / "docs" / "REFERENCE.md").read_text()
    yield from (f"docs/REFERENCE.md has no {word}" for word in since if f"`{word}" not in page)
    lines = (line for _, script, _ in frozen_scripts(version) for line in script.splitlines())
    for word in sorted({line.split(" ")[0] for line in lines}):
        brought = since.get(word)
        if brought is None:
            yield f"tests/frozen/words.txt doesn't say which version brought {word}"
        elif order(brought) > order(version):
            yield f"tests/frozen/words.txt says that {brought} brought {word}, which {version} has"


def source(name, lines):
    """Where a script comes from, and whose answers it has."""
    kept = "replay/by_hand.txt" if name in by_hand() else "replay/make_sample.py"
    if name in (paths := examples()):
        kept = str(paths[name].relative_to(TOP))
    keyset = KeySet()
    for number, line in enumerate(lines[1:], 1):
        if meant := compare.intended(keyset, line):
            return f"{name}: {kept}; the original before call {number}, then the tables: {meant[0]}"
        keyset.call(line)
    return f"{name}: {kept}; the original"


def freeze(version):
    """Stores the scripts of a release. What is stored is never written again."""
    folder = FROZEN / version
    folder.mkdir(parents=True)
    text = STORED.read_text()
    (folder / "scripts.txt").write_text(text)
    rows = [source(name, lines) for name, lines in read_scripts(text).items()]
    (folder / "sources.txt").write_text("".join(f"{row}\n" for row in rows))


def main():
    if sys.argv[1:] != ["--freeze"]:
        sys.exit("--freeze stores the scripts; pytest tests/gate/test_release.py compares")
    freeze(release())


if __name__ == "__main__":
    main()
