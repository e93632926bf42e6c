"""Measures of the house, each with its limit: how large its rooms are, how long its files, what
stands twice, what a start passes, and what a word of the command imports.

    python3 bench/house.py [--top FOLDER] [--start PROGRAM] [--list]

FOLDER is a checkout. `--start` adds what an accepted start enters (walk.py), by gdb. PROGRAM has to
keep each function apart, as the one that `rt try` makes in crates/keyset, and that it takes away at
its end: copy it while it reads a long script. `--list` names the places of each row below the
table, as `FILE:LINE` if it is one.

Twins are the pairs of places that the command `duplicates` finds in code, definitions and proofs.
Modules of a crate go round in a circle if each uses the next by `crate` or `super`. A match over
rolls has two or more kinds of rolls in its own patterns. Tests are all code of tests, live, bench
and replay, and the product is that of crates/*/src, command, library and packaging. A word of the
command (starts.py) is run with what `make build` has made.

It ends with status 1, and says which, if a row is out of its limit.
"""

from __future__ import annotations

import argparse
import ast
import re
import shutil
import subprocess
import sys
import tempfile
from collections import Counter
from collections.abc import Callable, Iterable, Iterator
from dataclasses import dataclass, field
from pathlib import Path

sys.dont_write_bytecode = True
sys.path.append(str(Path(__file__).resolve().parent.parent))

import starts
import walk
from programs import Faults
from sources import bodies, code, sources
from tests.gate import type_names

# They belong to the gate, and not to the product.
GATE = {"callers", "dnssec_tests"}
# How long a body, a function of Python, a file and a line may be.
BODY, FUNCTION, FILE, LINE = 60, 25, 400, 100
CODE = {".rt", ".py", ".rs", ".c", ".h", ".go", ".sh", ".in"}
TESTS = ("tests/", "live/", "bench/", "replay/")
PRODUCT = ("command/", "library/", "packaging/")

WRITTEN = re.compile(r"\bfn\s+\w+")
MATCH = re.compile(r"\bmatch\b[^{};]*\{|\bmatches!\(")
ROLLS = re.compile(r"\benum RollType \{(.*?)\n\}", re.DOTALL)
COUNTED = re.compile(r"\bfunctions=(\d+)")
CRATE = re.compile(r"^(\w+)[^:#\n]*:", re.MULTILINE)
IMPORTS = ("use ", "pub use ", "mod ", "pub mod ")
USED = re.compile(r"\buse (crate|super)((?:::\w+)*)")


@dataclass(frozen=True)
class Figure:
    """A row: what is counted, how much of it there is and may be, and its places. There is no value
    if it can't be counted here."""

    name: str
    value: float | None
    limit: float | None = None
    places: list[str] = field(default_factory=list)

    def row(self) -> str:
        value, limit = ("" if it is None else f"{it:,}" for it in (self.value, self.limit))
        return f"| {self.name} | {value or 'not counted'} | {limit} |"

    def is_within(self) -> bool:
        return self.value is None or self.limit is None or self.value <= self.limit


def listed(name: str, places: Iterable[str], limit: float | None = 0) -> Figure:
    """The row that counts these places."""
    found = list(places)
    return Figure(name, len(found), limit, found)


@dataclass(frozen=True)
class House:
    """A checkout, and the program that a start is followed in."""

    top: Path
    program: Path | None

    @property
    def crates(self) -> Path:
        return self.top / "crates"

    def files(self, endings: Iterable[str]) -> Iterator[Path]:
        """What git has, by its ending."""
        asked = subprocess.run(["git", "ls-files"], cwd=self.top, capture_output=True, text=True,
                               check=True)
        yield from (self.top / it for it in asked.stdout.splitlines()
                    if Path(it).suffix in endings and (self.top / it).is_file())

    def place(self, path: Path, line: int | None = None) -> str:
        return str(path.relative_to(self.top)) + (f":{line}" if line else "")


def start(house: House) -> Iterator[Figure]:
    passed = walk.walk(house.crates, house.program) if house.program else []
    rooms = [module for module, _ in passed]
    modules, functions = Counter(module for module, _ in set(passed)), len(set(passed))
    changes = sum(one != next_one for one, next_one in zip(rooms, rooms[1:]))
    counts: list[int | None] = [functions, len(modules), changes]
    if not house.program:
        counts = [None, None, None]
    where = [f"{room}, {count}: " + ", ".join(sorted({name.rpartition("::")[2] for module, name
             in passed if module == room})) for room, count in sorted(modules.items())]
    yield Figure("functions that an accepted start enters", counts[0], 90, where)
    yield Figure("modules that they stand in", counts[1], 20)
    yield Figure("changes of module on its way", counts[2], 100)


def crates(house: House) -> Iterator[Figure]:
    named = CRATE.findall((house.top / "crates.txt").read_text())
    yield listed("crates of the product", (it for it in named if it not in GATE), 13)
    sizes = {crate: functions(house, crate) for crate in named}
    places = [f"{crate} {count}{checked(house.crates / crate)}" for crate, count in sizes.items()]
    largest = max(sizes, key=sizes.__getitem__)
    yield Figure(f"functions of the largest crate, {largest}", sizes[largest], None, places)


def functions(house: House, crate: str) -> int:
    return sum(len(WRITTEN.findall(code(path)))
               for path in sources(house.crates, ".rt", "src")
               if path.is_relative_to(house.crates / crate))


def checked(crate: Path) -> str:
    """How many functions the last kept log of a check counts, if there is one."""
    logs = sorted(crate.glob("out/*.log"), key=lambda path: path.stat().st_mtime, reverse=True)
    counts = (COUNTED.findall(log.read_text(errors="replace")) for log in logs)
    found = next((of for of in counts if of), None)
    return f" (checked {found[-1]})" if found else ""


def circles(house: House) -> Iterator[Figure]:
    uses = {path: used(path) for path in sources(house.crates, ".rt", "src")}
    yield listed("modules that go round in a circle",
                 (house.place(path) for path in uses if path in reached(path, uses)))


def used(path: Path) -> set[Path]:
    """The files of the modules that a file of the same crate uses, by `crate` or by `super`."""
    src = next(it for it in path.parents if it.name == "src")
    found = set()
    for begin, rest in USED.findall(code(path)):
        names = [*(path.relative_to(src).parts[:-1] if begin == "super" else ()),
                 *rest.split("::")[1:]]
        files = (src.joinpath(*names[:count]).with_suffix(".rt")
                 for count in range(len(names), 0, -1))
        found.add(next(filter(Path.is_file, files), path))
    return found - {path}


def reached(path: Path, uses: dict[Path, set[Path]]) -> set[Path]:
    """All that is used by what a file uses."""
    found: set[Path] = set()
    new = uses[path]
    while new:
        found |= new
        new = {it for one in new for it in uses[one]} - found
    return found


def long_bodies(house: House) -> Iterator[Figure]:
    yield listed(
        f"bodies of Rattle over {BODY} lines that are no one match",
        (house.place(path, body.line) for path in sources(house.crates, ".rt", "src")
         for body in bodies(path) if len(body.lines) > BODY and not body.is_one_match()),
    )


def patterns(text: str, begin: int) -> list[str]:
    """The patterns of the match whose arms begin after this bracket."""
    arms: list[str] = []
    depth, in_arm, last = 0, False, begin + 1
    is_macro = text[begin] == "("
    for at in range(begin, len(text)):
        depth += (text[at] in "([{") - (text[at] in ")]}")
        if depth == 0:
            return arms + [text[last:at]] if is_macro else arms
        if depth == 1 and not in_arm and text.startswith("=>", at):
            arms.append(text[last:at])
            in_arm = True
        elif depth == 1 and (text[at] == "," or text[at] == "}" and in_arm):
            in_arm, last = False, at + 1
    return arms


def matches_over_rolls(house: House) -> Iterator[Figure]:
    found = ROLLS.search(code(house.crates / "dnssec_key/src/roll.rt"))
    kinds = re.findall(r"\w+", found[1]) if found else []
    kind = re.compile(rf"\b(?:{'|'.join(kinds)})\b")
    places = []
    for path in sources(house.crates, ".rt", "src"):
        text = code(path) if path.relative_to(house.crates).parts[0] not in GATE else ""
        for match in MATCH.finditer(text):
            if len(set(kind.findall(" ".join(patterns(text, match.end() - 1))))) > 1:
                places.append(house.place(path, text.count("\n", 0, match.start()) + 1))
    yield listed("matches over rolls", places, None)


def proofs(house: House) -> Iterator[Figure]:
    texts = [path.read_text().splitlines() for path in sources(house.crates, ".antt", "proofs")]
    lines = [line for text in texts for line in text]
    yield Figure("lines of proofs", len(lines))
    yield Figure("those without imports", sum(not line.startswith(IMPORTS) for line in lines))
    yield Figure("rows `= refl` of proofs", sum(line.rstrip().endswith("= refl") for line in lines))


def twins(house: House) -> Iterator[Figure]:
    name, limit = "twins of code, definitions and proofs", 40
    if not shutil.which("duplicates"):
        yield Figure(name, None, limit)
        return
    with tempfile.TemporaryDirectory() as folder:
        kinds = ((".rt", "src"), (".antt", "specs"), (".antt", "proofs"))
        for path in (path for kind in kinds for path in sources(house.crates, *kind)):
            # (It reads files by their endings, and passes over comments that begin with //.)
            copy = Path(folder, path.relative_to(house.crates)).with_suffix(f"{path.suffix}.rs")
            copy.parent.mkdir(parents=True, exist_ok=True)
            copy.write_text(re.sub(r"(?m)^(\s*)-- ", r"\1// ", path.read_text()))
        asked = ["duplicates", "--repo", folder, "--most", "200", "--seconds", "600"]
        said, *rows = subprocess.run(asked, capture_output=True, text=True).stdout.splitlines()
    pairs = re.match(r"(\d+) pairs? of places", said)
    yield Figure(name, int(pairs[1]) if pairs else 0, limit, rows)


def types(house: House) -> Iterator[Figure]:
    yield listed("names that two types have", type_names.repeated(house.crates))


def lengths(house: House) -> Iterator[Figure]:
    """Of files, of their lines, and of Python's functions."""
    long_files, long_lines, long_functions = [], [], []
    for path in house.files(CODE | {".antt"}):
        text = path.read_text()
        lines = text.splitlines()
        if len(lines) > FILE:
            long_files.append(f"{house.place(path)} {len(lines)}")
        long_lines += [house.place(path, number) for number, line in enumerate(lines, start=1)
                       if len(line) > LINE]
        if path.suffix == ".py":
            long_functions += [house.place(path, line) for line in long_in(text)]
    yield listed(f"files of code and proofs over {FILE} lines", long_files)
    yield listed(f"lines of these over {LINE} columns", long_lines)
    yield listed(f"functions of Python over {FUNCTION} lines", long_functions)


def long_in(text: str) -> Iterator[int]:
    """The lines at which long functions of Python begin."""
    for node in ast.walk(ast.parse(text)):
        if isinstance(node, (ast.FunctionDef, ast.AsyncFunctionDef)):
            if (node.end_lineno or 0) - node.lineno >= FUNCTION:
                yield node.lineno


def tests(house: House) -> Iterator[Figure]:
    lines: Counter[str] = Counter()
    for path in house.files(CODE):
        place = house.place(path)
        is_product = place.startswith(PRODUCT) or re.match(r"crates/\w+/src/", place)
        kind = "product" if is_product else "tests" if place.startswith(TESTS) else "others"
        lines[kind] += len(path.read_text().splitlines())
    yield Figure("lines of tests for a line of the product",
                 round(lines["tests"] / lines["product"], 3), 0.7,
                 [f"{kind}: {count:,}" for kind, count in lines.items()])


MEASURES: list[Callable[[House], Iterator[Figure]]] = [
    start, long_bodies, crates, circles, twins, proofs, matches_over_rolls, types, lengths, tests,
]


def show_starts(house: House, faults: Faults) -> None:
    """What each word of the command imports."""
    print("\n| Word | Modules | Of ours | That ask servers | Milliseconds |\n|---|---|---|---|---|")
    for found in starts.starts(house.top):
        print(found.row(), flush=True)
        if found.word in starts.ASK_NOBODY and (askers := found.of(starts.ASKERS)):
            faults.expect(False, found.word, f"it imports {', '.join(askers)}")


def main() -> int:
    parser = argparse.ArgumentParser()
    parser.add_argument("--top", default=Path(__file__).parent.parent, type=Path)
    parser.add_argument("--start", metavar="PROGRAM", type=Path)
    parser.add_argument("--list", action="store_true")
    given = parser.parse_args()
    house = House(given.top.resolve(), given.start and given.start.resolve())
    faults, figures = Faults(), []
    print("| What | Figure | Limit |\n|---|---|---|")
    for figure in (figure for measure in MEASURES for figure in measure(house)):
        print(figure.row(), flush=True)
        figures.append(figure)
        faults.expect(figure.is_within(), figure.name, f"{figure.value}, not {figure.limit}")
    show_starts(house, faults)
    for figure in figures if given.list else []:
        if figure.places:
            print(f"\n{figure.name}:", *figure.places, sep="\n  ")
    return faults.status()


if __name__ == "__main__":
    sys.exit(main())
