"""The files of the house, by their kind, and the text of their code."""

from __future__ import annotations

import re
from collections.abc import Iterator
from dataclasses import dataclass
from pathlib import Path

COMMENT_OR_TEXT = re.compile(r'//[^\n]*|"(?:\\.|[^"\\])*"', re.DOTALL)
# What `code` leaves of a comment.
COMMENT = '""'
# The head of a function, with its indent, as `rt fmt` lays it out.
HEAD = re.compile(r"( *)(?:pub(?:\(\w+\))? )?fn (\w+)")
# A match, or one function's answer to a match.
MATCH = re.compile(r"(?:\w+\()?match ")


def sources(crates: Path, ending: str, part: str) -> list[Path]:
    return sorted(crates.glob(f"*/{part}/**/*{ending}"))


def code(path: Path) -> str:
    """The text of a file without its comments and without what stands between quotes. Each line
    stays in its place."""
    return COMMENT_OR_TEXT.sub(lambda it: COMMENT + "\n" * it[0].count("\n"), path.read_text())


@dataclass(frozen=True)
class Body:
    """The lines of a function between its brackets, and the line that they begin in."""

    line: int
    indent: str
    lines: list[str]

    def is_one_match(self) -> bool:
        """Whether it is a match, or one function's answer to a match, and beside it there are at
        most comments."""
        at = len(self.indent) + 4
        said = (line for line in self.lines if line.strip() != COMMENT)
        first, *rest, last = (line[at:] for line in said if line[:at].isspace())
        return (MATCH.match(first) is not None and last in ("}", "})")
                and all(not line or line[0] == " " for line in rest))


def bodies(path: Path) -> Iterator[Body]:
    """The body of each function, if it has lines of its own."""
    lines = code(path).splitlines()
    for at, line in enumerate(lines):
        if head := HEAD.match(line):
            indent = head[1]
            begin = next((n for n in range(at, len(lines)) if is_of_head(lines[n], indent)), at)
            if lines[begin].endswith("{"):
                end = lines.index(indent + "}", begin)
                yield Body(begin + 2, indent, lines[begin + 1 : end])


def is_of_head(line: str, indent: str) -> bool:
    """Whether a line ends a function's head: it has the indent of the function's name, and the
    bracket of its body, if it has one. (Its clauses are indented further.)"""
    text = line[len(indent):]
    return text[:1] not in ("", " ") and text.endswith(("{", "}", ";"))
