"""A word of the command line, and its arguments, as values. (Dataclasses would make each start
slower, and so would annotations that are texts: the command starts at each tick of a timer.)"""

from argparse import ArgumentParser
from typing import Callable, Literal, NamedTuple, Optional, Sequence, Tuple, Union


class Argument(NamedTuple):
    """An argument, with what `add_argument` of argparse is given for it. What is None isn't."""

    name: str
    help: str
    action: Optional[Literal["append", "store_true"]] = None
    metavar: Union[str, Tuple[str, ...], None] = None
    nargs: Optional[Literal[3, "*", "+"]] = None
    type: Optional[Callable[[str], object]] = None
    choices: Optional[Sequence[object]] = None
    default: object = None

    def add_to(self, parser: ArgumentParser) -> None:
        given = {name: value for name, value in self._asdict().items() if value is not None}
        parser.add_argument(given.pop("name"), **given)


def flag(name: str, help: str) -> Argument:
    """An option that has no value."""
    return Argument(name, help, action="store_true")


def several(name: str, metavar: str, help: str) -> Argument:
    """An option that may be given several times."""
    return Argument(name, help, action="append", metavar=metavar)


class Word(NamedTuple):
    """A word: what it does, in a line and in a paragraph, and what it takes."""

    name: str
    says: str
    about: str
    arguments: Sequence[Argument]

    @property
    def description(self) -> str:
        return f"{self.says.capitalize()}.\n\n{self.about}"
