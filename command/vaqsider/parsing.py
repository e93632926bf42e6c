"""How a command line is read."""

from __future__ import annotations

import argparse
import os
import sys
from argparse import Namespace
from typing import NoReturn, Sequence

from . import parsers
from .arguments import not_utf8
from .errors import STATUSES, USAGE
from .parsers.word import Argument, Word

PROGRAM = "vaqsider"
AS_IT_IS = argparse.RawDescriptionHelpFormatter
JSON = Argument("--json", action="store_true", help="print JSON")


class VersionOption(argparse.Action):
    """Prints the release of the key set."""

    def __call__(self, *_: object) -> None:
        import keyset

        print(f"vaqsider {keyset.__version__}")
        sys.exit()


class Parser(argparse.ArgumentParser):
    """A parser that ends with the status that the table gives for a wrong command line."""

    def error(self, message: str) -> NoReturn:
        self.exit(USAGE, f"{self.prog}: {message}; '{self.prog} --help' shows what it takes\n")


def _of_word(word: Word, parser: Parser) -> Parser:
    """The parser of a word, with what it takes."""
    parser.description, parser.formatter_class = word.description, AS_IT_IS
    for argument in (*word.arguments, JSON):
        argument.add_to(parser)
    return parser


def _of_all() -> Parser:
    """The parser of all words."""
    top = Parser(
        prog=PROGRAM,
        description="Keys and rolls of DNSSEC zones, by a proved key set: the library for C,\n"
        "or the program if the library isn't there.",
        epilog=_epilog(),
        formatter_class=AS_IT_IS,
    )
    top.add_argument("--version", action=VersionOption, nargs=0, help="print the version")
    words = top.add_subparsers(dest="word", required=True, metavar="WORD", parser_class=Parser)
    for word in map(parsers.word, parsers.MODULES):
        _of_word(word, words.add_parser(word.name, help=word.says))
    return top


def _epilog() -> str:
    from keyset.lines import FORMS

    statuses = "\n".join(f"  {number:3}  {says}" for number, (says, _) in STATUSES.items())
    forms = "\n".join(f"  {word} {form}" for word, form in FORMS.items())
    return f"exit statuses:\n{statuses}\n\nlines of a script:\n{forms}"


def parsed(given: Sequence[str]) -> Namespace:
    """The arguments of a command line. Files may stand before and after options."""
    if (wrong := not_utf8(given)) is not None:
        _refuse(f"an argument isn't UTF-8: {os.fsencode(wrong)!r}")
    args, more = _read(given)
    files = vars(args).get("KEYFILE", vars(args).get("SCRIPT"))
    options = [it for it in more[: more.index("--") if "--" in more else None] if it[:1] == "-"]
    if more and (options or not isinstance(files, list)):
        _refuse(f"unrecognized arguments: {' '.join(options or more)}")
    if more:
        files += (it for it in more if it != "--")
    return args


def _read(given: Sequence[str]) -> tuple[Namespace, list[str]]:
    """The arguments, and those that no parser knows. If the line begins with a word, only its
    parser is made: the command starts at each tick of a timer."""
    if not given or given[0] not in parsers.MODULES:
        return _of_all().parse_known_args(given)
    word = parsers.word(given[0])
    parser = _of_word(word, Parser(prog=f"{PROGRAM} {word.name}"))
    return parser.parse_known_args(given[1:], Namespace(word=word.name))


def _refuse(why: str) -> NoReturn:
    Parser(prog=PROGRAM).error(why)
