"""The words of the command line: what `--help` says of each, and which arguments it takes."""

from __future__ import annotations

from importlib import import_module
from typing import Iterable

from .word import Word

# The module of each word, in the order of `--help`. Only that of the word that is called is loaded.
MODULES = {
    "init": "begin",
    "import": "begin",
    "call": "calls",
    "status": "calls",
    "check": "calls",
    "plan": "ahead",
    "draw": "ahead",
    "act": "publish",
    "ceremony": "publish",
    "watch": "look",
    "zones": "look",
    "policy": "itself",
    "tick": "itself",
    "store": "itself",
    "roll": "itself",
    "next": "itself",
}


def word(name: str) -> Word:
    words: Iterable[Word] = import_module(f".{MODULES[name]}", __name__).WORDS
    return next(it for it in words if it.name == name)
