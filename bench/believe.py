"""Counts what a reader has to believe for a definition: the definition, those that it names, those
that they name, and so on. The types of the program count too. What the language's own library
defines doesn't.

    python3 bench/believe.py dnssec_run Plain.StaysSafe [--list]

It prints how many definitions there are, how many lines they have with their comments, and in how
many files they are. With `--list` it names them, by file.
"""

import re
import sys
from collections import defaultdict, namedtuple
from pathlib import Path

CRATES = Path(__file__).absolute().parent.parent / "crates"

# The first line of a definition of specs/, with the name that it defines.
HEAD = re.compile(r"^\s*(?:(?:pub|abbrev|unfoldable)\s+)*(?:record|data)?\s*([^\s:(]+)\s*[:(]")
# An import of names of one module, of a module, or of names of several modules.
USE = re.compile(
    r"use Rattle\.(\w+)\.specs(?:\.([\w.]+?))??(?:\.\{([^}]*)\}|\s+as\s+(\w+))"
)
# A name that isn't a field of another.
NAME = re.compile(r"(?<![\w.◌-])[A-Za-z_][\w-]*(?:\.[A-Za-z_][\w-]*)*")
TYPE = re.compile(r"^pub (?:enum|struct) (\w+)[^\n]*", re.M)
VARIANT = re.compile(r"^\s+([A-Z]\w*)", re.M)

# A piece of a file: how many lines it has, and its text without comments.
Piece = namedtuple("Piece", "path lines text")


def uncommented(text, mark):
    return "\n".join(line.split(mark)[0] for line in text.splitlines())


def imports(text):
    """What each name in a file means, and each word before a dot: by crate and module."""
    names, modules = {}, {}
    for crate, module, listed, alias in USE.findall(text):
        if alias:
            modules[alias] = (crate, module)
        for item in filter(None, re.split(r"[,\s]+", listed.replace(" as ", "="))):
            meant, _, called = item.partition("=")
            within, _, name = meant.rpartition(".")
            place = ".".join(filter(None, (module, within)))
            names[called or name] = (crate, place, name)
    return names, modules


class Definitions:
    def __init__(self):
        self.pieces = {}  # by crate, module and name; a type only by its name
        self.variants = {}  # what a variant of a `data` type is part of
        self.imports = {}
        for path in sorted(CRATES.glob("*/specs/**/*.antt")):
            self.read_specs(path)
        for path in sorted(CRATES.glob("*/src/**/*.rt")):
            self.read_types(path)

    def read_specs(self, path):
        crate, _, *module = path.relative_to(CRATES).with_suffix("").parts
        place = (crate, ".".join(module))
        text = path.read_text()
        self.imports[place] = imports(text)
        for block in re.split(r"\n\s*\n", text):
            lines = [line for line in block.splitlines() if not line.lstrip().startswith("module ")]
            code = [line for line in lines if not line.lstrip().startswith("--")]
            if not code or code[0].startswith(("use ", "pub mod ", "mod ")):
                continue
            head = HEAD.match(code[0])
            if not head:
                continue
            text = uncommented("\n".join(code), "--")
            counted = [line for line in lines if line.strip() and not line.startswith("-- ----")]
            self.pieces[(*place, head[1])] = Piece(path, len(counted), text)
            if re.match(r"\s*(pub )?data ", code[0]):
                of = (*place, head[1])
                self.variants.update({(*place, variant): of for variant in VARIANT.findall(text)})

    def read_types(self, path):
        text = path.read_text()
        for found in TYPE.finditer(text):
            above = text[: found.start()].splitlines()
            documented = 0
            while above and above.pop().startswith(("///", "#[")):
                documented += 1
            body = found[0]
            if body.endswith("{"):
                body = text[found.start() : text.index("\n}", found.start()) + 2]
            model = re.search(rf"^impl Model for {found[1]}\b.*?^}}", text, re.M | re.S)
            model = model[0] if model else ""
            lines = documented + len(body.splitlines()) + len(model.splitlines())
            self.pieces[found[1]] = Piece(path, lines, uncommented(body, "//") + "\n" + model)

    def meant(self, crate, module, name):
        """The definition or type that an import means, if it is one of the repository."""
        parts = module.split(".")
        if "declared" in parts:
            kind = parts[-2] if parts[-1] == "TheVariants" else parts[-1]
            return kind if kind in self.pieces else None
        what = self.variants.get((crate, module, name), (crate, module, name))
        return what if what in self.pieces else None

    def named_in_specs(self, crate, module, text):
        names, modules = self.imports[crate, module]
        for token in NAME.findall(text):
            first, _, rest = token.partition(".")
            if first in modules and rest:
                yield self.meant(*modules[first], rest.split(".")[0])
            elif first in names:
                yield self.meant(*names[first])
            else:
                yield self.meant(crate, module, first)

    def named_by_type(self, text):
        """The types of its fields, and the definitions that its model imports and names."""
        fields, _, model = text.partition("impl Model")
        for name in re.findall(r"\b[A-Z]\w*", VARIANT.sub("", fields)):
            yield name if name in self.pieces else None
        named = re.sub(r"ghost use[^;]*;", "", model)
        for name, meant in imports(model)[0].items():
            if re.search(rf"(?<![\w.]){re.escape(name)}(?!\w)", named):
                yield self.meant(*meant)

    def named_by(self, what):
        text = self.pieces[what].text
        if isinstance(what, str):
            return self.named_by_type(text)
        return self.named_in_specs(*what[:2], text)

    def below(self, what):
        """The definition and all that it rests on."""
        under, left = set(), [what]
        while left:
            one = left.pop()
            if one is not None and one not in under:
                under.add(one)
                left.extend(self.named_by(one))
        return under


def main():
    crate, path = sys.argv[1:3]
    module, _, name = path.rpartition(".")
    definitions = Definitions()
    if (crate, module, name) not in definitions.pieces:
        sys.exit(f"{crate} has no definition {path}")
    files = defaultdict(list)
    found = definitions.below((crate, module, name))
    for what in found:
        files[definitions.pieces[what].path].append(what if isinstance(what, str) else what[-1])
    if "--list" in sys.argv[3:]:
        for path, names in sorted(files.items()):
            print(f"{path.relative_to(CRATES)}: {', '.join(sorted(names))}")
    lines = sum(definitions.pieces[what].lines for what in found)
    print(f"{len(found)} definitions, {lines} lines, {len(files)} files")


main()
