#!/usr/bin/env python3
"""Makes the manual pages from the documents.

    packaging/man.py FOLDER    writes keyset.1, keyset_status.1, keyset_notes.1, vaqsider.1 and
                               keyset.3

A page of section 1 has the documents that are named below, without the sections that only a reader
of the repository needs. It reads only the Markdown that these documents use, and stops at any
other. keyset.3 has the comments and the declarations of the header.
"""

import argparse
import contextlib
import io
import json
import os
import re
import sys
from pathlib import Path

sys.dont_write_bytecode = True
TOP = Path(__file__).resolve().parent.parent

# Each page: what the program does, how it is called, and the documents of the page. Of a document
# with sections after `#` it has only these.
PAGES = {
    "keyset": (
        "answer a script of a DNSSEC key set",
        "keyset [WORD] < SCRIPT",
        ["crates/keyset/README.md", "docs/REFERENCE.md#Scripts#Lines#Answers#Keys"],
    ),
    "keyset_status": (
        "show where the keys and rolls of a DNSSEC zone are, as JSON",
        "keyset status < SCRIPT",
        ["docs/REFERENCE.md#The status"],
    ),
    "keyset_notes": (
        "work out the reports that are due, by a script and notes",
        '{ cat SCRIPT; echo; cat NOTES; echo "due $(date +%s)"; } | keyset notes',
        ["docs/REFERENCE.md#Notes"],
    ),
    "vaqsider": (
        "steer the keys and rolls of DNSSEC zones",
        "vaqsider WORD [OPTION ..]",
        ["command/README.md"],
    ),
}
BULLET = "\\(bu"
# Sections that have no place in a manual.
LEFT_OUT = {"Building"}

RELEASED = re.compile(r"^## (?P<version>\d[\d.]*) - (?P<date>\d{4}-\d\d-\d\d)$", re.MULTILINE)
# What a line of text may have in it: code, a picture, a link, bold text.
INLINE = re.compile(
    r"`(?P<code>[^`]+)`|!\[[^]]*\]\([^)]*\)"
    r"|\[(?P<text>[^]]*)\]\((?P<target>[^)\s]*)\)|\*\*(?P<bold>[^*]+)\*\*"
)
ITEM = re.compile(r"(?P<mark>-|\d+\.) +(?P<text>.*)")
# An item of a table of contents.
CONTENTS = re.compile(r"\[[^]]*\]\(#")

# A part of the header: a comment, and what is declared below it.
PART = re.compile(r"(/\*)(.*?)\*/\n(.*?)(?=\n/\*|\Z)", re.DOTALL)
FUNCTION = re.compile(r"\b(keyset_\w+)\(")
TYPE = re.compile(r"^struct (\w+) \{", re.MULTILINE)
# What stands round the declarations for the preprocessor.
BORDER = re.compile(r'^#(?:ifn?def|endif|include)\b.*\n?|^#define KEYSET_H\n|^extern "C" \{\n|^\}$',
                    re.MULTILINE)
# A row of a table in a comment.
TABULAR = re.compile(r"^\w[\w ,]*? {2,}\S", re.MULTILINE)


class TextFault(Exception):
    pass


def plain(text):
    """Text as roff reads it: no byte of it is a command."""
    text = text.replace("\\", "\\e").replace("-", "\\-").replace("'", "\\(aq")
    text = text.replace("`", "\\(ga").replace("^", "\\(ha").replace("~", "\\(ti")
    return "".join(c if c.isascii() else f"\\[u{ord(c):04X}]" for c in text)


def inline(text):
    """A line of text with its fonts."""
    made, end = [], 0
    for match in INLINE.finditer(text):
        made.append(plain(text[end : match.start()]))
        end = match.end()
        if match["code"] or match["bold"]:
            made.append(f"\\fB{plain(match['code'] or match['bold'])}\\fR")
        elif match["text"]:
            made.append(inline(match["text"]))
            if "://" in match["target"]:
                made.append(plain(f" <{match['target']}>"))
    return "".join([*made, plain(text[end:])])


def filled(text):
    """A paragraph as a line, which roff doesn't take for a command."""
    line = inline(" ".join(text.split()))
    return f"\\&{line}" if line.startswith((".", "'")) else line


def verbatim(lines):
    yield ".PP"
    yield ".RS 4"
    yield ".nf"
    yield from (f"\\&{plain(line)}" if line.startswith(".") else plain(line) for line in lines)
    yield ".fi"
    yield ".RE"


def table(lines):
    """A table as a list: the first column with the second below it, then the others, each after
    its head."""
    head, _, *rows = ([cell.strip() for cell in line.strip("|").split("|")] for line in lines)
    for first, second, *others in rows:
        more = [f"{name}: {cell}" for name, cell in zip(head[2:], others) if cell]
        yield ".TP"
        yield filled(first or "-")
        yield filled("; ".join([second, *more]))


def items(lines):
    """The items of a list, each as one line after its mark."""
    found = []
    for line in lines:
        if match := ITEM.fullmatch(line):
            found.append([match["mark"], match["text"]])
        elif line.startswith("  ") and found:
            found[-1][1] += f" {line.strip()}"
        else:
            raise TextFault(f"neither an item nor its text: {line}")
    return found


def listed(lines):
    for mark, text in items(lines):
        if not CONTENTS.match(text):
            yield f".IP {mark.replace('-', BULLET)} 4"
            yield filled(text)


def blocks(text):
    """The blocks of a document: lines with no empty line between them, or those in a fence."""
    block, lines = [], iter(text.splitlines())
    for line in lines:
        is_fence, is_heading = line.startswith("```"), line.startswith("#")
        if (not line or is_fence or is_heading) and block:
            yield block
            block = []
        if is_fence:
            inside = [line]
            for line in lines:
                if line == "```":
                    break
                inside.append(line)
            yield inside
        elif is_heading:
            yield [line]
        elif line:
            block.append(line)
    if block:
        yield block


def body(document, is_first):
    """A document, or sections of it. The title of the first one is that of the page."""
    path, *sections = document.split("#")
    is_left_out = bool(sections)
    for block in blocks((TOP / path).read_text(encoding="utf-8")):
        marks, _, title = block[0].partition(" ")
        if marks.startswith("#"):
            if sections and len(marks) < 3:
                is_left_out = title not in sections
            elif not sections:
                is_left_out = title in LEFT_OUT
            is_title = is_first and (marks == "#" or sections[:1] == [title])
            if not is_left_out and not is_title:
                big = len(marks) < 3
                yield f".{'SH' if big else 'SS'} {inline(title.upper() if big else title)}"
        elif not is_left_out:
            yield from shown(block)


def shown(block):
    """A block that is no heading."""
    first = block[0]
    if first.startswith("```"):
        yield from verbatim(block[1:])
    elif first.startswith("    "):
        yield from verbatim([line[4:] for line in block])
    elif first.startswith("|"):
        yield from table(block)
    elif ITEM.fullmatch(first):
        yield from listed(block)
    elif INLINE.sub("", " ".join(block)).strip():
        yield ".PP"
        yield filled(" ".join(block))


def words():
    """What the command prints as its help: of all, with the exit statuses, and of each word."""
    sys.path.insert(0, str(TOP / "command"))
    from vaqsider.cli import main
    from vaqsider.parsers import MODULES

    os.environ["COLUMNS"] = "76"
    yield ".SH WORDS AND OPTIONS"
    for title, *word in [("All words, and the exit statuses",), *zip(MODULES, MODULES)]:
        printed = io.StringIO()
        with contextlib.redirect_stdout(printed), contextlib.suppress(SystemExit):
            main([*word, "--help"])
        yield f".SS {plain(title)}"
        yield from verbatim(printed.getvalue().splitlines())


# What the values of the status are that its schema describes by their form only.
FORMS = {"second": "a second", "stamp": "a second, or null", "references": "references",
         "rollName": "a roll", "rollNames": "rolls", "actions": "actions"}


def members():
    """The members of the status, as its schema describes them."""
    schema = json.loads((TOP / "docs" / "status.schema.json").read_text(encoding="utf-8"))
    parts = {"the status": schema} | {f"an object of {it}": schema["$defs"][of] for it, of in (
        ("keys", "key"), ("roles", "role"), ("rolls", "roll"), ("ended", "ended"))}
    for title, part in parts.items():
        yield f".SS Members of {title}"
        for name, value in part["properties"].items():
            form = FORMS.get(value.get("$ref", "").rpartition("/")[2], value.get("type", ""))
            yield ".TP"
            yield f"\\fB{plain(name)}\\fR"
            says = [", ".join(value.get("enum", ())), value.get("description", "")]
            yield filled(": ".join(filter(None, says)) or form)


def head(name, section, does, called):
    """How a page begins: its title, its name, and how it is called."""
    version = (TOP / "VERSION").read_text().strip()
    dates = {m["version"]: m["date"] for m in RELEASED.finditer((TOP / "CHANGELOG.md").read_text())}
    yield f'.TH {name.upper()} {section} {dates[version]} "vaqsider {version}"'
    yield ".SH NAME"
    yield f"{plain(name)} \\- {plain(does)}"
    yield ".SH SYNOPSIS"
    yield from verbatim(called)
    yield ".SH DESCRIPTION"


def page(name):
    """A page of section 1 as a text."""
    does, called, documents = PAGES[name]
    lines = [*head(name, 1, does, [called])]
    for number, document in enumerate(documents):
        lines += body(document, number == 0)
    if name == "vaqsider":
        lines += words()
    if name == "keyset_status":
        lines += members()
    others = ", ".join(f"\\fB{plain(other)}\\fR(1)" for other in PAGES if other != name)
    return "\n".join([*lines, ".SH SEE ALSO", others]) + "\n"


# ---- the page of the library


def comment(text):
    """A comment of the header: tables as they stand, and its other paragraphs filled."""
    lines = [line.removeprefix("   ").rstrip() for line in text.strip().splitlines()]
    for paragraph in "\n".join(lines).split("\n\n"):
        if TABULAR.search(paragraph):
            yield from verbatim(paragraph.splitlines())
        else:
            yield ".PP"
            yield filled(paragraph)


def declared(code):
    """What the header declares below a comment, under the names of its functions."""
    names = FUNCTION.findall(code) or TYPE.findall(code)
    if names:
        yield f".SS {plain(', '.join(names))}"
    yield from verbatim(code.strip().splitlines())


def library_page():
    """keyset.3 as a text."""
    header = (TOP / "library" / "keyset.h").read_text(encoding="utf-8")
    (_, first, _), *others = PART.findall(header)
    called = ["#include <keyset.h>", "", "cc CALLER.c -lkeyset"]
    lines = [*head("keyset", 3, "a proved DNSSEC key set for C", called), *comment(first)]
    lines.append(".SH INTERFACE")
    for _, text, code in others:
        code = BORDER.sub("", code)
        if code.strip():
            lines += declared(code)
        lines += comment(text)
    see = ", ".join(f"\\fB{plain(name)}\\fR(1)" for name in PAGES)
    return "\n".join([*lines, ".SH SEE ALSO", see]) + "\n"


def write(folder):
    """Writes all pages, and gives their paths."""
    folder.mkdir(parents=True, exist_ok=True)
    texts = {f"{name}.1": page(name) for name in PAGES} | {"keyset.3": library_page()}
    for name, text in texts.items():
        (folder / name).write_text(text, encoding="ascii")
    return [folder / name for name in texts]


if __name__ == "__main__":
    parser = argparse.ArgumentParser(description=__doc__.partition("\n")[0])
    parser.add_argument("folder", metavar="FOLDER", type=Path, help="where to write the pages")
    write(parser.parse_args().folder)
