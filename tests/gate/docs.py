"""Compares what the documents print with its sources, without a build (test_docs.py).

    python3 -m tests.gate.docs --write    writes the answers, the stored examples and the blocks
                                          again

A fenced block that shows a script, answers or a source names its file after the language:

    ```text examples/ksk-roll.script 10- answered

This block has the lines from 10 on, each call with its answer after it, and at the end the lines of
the published sets and of the chain. Without `answered` a block has only the lines, and without a
range all of them. A block of `json` has the value of its file, on other lines. A block of
docs/courses.json has the commands of the roll whose name follows, and one of a transcript of
tests/command the lines of some ranges, without the moment of a command.

A line `<!--course:NAME-->` has the steps of that course below it, up to an empty line.

What is compared:

- each block and each course with its file; a block that names none may show neither calls nor
  answers;
- each answer that a text quotes, as `chain safe`: it has to be an answer of an example; after a
  script that is shown without answers it has to be an answer of that script;
- each `NAME.answers` with what `replay/tables.py` answers to `NAME.script`, and both with the
  script of this name in `replay/scripts.txt`: so the gate compares them with the program;
- each link with the file and the heading that it leads to;
- each name in docs/PROOF.md with the crates: some code or definition has it;
- the pictures of `tests/gate/pictures.py`, and the index of `tests/gate/contracts.py`;
- the types of the crates: each has a name of its own (`tests/gate/type_names.py`).
"""

import json
import re
import sys

from make_sample import examples
from tables import answers
from tests import TOP
from tests.gate import contracts, pictures
from tests.oracle.page import command_lines, steps

STORED = TOP / "replay" / "scripts.txt"

FENCE = re.compile(r"```(?P<language>\w*) ?(?P<path>\S*)(?P<how>.*)")
COURSE = re.compile(r"<!--course:(.*)-->")
RANGE = re.compile(r"(?P<first>\d+)-(?P<last>\d*)")
MOMENT = re.compile(r"^\$ NOW=\S+ ")
# A line of a script or of its answers.
SAID = re.compile(
    r"(zone|add-\w+|set-[\w-]+|delete|start|report[12]|wait[12]|done|abort) \S"
    r"|ok($| [A-Z])|refused: |ds=\S+ dnskey=|chain (safe|broken)"
)
# A whole answer in a line of text, between backticks.
QUOTED = re.compile(
    r"`(ok(?: [A-Z]\w+)+|refused: [^`]*[^` ]|ds=\S+ dnskey=\S+ signers=\S+ zone=\S+"
    r"|chain safe|chain broken at=\d[^`]*)`"
)
# Answers of another program.
OF_ANOTHER = "| Original |"
LINK = re.compile(r"\[[^][]*\]\(([^)\s]+)\)")
# A name of code in a text, also one of a type's.
NAME = re.compile(r"`([A-Za-z]\w*(?:::\w+)*)`")
# Of the standard library.
OF_STD = {"unwrap"}


def documents():
    """The texts that are compared."""
    places = ("*.md", "docs/*.md", "*/README.md", "crates/*/README.md", "tests/*/README.md")
    return [path for place in places for path in sorted(TOP.glob(place))]


def in_range(lines, how):
    """The lines that the range among these words names, or all without a range; and whether they
    reach the end."""
    for word in how:
        if match := RANGE.fullmatch(word):
            last = int(match["last"] or len(lines))
            return lines[int(match["first"]) - 1 : last], last == len(lines)
    return lines, True


def rendered(path, how):
    """The lines of a block that shows a file."""
    if path == "docs/courses.json":
        return [*command_lines(" ".join(how))]
    lines = (TOP / path).read_text().splitlines()
    if path.startswith("tests/command/"):
        parts = (in_range(lines, [word])[0] for word in how)
        return [MOMENT.sub("$ ", line) for part in parts for line in part]
    if "answered" not in how:
        return in_range(lines, how)[0]
    replies = (TOP / path).with_suffix(".answers").read_text().splitlines()
    pairs, is_whole = in_range(list(zip(lines, ["", *replies])), how)
    if is_whole:
        pairs = pairs + [("", line) for line in replies[-2:]]
    width = max(len(line) for line, _ in pairs)
    return [f"{line:{width}}  {answer}".rstrip() for line, answer in pairs]


class Document:
    """A text with its blocks. `wrong` gathers what differs."""

    def __init__(self, path, known_answers, wrong):
        self.path, self.known_answers, self.wrong = path, known_answers, wrong
        self.name = str(path.relative_to(TOP))
        self.lines = path.read_text().splitlines()
        self.blocks = self.quoted = 0
        # The answers of the script that was shown last without them.
        self.shown_answers = None

    def fault(self, number, text):
        self.wrong.append(f"{self.name}:{number + 1}: {text}")

    def walk(self):
        """Compares all, and gives the lines as they should be."""
        made, number, paragraph = [], 0, []
        while number < len(self.lines):
            line = self.lines[number]
            made.append(line)
            if paragraph and (not line or line[0] in "#|`"):
                self.text(number - len(paragraph), " ".join(paragraph))
                paragraph = []
            if line.startswith("```"):
                end = self.lines.index("```", number + 1)
                made += self.block(number, line, self.lines[number + 1 : end])
                made.append("```")
                number = end
            elif match := COURSE.fullmatch(line):
                end = self.lines.index("", number)
                made += self.course(number, match[1], self.lines[number + 1 : end])
                number = end - 1
            elif line:
                paragraph.append(line.strip())
            number += 1
        self.text(number - len(paragraph), " ".join(paragraph))
        return made

    def block(self, number, fence, body):
        match = FENCE.fullmatch(fence)
        path, how = match["path"], match["how"].split()
        if not path:
            if any(SAID.match(line) for line in body):
                self.fault(number, "a block of calls or answers that names no file")
            return body
        self.blocks += 1
        if not (TOP / path).is_file():
            self.fault(number, f"there is no {path}")
            return body
        if match["language"] == "json":
            return self.value(number, path, body)
        wanted = rendered(path, how)
        if body != wanted:
            self.fault(number, f"the block differs from {path}")
        self.shown_answers = None
        if path.endswith(".script") and "answered" not in how:
            self.shown_answers = (TOP / path).with_suffix(".answers").read_text().splitlines()
        return wanted

    def course(self, number, name, body):
        """The lines of a list that shows a course."""
        self.blocks += 1
        wanted = [*steps(name)]
        if body != wanted:
            self.fault(number, f"the steps differ from those of the course {name!r}")
        return wanted

    def value(self, number, path, body):
        """The lines of a block that shows a value."""
        if json.loads("\n".join(body)) != json.loads((TOP / path).read_text()):
            self.fault(number, f"the value differs from that of {path}")
        return body

    def text(self, number, line):
        if line.startswith("#"):
            self.shown_answers = None
        if line.startswith(OF_ANOTHER):
            return
        replies = self.known_answers if self.shown_answers is None else self.shown_answers
        for answer in QUOTED.findall(line):
            self.quoted += 1
            if answer not in replies:
                self.fault(number, f"no example has the answer {answer!r}")


def anchors(path):
    """The headings of a text, as links name them."""
    found, is_block = set(), False
    for line in path.read_text().splitlines():
        is_block ^= line.startswith("```")
        if line.startswith("#") and not is_block:
            words = re.sub(r"[^\w\- ]", "", line.lstrip("#").strip().lower())
            found.add(words.replace(" ", "-"))
    return found


def check_links(path, wrong):
    """Compares the links of a text with what they lead to, and counts them."""
    count, text = 0, path.read_text()
    for match in LINK.finditer(text):
        link = match[1]
        if "://" in link:
            continue
        count += 1
        file, _, anchor = link.partition("#")
        target = (path.parent / file).resolve() if file else path
        where = f"{path.relative_to(TOP)}:{text.count(chr(10), 0, match.start()) + 1}"
        if not target.exists():
            wrong.append(f"{where}: the link {link} leads nowhere")
        elif anchor and anchor not in anchors(target):
            wrong.append(f"{where}: the link {link} leads to no heading")
    return count


def unknown_names(path):
    """The names of a text that the crates don't have."""
    sources = [*TOP.glob("crates/*/src/**/*.rt"), *TOP.glob("crates/*/specs/**/*.antt")]
    known = {word for source in sources for word in re.findall(r"\w+", source.read_text())}
    named = {part for name in NAME.findall(path.read_text()) for part in name.split("::")}
    for name in sorted(named - known - OF_STD):
        yield f"{path.relative_to(TOP)}: no crate has the name {name}"


def stored_text(scripts):
    """The stored scripts: first those that aren't examples, as they are, then the examples."""
    text = STORED.read_text()
    parts = [text[: text.index("\n== example-")]]
    for name, path in scripts.items():
        replies = path.with_suffix(".answers").read_text()
        parts.append(f"\n== {name}\n{path.read_text()}-- answers\n{replies}")
    return "".join(parts)


def write(scripts):
    """Writes again what is compared, from the scripts and the sources."""
    for path in scripts.values():
        replies = answers(path.read_text().splitlines())
        path.with_suffix(".answers").write_text("\n".join(replies) + "\n")
    STORED.write_text(stored_text(scripts))
    for path in documents():
        path.write_text("\n".join(Document(path, set(), []).walk()) + "\n")
    pictures.write()
    contracts.write()


def main():
    if sys.argv[1:] != ["--write"]:
        sys.exit("--write writes the documents; pytest tests/gate/test_docs.py compares them")
    write(examples())


if __name__ == "__main__":
    main()
