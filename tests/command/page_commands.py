"""The command lines that the pages print: each is one that the command takes, and what can be run
in the world of the tests is run."""

import re
import shlex
from pathlib import Path

from tests.command.terminal import TOP, typed

PAGES = sorted({*TOP.glob("*.md"), *TOP.glob("docs/*.md"), *TOP.glob("*/README.md")})
PAGES = [it for it in PAGES if it.name != "CHANGELOG.md"]
WORDS = ("init|import|call|status|check|plan|draw|act|ceremony|watch|zones|policy|tick|roll|next|"
         "store")
# A line of a block, or a text between backquotes, that begins with the command.
IN_BLOCK = re.compile(r"^(?:\$ )?(vaqsider .*)$", re.MULTILINE)
INLINE = re.compile(rf"(?<!`)`((?:vaqsider |(?=(?:{WORDS}) (?:S|SCRIPT|FOLDER|ZONE)\b))[^`]*)`")
QUOTED = re.compile(rf"'((?:vaqsider )?(?:{WORDS}) [^'{{]+)'")
# What stands for something in these lines.
STANDS_FOR = {"S": "S.script", "SCRIPT": "S.script", "SCRIPT..": "S.script", "FOLDER": ".",
              "ZONE": "example.com", "KEYFILE..": "K1.key", "[KEYFILE..]": "K1.key",
              "ROLE": "zsk", "ROLL": "zsk-roll", "OLD": "Z1", "NEW": "Z2", "LINE": "done zsk-roll"}
# The word only, or an option of it: not a whole line.
NAMES_A_PART = re.compile(rf"({WORDS})( --[a-z0-9-]+)?")


def lines():
    """Each command line of a page, with the page."""
    for page in PAGES:
        text = page.read_text(encoding="utf-8")
        found = [*IN_BLOCK.findall(text), *INLINE.findall(text)]
        for line in (part for it in found for part in re.split(r"; (?=vaqsider )", it)):
            yield page.name, " ".join(line.split()).removeprefix("vaqsider ")
    package = TOP / "command" / "vaqsider"
    for file in sorted([*package.glob("*.py"), *package.glob("parsers/*.py")]):
        for line in QUOTED.findall(file.read_text(encoding="utf-8")):
            yield file.name, line.removeprefix("vaqsider ")


def words_of(line):
    """The words of a line, with what stands for something."""
    return [STANDS_FOR.get(word, word).replace(" TAG ", " 7 ") for word in shlex.split(line)]


def wholes():
    """The lines that aren't only a word, or a word and an option of it."""
    found = dict.fromkeys(lines())
    return [(page, words_of(line)) for page, line in found if not NAMES_A_PART.fullmatch(line)]


def taken():
    """The command takes each line, and the line of a call is well-formed."""
    from keyset.lines import FORMS, why_malformed
    from vaqsider import cli

    for page, words in wholes():
        try:
            args = cli.parsed(words)
        except SystemExit:
            yield f"{page}: the command doesn't take {words}"
            continue
        word, *fields = vars(args).get("LINE", "done zsk-roll").split(" ")
        if word in ("add", "add-csk") and len(fields) == 1:
            continue
        line = " ".join([word, *("1" if it == "now" else it for it in fields)])
        wrong, form = why_malformed(line), FORMS.get(word, "")
        if wrong != f"it has to be: {word} {form}" or len(fields) != len(form.split()):
            yield f"{page}: {words}: {wrong}"
    parts = {line for _, line in lines() if NAMES_A_PART.fullmatch(line)}
    for part in parts:
        word, *options = part.split(" ")
        if not all(option in typed([word, "--help"])[0] for option in options):
            yield f"{part}: there is no such option"


def run():
    """README's first steps bring two new keys into a zone. After them each line without a server's
    name is run: it is refused at most."""
    yield from first_steps()
    Path("example.com.script").rename("S.script")
    Path("example.com.notes").rename("S.notes")
    for page, (word, *words) in wholes():
        if word in ("status", "check", "plan", "draw", "zones", "call") and words[0] == "S.script":
            text, status = typed([word, *words], 2000)
            if status not in (0, 1, 2) and not (status == 69 and words[1].startswith("add K")):
                yield f"{page}: {word} {words}: {text}"


def steps_of(ksk, zsk):
    """The lines of the first steps, with the words of each for these keys."""
    section = (TOP / "command" / "README.md").read_text().split("\n## ")[1]
    for line in IN_BLOCK.findall(section):
        words = shlex.split(line)[1:]
        words = [part for it in words for part in ([ksk, zsk] if "*" in it else [it])]
        words = [it.replace("KSK,ZSK", f"{ksk},{zsk}") for it in words]
        yield line, ["true" if it.startswith("rndc") else it for it in words]


def first_steps():
    """The steps end well, and `init` prints the line of the first call."""
    from tests.command.outputs import key_file

    (ksk, _), (zsk, _) = key_file(257, 1), key_file(256, 2)
    for key in (ksk, zsk):
        Path(key).with_suffix(".private").touch()
    Path("example.com.zone").write_text(Path("zone").read_text())
    said = []
    for line, (word, *words) in steps_of(ksk, zsk):
        if word == "call" and f"next: {shlex.join(['vaqsider', word, *words])}\n" != said[1]:
            yield f"init prints {said}, and README has {words}"
        if word == "watch":
            # One look has to do: the server gives the zone that was written.
            Path("signed").write_text(Path("example.com.zone.signed").read_text())
            at = words.index("--for")
            words = [*words[:at], *words[at + 2 :], "--server", "signed"]
        text, status = typed([word, *words], 1000)
        said = text.splitlines(True)
        if status:
            yield f"{line}: {text}"
    if "algorithm-roll: cache-expire1" not in text:
        yield f"after the first steps it is {text}"
