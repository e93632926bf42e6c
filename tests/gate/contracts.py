"""Makes docs/contracts.txt: for each public function its contract, clause by clause with the
definitions that it cites and their files, and where its proof stands.
`tests/gate/docs.py --write` writes it, and test_docs.py compares it."""

import re

from tests import TOP

CRATES = TOP / "crates"
INDEX = TOP / "docs" / "contracts.txt"
# The crates of the gate promise nothing.
OF_THE_GATE = {"dnssec_tests", "callers"}

HEAD = """\
The contracts of public functions: the file of the function, then for each clause the definitions
that it cites, each with its file in specs/. Below stands where the proof is, if it has lines of its
own. Written by tests/gate/docs.py --write.
"""
# A crate in crates.txt, and those that it stands on.
LISTED = re.compile(r"^(\w+)[^:#]*:(.*)$", re.MULTILINE)
# A public function with the clauses of its contract, up to its body.
FUNCTION = re.compile(r"^ *pub fn (?P<name>\w+)\b(?P<head>.*?)^ *\{", re.MULTILINE | re.DOTALL)
CLAUSE = re.compile(r"^ *ensures (?P<name>\w*) ?(?P<says>\{.*?)(?=^ *ensures |\Z)",
                    re.MULTILINE | re.DOTALL)
DEFINED = re.compile(r"^(?:abbrev pub|pub record|pub data) ([A-Z]\w*)\b", re.MULTILINE)
WORD = re.compile(r"\b[A-Z]\w+")


def crates():
    return sorted(it for it in CRATES.iterdir() if it.name not in OF_THE_GATE and it.is_dir())


def stands_on(name, listed):
    """The names of a crate and of all that it stands on."""
    return {name}.union(*(stands_on(other, listed) for other in listed.get(name, ())))


def definitions(names):
    """The file of each definition in these crates, by the definition's name."""
    found = {}
    for crate in crates():
        if crate.name not in names:
            continue
        for path in sorted(crate.glob("specs/**/*.antt")):
            if "Inner" in path.parts:
                continue
            for name in DEFINED.findall(path.read_text()):
                found.setdefault(name, f"{crate.name}/{path.relative_to(crate / 'specs')}")
    return found


def clauses(head, defined):
    """The lines of a contract: each clause with what it cites."""
    for clause in CLAUSE.finditer(head):
        cited = dict.fromkeys(it for it in WORD.findall(clause["says"]) if it in defined)
        words = ", ".join(f"{it} ({defined[it].removesuffix('.antt')})" for it in cited)
        yield f"    {clause['name'] or 'ensures'}: {words or 'in words of the language'}"


def proof_of(crate, path, name):
    """The folder or file of the proof of a function, or nothing if it takes no line."""
    module = path.relative_to(crate / "src").with_suffix("")
    places = (crate / "proofs" / module / name, crate / "proofs" / module / f"{name}.antt",
              crate / "proofs" / name, crate / "proofs" / f"{name}.antt")
    return next((it.relative_to(CRATES) for it in places if it.exists()), None)


def made():
    """The index as it should be."""
    crates_txt = (TOP / "crates.txt").read_text()
    listed = {name: below.split() for name, below in LISTED.findall(crates_txt)}
    lines = [HEAD]
    for crate in crates():
        # A name of the crate's own comes before one of a crate below.
        defined = definitions(stands_on(crate.name, listed)) | definitions({crate.name})
        for path in sorted(crate.glob("src/**/*.rt")):
            for match in FUNCTION.finditer(path.read_text()):
                contract = [*clauses(match["head"], defined)]
                if contract:
                    place = proof_of(crate, path, match["name"])
                    proof = [f"    proof: {place}"] if place else []
                    lines += [f"{match['name']}: {path.relative_to(CRATES)}", *contract, *proof]
    return "\n".join(lines) + "\n"


def write():
    INDEX.write_text(made())


def differing():
    if not INDEX.is_file() or INDEX.read_text() != made():
        yield "docs/contracts.txt isn't what tests/gate/contracts.py makes"
