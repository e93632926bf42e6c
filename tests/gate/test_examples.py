"""Compiles the example of each docstring in crates/*/src, without a proof.

Each example becomes a function of a program that is made in a folder of its own. What an example
takes for granted, as `alloc` or the key set `set`, is a parameter of that function. The program is
compiled by `rt try`, and does nothing.
"""

import re
import shutil
import subprocess

from tests.gate.tools import CRATES, TOP

START = re.compile(r"\s*//[/!] ```(rust)?$")
END = re.compile(r"\s*//[/!] ```$")
MARK = re.compile(r"\s*//[/!] ?")

# What an example may take for granted: a parameter, by the name in the example.
GIVEN = {
    "alloc": "alloc: Global",
    "rt": "rt: &HostRuntime",
    "word": "word: &str",
    "name": "name: Name<Vec<u8>>",
    "calls": "calls: Vec<Call>",
    "call": "call: Call",
    "run": "run: &Run",
    "set": "set: &mut KeySet",
    "keyset": "keyset: &mut KeySet",
    "now": "now: UnixTime",
    "moment": "moment: UnixTime",
    "seconds": "seconds: u64",
    "script": "script: &str",
    "notes": "notes: &mut Notes",
    "session": "session: Session",
    "recorder": "recorder: &mut Recorder",
    "judge": "mut judge: Judge",
    "steps": "mut steps: Steps",
    "moments": "moments: Moments",
    "last_waits": "mut last_waits: LastWaits",
    "by_hand": "mut by_hand: FirstByHand",
    "at": "mut at: usize",
    "origins": "origins: Origins",
    "before": "before: Before",
    "fact": "fact: Fact",
    "policy": "policy: Policy",
    "highest": "highest: HighestTtls",
    "zone": "zone: &mut AutomaticZone",
}
# The same name for something else, by the file.
GIVEN_IN = {
    ("dnssec_base/src/name.rt", "rt"): "rt: &impl Abort",
    ("dnssec_network/src/text/questions.rt", "notes"): "notes: &str",
    ("dnssec_policy/src/automatic/zone.rt", "notes"): "notes: &str",
    ("dnssec_record/src/session.rt", "notes"): "notes: &str",
}
# What an example calls that is the caller's own.
OWN = {
    "report": "fn report(ttl: u32) {}",
    "publish": "fn publish(actions: Vec<Action>) {}",
    "perform": "fn perform(answer: &String) {}",
    "sleep": "fn sleep(left: Duration) {}",
    "watch": "fn watch(kind: SetKind) {}",
}


def examples():
    """The text of each example, with its place."""
    for path in sorted(CRATES.glob("dnssec_*/src/**/*.rt")):
        lines = path.read_text().splitlines()
        at = 0
        while at < len(lines):
            if START.fullmatch(lines[at]):
                end = next(n for n in range(at + 1, len(lines)) if END.fullmatch(lines[n]))
                text = [MARK.sub("", line, count=1) for line in lines[at + 1 : end]]
                yield f"{path.relative_to(TOP)}:{at + 1}", text
                at = end
            at += 1


# Public names of other places.
ELSEWHERE = {
    "status": "dnssec_status",
    "Abort": "std::process",
    "Duration": "std::time",
    "Global": "std::alloc",
}
# What an example says that hands on the key set's own errors.
HANDS_ON = "return Err(error)"
ITEM = re.compile(r"\b[A-Za-z_]\w*\b")
PUBLIC = re.compile(r"pub use ([\w:]+)(?:::\{([^}]*)\})?;")


def public_items():
    """Each public name of the crates, with the highest crate that has it."""
    items = {}
    crates = ["base", "key", "keyset", "run", "judge", "record", "network", "policy"]
    for crate in reversed(crates):
        text = (CRATES / f"dnssec_{crate}" / "src" / "lib.rt").read_text()
        for path, listed in PUBLIC.findall(text):
            for name in listed.split(",") if listed else [path.rpartition("::")[2]]:
                if name.strip():
                    items.setdefault(name.strip(), f"dnssec_{crate}")
    return {**items, **ELSEWHERE}


def module(number, place, text, items):
    """The module of an example."""
    code = "\n".join(line.partition("//")[0] for line in text)
    words = dict.fromkeys(ITEM.findall(code))
    file = place.removeprefix("crates/").rpartition(":")[0]
    given = ", ".join(
        GIVEN_IN.get((file, name), GIVEN[name])
        for name in words if name in GIVEN and not is_made_first(name, code)
    )
    owns = [OWN[name] for name in OWN if name in words]
    names = {*words, *ITEM.findall(" ".join([given, *owns]))}
    result = "Result<(), Error>" if HANDS_ON in code else "anyhow::Result<()>"
    names |= {"Error"} if HANDS_ON in code else set()
    uses = [f"use {items[name]}::{name};" for name in sorted(names) if name in items]
    head = "\n".join(f"    {line}" for line in [*uses, *owns])
    body = "\n".join(f"        {line}" for line in text)
    return (
        f"/// {place}\nmod example{number} {{\n{head}\n\n"
        f"    pub fn example({given}) -> {result} {{\n{body}\n        Ok(())\n    }}\n}}\n"
    )


def is_made_first(name, code):
    """Whether the example makes this itself before it uses it."""
    made = re.search(rf"let (?:mut )?{name}\b", code)
    return made is not None and made.end() >= re.search(rf"\b{name}\b", code).end()


def compiled(text, room):
    """Compiles a program in a copy of the crates, and runs it."""
    crate = room / "crates" / "examples"
    (crate / "src").mkdir(parents=True)
    (crate / "src" / "main.rt").write_text(text)
    rows = [
        line for line in (TOP / "crates.txt").read_text().splitlines()
        if line.startswith("dnssec_") and not line.startswith("dnssec_tests")
    ]
    names = [row.partition(":")[0] for row in rows]
    for name in names:
        shutil.copytree(
            CRATES / name, room / "crates" / name, ignore=shutil.ignore_patterns("out")
        )
    rows.append(f"examples: {' '.join(names)} anyhow\n")
    (room / "crates.txt").write_text("\n".join(rows))
    return subprocess.run(
        ["rt", "try"], cwd=crate, capture_output=True, text=True, stdin=subprocess.DEVNULL
    )


MAIN = """
fn main(rt: HostRuntime) -> anyhow::Result<()> {
    println!(rt; "compiled")?;
    Ok(())
}
"""


def test_docstrings(say, tmp_path):
    items = public_items()
    modules = [module(n, *each, items) for n, each in enumerate(examples())]
    done = compiled("\n".join(["#![tactic(auto)]", *modules, MAIN]), tmp_path)
    assert (done.returncode, done.stdout) == (0, "compiled\n"), done.stderr
    say(f"examples: {len(modules)} docstrings compile")
