"""What an accepted start enters: the functions of our sources in their order, as gdb sees them.

A script is run as it is, and with one accepted start more. What is entered in the second run only
is the start's: its reading, its call, its record, its verdict and its answer.
"""

from __future__ import annotations

import difflib
import os
import re
import subprocess
import tempfile
from collections.abc import Iterator
from pathlib import Path

from sources import code, sources

# The head of an `impl`, and a function with its indent.
WRITTEN = re.compile(
    r"^impl(?:<[^>]*>)? (?:(?P<trait>\w+)(?:<[^>{]*>)? for )?(?P<type>\w+)"
    r"|^(?P<indent> *)(?:pub(?:\(\w+\))? )?fn (?P<name>\w+)",
    re.MULTILINE,
)
SYMBOL = re.compile(r"^([0-9a-f]+) [tT] ([^<\n]+)", re.MULTILINE)
SCRIPT = """\
zone example.com
add-ksk K1 - 13 1 0 yes
add-zsk Z1 - 13 2 0 yes
"""
START = "start algorithm-roll - K1,Z1 0\n"
# gdb notes each place that the program comes to, by its number, and goes on.
TRACER = """\
passed = open({passed!r}, "w")
class Place(gdb.Breakpoint):
    def stop(self):
        print(self.place_number, file=passed)
        return False
gdb.execute("starti <{given} >/dev/null")
with open(f"/proc/{{gdb.selected_inferior().pid}}/maps") as maps:
    of_program = (line for line in maps if line.rstrip().endswith({program!r}))
    loaded = int(next(of_program).split("-")[0], 16)
for number, place in enumerate({places!r}):
    Place(f"*{{loaded + place}}", internal=True).place_number = number
gdb.execute("continue")
passed.close()
"""

# A function of our sources: its module, and its name as the linker has it.
Function = tuple[str, str]


def functions_by_room(crates: Path) -> Iterator[tuple[tuple[str, str, str], str]]:
    """The module of each function of our sources, by its crate, what it stands in, and its name. It
    stands in its module, or in the `impl` of a type, which may be of another module."""
    for path in sources(crates, ".rt", "src"):
        crate, _, *rooms = path.relative_to(crates).with_suffix("").parts
        module = "::".join([crate, *(room for room in rooms if room not in ("lib", "main"))])
        owner = ""
        for found in WRITTEN.finditer(code(path)):
            if found["type"]:
                owner = found["type"] + (found["trait"] or "")
            else:
                yield (crate, owner if found["indent"] else module, found["name"]), module


def module_of(name: str, ours: dict[tuple[str, str, str], str]) -> str | None:
    """The module in which the function with this name of the linker is written, if it is ours. The
    name of a trait's impl goes on with what stands between the trait's brackets."""
    room, _, last = name.rpartition("::")
    crate, owner = name.partition("::")[0], room.rpartition("::")[2]
    for within in (room, *(owner[:end] for end in range(len(owner), 0, -1))):
        if (crate, within, last) in ours:
            return ours[crate, within, last]
    return None


def places(crates: Path, program: Path) -> dict[int, Function]:
    """Where the program has each function of our sources. (A name with `fn` is a closure's.)"""
    ours = dict(functions_by_room(crates))
    listed = subprocess.run(["nm", "-C", program], capture_output=True, text=True, check=True)
    found = {int(place, 16): name.rstrip(":") for place, name in SYMBOL.findall(listed.stdout)
             if "::fn::" not in name}
    named = ((place, name, module_of(name, ours)) for place, name in found.items())
    return {place: (module, name) for place, name, module in named if module}


def entered(program: Path, sought: list[int], script: str, folder: Path) -> list[int]:
    """The places of the program that a run comes to, one after the other."""
    given, passed, tracer = (folder / name for name in ("script", "passed", "tracer.py"))
    given.write_text(script)
    tracer.write_text(TRACER.format(passed=str(passed), given=given, places=sought,
                                    program=str(program)))
    subprocess.run(["gdb", "-batch", "-nx", "-x", tracer, program], capture_output=True,
                   check=True, env={**os.environ, "ASAN_OPTIONS": "detect_leaks=0"})
    return [sought[int(line)] for line in passed.read_text().split()]


def walk(crates: Path, program: Path) -> list[Function]:
    """The functions that an accepted start enters, in their order."""
    ours = places(crates, program)
    with tempfile.TemporaryDirectory() as folder:
        before, after = (entered(program, sorted(ours), script, Path(folder))
                         for script in (SCRIPT, SCRIPT + START))
    steps = difflib.SequenceMatcher(None, before, after, autojunk=False).get_opcodes()
    return [ours[place] for kind, _, _, begin, end in steps if kind in ("insert", "replace")
            for place in after[begin:end]]
