"""Checks of tests/command/rolling.py: what a tick needs a person for and what it says to that,
signers that run, clocks that are wrong by what the policy allows, key files that are deleted, short
names, and the units of systemd."""

from __future__ import annotations

import re
import shutil
import subprocess
from collections.abc import Iterator
from pathlib import Path
from unittest import mock

from tests.command.rolling_folder import lines, living, tick
from tests.command.rolling_world import ZONE, Servers, World
from tests.command.terminal import TOP, folder, typed

DAY = 86400
# The moment of a world whose keys have names with a month: 2027-01-15.
DATED = 1_800_000_000
SPLIT = "ksk-lifetime 15d\nzsk-lifetime 6d\n"
REPORT = re.compile(r"report\d algorithm-roll (\d+) ")
EXPOSURE = re.compile(r"Overall exposure level for \S+: (\d\.\d)")


def passing(world: World, seconds: int, *options: str, every: int = 0) -> Iterator[tuple[int, str]]:
    """Ticks as a timer makes them, for so long: each minute while something is waited for."""
    end = world.now + seconds
    while world.now < end:
        status, said = tick(world, *options)
        yield status, said
        usual = 6 * 3600 if said.count("nothing is due") else 60
        world.passes(min(every or usual, end - world.now))


def events(world: World) -> list[str]:
    return [it["event"] for it in world.inputs() if "event" in it]


def low() -> Iterator[str]:
    """A signer that fails: a person hears of it, and once more when signatures run low."""
    world = World()
    with folder(), living(world, "on-event say\n"):
        list(passing(world, 14 * DAY))
        with mock.patch.object(world, "signs", side_effect=OSError(5, "broken")), living(world):
            ends = list(passing(world, 2 * DAY, every=6 * 3600))
            if {status for status, _ in ends} != {0, 2} or events(world) != ["needs a person"]:
                yield f"a signer that fails ends with {ends[-1]}, and the events {events(world)}"
            ends = list(passing(world, 2 * DAY, every=6 * 3600))
        if events(world) != ["needs a person", "signatures run low"]:
            yield f"then it ends with {ends[-1]}, and the events {events(world)}"
        metrics, _ = typed(["zones", ".", "--prometheus"], world.now)
        if 'vaqsider_tick_waits_seconds{zone="example.com"' not in metrics:
            yield f"the metrics are {metrics}"
        if {status for status, _ in passing(world, DAY)} != {0}:
            yield "a signer that works again doesn't help"


def silent() -> Iterator[str]:
    """A server of the parent that is off: the zone waits for it, and goes on. After its patience a
    person hears of it, once."""
    for off in ("p1", "ns1"):
        world = World()
        with folder(), living(world, "patience 20min\non-event say\n"):
            (world.parent if off == "p1" else world.zone).is_off.add(off)
            ends = list(passing(world, 15 * 60, every=180))
            if ends[-1][0] != 1 or events(world):
                yield f"without {off} it ends with {ends[-1]}, and says {events(world)}"
            ends = list(passing(world, 15 * 60, every=180))
            if ends[-1][0] != 2 or len(events(world)) != 1:
                yield f"for long without {off} it ends with {ends[-1]}, and says {events(world)}"
            (world.parent if off == "p1" else world.zone).is_off.clear()
            list(passing(world, 20 * 60))
            if lines()[-1] != "done algorithm-roll":
                yield f"with {off} again it comes to {lines()[-1]}"


def late() -> Iterator[str]:
    """A parent that takes too long: a person hears that, not of what is published after it."""
    world = World(reads_cds=False, believes=False)
    with folder(), living(world, "parent hook\non-ds registrar\npatience 10min\non-event say\n"):
        list(passing(world, 3600))
        world.believes = True
        list(passing(world, 3600))
        if events(world) != ["parent lacks"] or lines()[-1] != "done algorithm-roll":
            yield f"after a late parent it comes to {lines()[-1]}, and says {events(world)}"


def commands() -> Iterator[str]:
    """Commands of the command line go before those of the policy."""
    world = World(reads_cds=False)
    with folder(), living(world, ""):
        said = "".join(it for _, it in passing(world, 3600, "--on-ds", "registrar 'a b'"))
        inputs = [it["words"] for it in world.inputs()]
        if "DS handed over" not in said or inputs != [["registrar", "a b"]]:
            yield f"--on-ds gets {inputs}: {said}"
        said, status = typed(["tick", f"{ZONE}.script", "--on-event", "'"], world.now)
        if status != 64 or "has to be a command" not in said:
            yield f"--on-event with half a quote ends with {status}: {said}"


def clock() -> Iterator[str]:
    """A clock that is wrong by what the policy allows: each wait is longer by that, and a tick
    waits until the last moment is over. A report of a DS set counts the DNSKEY set too."""
    world = World(ahead=5)
    with folder(), living(world, SPLIT + "clock 5s\n"):
        worst = max(passing(world, DAY))
        if worst[0] > 1:
            yield f"with a maker of keys that is ahead it ends with {worst}"
        ttls = {int(found[1]) for found in map(REPORT.match, lines()) if found}
        if ttls != {71, 132}:
            yield f"reports have the TTLs {ttls}"
        moments = re.findall(r" (\d+)$", Path(f"{ZONE}.notes").read_text(), re.MULTILINE)
        last = max(map(int, moments))
        for back, wanted in ((1, 1), (10, 1), (11, 2), (3600, 2)):
            world.now = last - back
            said, status = typed(["tick", f"{ZONE}.script"], world.now)
            if status != wanted or "was that set back?" not in said:
                yield f"set back by {back} it ends with {status}: {said}"


class PromptWorld(World):
    """Servers and a parent that have each version at once."""

    def __init__(self) -> None:
        super().__init__(zone=Servers({"ns1": 0, "ns2": 0}), parent=Servers({"p1": 0, "p2": 0}))

    def exchange(self, query, address: str, port: int):
        self.loads()
        return super().exchange(query, address, port)


def fast() -> Iterator[str]:
    """What one tick does with servers that are fast: it publishes CDS, and takes it out again."""
    for policy in ("policy 13 csk-roll\ncsk-lifetime 2d\n", "ksk-lifetime 2d\nzsk-lifetime 1d\n"):
        world = PromptWorld()
        with folder(), living(world, policy):
            ends = list(passing(world, 3 * DAY))
        worst, said = max(ends), "".join(text for _, text in ends)
        if worst[0] > 1 or "CDS goes out" not in said:
            yield f"{policy!r} ends with {worst}: {said}"


def changed() -> Iterator[str]:
    """A zone that somebody changes while it is signed is signed once more."""
    world = World()
    signs, left = world.signs, [1]

    def changes(words, *given, **named) -> None:
        signs(words, *given, **named)
        if words[0] == "dnssec-signzone" and left:
            left.pop()
            with open(f"{ZONE}.zone", "a", encoding="ascii") as file:
                file.write("www IN A 127.0.0.2\n")

    with folder(), living(world, ""):
        with mock.patch.object(world, "signs", changes), living(world):
            status, said = tick(world)
        if status != 1 or "published: the unsigned zone has changed" not in said:
            yield f"a zone that changes meanwhile ends with {status}: {said}"


def purge() -> Iterator[str]:
    """The files of a key that has left are deleted in time, and no others."""
    world = World()
    with folder(), living(world, "zsk-lifetime 6d\npurge 2d\n"):
        said = "".join(it for _, it in passing(world, 19 * DAY))
        here = {path.name for path in Path().glob("K*.key")}
        left = {path.stem for path in Path("left").glob("*")}
        known = {line.split()[1] for line in lines() if line.startswith("add-")}
        gone = {line.split()[1] for line in lines() if line.startswith("delete ")}
        if said.count("moved away: ") != len(gone) or here != known - gone:
            yield f"here is {here}, of {known} without {gone}"
        if said.count("deleted: ") != len(gone) - 1 or len(left) != 1:
            yield f"left is {left}, of {gone}: {said}"


def older() -> Iterator[str]:
    """A program that doesn't know the word `next` is named, and nothing is done."""
    from keyset import Unavailable, engine, programs

    run = programs.run

    def knows_not(word: str, text: list[str]) -> str:
        if word == "next":
            raise Unavailable("keyset next: status 64: no such word: see keyset --help")
        return run(word, text)

    with folder(), living(World(), SPLIT, asks=False) as world:
        without_library = mock.patch.object(engine, "_has_library", lambda: False)
        with without_library, mock.patch.object(programs, "run", knows_not):
            status, said = tick(world)
        if status != 2 or "older than the command" not in said or len(lines()) > 1:
            yield f"without the word it ends with {status}: {said}"


def goes_on() -> Iterator[str]:
    """`status`, `check` and `zones` say who goes on: a tick, or a person if that needs one."""
    world = World()
    with folder() as here, living(world, ""):
        for path in set(here.glob("*.script")) - {here / f"{ZONE}.script"}:
            path.unlink()
        ends = [(tick(world)[0], shown(world))]
        Path(f"{ZONE}.policy").rename("policy")
        ends.append((1, shown(world)))
        Path("policy").rename(f"{ZONE}.policy")
        world.now -= 1
        ends.append((tick(world)[0], shown(world)))
    wanted = [(1, ("tick", "waits: ns1: no answer")), (1, ("you", "")),
              (2, ("you", "needs a person: its last moment,"))]
    for (status, (who, says)), (found, said) in zip(wanted, ends):
        last = "".join(re.findall(r"the last tick, at [^,]+, (.*)", said))
        waits = re.findall(r"(?:algorithm-roll.* waits for|  safe) +(\w+)", said)
        is_said = last.startswith(says) if says else not last
        if found != status or waits != 3 * [who] or not is_said:
            yield f"with {status} it waits for {waits}, after {last!r}: {said}"


def unread() -> Iterator[str]:
    """A policy that can't be read: a person hears it once, and `zones` says it. Once it is right,
    all goes on."""
    world = World()
    with folder() as here, living(world, ""):
        for path in set(here.glob("*.script")) - {here / f"{ZONE}.script"}:
            path.unlink()
        list(passing(world, 3600))
        policy = Path(f"{ZONE}.policy")
        right = policy.read_text()
        policy.write_text(f"{right}zsk-lifetime soon\n")
        ends = list(passing(world, 180, "--on-event", "say", every=60))
        said, _ = typed(["zones", "."], world.now)
        metrics, _ = typed(["zones", ".", "--prometheus"], world.now)
        if {status for status, _ in ends} != {2} or events(world) != ["needs a person"]:
            yield f"with a wrong policy it ends with {ends[-1]}, and says {events(world)}"
        if not re.search(r"safe +you ", said) or not re.search(r"tick_status{[^}]+} 2\n", metrics):
            yield f"with a wrong policy zones shows {said}, {metrics}"
        policy.write_text(right)
        if {status for status, _ in passing(world, DAY)} != {0}:
            yield "with the right policy it doesn't go on"


def shown(world: World) -> str:
    """What is said of the zone at this moment."""
    words = (["status", f"{ZONE}.script"], ["check", f"{ZONE}.script"], ["zones", "."])
    return "".join(typed(it, world.now)[0] for it in words)


def names() -> Iterator[str]:
    """Keys have short names, which stand for references in a line that is typed."""
    world = World(now=DATED)
    with folder(), living(world, ""):
        said = "".join(it for _, it in passing(world, 3600))
        if not re.search(r"key made: ksk-2027-01 K.*key made: zsk-2027-01 K", said, re.DOTALL):
            yield f"keys are made as {said}"
        shown, _ = typed(["status", f"{ZONE}.script"], world.now)
        if not re.search(r"KSK .* ksk-2027-01$", shown, re.MULTILINE):
            yield f"status shows {shown}"
        world.runs(["keygen", f"{ZONE}.", "zsk", "13"], within=Path())
        made = max(Path().glob("K*.key"), key=lambda path: path.stat().st_mtime_ns)
        typed(["call", f"{ZONE}.script", f"add {made}"], world.now)
        words = ["roll", f"{ZONE}.script", "zsk", "--to", "zsk-2027-01-2", "--yes"]
        said, status = typed(words, world.now)
        if status > 1 or f" {made.name} " not in next(
                (it for it in lines() if it.startswith("start zsk-roll ")), ""):
            yield f"a roll to a short name ends with {status}: {said}, {lines()}"
        said, status = typed(["call", f"{ZONE}.script", "delete zsk-2027-01-3"], world.now)
        if status != 1 or "key not found" not in said:
            yield f"a short name that no key has ends with {status}: {said}"


def running() -> Iterator[str]:
    """A signer that runs, asked by its three verbs: a course, and a new serial each week."""
    world = World()
    with folder(), living(world, "ksk-lifetime 7d\nsigner hook signer\n"):
        ends = list(passing(world, 9 * DAY))
        worst, said = max(status for status, _ in ends), "".join(it for _, it in ends)
        if worst > 1 or "done ksk-roll" not in lines() or Path(f"{ZONE}.zone.signed").exists():
            yield f"a signer that runs ends with {worst}: {said}"
        if not 1 <= said.count("published: signatures run low") <= 3:
            yield f"it is asked for new serials so: {said}"
        with open(f"{ZONE}.policy", "a", encoding="ascii") as policy:
            policy.write("signatures 20d\njitter 1h\n")
        said, status = typed(["policy", "check", f"{ZONE}.script"], world.now)
        if status != 2 or not {"lifetime: ", "jitter: "} <= set(re.findall(r"[a-z]+: ", said)):
            yield f"options that it doesn't take end with {status}: {said}"


def unable() -> Iterator[str]:
    """A roll that the signer can't do isn't begun, neither by a tick nor if it is asked for, and a
    person hears why, once. Once the signer can, the next tick begins it."""
    world = World()
    with folder(), living(world, "ksk-lifetime 7d\nsigner hook signer\non-event say\n"):
        world.able = 1
        status, said = list(passing(world, 8 * DAY, every=6 * 3600))[-1]
        why = "signer hook signer can't do a ksk-roll: two keys"
        if status != 2 or why not in said or events(world) != ["refused"]:
            yield f"a roll that the signer can't do ends with {status}: {said}, {events(world)}"
        words = ["roll", f"{ZONE}.script", "ksk", "--yes"]
        said, status = typed(words, world.now)
        if status != 1 or "start ksk-roll" not in said or "two keys" not in said:
            yield f"if it is asked for, that ends with {status}: {said}"
        if any(it.startswith("start ksk-roll") for it in lines()):
            yield f"it is begun all the same: {lines()}"
        world.able = 2
        if tick(world)[0] > 1 or not lines()[-1].startswith("start ksk-roll"):
            yield f"a signer that can do it doesn't help: {lines()}"


def page() -> Iterator[str]:
    """A page goes to its file whole, or leaves what is there. A roll that isn't over is shown until
    now."""
    world = World()
    with folder() as here, living(world, ""):
        for path in set(here.glob("*.script")) - {here / f"{ZONE}.script"}:
            path.unlink()
        tick(world)
        world.passes(1800)
        for option, has in (("--html", '<line class="now"'), ("--html", "</html>"),
                            ("--prometheus", "vaqsider_tick_status{")):
            said, status = typed(["zones", here, option, "--out", "page"], world.now)
            if status or said or has not in Path("page").read_text():
                yield f"{option} --out ends with {status}, without {has}: {said}"
        before = Path("page").read_bytes()
        said, status = typed(["zones", "nowhere", "--html", "--out", "page"], world.now)
        if status != 69 or Path("page").read_bytes() != before:
            yield f"a page of nothing ends with {status}: {said}"


def units() -> Iterator[str]:
    """The units of systemd are right, and leave little open, if systemd's tool is here."""
    if shutil.which("systemd-analyze") is None:
        return
    with folder() as here:
        for unit in (TOP / "packaging" / "systemd").glob("vaqsider@.*"):
            text = unit.read_text().replace("ExecStart=vaqsider ", "ExecStart=/bin/true ")
            (here / unit.name).write_text(text)
        checked = analyzed("verify", "--man=no", "vaqsider@.timer", "vaqsider@.service")
        if checked.returncode or checked.stdout:
            yield f"systemd-analyze verify: {checked.stdout}"
        output = analyzed("security", "--offline=true", "--no-pager", "vaqsider@.service").stdout
        found = EXPOSURE.search(output)
        if not found or float(found[1]) > 2:
            yield f"systemd-analyze security: {output[-200:]}"


def analyzed(*words: str) -> subprocess.CompletedProcess[str]:
    return subprocess.run(["systemd-analyze", *words], text=True, stdout=subprocess.PIPE,
                          stderr=subprocess.STDOUT)


CHECKS = (low, silent, late, commands, clock, fast, changed, purge, older, goes_on, unread, names,
          running, unable, page, units)
